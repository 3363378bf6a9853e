//! The virtual storage services of an MVS program's own region: GETMAIN, FREEMAIN, STORAGE, CPOOL, and subpools of tasks.
//!
//! A [`Session`] executes the statements of a job one by one, given as text or as a [`Request`]:
//!
//! ```
//! use mvs::{EventKind, Form, Name, Obtain, Region, Request, Session};
//!
//! # fn main() -> Result<(), mvs::Error> {
//! let job = Name::new("JOB").unwrap();
//! let mut session = Session::new()?;
//! session.begin(&Region::new(job, 1))?;
//! let area = session.request(job, &Request::Obtain(Obtain::new(Form::Rc, 64)))?;
//! assert_eq!((area.kind, area.length), (EventKind::Granted, 64));
//! session.write(area.address, b"\xC1\xC2")?;
//! assert_eq!(session.read(area.address, 2)?, b"\xC1\xC2");
//! # Ok(())
//! # }
//! ```
//!
//! A request that MVS refuses is no [`Error`]: its event is [`EventKind::Rc4`] or [`EventKind::Abended`].
#![warn(missing_docs)]

mod numbers;
mod request;
mod session;

pub use numbers::{EffectKind, EventKind, Form, Location, Place, Position, ReasonKind, Status, StepEnd};
pub use request::{Area, Name, Obtain, Pool, Region, Request, Subtask};
pub use session::{
    run, statement, version, AddressHolder, ChangedPages, Effect, Error, Event, HeldRun, HeldRuns, Holder, Pages, PoolNames, PoolState, Reason, Run,
    Session, Subpool, Subpools, Task, Tasks,
};
