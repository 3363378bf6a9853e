//! A session, and what it returns.

use crate::numbers::{EffectKind, EventKind, Form, Place, Position, ReasonKind, Status, StepEnd};
use crate::request::{Area, Name, Region, Request};
use mvs_sys::{
    mvs_area, mvs_ask, mvs_bytes, mvs_effect_line, mvs_event, mvs_held_run, mvs_map_run, mvs_pages, mvs_pool_line, mvs_reason, mvs_region, mvs_session,
    mvs_subpool_line, mvs_task_line,
};
use std::ffi::c_char;
use std::{fmt, mem, ptr, slice};

/// A call that was refused.
#[derive(Clone, Copy, Debug, PartialEq, Eq)]
#[non_exhaustive]
pub enum Error {
    /// The library refused the call.
    Status(Status),
    /// The line has a fault, JS01 to JS09: 1 to 9. It changed nothing.
    Fault(u32),
    /// A field of the request is out of range: its offset in `mvs_ask`.
    Field(u32),
    /// The library returned a number that this crate does not know.
    Unknown(u32),
}

impl Error {
    /// Returns the name of the field of [`Error::Field`]: "areas" for those of a list.
    pub fn field(&self) -> Option<&'static str> {
        macro_rules! names {
            ($offset:expr, $($field:ident),*) => {
                match $offset as usize {
                    $(at if at == mem::offset_of!(mvs_ask, $field) => Some(stringify!($field)),)*
                    at if at == mem::size_of::<mvs_ask>() => Some("areas"),
                    _ => None,
                }
            };
        }
        match *self {
            Error::Field(offset) => names!(
                offset, size, kind, form, subpool, length, least, boundary, within, location, address, source, primary, secondary, code,
                given_low, task, name
            ),
            Error::Status(_) | Error::Fault(_) | Error::Unknown(_) => None,
        }
    }
}

impl fmt::Display for Error {
    fn fmt(&self, f: &mut fmt::Formatter<'_>) -> fmt::Result {
        match self {
            Error::Status(status) => write!(f, "{status}"),
            Error::Fault(number) => write!(f, "JS{number:02}"),
            Error::Field(offset) => match self.field() {
                Some(name) => write!(f, "{name} is out of range"),
                None => write!(f, "the field at offset {offset} is out of range"),
            },
            Error::Unknown(number) => write!(f, "libmvs returned {number}"),
        }
    }
}

impl std::error::Error for Error {}

/// The reply to a statement or a request. The fields that the kind does not name are 0 or None.
#[derive(Clone, Copy, Debug, PartialEq, Eq)]
pub struct Event {
    /// What it reports.
    pub kind: EventKind,
    /// A completion code of 24 bits: a system code in the upper twelve, or a user code.
    pub code: u32,
    /// An address.
    pub address: u32,
    /// A length in bytes.
    pub length: u32,
    /// How a step ended.
    pub ended: Option<StepEnd>,
    /// The task.
    pub task: Option<Name>,
}

impl Event {
    fn of(raw: &mvs_event) -> Result<Event, Error> {
        Ok(Event {
            kind: EventKind::of(raw.kind).ok_or(Error::Unknown(raw.kind))?,
            code: raw.code,
            address: raw.address,
            length: raw.length,
            ended: StepEnd::of(raw.ended),
            task: some_name(raw.task),
        })
    }

    /// Returns the system completion code of an abend, as 0x80A, if it has one.
    pub fn system_code(&self) -> Option<u32> {
        (self.kind == EventKind::Abended && self.code >> 12 != 0).then_some(self.code >> 12)
    }
}

/// A subpool number that a task has.
#[derive(Clone, Copy, Debug, PartialEq, Eq)]
pub struct Subpool {
    /// The number.
    pub number: u32,
    /// Whether the task owns the subpool.
    pub owned: bool,
    /// The bytes in it outside of cell pools.
    pub plain: u32,
    /// The bytes in it inside of cell pools.
    pub pool: u32,
}

/// Adjacent pages that are assigned alike.
#[derive(Clone, Copy, Debug, PartialEq, Eq)]
pub struct Run {
    /// The pages.
    pub area: Area,
    /// The task that owns their subpool, and its number there; None if they are free.
    pub owner: Option<(Name, u32)>,
}

/// The addresses of the first and of the last page of those that changed. Not each page between them did.
#[derive(Clone, Copy, Debug, PartialEq, Eq)]
pub struct ChangedPages {
    /// The first page.
    pub first: u32,
    /// The last page.
    pub last: u32,
}

/// What holds doublewords.
#[derive(Clone, Copy, Debug, PartialEq, Eq)]
pub enum Holder {
    /// Areas of the subpool that this task owns, and has under this number.
    Subpool(Name, u32),
    /// Parts of this cell pool.
    Pool(Name),
}

/// Adjacent doublewords that are held alike.
#[derive(Clone, Copy, Debug, PartialEq, Eq)]
pub struct HeldRun {
    /// The doublewords.
    pub area: Area,
    /// What holds them.
    pub holder: Holder,
}

/// An active task.
#[derive(Clone, Copy, Debug, PartialEq, Eq)]
pub struct Task {
    /// Its name.
    pub name: Name,
    /// The task that attached it; None for the job step task.
    pub mother: Option<Name>,
}

/// A cell pool.
#[derive(Clone, Copy, Debug, PartialEq, Eq)]
pub struct PoolState {
    /// The bytes of a cell.
    pub cell: u32,
    /// How many parts it has.
    pub parts: u32,
    /// The part that was added last.
    pub area: Area,
    /// How many cells that part has.
    pub cells: u32,
    /// The task that owns the subpool of that part, and its number there.
    pub owner: Option<(Name, u32)>,
}

/// What holds the doubleword of an address.
#[derive(Clone, Copy, Debug, PartialEq, Eq)]
#[non_exhaustive]
pub enum AddressHolder {
    /// It is free.
    Nobody,
    /// It is in no region.
    Outside,
    /// The subpool that this task owns, and has under this number, outside of cell pools.
    Subpool(Name, u32),
    /// A part of this cell pool.
    Pool(Name),
    /// A subpool without an owner: no statement leads to this.
    Unowned,
}

/// Why a request was refused. `mvs.h` says which fields each kind has; the others are 0 or None.
#[derive(Clone, Copy, Debug, PartialEq, Eq)]
#[non_exhaustive]
pub struct Reason {
    /// The kind.
    pub kind: ReasonKind,
    /// The rule of RULES.md.
    pub rule: u32,
    /// A second rule.
    pub second_rule: Option<u32>,
    /// The address that the reason is about.
    pub address: u32,
    /// A subpool number.
    pub number: u32,
    /// The bytes that have no place.
    pub length: u32,
    /// A member of a list, from 1 on.
    pub member: u32,
    /// The cells of a part.
    pub cells: u32,
    /// The bytes of each cell.
    pub cell_size: u32,
    /// The largest area that has a place.
    pub longest: u32,
    /// The free runs in the pages of the subpool.
    pub free_runs: u32,
    /// The free pages below and above.
    pub free_pages: (u32, u32),
    /// Where two members of a list begin; or a cell, in the first.
    pub others: (u32, u32),
    /// Where the address is, if no allocated cell begins there.
    pub position: Option<Position>,
    /// What holds the address.
    pub holder: Option<AddressHolder>,
    /// The task that the reason is about.
    pub task: Option<Name>,
    /// The cell pool or the subtask of the request.
    pub name: Option<Name>,
}

/// What a request changed. The fields that a kind does not have are 0 or None.
#[derive(Clone, Copy, Debug, PartialEq, Eq)]
pub struct Effect {
    /// The kind.
    pub kind: EffectKind,
    /// The rule of RULES.md.
    pub rule: u32,
    /// The address of an area, a cell or a part of a cell pool.
    pub address: u32,
    /// Its length; of a subpool that was freed the bytes that it held.
    pub length: u32,
    /// The least and the greatest length that were requested.
    pub requested: (u32, u32),
    /// A number of pages; of the free ones, below and above.
    pub pages: (u32, u32),
    /// The cells of a part, and the bytes of each.
    pub cells: (u32, u32),
    /// The number that the owner has for a subpool.
    pub number: u32,
    /// The owner of a subpool.
    pub owner: Option<Name>,
    /// A subtask that has a subpool, or the task that had it.
    pub task: Option<Name>,
    /// A cell pool.
    pub pool: Option<Name>,
}

impl Effect {
    fn of(raw: &mvs_effect_line) -> Result<Effect, Error> {
        Ok(Effect {
            kind: EffectKind::of(raw.kind).ok_or(Error::Unknown(raw.kind))?,
            rule: raw.rule,
            address: raw.address,
            length: raw.length,
            requested: (raw.least, raw.most),
            pages: (raw.pages, raw.pages_above),
            cells: (raw.cells, raw.cell_size),
            number: raw.number,
            owner: some_name(raw.owner),
            task: some_name(raw.task),
            pool: some_name(raw.pool),
        })
    }
}

/// Returns a name, or None if it is blank.
fn some_name(bytes: [u8; 8]) -> Option<Name> {
    (bytes != [b' '; 8]).then_some(Name::of(bytes))
}

impl Reason {
    fn of(raw: &mvs_reason) -> Result<Reason, Error> {
        let holder = match raw.holder {
            mvs_sys::MVS_HOLDER_NOBODY => Some(AddressHolder::Nobody),
            mvs_sys::MVS_HOLDER_OUTSIDE => Some(AddressHolder::Outside),
            mvs_sys::MVS_HOLDER_SUBPOOL => Some(AddressHolder::Subpool(Name::of(raw.holder_name), raw.holder_number)),
            mvs_sys::MVS_HOLDER_POOL => Some(AddressHolder::Pool(Name::of(raw.holder_name))),
            mvs_sys::MVS_HOLDER_UNOWNED => Some(AddressHolder::Unowned),
            _ => None,
        };
        Ok(Reason {
            kind: ReasonKind::of(raw.kind).ok_or(Error::Unknown(raw.kind))?,
            rule: raw.rule,
            second_rule: (raw.second_rule != 0).then_some(raw.second_rule),
            address: raw.address,
            number: raw.number,
            length: raw.length,
            member: raw.member,
            cells: raw.cells,
            cell_size: raw.cell_size,
            longest: raw.longest,
            free_runs: raw.free_runs,
            free_pages: (raw.pages_below, raw.pages_above),
            others: (raw.first_address, raw.second_address),
            position: Position::of(raw.position),
            holder,
            task: some_name(raw.task),
            name: some_name(raw.name),
        })
    }
}

/// Returns the version of the library's calls: 2000 is 2.0.
pub fn version() -> u32 {
    // SAFETY: the function has no argument.
    unsafe { mvs_sys::mvs_version() }
}

fn status_of(number: u32) -> Result<Status, Error> {
    Status::of(number).ok_or(Error::Unknown(number))
}

fn served(number: u32) -> Result<(), Error> {
    match status_of(number)? {
        Status::Ok => Ok(()),
        status => Err(Error::Status(status)),
    }
}

/// Calls with a buffer that grows until it has room, and returns its text with the status.
fn text_of(mut call: impl FnMut(*mut c_char, usize, *mut usize) -> u32) -> Result<(Status, Vec<u8>), Error> {
    let mut text = vec![0u8; 256];
    loop {
        let mut wanted = 0;
        match status_of(call(text.as_mut_ptr().cast(), text.len(), &mut wanted))? {
            Status::TooSmall => text.resize(wanted, 0),
            status @ (Status::Ok | Status::SomeAbend | Status::ScriptFault) => {
                text.truncate(wanted);
                return Ok((status, text));
            }
            status => return Err(Error::Status(status)),
        }
    }
}

/// Runs a whole script, and returns the status of the job and what it prints.
pub fn run(script: &[u8], place: Place) -> Result<(Status, Vec<u8>), Error> {
    // SAFETY: the pointer of a slice is not null, the buffer is initialised, and nothing overlaps.
    text_of(|out, room, wanted| unsafe { mvs_sys::mvs_run_into(place.number(), script.as_ptr().cast(), script.len(), out, room, wanted) })
}

/// Returns the statement of a request, without a newline: an area or a cell that is granted gets this name.
pub fn statement(task: Name, request: &Request, area: Name) -> Result<Vec<u8>, Error> {
    let ask = request.ask(task);
    // SAFETY: the buffer is initialised, and nothing overlaps.
    Ok(text_of(|out, room, wanted| unsafe { mvs_sys::mvs_statement_into(&ask, &area.bytes(), out, room, wanted) })?.1)
}

/// A job that executes its statements one by one.
#[derive(Debug)]
pub struct Session {
    raw: mvs_session,
}

// SAFETY: mvs.h allows the next call from another thread, if the calls are ordered; `&mut self` orders them. No method takes `&self`,
// so `Sync` would be useless, and is not claimed.
unsafe impl Send for Session {}

impl Session {
    /// Begins a session that uses the lowest of the places that fit.
    pub fn new() -> Result<Session, Error> {
        Session::placed(Place::Low)
    }

    /// Begins a session that uses the lowest or the highest of the places that fit.
    pub fn placed(place: Place) -> Result<Session, Error> {
        Session::numbered(place.number())
    }

    /// Begins a session without bytes, for a program that has the bytes of storage itself: what would read or write them is
    /// [`Status::NoBytes`], and [`Session::changed_pages`] returns which pages changed.
    pub fn without_bytes(place: Place) -> Result<Session, Error> {
        Session::numbered(place.number() | mvs_sys::MVS_NO_BYTES)
    }

    fn numbered(place: u32) -> Result<Session, Error> {
        let mut raw = mvs_session { held: ptr::null_mut() };
        // SAFETY: `raw` holds no session, and only this call uses it.
        served(unsafe { mvs_sys::mvs_new(&mut raw, place) })?;
        Ok(Session { raw })
    }

    /// Returns a copy, which continues as this session would. What one of them does later does not change the other.
    pub fn try_clone(&mut self) -> Result<Session, Error> {
        let mut raw = mvs_session { held: ptr::null_mut() };
        // SAFETY: `raw` holds no session, and only this call uses the two.
        served(unsafe { mvs_sys::mvs_clone(&mut self.raw, &mut raw) })?;
        Ok(Session { raw })
    }

    /// Executes a statement. One with a fault is [`Error::Fault`]: it changes nothing, and the job continues.
    pub fn line(&mut self, line: &str) -> Result<Event, Error> {
        self.bytes(line.as_bytes())
    }

    /// Does the same with bytes that need not be UTF-8.
    pub fn bytes(&mut self, line: &[u8]) -> Result<Event, Error> {
        let mut event = mvs_event::default();
        // SAFETY: the pointer of a slice is not null, and nothing overlaps; so in all calls below.
        let number = unsafe { mvs_sys::mvs_try(&mut self.raw, line.as_ptr().cast(), line.len(), &mut event) };
        executed(number, &event)
    }

    /// Begins a step, as REGION does, and ends the one before. A number that is out of range is [`Error::Fault`].
    pub fn begin(&mut self, region: &Region) -> Result<Event, Error> {
        let raw = mvs_region {
            below: region.below,
            above: region.above,
            fill: region.fill,
            resides_above: region.resides_above,
            task: region.task.bytes(),
            ..mvs_region::default()
        };
        let mut event = mvs_event::default();
        // SAFETY: as above.
        let number = unsafe { mvs_sys::mvs_begin(&mut self.raw, &raw, &mut event) };
        executed(number, &event)
    }

    /// Makes a request of a task.
    pub fn request(&mut self, task: Name, request: &Request) -> Result<Event, Error> {
        let (ask, mut event) = (request.ask(task), mvs_event::default());
        // SAFETY: as above.
        let number = unsafe { mvs_sys::mvs_request(&mut self.raw, &ask, &mut event) };
        answered(number, &event)
    }

    /// Obtains 1 to 16 areas, all or none, by LC or LU: the areas are there if the event is [`EventKind::Rc0`].
    pub fn obtain_list(&mut self, task: Name, form: Form, subpool: u8, lengths: &[u32]) -> Result<(Event, Vec<Area>), Error> {
        let areas = lengths
            .iter()
            .map(|length| mvs_area {
                address: 0,
                length: *length,
            })
            .collect();
        let (event, areas) = self.list(mvs_sys::MVS_ASK_OBTAIN, task, form, subpool, areas)?;
        let granted = if event.kind == EventKind::Rc0 {
            areas.into_iter().map(Area::from).collect()
        } else {
            Vec::new()
        };
        Ok((event, granted))
    }

    /// Releases 1 to 16 areas, all or none, by LC or LU.
    pub fn release_list(&mut self, task: Name, form: Form, subpool: u8, areas: &[Area]) -> Result<Event, Error> {
        let areas = areas.iter().map(|area| mvs_area::from(*area)).collect();
        Ok(self.list(mvs_sys::MVS_ASK_RELEASE, task, form, subpool, areas)?.0)
    }

    fn list(&mut self, kind: u32, task: Name, form: Form, subpool: u8, mut areas: Vec<mvs_area>) -> Result<(Event, Vec<mvs_area>), Error> {
        let ask = mvs_ask {
            kind,
            form: form.number(),
            subpool: subpool.into(),
            task: task.bytes(),
            ..mvs_ask::default()
        };
        let mut event = mvs_event::default();
        // SAFETY: as above.
        let number = unsafe { mvs_sys::mvs_list(&mut self.raw, &ask, areas.as_mut_ptr(), areas.len(), &mut event) };
        Ok((answered(number, &event)?, areas))
    }

    /// Ends the job, and returns its status: [`Status::Ok`], [`Status::SomeAbend`], or [`Status::ScriptFault`] if there was no step.
    /// Its storage can still be read.
    pub fn end(&mut self) -> Result<(Status, Event), Error> {
        let mut event = mvs_event::default();
        // SAFETY: as above.
        match status_of(unsafe { mvs_sys::mvs_end(&mut self.raw, &mut event) })? {
            status @ (Status::Ok | Status::SomeAbend | Status::ScriptFault) => Ok((status, Event::of(&event)?)),
            status => Err(Error::Status(status)),
        }
    }

    /// Returns the reply to the last line as mvsjob prints it.
    pub fn text(&mut self) -> Result<Vec<u8>, Error> {
        let raw: *mut mvs_session = &mut self.raw;
        // SAFETY: as above.
        Ok(text_of(|out, room, wanted| unsafe { mvs_sys::mvs_text_into(raw, out, room, wanted) })?.1)
    }

    /// Returns why the last request was refused, as `mvsjob --explain` prints it; nothing if it was granted.
    pub fn why(&mut self) -> Result<Vec<u8>, Error> {
        let raw: *mut mvs_session = &mut self.raw;
        // SAFETY: as above.
        Ok(text_of(|out, room, wanted| unsafe { mvs_sys::mvs_why_into(raw, out, room, wanted) })?.1)
    }

    /// Returns why the last request was refused, as fields; None if it was granted.
    pub fn reason(&mut self) -> Result<Option<Reason>, Error> {
        let mut raw = mvs_reason::default();
        // SAFETY: as above.
        match status_of(unsafe { mvs_sys::mvs_why_fields(&mut self.raw, &mut raw) })? {
            Status::Ok => Reason::of(&raw).map(Some),
            Status::NoMore => Ok(None),
            status => Err(Error::Status(status)),
        }
    }

    /// Records each request from now on, so that `effects` returns what it changed. That costs time.
    pub fn record(&mut self) -> Result<(), Error> {
        // SAFETY: as above.
        served(unsafe { mvs_sys::mvs_record(&mut self.raw) })
    }

    /// Returns what the last request changed, and what the end of its task freed; nothing if the session does not record.
    pub fn effects(&mut self) -> Result<Vec<Effect>, Error> {
        let mut found = Vec::new();
        loop {
            let mut raw = mvs_effect_line::default();
            // SAFETY: as above.
            match status_of(unsafe { mvs_sys::mvs_effect(&mut self.raw, found.len(), &mut raw) })? {
                Status::Ok => found.push(Effect::of(&raw)?),
                Status::NoMore => return Ok(found),
                status => return Err(Error::Status(status)),
            }
        }
    }

    /// Returns the cell pool of a name; None if there is none.
    pub fn pool(&mut self, name: Name) -> Result<Option<PoolState>, Error> {
        let mut raw = mvs_pool_line::default();
        // SAFETY: as above.
        match status_of(unsafe { mvs_sys::mvs_pool(&mut self.raw, &name.bytes(), &mut raw) })? {
            Status::Ok => Ok(Some(PoolState {
                cell: raw.cell_size,
                parts: raw.parts,
                area: Area {
                    address: raw.address,
                    length: raw.length,
                },
                cells: raw.cells,
                owner: some_name(raw.owner).map(|owner| (owner, raw.number)),
            })),
            Status::NoMore => Ok(None),
            status => Err(Error::Status(status)),
        }
    }

    /// Returns bytes from an address on, or [`Status::NoAccess`].
    pub fn read(&mut self, address: u32, length: usize) -> Result<Vec<u8>, Error> {
        let mut out = vec![0; length];
        self.read_into(address, &mut out)?;
        Ok(out)
    }

    /// Fills a buffer with the bytes from an address on, or returns [`Status::NoAccess`] and leaves it.
    pub fn read_into(&mut self, address: u32, out: &mut [u8]) -> Result<(), Error> {
        // SAFETY: as above.
        served(unsafe { mvs_sys::mvs_read(&mut self.raw, address, out.as_mut_ptr(), out.len()) })
    }

    /// Returns the bytes from an address on, where they are in the memory of the session: as many as can be read without a break, or
    /// [`Status::NoAccess`] if the first one cannot.
    pub fn lend(&mut self, address: u32) -> Result<&[u8], Error> {
        let none = [0; 0];
        let mut lent = mvs_bytes { bytes: none.as_ptr(), length: 0 };
        // SAFETY: as above. The bytes stay as they are until the next call, which needs this borrow to have ended.
        served(unsafe { mvs_sys::mvs_lend_bytes(&mut self.raw, address, &mut lent) })?;
        Ok(unsafe { slice::from_raw_parts(lent.bytes, lent.length) })
    }

    /// Writes bytes from an address on, or returns [`Status::NoAccess`] and writes none.
    pub fn write(&mut self, address: u32, bytes: &[u8]) -> Result<(), Error> {
        // SAFETY: as above.
        served(unsafe { mvs_sys::mvs_write(&mut self.raw, address, bytes.as_ptr(), bytes.len()) })
    }

    /// Returns the tasks that ended with the one that abended, if the last request abended.
    pub fn fallen(&mut self) -> Result<Vec<Name>, Error> {
        let (mut names, mut name) = (Vec::new(), [0; 8]);
        loop {
            // SAFETY: as above.
            match status_of(unsafe { mvs_sys::mvs_fallen(&mut self.raw, names.len(), &mut name) })? {
                Status::Ok => names.push(Name::of(name)),
                Status::NoMore => return Ok(names),
                status => return Err(Error::Status(status)),
            }
        }
    }

    /// Iterates over the subpool numbers of a task; over none if it is not active.
    pub fn subpools(&mut self, task: Name) -> Subpools<'_> {
        Subpools {
            session: self,
            task,
            from: Some(0),
        }
    }

    /// Iterates over the runs of pages that are assigned alike, in the order of their addresses.
    pub fn pages(&mut self) -> Pages<'_> {
        Pages { session: self, from: 0 }
    }

    /// Returns the first and the last page that changed since the call before, of a session without bytes; None if there are none.
    pub fn changed_pages(&mut self) -> Result<Option<ChangedPages>, Error> {
        let mut raw = mvs_pages::default();
        // SAFETY: as above.
        match status_of(unsafe { mvs_sys::mvs_changed_pages(&mut self.raw, &mut raw) })? {
            Status::Ok => Ok(Some(ChangedPages {
                first: raw.first,
                last: raw.last,
            })),
            Status::NoMore => Ok(None),
            status => Err(Error::Status(status)),
        }
    }

    /// Iterates over the runs of doublewords that are held alike, in the order of their addresses.
    pub fn held_runs(&mut self) -> HeldRuns<'_> {
        HeldRuns { session: self, from: 0 }
    }

    /// Iterates over the active tasks, in the byte order of their names.
    pub fn tasks(&mut self) -> Tasks<'_> {
        Tasks {
            session: self,
            after: [0; 8],
        }
    }

    /// Iterates over the names of the cell pools, in byte order.
    pub fn pools(&mut self) -> PoolNames<'_> {
        PoolNames {
            session: self,
            after: [0; 8],
        }
    }
}

impl Drop for Session {
    fn drop(&mut self) {
        // SAFETY: only this value has the session, and it is not used again.
        unsafe { mvs_sys::mvs_free_session(&mut self.raw) }
    }
}

fn executed(number: u32, event: &mvs_event) -> Result<Event, Error> {
    match status_of(number)? {
        Status::ScriptFault => Err(Error::Fault(event.code)),
        _ => served(number).and_then(|()| Event::of(event)),
    }
}

fn answered(number: u32, event: &mvs_event) -> Result<Event, Error> {
    match status_of(number)? {
        Status::NoRequest => Err(Error::Field(event.code)),
        _ => served(number).and_then(|()| Event::of(event)),
    }
}

/// The subpool numbers of a task: [`Session::subpools`].
#[derive(Debug)]
pub struct Subpools<'a> {
    session: &'a mut Session,
    task: Name,
    from: Option<u8>,
}

impl Iterator for Subpools<'_> {
    type Item = Subpool;

    fn next(&mut self) -> Option<Subpool> {
        let (from, mut line) = (self.from?, mvs_subpool_line::default());
        // SAFETY: as in `Session`.
        let number = unsafe { mvs_sys::mvs_subpool(&mut self.session.raw, &self.task.bytes(), from, &mut line) };
        served(number).ok()?;
        self.from = u8::try_from(line.number + 1).ok();
        Some(Subpool {
            number: line.number,
            owned: line.owned,
            plain: line.plain,
            pool: line.pool,
        })
    }
}

/// The runs of pages: [`Session::pages`].
#[derive(Debug)]
pub struct Pages<'a> {
    session: &'a mut Session,
    from: u32,
}

impl Iterator for Pages<'_> {
    type Item = Run;

    fn next(&mut self) -> Option<Run> {
        let mut run = mvs_map_run::default();
        // SAFETY: as in `Session`.
        served(unsafe { mvs_sys::mvs_map(&mut self.session.raw, self.from, &mut run) }).ok()?;
        self.from = run.address + run.length;
        Some(Run {
            area: Area {
                address: run.address,
                length: run.length,
            },
            owner: run.assigned.then_some((Name::of(run.owner), run.number)),
        })
    }
}

/// The runs of held doublewords: [`Session::held_runs`].
#[derive(Debug)]
pub struct HeldRuns<'a> {
    session: &'a mut Session,
    from: u32,
}

impl Iterator for HeldRuns<'_> {
    type Item = HeldRun;

    fn next(&mut self) -> Option<HeldRun> {
        let mut run = mvs_held_run::default();
        // SAFETY: as in `Session`.
        served(unsafe { mvs_sys::mvs_held(&mut self.session.raw, self.from, &mut run) }).ok()?;
        self.from = run.address + run.length;
        Some(HeldRun {
            area: Area {
                address: run.address,
                length: run.length,
            },
            holder: if run.pooled {
                Holder::Pool(Name::of(run.pool))
            } else {
                Holder::Subpool(Name::of(run.owner), run.number)
            },
        })
    }
}

/// The active tasks: [`Session::tasks`].
#[derive(Debug)]
pub struct Tasks<'a> {
    session: &'a mut Session,
    after: [u8; 8],
}

impl Iterator for Tasks<'_> {
    type Item = Task;

    fn next(&mut self) -> Option<Task> {
        let mut line = mvs_task_line::default();
        // SAFETY: as in `Session`.
        served(unsafe { mvs_sys::mvs_next_task(&mut self.session.raw, &self.after, &mut line) }).ok()?;
        self.after = line.name;
        Some(Task {
            name: Name::of(line.name),
            mother: some_name(line.mother),
        })
    }
}

/// The names of the cell pools: [`Session::pools`].
#[derive(Debug)]
pub struct PoolNames<'a> {
    session: &'a mut Session,
    after: [u8; 8],
}

impl Iterator for PoolNames<'_> {
    type Item = Name;

    fn next(&mut self) -> Option<Name> {
        let mut name = [0; 8];
        // SAFETY: as in `Session`.
        served(unsafe { mvs_sys::mvs_next_pool(&mut self.session.raw, &self.after, &mut name) }).ok()?;
        self.after = name;
        Some(Name::of(name))
    }
}
