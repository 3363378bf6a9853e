//! Requests by values.

use crate::numbers::{Form, Location};
use mvs_sys::{mvs_area, mvs_ask};
use std::fmt;

/// The name of a task or a pool: 1 to 8 of A to Z, 0 to 9, @, # and $; the first is not a digit.
#[derive(Clone, Copy, PartialEq, Eq, PartialOrd, Ord, Hash)]
pub struct Name([u8; 8]);

impl Name {
    /// Returns the name with this text, or None if it is none.
    pub fn new(text: &str) -> Option<Name> {
        let is_letter = |byte: &u8| matches!(byte, b'A'..=b'Z' | b'@' | b'#' | b'$');
        let bytes = text.as_bytes();
        if bytes.len() > 8 || !bytes.first().is_some_and(is_letter) {
            return None;
        }
        if !bytes.iter().all(|byte| is_letter(byte) || byte.is_ascii_digit()) {
            return None;
        }
        let mut name = [b' '; 8];
        name[..bytes.len()].copy_from_slice(bytes);
        Some(Name(name))
    }

    pub(crate) fn of(bytes: [u8; 8]) -> Name {
        Name(bytes)
    }

    /// Returns the eight bytes, padded with blanks.
    pub fn bytes(self) -> [u8; 8] {
        self.0
    }
}

impl fmt::Display for Name {
    fn fmt(&self, f: &mut fmt::Formatter<'_>) -> fmt::Result {
        f.pad(String::from_utf8_lossy(&self.0).trim_end())
    }
}

impl fmt::Debug for Name {
    fn fmt(&self, f: &mut fmt::Formatter<'_>) -> fmt::Result {
        write!(f, "Name({self})")
    }
}

/// What REGION begins: the pages of a step, and its job step task.
#[derive(Clone, Copy, Debug, PartialEq, Eq)]
pub struct Region {
    /// The job step task.
    pub task: Name,
    /// The pages below 16 megabytes, 1 to 2048.
    pub below: u32,
    /// The pages above, 0 to 8192.
    pub above: u32,
    /// The byte that new areas and cells are filled with.
    pub fill: u8,
    /// RES=ABOVE.
    pub resides_above: bool,
}

impl Region {
    /// Makes a region with no pages above 16 megabytes, and zeros in new areas.
    pub fn new(task: Name, below: u32) -> Region {
        Region {
            task,
            below,
            above: 0,
            fill: 0,
            resides_above: false,
        }
    }
}

/// What GETMAIN and STORAGE OBTAIN request.
#[derive(Clone, Copy, Debug, PartialEq, Eq)]
pub struct Obtain {
    /// The form.
    pub form: Form,
    /// The subpool number.
    pub subpool: u8,
    /// The length in bytes; of a variable request the greatest.
    pub length: u32,
    /// The least length in bytes of a variable request, or 0.
    pub least: u32,
    /// STARTBDY as a power of two, or 0 for a doubleword.
    pub boundary: u32,
    /// CONTBDY as a power of two, or 0 for none.
    pub within: u32,
    /// LOC=.
    pub location: Location,
}

impl Obtain {
    /// Makes a request for a length in bytes of subpool 0, on a doubleword.
    pub fn new(form: Form, length: u32) -> Obtain {
        Obtain {
            form,
            subpool: 0,
            length,
            least: 0,
            boundary: 0,
            within: 0,
            location: Location::Res,
        }
    }
}

/// What CPOOL BUILD requests.
#[derive(Clone, Copy, Debug, PartialEq, Eq)]
pub struct Pool {
    /// The name.
    pub name: Name,
    /// The subpool number.
    pub subpool: u8,
    /// The size of a cell in bytes, 4 to 65,536.
    pub cell: u32,
    /// The number of cells in the first part, 1 to 65,536.
    pub primary: u32,
    /// The number of cells in each further part, or 0 for the same.
    pub secondary: u32,
    /// LOC=.
    pub location: Location,
}

/// What ATTACH requests. A bit of `given` and `shared` stands for each subpool number, 1 to 127.
#[derive(Clone, Copy, Debug, PartialEq, Eq)]
pub struct Subtask {
    /// The name.
    pub name: Name,
    /// GSPV, GSPL.
    pub given: u128,
    /// SHSPV, SHSPL.
    pub shared: u128,
    /// SZERO=YES.
    pub shares_zero: bool,
    /// RES=ABOVE.
    pub above: bool,
}

impl Subtask {
    /// Makes a subtask that shares only subpool 0.
    pub fn new(name: Name) -> Subtask {
        Subtask {
            name,
            given: 0,
            shared: 0,
            shares_zero: true,
            above: false,
        }
    }
}

/// An area: its address, and its length in bytes.
#[derive(Clone, Copy, Debug, PartialEq, Eq)]
pub struct Area {
    /// The address.
    pub address: u32,
    /// The length in bytes.
    pub length: u32,
}

impl From<Area> for mvs_area {
    fn from(area: Area) -> mvs_area {
        mvs_area {
            address: area.address,
            length: area.length,
        }
    }
}

impl From<mvs_area> for Area {
    fn from(area: mvs_area) -> Area {
        Area {
            address: area.address,
            length: area.length,
        }
    }
}

/// A request of a task.
#[derive(Clone, Copy, Debug, PartialEq, Eq)]
#[non_exhaustive]
pub enum Request {
    /// Obtains an area.
    Obtain(Obtain),
    /// Releases bytes of a subpool.
    Release {
        /// The form.
        form: Form,
        /// The subpool number.
        subpool: u8,
        /// The bytes.
        area: Area,
    },
    /// Releases a whole subpool.
    ReleaseWhole {
        /// The form.
        form: Form,
        /// The subpool number.
        subpool: u8,
    },
    /// Builds a cell pool.
    Build(Pool),
    /// Allocates a cell.
    Get {
        /// The pool.
        pool: Name,
        /// COND.
        conditional: bool,
    },
    /// Frees a cell.
    Free {
        /// The pool.
        pool: Name,
        /// The address of the cell.
        address: u32,
    },
    /// Deletes a cell pool.
    Delete {
        /// The pool.
        pool: Name,
    },
    /// Attaches a subtask.
    Attach(Subtask),
    /// Ends the task.
    Return,
    /// Ends the task with a user completion code, 0 to 4095.
    Abend(u32),
    /// Ends the task with a system completion code, as 0x0C1. No statement does this.
    SystemAbend(u32),
    /// Tests whether 1 to 4,096 bytes can be accessed.
    Show(Area),
    /// Copies 1 to 65,536 bytes.
    Move {
        /// Where to.
        to: Area,
        /// Where from.
        from: u32,
    },
}

impl Request {
    pub(crate) fn ask(&self, task: Name) -> mvs_ask {
        let mut ask = mvs_ask {
            task: task.bytes(),
            ..mvs_ask::default()
        };
        ask.kind = self.kind();
        match *self {
            Request::Obtain(obtain) => {
                ask.form = obtain.form.number();
                ask.subpool = obtain.subpool.into();
                (ask.length, ask.least) = (obtain.length, obtain.least);
                (ask.boundary, ask.within) = (obtain.boundary, obtain.within);
                ask.location = obtain.location.number();
            }
            Request::Release { form, subpool, area } => {
                (ask.form, ask.subpool) = (form.number(), subpool.into());
                (ask.address, ask.length) = (area.address, area.length);
            }
            Request::ReleaseWhole { form, subpool } => (ask.form, ask.subpool) = (form.number(), subpool.into()),
            Request::Build(pool) => {
                (ask.name, ask.subpool) = (pool.name.bytes(), pool.subpool.into());
                (ask.length, ask.location) = (pool.cell, pool.location.number());
                (ask.primary, ask.secondary) = (pool.primary, pool.secondary);
            }
            Request::Get { pool, conditional } => (ask.name, ask.conditional) = (pool.bytes(), conditional),
            Request::Free { pool, address } => (ask.name, ask.address) = (pool.bytes(), address),
            Request::Delete { pool } => ask.name = pool.bytes(),
            Request::Attach(subtask) => {
                (ask.name, ask.keeps_zero, ask.above) = (subtask.name.bytes(), !subtask.shares_zero, subtask.above);
                (ask.given_low, ask.given_high) = (subtask.given as u64, (subtask.given >> 64) as u64);
                (ask.shared_low, ask.shared_high) = (subtask.shared as u64, (subtask.shared >> 64) as u64);
            }
            Request::Return => {}
            Request::Abend(code) | Request::SystemAbend(code) => ask.code = code,
            Request::Show(area) => (ask.address, ask.length) = (area.address, area.length),
            Request::Move { to, from } => (ask.address, ask.length, ask.source) = (to.address, to.length, from),
        }
        ask
    }

    fn kind(&self) -> u32 {
        match self {
            Request::Obtain(_) => mvs_sys::MVS_ASK_OBTAIN,
            Request::Release { .. } => mvs_sys::MVS_ASK_RELEASE,
            Request::ReleaseWhole { .. } => mvs_sys::MVS_ASK_RELEASE_WHOLE,
            Request::Build(_) => mvs_sys::MVS_ASK_POOL_BUILD,
            Request::Get { .. } => mvs_sys::MVS_ASK_POOL_GET,
            Request::Free { .. } => mvs_sys::MVS_ASK_POOL_FREE,
            Request::Delete { .. } => mvs_sys::MVS_ASK_POOL_DELETE,
            Request::Attach(_) => mvs_sys::MVS_ASK_ATTACH,
            Request::Return => mvs_sys::MVS_ASK_RETURN,
            Request::Abend(_) => mvs_sys::MVS_ASK_ABEND,
            Request::SystemAbend(_) => mvs_sys::MVS_ASK_SYSTEM_ABEND,
            Request::Show(_) => mvs_sys::MVS_ASK_SHOW,
            Request::Move { .. } => mvs_sys::MVS_ASK_MOVE,
        }
    }
}
