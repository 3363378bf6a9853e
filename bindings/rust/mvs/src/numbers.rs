//! The numbers of `mvs.h` as enums.

use std::fmt;

macro_rules! numbers {
    ($(#[$meta:meta])* $name:ident { $($(#[$doc:meta])* $variant:ident = $number:ident,)* }) => {
        $(#[$meta])*
        #[derive(Clone, Copy, Debug, PartialEq, Eq, Hash)]
        #[non_exhaustive]
        pub enum $name {
            $($(#[$doc])* $variant,)*
        }

        impl $name {
            /// Returns the number of `mvs.h`.
            pub fn number(self) -> u32 {
                match self {
                    $($name::$variant => mvs_sys::$number,)*
                }
            }

            /// Returns the value of a number, or None for one of a later library.
            pub fn of(number: u32) -> Option<Self> {
                match number {
                    $(mvs_sys::$number => Some($name::$variant),)*
                    _ => None,
                }
            }
        }
    };
}

numbers! {
    /// Why a call was refused.
    Status {
        /// The call was served.
        Ok = MVS_STATUS_OK,
        /// The job has ended, and a task abended.
        SomeAbend = MVS_STATUS_SOME_ABEND,
        /// The line or the script has a fault.
        ScriptFault = MVS_STATUS_SCRIPT_FAULT,
        /// Memory is exhausted.
        NoMemory = MVS_STATUS_NO_MEMORY,
        /// There is no session.
        NoSession = MVS_STATUS_NO_SESSION,
        /// The job has ended.
        Over = MVS_STATUS_OVER,
        /// A buffer is too small.
        TooSmall = MVS_STATUS_TOO_SMALL,
        /// A byte cannot be accessed.
        NoAccess = MVS_STATUS_NO_ACCESS,
        /// There is no further one.
        NoMore = MVS_STATUS_NO_MORE,
        /// The script has more than 16,777,215 bytes.
        TooLong = MVS_STATUS_TOO_LONG,
        /// No task of this name is active.
        NoTask = MVS_STATUS_NO_TASK,
        /// A field of a request is out of range.
        NoRequest = MVS_STATUS_NO_REQUEST,
        /// No step runs.
        NoStep = MVS_STATUS_NO_STEP,
        /// The place is unknown to the library.
        NoPlace = MVS_STATUS_NO_PLACE,
        /// A struct has a size that the library does not know.
        WrongSize = MVS_STATUS_WRONG_SIZE,
        /// The session has no bytes, and the call needs them.
        NoBytes = MVS_STATUS_NO_BYTES,
    }
}

impl fmt::Display for Status {
    fn fmt(&self, f: &mut fmt::Formatter<'_>) -> fmt::Result {
        write!(f, "libmvs: {self:?}")
    }
}

numbers! {
    /// What an event reports.
    EventKind {
        /// A blank line or a comment.
        Nothing = MVS_EVENT_NOTHING,
        /// A step has begun.
        StepBegan = MVS_EVENT_STEP_BEGAN,
        /// The task is not active.
        NotRun = MVS_EVENT_NOT_RUN,
        /// A name in the statement is not set.
        NoName = MVS_EVENT_NO_NAME,
        /// WHERE: the address.
        At = MVS_EVENT_AT,
        /// Return code 0.
        Rc0 = MVS_EVENT_RC_0,
        /// Return code 0 of a request that obtains.
        Granted = MVS_EVENT_GRANTED,
        /// Return code 4.
        Rc4 = MVS_EVENT_RC_4,
        /// A cell is allocated.
        Cell = MVS_EVENT_CELL,
        /// No cell is free.
        NoCell = MVS_EVENT_NO_CELL,
        /// A subtask is attached.
        Attached = MVS_EVENT_ATTACHED,
        /// The task has ended.
        Ended = MVS_EVENT_ENDED,
        /// Bytes were written, or can be read.
        Done = MVS_EVENT_DONE,
        /// SHOW: the bytes that can be read.
        Data = MVS_EVENT_DATA,
        /// The task abended.
        Abended = MVS_EVENT_ABENDED,
        /// REPORT SP.
        Subpools = MVS_EVENT_SUBPOOLS,
        /// REPORT MAP.
        Map = MVS_EVENT_MAP,
        /// The line has a fault.
        Fault = MVS_EVENT_FAULT,
        /// Memory is exhausted.
        Stopped = MVS_EVENT_STOPPED,
        /// The job has ended.
        JobEnded = MVS_EVENT_JOB_ENDED,
        /// A field of a request is out of range.
        Refused = MVS_EVENT_REFUSED,
    }
}

numbers! {
    /// How a step ended.
    StepEnd {
        /// No task abended.
        Clean = MVS_STEP_CLEAN,
        /// A task abended.
        Abended = MVS_STEP_ABENDED,
    }
}

numbers! {
    /// Why a request was refused.
    ReasonKind {
        /// The task is not active.
        NotActive = MVS_REASON_NOT_ACTIVE,
        /// A program cannot use the subpool number.
        InvalidNumber = MVS_REASON_INVALID_NUMBER,
        /// No place is long enough.
        Shortage = MVS_REASON_SHORTAGE,
        /// No place is long enough for a member of a list, after grants for those before it.
        NoMember = MVS_REASON_NO_MEMBER,
        /// No place is long enough for a part of a cell pool.
        NoPart = MVS_REASON_NO_PART,
        /// A release does not begin on a doubleword.
        OffDoubleword = MVS_REASON_OFF_DOUBLEWORD,
        /// The task has no such subpool.
        NoSubpool = MVS_REASON_NO_SUBPOOL,
        /// The subpool does not hold the address.
        NotHeld = MVS_REASON_NOT_HELD,
        /// Two members of a list have the address.
        Overlap = MVS_REASON_OVERLAP,
        /// Subpool 0 is not released as a whole.
        WholeOfZero = MVS_REASON_WHOLE_OF_ZERO,
        /// The pool exists.
        PoolInUse = MVS_REASON_POOL_IN_USE,
        /// There are 64 pools.
        TooManyPools = MVS_REASON_TOO_MANY_POOLS,
        /// There is no such pool.
        NoPool = MVS_REASON_NO_POOL,
        /// No cell of the pool is free.
        NoFreeCell = MVS_REASON_NO_FREE_CELL,
        /// No allocated cell begins at the address.
        NoTakenCell = MVS_REASON_NO_TAKEN_CELL,
        /// The subtask is active.
        TaskInUse = MVS_REASON_TASK_IN_USE,
        /// There are 32 active tasks.
        TooManyTasks = MVS_REASON_TOO_MANY_TASKS,
        /// The task gives a subpool that it shares.
        NotOwned = MVS_REASON_NOT_OWNED,
        /// The task returns, and has an active subtask.
        ActiveSubtask = MVS_REASON_ACTIVE_SUBTASK,
        /// The task requests the abend.
        Asked = MVS_REASON_ASKED,
        /// The address cannot be accessed.
        NoAccess = MVS_REASON_NO_ACCESS,
    }
}

numbers! {
    /// What a request changed.
    EffectKind {
        /// An area was obtained.
        Obtained = MVS_EFFECT_OBTAINED,
        /// No greater length had a place.
        NoGreater = MVS_EFFECT_NO_GREATER,
        /// A subpool was made.
        NewSubpool = MVS_EFFECT_NEW_SUBPOOL,
        /// Free pages were assigned.
        PagesAssigned = MVS_EFFECT_PAGES_ASSIGNED,
        /// Pages became free.
        PagesFreed = MVS_EFFECT_PAGES_FREED,
        /// All of a subpool was released.
        Emptied = MVS_EFFECT_EMPTIED,
        /// A cell was allocated.
        Cell = MVS_EFFECT_CELL,
        /// A cell pool has a new part.
        Part = MVS_EFFECT_PART,
        /// A subtask now owns a subpool.
        Given = MVS_EFFECT_GIVEN,
        /// A subtask shares a subpool.
        Shared = MVS_EFFECT_SHARED,
        /// A subpool was freed with its owner.
        Freed = MVS_EFFECT_FREED,
        /// A subpool remains that the task shared, which ended.
        Remains = MVS_EFFECT_REMAINS,
    }
}

numbers! {
    /// Where an address is, if no allocated cell of the pool begins there.
    Position {
        /// A free cell begins there.
        FreeCell = MVS_POSITION_FREE_CELL,
        /// It is inside of a cell.
        Inside = MVS_POSITION_INSIDE,
        /// It is in no cell of the pool.
        NoCell = MVS_POSITION_NO_CELL,
    }
}

numbers! {
    /// The forms of GETMAIN and FREEMAIN, and STORAGE with COND=NO and COND=YES.
    Form {
        /// One area; a shortage abends.
        R = MVS_FORM_R,
        /// One area by location, conditional.
        Rc = MVS_FORM_RC,
        /// One area by location, unconditional.
        Ru = MVS_FORM_RU,
        /// One area of variable length by location, conditional.
        Vrc = MVS_FORM_VRC,
        /// One area of variable length by location, unconditional.
        Vru = MVS_FORM_VRU,
        /// One area, conditional.
        Ec = MVS_FORM_EC,
        /// One area, unconditional.
        Eu = MVS_FORM_EU,
        /// One area of variable length, conditional.
        Vc = MVS_FORM_VC,
        /// One area of variable length, unconditional.
        Vu = MVS_FORM_VU,
        /// STORAGE with COND=NO.
        Storage = MVS_FORM_STORAGE,
        /// STORAGE with COND=YES.
        StorageConditional = MVS_FORM_STORAGE_CONDITIONAL,
        /// A list of areas, conditional.
        Lc = MVS_FORM_LC,
        /// A list of areas, unconditional.
        Lu = MVS_FORM_LU,
    }
}

numbers! {
    /// LOC=.
    Location {
        /// As the residence of the task.
        Res = MVS_LOCATION_RES,
        /// Below 16 megabytes.
        Below = MVS_LOCATION_BELOW,
        /// Above, or below if it does not fit above.
        Any = MVS_LOCATION_ANY,
    }
}

numbers! {
    /// Which of the places that fit is used.
    Place {
        /// The lowest.
        Low = MVS_PLACE_LOW,
        /// The highest.
        High = MVS_PLACE_HIGH,
    }
}
