//! The functions, structs and numbers of `mvs.h`, which documents each of them. The crate `mvs` is safe.
#![no_std]

use core::ffi::{c_char, c_void};
use core::mem::size_of;

/// The version of the calls that these declarations are for: `MVS_VERSION`.
pub const MVS_VERSION: u32 = 2_007;

pub const MVS_STATUS_OK: u32 = 0;
pub const MVS_STATUS_SOME_ABEND: u32 = 8;
pub const MVS_STATUS_SCRIPT_FAULT: u32 = 12;
pub const MVS_STATUS_NO_MEMORY: u32 = 16;
pub const MVS_STATUS_NO_SESSION: u32 = 20;
pub const MVS_STATUS_OVER: u32 = 24;
pub const MVS_STATUS_TOO_SMALL: u32 = 32;
pub const MVS_STATUS_NO_ACCESS: u32 = 36;
pub const MVS_STATUS_NO_MORE: u32 = 40;
pub const MVS_STATUS_TOO_LONG: u32 = 44;
pub const MVS_STATUS_NO_TASK: u32 = 48;
pub const MVS_STATUS_NO_REQUEST: u32 = 52;
pub const MVS_STATUS_NO_STEP: u32 = 56;
pub const MVS_STATUS_NO_PLACE: u32 = 60;
pub const MVS_STATUS_WRONG_SIZE: u32 = 64;
pub const MVS_STATUS_NO_BYTES: u32 = 68;

pub const MVS_EVENT_NOTHING: u32 = 1;
pub const MVS_EVENT_STEP_BEGAN: u32 = 2;
pub const MVS_EVENT_NOT_RUN: u32 = 3;
pub const MVS_EVENT_NO_NAME: u32 = 4;
pub const MVS_EVENT_AT: u32 = 5;
pub const MVS_EVENT_RC_0: u32 = 6;
pub const MVS_EVENT_GRANTED: u32 = 7;
pub const MVS_EVENT_RC_4: u32 = 8;
pub const MVS_EVENT_CELL: u32 = 9;
pub const MVS_EVENT_NO_CELL: u32 = 10;
pub const MVS_EVENT_ATTACHED: u32 = 11;
pub const MVS_EVENT_ENDED: u32 = 12;
pub const MVS_EVENT_DONE: u32 = 13;
pub const MVS_EVENT_DATA: u32 = 14;
pub const MVS_EVENT_ABENDED: u32 = 15;
pub const MVS_EVENT_SUBPOOLS: u32 = 16;
pub const MVS_EVENT_MAP: u32 = 17;
pub const MVS_EVENT_FAULT: u32 = 18;
pub const MVS_EVENT_STOPPED: u32 = 19;
pub const MVS_EVENT_JOB_ENDED: u32 = 20;
pub const MVS_EVENT_REFUSED: u32 = 21;

pub const MVS_STEP_NONE: u32 = 0;
pub const MVS_STEP_CLEAN: u32 = 1;
pub const MVS_STEP_ABENDED: u32 = 2;

pub const MVS_ASK_OBTAIN: u32 = 1;
pub const MVS_ASK_RELEASE: u32 = 2;
pub const MVS_ASK_RELEASE_WHOLE: u32 = 3;
pub const MVS_ASK_POOL_BUILD: u32 = 4;
pub const MVS_ASK_POOL_GET: u32 = 5;
pub const MVS_ASK_POOL_FREE: u32 = 6;
pub const MVS_ASK_POOL_DELETE: u32 = 7;
pub const MVS_ASK_ATTACH: u32 = 8;
pub const MVS_ASK_RETURN: u32 = 9;
pub const MVS_ASK_ABEND: u32 = 10;
pub const MVS_ASK_SHOW: u32 = 11;
pub const MVS_ASK_MOVE: u32 = 12;
pub const MVS_ASK_SYSTEM_ABEND: u32 = 13;

pub const MVS_FORM_R: u32 = 1;
pub const MVS_FORM_RC: u32 = 2;
pub const MVS_FORM_RU: u32 = 3;
pub const MVS_FORM_VRC: u32 = 4;
pub const MVS_FORM_VRU: u32 = 5;
pub const MVS_FORM_EC: u32 = 6;
pub const MVS_FORM_EU: u32 = 7;
pub const MVS_FORM_VC: u32 = 8;
pub const MVS_FORM_VU: u32 = 9;
pub const MVS_FORM_STORAGE: u32 = 10;
pub const MVS_FORM_STORAGE_CONDITIONAL: u32 = 11;
pub const MVS_FORM_LC: u32 = 12;
pub const MVS_FORM_LU: u32 = 13;

pub const MVS_LOCATION_RES: u32 = 0;
pub const MVS_LOCATION_BELOW: u32 = 1;
pub const MVS_LOCATION_ANY: u32 = 2;

pub const MVS_REASON_NOT_ACTIVE: u32 = 1;
pub const MVS_REASON_INVALID_NUMBER: u32 = 2;
pub const MVS_REASON_SHORTAGE: u32 = 3;
pub const MVS_REASON_NO_MEMBER: u32 = 4;
pub const MVS_REASON_NO_PART: u32 = 5;
pub const MVS_REASON_OFF_DOUBLEWORD: u32 = 6;
pub const MVS_REASON_NO_SUBPOOL: u32 = 7;
pub const MVS_REASON_NOT_HELD: u32 = 8;
pub const MVS_REASON_OVERLAP: u32 = 9;
pub const MVS_REASON_WHOLE_OF_ZERO: u32 = 10;
pub const MVS_REASON_POOL_IN_USE: u32 = 11;
pub const MVS_REASON_TOO_MANY_POOLS: u32 = 12;
pub const MVS_REASON_NO_POOL: u32 = 13;
pub const MVS_REASON_NO_FREE_CELL: u32 = 14;
pub const MVS_REASON_NO_TAKEN_CELL: u32 = 15;
pub const MVS_REASON_TASK_IN_USE: u32 = 16;
pub const MVS_REASON_TOO_MANY_TASKS: u32 = 17;
pub const MVS_REASON_NOT_OWNED: u32 = 18;
pub const MVS_REASON_ACTIVE_SUBTASK: u32 = 19;
pub const MVS_REASON_ASKED: u32 = 20;
pub const MVS_REASON_NO_ACCESS: u32 = 21;

pub const MVS_EFFECT_OBTAINED: u32 = 1;
pub const MVS_EFFECT_NO_GREATER: u32 = 2;
pub const MVS_EFFECT_NEW_SUBPOOL: u32 = 3;
pub const MVS_EFFECT_PAGES_ASSIGNED: u32 = 4;
pub const MVS_EFFECT_PAGES_FREED: u32 = 5;
pub const MVS_EFFECT_EMPTIED: u32 = 6;
pub const MVS_EFFECT_CELL: u32 = 7;
pub const MVS_EFFECT_PART: u32 = 8;
pub const MVS_EFFECT_GIVEN: u32 = 9;
pub const MVS_EFFECT_SHARED: u32 = 10;
pub const MVS_EFFECT_FREED: u32 = 11;
pub const MVS_EFFECT_REMAINS: u32 = 12;

pub const MVS_HOLDER_NOBODY: u32 = 1;
pub const MVS_HOLDER_OUTSIDE: u32 = 2;
pub const MVS_HOLDER_SUBPOOL: u32 = 3;
pub const MVS_HOLDER_POOL: u32 = 4;
pub const MVS_HOLDER_UNOWNED: u32 = 5;

pub const MVS_POSITION_FREE_CELL: u32 = 1;
pub const MVS_POSITION_INSIDE: u32 = 2;
pub const MVS_POSITION_NO_CELL: u32 = 3;

pub const MVS_PLACE_LOW: u32 = 1;
pub const MVS_PLACE_HIGH: u32 = 2;

pub const MVS_NO_BYTES: u32 = 0x100;

/// `mvs_event` of `mvs.h`.
#[repr(C)]
#[derive(Clone, Copy, Debug, PartialEq, Eq)]
#[allow(non_camel_case_types)]
pub struct mvs_event {
    pub size: u32,
    pub kind: u32,
    pub code: u32,
    pub address: u32,
    pub length: u32,
    pub ended: u32,
    pub task: [u8; 8],
}

impl Default for mvs_event {
    /// All fields are 0, except the size.
    fn default() -> Self {
        Self {
            size: size_of::<Self>() as u32,
            kind: 0,
            code: 0,
            address: 0,
            length: 0,
            ended: 0,
            task: [0; 8],
        }
    }
}

/// `mvs_ask` of `mvs.h`.
#[repr(C)]
#[derive(Clone, Copy, Debug, PartialEq, Eq)]
#[allow(non_camel_case_types)]
pub struct mvs_ask {
    pub size: u32,
    pub kind: u32,
    pub form: u32,
    pub subpool: u32,
    pub length: u32,
    pub least: u32,
    pub boundary: u32,
    pub within: u32,
    pub location: u32,
    pub address: u32,
    pub source: u32,
    pub primary: u32,
    pub secondary: u32,
    pub code: u32,
    pub conditional: bool,
    pub keeps_zero: bool,
    pub above: bool,
    pub given_low: u64,
    pub given_high: u64,
    pub shared_low: u64,
    pub shared_high: u64,
    pub task: [u8; 8],
    pub name: [u8; 8],
}

impl Default for mvs_ask {
    /// All fields are 0, except the size.
    fn default() -> Self {
        Self {
            size: size_of::<Self>() as u32,
            kind: 0,
            form: 0,
            subpool: 0,
            length: 0,
            least: 0,
            boundary: 0,
            within: 0,
            location: 0,
            address: 0,
            source: 0,
            primary: 0,
            secondary: 0,
            code: 0,
            conditional: false,
            keeps_zero: false,
            above: false,
            given_low: 0,
            given_high: 0,
            shared_low: 0,
            shared_high: 0,
            task: [0; 8],
            name: [0; 8],
        }
    }
}

/// `mvs_area` of `mvs.h`.
#[repr(C)]
#[derive(Clone, Copy, Debug, PartialEq, Eq, Default)]
#[allow(non_camel_case_types)]
pub struct mvs_area {
    pub address: u32,
    pub length: u32,
}

/// `mvs_subpool_line` of `mvs.h`.
#[repr(C)]
#[derive(Clone, Copy, Debug, PartialEq, Eq)]
#[allow(non_camel_case_types)]
pub struct mvs_subpool_line {
    pub size: u32,
    pub number: u32,
    pub owned: bool,
    pub plain: u32,
    pub pool: u32,
}

impl Default for mvs_subpool_line {
    /// All fields are 0, except the size.
    fn default() -> Self {
        Self {
            size: size_of::<Self>() as u32,
            number: 0,
            owned: false,
            plain: 0,
            pool: 0,
        }
    }
}

/// `mvs_map_run` of `mvs.h`.
#[repr(C)]
#[derive(Clone, Copy, Debug, PartialEq, Eq)]
#[allow(non_camel_case_types)]
pub struct mvs_map_run {
    pub size: u32,
    pub address: u32,
    pub length: u32,
    pub assigned: bool,
    pub number: u32,
    pub owner: [u8; 8],
}

impl Default for mvs_map_run {
    /// All fields are 0, except the size.
    fn default() -> Self {
        Self {
            size: size_of::<Self>() as u32,
            address: 0,
            length: 0,
            assigned: false,
            number: 0,
            owner: [0; 8],
        }
    }
}

/// `mvs_pages` of `mvs.h`.
#[repr(C)]
#[derive(Clone, Copy, Debug, PartialEq, Eq)]
#[allow(non_camel_case_types)]
pub struct mvs_pages {
    pub size: u32,
    pub first: u32,
    pub last: u32,
}

impl Default for mvs_pages {
    /// All fields are 0, except the size.
    fn default() -> Self {
        Self {
            size: size_of::<Self>() as u32,
            first: 0,
            last: 0,
        }
    }
}

/// `mvs_held_run` of `mvs.h`.
#[repr(C)]
#[derive(Clone, Copy, Debug, PartialEq, Eq)]
#[allow(non_camel_case_types)]
pub struct mvs_held_run {
    pub size: u32,
    pub address: u32,
    pub length: u32,
    pub pooled: bool,
    pub number: u32,
    pub owner: [u8; 8],
    pub pool: [u8; 8],
}

impl Default for mvs_held_run {
    /// All fields are 0, except the size.
    fn default() -> Self {
        Self {
            size: size_of::<Self>() as u32,
            address: 0,
            length: 0,
            pooled: false,
            number: 0,
            owner: [0; 8],
            pool: [0; 8],
        }
    }
}

/// `mvs_pool_line` of `mvs.h`.
#[repr(C)]
#[derive(Clone, Copy, Debug, PartialEq, Eq)]
#[allow(non_camel_case_types)]
pub struct mvs_pool_line {
    pub size: u32,
    pub cell_size: u32,
    pub parts: u32,
    pub address: u32,
    pub length: u32,
    pub cells: u32,
    pub number: u32,
    pub owner: [u8; 8],
}

impl Default for mvs_pool_line {
    /// All fields are 0, except the size.
    fn default() -> Self {
        Self {
            size: size_of::<Self>() as u32,
            cell_size: 0,
            parts: 0,
            address: 0,
            length: 0,
            cells: 0,
            number: 0,
            owner: [0; 8],
        }
    }
}

/// `mvs_task_line` of `mvs.h`.
#[repr(C)]
#[derive(Clone, Copy, Debug, PartialEq, Eq)]
#[allow(non_camel_case_types)]
pub struct mvs_task_line {
    pub size: u32,
    pub name: [u8; 8],
    pub mother: [u8; 8],
}

impl Default for mvs_task_line {
    /// All fields are 0, except the size.
    fn default() -> Self {
        Self {
            size: size_of::<Self>() as u32,
            name: [0; 8],
            mother: [0; 8],
        }
    }
}

/// `mvs_reason` of `mvs.h`.
#[repr(C)]
#[derive(Clone, Copy, Debug, PartialEq, Eq)]
#[allow(non_camel_case_types)]
pub struct mvs_reason {
    pub size: u32,
    pub kind: u32,
    pub rule: u32,
    pub second_rule: u32,
    pub address: u32,
    pub number: u32,
    pub length: u32,
    pub member: u32,
    pub cells: u32,
    pub cell_size: u32,
    pub longest: u32,
    pub free_runs: u32,
    pub pages_below: u32,
    pub pages_above: u32,
    pub first_address: u32,
    pub second_address: u32,
    pub position: u32,
    pub holder: u32,
    pub holder_number: u32,
    pub holder_name: [u8; 8],
    pub task: [u8; 8],
    pub name: [u8; 8],
}

impl Default for mvs_reason {
    /// All fields are 0, except the size.
    fn default() -> Self {
        Self {
            size: size_of::<Self>() as u32,
            kind: 0,
            rule: 0,
            second_rule: 0,
            address: 0,
            number: 0,
            length: 0,
            member: 0,
            cells: 0,
            cell_size: 0,
            longest: 0,
            free_runs: 0,
            pages_below: 0,
            pages_above: 0,
            first_address: 0,
            second_address: 0,
            position: 0,
            holder: 0,
            holder_number: 0,
            holder_name: [0; 8],
            task: [0; 8],
            name: [0; 8],
        }
    }
}

/// `mvs_effect_line` of `mvs.h`.
#[repr(C)]
#[derive(Clone, Copy, Debug, PartialEq, Eq)]
#[allow(non_camel_case_types)]
pub struct mvs_effect_line {
    pub size: u32,
    pub kind: u32,
    pub rule: u32,
    pub address: u32,
    pub length: u32,
    pub least: u32,
    pub most: u32,
    pub pages: u32,
    pub pages_above: u32,
    pub cells: u32,
    pub cell_size: u32,
    pub number: u32,
    pub owner: [u8; 8],
    pub task: [u8; 8],
    pub pool: [u8; 8],
}

impl Default for mvs_effect_line {
    /// All fields are 0, except the size.
    fn default() -> Self {
        Self {
            size: size_of::<Self>() as u32,
            kind: 0,
            rule: 0,
            address: 0,
            length: 0,
            least: 0,
            most: 0,
            pages: 0,
            pages_above: 0,
            cells: 0,
            cell_size: 0,
            number: 0,
            owner: [0; 8],
            task: [0; 8],
            pool: [0; 8],
        }
    }
}

/// `mvs_bytes` of `mvs.h`.
#[repr(C)]
#[derive(Clone, Copy, Debug)]
#[allow(non_camel_case_types)]
pub struct mvs_bytes {
    pub bytes: *const u8,
    pub length: usize,
}

/// `mvs_region` of `mvs.h`.
#[repr(C)]
#[derive(Clone, Copy, Debug, PartialEq, Eq)]
#[allow(non_camel_case_types)]
pub struct mvs_region {
    pub size: u32,
    pub below: u32,
    pub above: u32,
    pub fill: u8,
    pub resides_above: bool,
    pub task: [u8; 8],
}

impl Default for mvs_region {
    /// All fields are 0, except the size.
    fn default() -> Self {
        Self {
            size: size_of::<Self>() as u32,
            below: 0,
            above: 0,
            fill: 0,
            resides_above: false,
            task: [0; 8],
        }
    }
}

/// `mvs_session` of `mvs.h`: a session, or none.
#[repr(C)]
#[derive(Debug)]
#[allow(non_camel_case_types)]
pub struct mvs_session {
    pub held: *mut c_void,
}

unsafe extern "C" {
    pub fn mvs_version() -> u32;
    pub fn mvs_new(session: *mut mvs_session, place: u32) -> u32;
    pub fn mvs_clone(from: *mut mvs_session, to: *mut mvs_session) -> u32;
    pub fn mvs_line(session: *mut mvs_session, line: *const c_char, length: usize, event: *mut mvs_event) -> u32;
    pub fn mvs_try(session: *mut mvs_session, line: *const c_char, length: usize, event: *mut mvs_event) -> u32;
    pub fn mvs_begin(session: *mut mvs_session, region: *const mvs_region, event: *mut mvs_event) -> u32;
    pub fn mvs_request(session: *mut mvs_session, ask: *const mvs_ask, event: *mut mvs_event) -> u32;
    pub fn mvs_list(session: *mut mvs_session, ask: *const mvs_ask, areas: *mut mvs_area, count: usize, event: *mut mvs_event) -> u32;
    pub fn mvs_end(session: *mut mvs_session, event: *mut mvs_event) -> u32;
    pub fn mvs_text_into(session: *mut mvs_session, out: *mut c_char, room: usize, wanted: *mut usize) -> u32;
    pub fn mvs_why_into(session: *mut mvs_session, out: *mut c_char, room: usize, wanted: *mut usize) -> u32;
    pub fn mvs_why_fields(session: *mut mvs_session, reason: *mut mvs_reason) -> u32;
    pub fn mvs_read(session: *mut mvs_session, address: u32, out: *mut u8, length: usize) -> u32;
    pub fn mvs_lend_bytes(session: *mut mvs_session, address: u32, lent: *mut mvs_bytes) -> u32;
    pub fn mvs_write(session: *mut mvs_session, address: u32, bytes: *const u8, length: usize) -> u32;
    pub fn mvs_fallen(session: *mut mvs_session, index: usize, name: *mut [u8; 8]) -> u32;
    pub fn mvs_subpool(session: *mut mvs_session, task: *const [u8; 8], from: u8, line: *mut mvs_subpool_line) -> u32;
    pub fn mvs_map(session: *mut mvs_session, from: u32, run: *mut mvs_map_run) -> u32;
    pub fn mvs_changed_pages(session: *mut mvs_session, pages: *mut mvs_pages) -> u32;
    pub fn mvs_held(session: *mut mvs_session, from: u32, run: *mut mvs_held_run) -> u32;
    pub fn mvs_pool(session: *mut mvs_session, name: *const [u8; 8], pool: *mut mvs_pool_line) -> u32;
    pub fn mvs_next_task(session: *mut mvs_session, after: *const [u8; 8], task: *mut mvs_task_line) -> u32;
    pub fn mvs_next_pool(session: *mut mvs_session, after: *const [u8; 8], name: *mut [u8; 8]) -> u32;
    pub fn mvs_statement_into(ask: *const mvs_ask, area: *const [u8; 8], out: *mut c_char, room: usize, wanted: *mut usize) -> u32;
    pub fn mvs_list_statement_into(
        ask: *const mvs_ask,
        areas: *const mvs_area,
        count: usize,
        base: *const [u8; 8],
        out: *mut c_char,
        room: usize,
        wanted: *mut usize,
    ) -> u32;
    pub fn mvs_record(session: *mut mvs_session) -> u32;
    pub fn mvs_effect(session: *mut mvs_session, index: usize, effect: *mut mvs_effect_line) -> u32;
    pub fn mvs_free_session(session: *mut mvs_session);
    pub fn mvs_run_into(place: u32, script: *const c_char, length: usize, out: *mut c_char, room: usize, wanted: *mut usize) -> u32;
}
