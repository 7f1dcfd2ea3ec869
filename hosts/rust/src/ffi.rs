//! The functions of libntsync.a as include/ntsync.h declares them; hosts/abi/check compares the two.

/// Rises with every change of a signature, an argument's meaning, a size, an answer or the layout of the tables.
pub const VERSION: u32 = 5;
/// Cells of the tables.
pub const CELLS: usize = 4321;
/// Objects at most; handles are 1 to 512.
pub const OBJECT_PLACES: usize = 512;
/// Queued waits at most.
pub const WAIT_PLACES: usize = 32;
/// Handles in a wait's list at most.
pub const MAX_LISTED: usize = 64;
/// Cells of a wake record.
pub const RECORD_CELLS: usize = 3;
/// Cells of a wake list at least.
pub const WAKE_CELLS: usize = 96;
/// Bytes of a snapshot's buffer at least.
pub const SNAPSHOT_BYTES: usize = 65536;
/// The number of the monotonic clock.
pub const MONOTONIC: u32 = 0;
/// The number of the real-time clock, and the flag of a wait on it.
pub const REALTIME: u32 = 1;
/// A timeout that no time reaches.
pub const NEVER: u64 = u64::MAX;

// The answers.
pub const DONE: u32 = 0;
pub const EINVAL: u32 = 1;
pub const EPERM: u32 = 2;
pub const EOVERFLOW: u32 = 3;
pub const EOWNERDEAD: u32 = 4;
pub const ETIMEDOUT: u32 = 5;
pub const EINTR: u32 = 6;
pub const NO_ROOM: u32 = 7;
pub const TICKETS_SPENT: u32 = 8;
pub const CORRUPT: u32 = 9;
pub const BUSY: u32 = 10;
pub const QUEUED: u32 = 11;
pub const LIST_SHORT: u32 = 12;
pub const NOT_A_SNAPSHOT: u32 = 13;

#[repr(C)]
pub struct Created {
    pub answer: u32,
    pub handle: u32,
}

#[repr(C)]
pub struct SemState {
    pub answer: u32,
    pub count: u32,
    pub max: u32,
}

#[repr(C)]
pub struct MutexState {
    pub answer: u32,
    pub owner: u32,
    pub count: u32,
}

#[repr(C)]
pub struct EventState {
    pub answer: u32,
    pub signaled: u32,
    pub manual: u32,
}

#[repr(C)]
pub struct Changed {
    pub answer: u32,
    pub previous: u32,
    pub woken: u32,
}

#[repr(C)]
pub struct Waited {
    pub answer: u32,
    pub index: u32,
    pub ticket: u64,
}

#[repr(C)]
pub struct Written {
    pub answer: u32,
    pub length: u32,
}

#[repr(C)]
pub struct Restored {
    pub answer: u32,
    pub offset: u64,
}

#[rustfmt::skip] // one declaration a line, as in the header's page
unsafe extern "C" {
    pub fn ntsync_version() -> u32;
    pub fn ntsync_init(tables: *mut u64, cells: usize) -> u32;
    pub fn ntsync_create_sem(tables: *mut u64, cells: usize, count: u32, max: u32) -> Created;
    pub fn ntsync_create_mutex(tables: *mut u64, cells: usize, owner: u32, count: u32) -> Created;
    pub fn ntsync_create_event(tables: *mut u64, cells: usize, signaled: u32, manual: u32) -> Created;
    pub fn ntsync_close(tables: *mut u64, cells: usize, handle: u32) -> u32;
    pub fn ntsync_read_sem(tables: *const u64, cells: usize, handle: u32) -> SemState;
    pub fn ntsync_read_mutex(tables: *const u64, cells: usize, handle: u32) -> MutexState;
    pub fn ntsync_read_event(tables: *const u64, cells: usize, handle: u32) -> EventState;
    pub fn ntsync_post(tables: *mut u64, cells: usize, wake: *mut u64, wake_cells: usize, handle: u32, add: u32) -> Changed;
    pub fn ntsync_unlock(tables: *mut u64, cells: usize, wake: *mut u64, wake_cells: usize, handle: u32, owner: u32) -> Changed;
    pub fn ntsync_kill_owner(tables: *mut u64, cells: usize, wake: *mut u64, wake_cells: usize, handle: u32, owner: u32) -> Changed;
    pub fn ntsync_set(tables: *mut u64, cells: usize, wake: *mut u64, wake_cells: usize, handle: u32) -> Changed;
    pub fn ntsync_reset(tables: *mut u64, cells: usize, handle: u32) -> Changed;
    pub fn ntsync_pulse(tables: *mut u64, cells: usize, wake: *mut u64, wake_cells: usize, handle: u32) -> Changed;
    pub fn ntsync_wait_any(tables: *mut u64, cells: usize, list: *const u32, n: usize, owner: u32, alert: u32, flags: u32, pad: u32, timeout: u64, time: u64) -> Waited;
    pub fn ntsync_wait_all(tables: *mut u64, cells: usize, list: *const u32, n: usize, owner: u32, alert: u32, flags: u32, pad: u32, timeout: u64, time: u64) -> Waited;
    pub fn ntsync_expire(tables: *mut u64, cells: usize, wake: *mut u64, wake_cells: usize, clock: u32, time: u64) -> Changed;
    pub fn ntsync_cancel(tables: *mut u64, cells: usize, ticket: u64) -> u32;
    pub fn ntsync_snapshot(tables: *const u64, cells: usize, buffer: *mut u8, bytes: usize) -> Written;
    pub fn ntsync_restore(tables: *mut u64, cells: usize, text: *const u8, bytes: usize) -> Restored;
}
