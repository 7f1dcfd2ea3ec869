//! The two sides that are compared, each as a row of functions of one interface, and a call of either.

use crate::ffi::*;
use crate::plain::exports::*;
use crate::results::{alone, Outcome};
use std::hint::black_box;

#[cfg(feature = "check")]
extern "C" {
    /// The library's validity check (crates/bench).
    fn bench_valid(tables: *const u64, cells: usize) -> u32;
}

/// Where that archive is not linked: tables are valid if a call does not call them corrupt. To compare, not to measure.
#[cfg(not(feature = "check"))]
unsafe extern "C" fn bench_valid(tables: *const u64, cells: usize) -> u32 {
    u32::from(ntsync_read_sem(tables, cells, 0).answer != CORRUPT)
}

type Read<Result> = unsafe extern "C" fn(*const u64, usize, u32) -> Result;
type Create = unsafe extern "C" fn(*mut u64, usize, u32, u32) -> Created;
type Signal = unsafe extern "C" fn(*mut u64, usize, *mut u64, usize, u32) -> Changed;
type SignalBy<Number> = unsafe extern "C" fn(*mut u64, usize, *mut u64, usize, u32, Number) -> Changed;
type Wait = unsafe extern "C" fn(*mut u64, usize, *const u32, usize, u32, u32, u32, u32, u64, u64) -> Waited;

pub struct Side {
    valid: unsafe extern "C" fn(*const u64, usize) -> u32,
    init: unsafe extern "C" fn(*mut u64, usize) -> u32,
    create_sem: Create,
    create_mutex: Create,
    create_event: Create,
    close: unsafe extern "C" fn(*mut u64, usize, u32) -> u32,
    read_sem: Read<SemState>,
    read_mutex: Read<MutexState>,
    read_event: Read<EventState>,
    post: SignalBy<u32>,
    unlock: SignalBy<u32>,
    kill_owner: SignalBy<u32>,
    set: Signal,
    reset: unsafe extern "C" fn(*mut u64, usize, u32) -> Changed,
    pulse: Signal,
    wait_any: Wait,
    wait_all: Wait,
    expire: SignalBy<u64>,
    cancel: unsafe extern "C" fn(*mut u64, usize, u64) -> u32,
    snapshot: unsafe extern "C" fn(*const u64, usize, *mut u8, usize) -> Written,
    restore: unsafe extern "C" fn(*mut u64, usize, *const u8, usize) -> Restored,
}

pub static LIBRARY: Side = Side {
    valid: bench_valid,
    init: ntsync_init,
    create_sem: ntsync_create_sem,
    create_mutex: ntsync_create_mutex,
    create_event: ntsync_create_event,
    close: ntsync_close,
    read_sem: ntsync_read_sem,
    read_mutex: ntsync_read_mutex,
    read_event: ntsync_read_event,
    post: ntsync_post,
    unlock: ntsync_unlock,
    kill_owner: ntsync_kill_owner,
    set: ntsync_set,
    reset: ntsync_reset,
    pulse: ntsync_pulse,
    wait_any: ntsync_wait_any,
    wait_all: ntsync_wait_all,
    expire: ntsync_expire,
    cancel: ntsync_cancel,
    snapshot: ntsync_snapshot,
    restore: ntsync_restore,
};

pub static PLAIN: Side = Side {
    valid: plain_valid,
    init: plain_init,
    create_sem: plain_create_sem,
    create_mutex: plain_create_mutex,
    create_event: plain_create_event,
    close: plain_close,
    read_sem: plain_read_sem,
    read_mutex: plain_read_mutex,
    read_event: plain_read_event,
    post: plain_post,
    unlock: plain_unlock,
    kill_owner: plain_kill_owner,
    set: plain_set,
    reset: plain_reset,
    pulse: plain_pulse,
    wait_any: plain_wait_any,
    wait_all: plain_wait_all,
    expire: plain_expire,
    cancel: plain_cancel,
    snapshot: plain_snapshot,
    restore: plain_restore,
};

/// A fresh wait of owner 99 on the monotonic clock, at time 1000.
pub struct FreshWait {
    pub list: Vec<u32>,
    pub alert: u32,
    pub timeout: u64,
}

const ASKING: u32 = 99;
pub const TIME: u64 = 1000;

/// A call and its arguments. Beside the interface: the check alone, and the lower bound.
pub enum Call {
    ReadAll,
    Valid,
    Init,
    CreateSem(u32, u32),
    CreateMutex(u32, u32),
    CreateEvent(u32, u32),
    Close(u32),
    ReadSem(u32),
    ReadMutex(u32),
    ReadEvent(u32),
    Post(u32, u32),
    Unlock(u32, u32),
    KillOwner(u32, u32),
    Set(u32),
    Reset(u32),
    Pulse(u32),
    WaitAny(FreshWait),
    WaitAll(FreshWait),
    Expire(u32, u64),
    Cancel(u64),
    Snapshot,
    Restore(Vec<u8>),
}

/// What a call is lent: only a snapshot has a buffer.
#[derive(Clone, PartialEq)]
pub struct Lent {
    tables: Vec<u64>,
    wake: Vec<u64>,
    buffer: Vec<u8>,
}

impl Lent {
    /// The wake list and the buffer are not zero, so that a zero written to them is seen.
    pub fn new(tables: &[u64], call: &Call) -> Lent {
        let bytes = if matches!(call, Call::Snapshot) { SNAPSHOT_BYTES } else { 0 };
        Lent { tables: tables.to_vec(), wake: vec![u64::MAX; WAKE_CELLS], buffer: vec![u8::MAX; bytes] }
    }

    pub fn tables(&self) -> &[u64] {
        &self.tables
    }

    /// As it was at the start.
    pub fn reset(&mut self, start: &Lent) {
        self.tables.copy_from_slice(&start.tables);
        self.wake.copy_from_slice(&start.wake);
        self.buffer.copy_from_slice(&start.buffer);
    }
}

/// The lower bound: every cell is read once, by a fold that the compiler vectorises.
#[inline(never)]
#[no_mangle]
pub fn read_all(tables: &[u64]) -> u64 {
    tables.iter().fold(0, |all, cell| all | cell)
}

impl Call {
    /// As the interface names it.
    pub fn name(&self) -> &'static str {
        match self {
            Call::ReadAll => "read all cells",
            Call::Valid => "check",
            Call::Init => "init",
            Call::CreateSem(..) => "create_sem",
            Call::CreateMutex(..) => "create_mutex",
            Call::CreateEvent(..) => "create_event",
            Call::Close(..) => "close",
            Call::ReadSem(..) => "read_sem",
            Call::ReadMutex(..) => "read_mutex",
            Call::ReadEvent(..) => "read_event",
            Call::Post(..) => "post",
            Call::Unlock(..) => "unlock",
            Call::KillOwner(..) => "kill_owner",
            Call::Set(..) => "set",
            Call::Reset(..) => "reset",
            Call::Pulse(..) => "pulse",
            Call::WaitAny(..) => "wait_any",
            Call::WaitAll(..) => "wait_all",
            Call::Expire(..) => "expire",
            Call::Cancel(..) => "cancel",
            Call::Snapshot => "snapshot",
            Call::Restore(..) => "restore",
        }
    }
}

/// Makes the call on this side. The compiler must not see which function it is, or it might inline the plain one.
pub fn perform(side: &Side, call: &Call, lent: &mut Lent) -> Outcome {
    let side = black_box(side);
    let (t, n) = (lent.tables.as_mut_ptr(), lent.tables.len());
    let (w, wn) = (lent.wake.as_mut_ptr(), lent.wake.len());
    // SAFETY: the pointers and lengths are of three vectors that are lent to this call alone.
    unsafe {
        match *call {
            Call::ReadAll => [read_all(&lent.tables), 0, 0],
            Call::Valid => alone((side.valid)(t, n)),
            Call::Init => alone((side.init)(t, n)),
            Call::CreateSem(count, max) => (side.create_sem)(t, n, count, max).into(),
            Call::CreateMutex(owner, count) => (side.create_mutex)(t, n, owner, count).into(),
            Call::CreateEvent(signaled, manual) => (side.create_event)(t, n, signaled, manual).into(),
            Call::Close(handle) => alone((side.close)(t, n, handle)),
            Call::ReadSem(handle) => (side.read_sem)(t, n, handle).into(),
            Call::ReadMutex(handle) => (side.read_mutex)(t, n, handle).into(),
            Call::ReadEvent(handle) => (side.read_event)(t, n, handle).into(),
            Call::Post(handle, add) => (side.post)(t, n, w, wn, handle, add).into(),
            Call::Unlock(handle, owner) => (side.unlock)(t, n, w, wn, handle, owner).into(),
            Call::KillOwner(handle, owner) => (side.kill_owner)(t, n, w, wn, handle, owner).into(),
            Call::Set(handle) => (side.set)(t, n, w, wn, handle).into(),
            Call::Reset(handle) => (side.reset)(t, n, handle).into(),
            Call::Pulse(handle) => (side.pulse)(t, n, w, wn, handle).into(),
            Call::WaitAny(ref asked) => wait(side.wait_any, t, n, asked),
            Call::WaitAll(ref asked) => wait(side.wait_all, t, n, asked),
            Call::Expire(clock, time) => (side.expire)(t, n, w, wn, clock, time).into(),
            Call::Cancel(ticket) => alone((side.cancel)(t, n, ticket)),
            Call::Snapshot => (side.snapshot)(t, n, lent.buffer.as_mut_ptr(), lent.buffer.len()).into(),
            Call::Restore(ref text) => (side.restore)(t, n, text.as_ptr(), text.len()).into(),
        }
    }
}

/// The tables as the plain version writes them; main.rs holds the library's text to it.
pub fn text_of(tables: &[u64]) -> Vec<u8> {
    let mut lent = Lent::new(tables, &Call::Snapshot);
    let [_, length, _] = perform(&PLAIN, &Call::Snapshot, &mut lent);
    lent.buffer.truncate(length as usize);
    lent.buffer
}

unsafe fn wait(wait: Wait, t: *mut u64, n: usize, asked: &FreshWait) -> Outcome {
    let list = &asked.list;
    wait(t, n, list.as_ptr(), list.len(), ASKING, asked.alert, MONOTONIC, 0, asked.timeout, TIME).into()
}
