//! The plain version under C names and signatures like the library's, so that both sides are called and counted alike.
//! The functions are owed what include/ntsync.h says of the library's.

use super::check::valid;
use super::queue::Asked;
use crate::ffi::{Changed, Created, EventState, MutexState, Restored, SemState, Waited, Written};
use std::slice::{from_raw_parts, from_raw_parts_mut};

macro_rules! pointer {
    (read $cell:ty) => { *const $cell };
    (write $cell:ty) => { *mut $cell };
}

macro_rules! slice {
    (read $from:ident, $length:ident) => {
        from_raw_parts($from, $length)
    };
    (write $from:ident, $length:ident) => {
        from_raw_parts_mut($from, $length)
    };
}

/// NAME(slices; numbers) -> result = the call that it exports. A slice is a pointer and then its number of elements.
macro_rules! export {
    ($($name:ident($($from:ident[$length:ident]: $use:ident $cell:ty),*; $($number:ident: $type:ty),*)
        -> $result:ty = $call:ident;)*) => {
        $(#[no_mangle]
        pub unsafe extern "C" fn $name(
            $($from: pointer!($use $cell), $length: usize,)*
            $($number: $type),*
        ) -> $result {
            super::$call($(slice!($use $from, $length),)* $($number),*).unwrap_or_else(Into::into)
        })*
    };
}

export! {
    plain_init(tables[cells]: write u64;) -> u32 = init;
    plain_create_sem(tables[cells]: write u64; count: u32, max: u32) -> Created = create_sem;
    plain_create_mutex(tables[cells]: write u64; owner: u32, count: u32) -> Created = create_mutex;
    plain_create_event(tables[cells]: write u64; signaled: u32, manual: u32) -> Created = create_event;
    plain_close(tables[cells]: write u64; handle: u32) -> u32 = close;
    plain_read_sem(tables[cells]: read u64; handle: u32) -> SemState = read_sem;
    plain_read_mutex(tables[cells]: read u64; handle: u32) -> MutexState = read_mutex;
    plain_read_event(tables[cells]: read u64; handle: u32) -> EventState = read_event;
    plain_post(tables[cells]: write u64, wake[size]: write u64; handle: u32, add: u32) -> Changed = post;
    plain_unlock(tables[cells]: write u64, wake[size]: write u64; handle: u32, owner: u32) -> Changed = unlock;
    plain_kill_owner(tables[cells]: write u64, wake[size]: write u64; handle: u32, owner: u32) -> Changed = kill_owner;
    plain_set(tables[cells]: write u64, wake[size]: write u64; handle: u32) -> Changed = set;
    plain_reset(tables[cells]: write u64; handle: u32) -> Changed = reset;
    plain_pulse(tables[cells]: write u64, wake[size]: write u64; handle: u32) -> Changed = pulse;
    plain_expire(tables[cells]: write u64, wake[size]: write u64; clock: u32, time: u64) -> Changed = expire;
    plain_cancel(tables[cells]: write u64; ticket: u64) -> u32 = cancel;
    plain_snapshot(tables[cells]: read u64, buffer[bytes]: write u8;) -> Written = snapshot;
    plain_restore(tables[cells]: write u64, text[bytes]: read u8;) -> Restored = restore;
}

/// The two waits differ in their mode alone.
macro_rules! export_wait {
    ($name:ident, $all:literal) => {
        #[no_mangle]
        pub unsafe extern "C" fn $name(
            tables: *mut u64,
            cells: usize,
            list: *const u32,
            n: usize,
            owner: u32,
            alert: u32,
            flags: u32,
            pad: u32,
            timeout: u64,
            time: u64,
        ) -> Waited {
            let list = from_raw_parts(list, n);
            let asked = Asked { all: $all, list, owner, alert, flags, pad, timeout, time };
            super::wait(from_raw_parts_mut(tables, cells), &asked).unwrap_or_else(Into::into)
        }
    };
}

export_wait!(plain_wait_any, false);
export_wait!(plain_wait_all, true);

/// The check alone.
#[no_mangle]
pub unsafe extern "C" fn plain_valid(tables: *const u64, cells: usize) -> u32 {
    valid(from_raw_parts(tables, cells)).into()
}
