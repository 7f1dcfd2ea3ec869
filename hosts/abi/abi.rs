//! What Rust sees of the interface, by the declarations of the crate in hosts/rust: the same lines as abi.c.
#![allow(dead_code)]

#[path = "../rust/src/ffi.rs"]
mod ffi;

use ffi::*;
use std::mem::{offset_of, size_of};

macro_rules! layout {
    ($name:literal, $type:ty, $($field:ident),+) => {
        print!("{} {}", $name, size_of::<$type>());
        $(print!(" {} {}", stringify!($field), offset_of!($type, $field));)+
        println!();
    };
}

fn layouts() {
    layout!("ntsync_created", Created, answer, handle);
    layout!("ntsync_sem_state", SemState, answer, count, max);
    layout!("ntsync_mutex_state", MutexState, answer, owner, count);
    layout!("ntsync_event_state", EventState, answer, signaled, manual);
    layout!("ntsync_changed", Changed, answer, previous, woken);
    layout!("ntsync_waited", Waited, answer, index, ticket);
    layout!("ntsync_written", Written, answer, length);
    layout!("ntsync_restored", Restored, answer, offset);
}

fn sizes() {
    println!("NTSYNC_VERSION {VERSION}");
    println!("NTSYNC_CELLS {CELLS}");
    println!("NTSYNC_OBJECT_PLACES {OBJECT_PLACES}");
    println!("NTSYNC_WAIT_PLACES {WAIT_PLACES}");
    println!("NTSYNC_MAX_LISTED {MAX_LISTED}");
    println!("NTSYNC_RECORD_CELLS {RECORD_CELLS}");
    println!("NTSYNC_WAKE_CELLS {WAKE_CELLS}");
    println!("NTSYNC_SNAPSHOT_BYTES {SNAPSHOT_BYTES}");
    println!("NTSYNC_MONOTONIC {MONOTONIC}");
    println!("NTSYNC_REALTIME {REALTIME}");
    println!("NTSYNC_NEVER {NEVER}");
}

fn answers() {
    println!("NTSYNC_DONE {DONE}");
    println!("NTSYNC_EINVAL {EINVAL}");
    println!("NTSYNC_EPERM {EPERM}");
    println!("NTSYNC_EOVERFLOW {EOVERFLOW}");
    println!("NTSYNC_EOWNERDEAD {EOWNERDEAD}");
    println!("NTSYNC_ETIMEDOUT {ETIMEDOUT}");
    println!("NTSYNC_EINTR {EINTR}");
    println!("NTSYNC_NO_ROOM {NO_ROOM}");
    println!("NTSYNC_TICKETS_SPENT {TICKETS_SPENT}");
    println!("NTSYNC_CORRUPT {CORRUPT}");
    println!("NTSYNC_BUSY {BUSY}");
    println!("NTSYNC_QUEUED {QUEUED}");
    println!("NTSYNC_LIST_SHORT {LIST_SHORT}");
    println!("NTSYNC_NOT_A_SNAPSHOT {NOT_A_SNAPSHOT}");
}

fn created(call: &str, r: Created) {
    println!("{call} {} {}", r.answer, r.handle);
}

fn waited(call: &str, r: Waited) {
    println!("{call} {} {} {}", r.answer, r.index, r.ticket);
}

fn changed(call: &str, r: Changed, wake: &[u64]) {
    println!("{call} {} {} {}", r.answer, r.previous, r.woken);
    for cell in &wake[..RECORD_CELLS * r.woken as usize] {
        println!("{cell}");
    }
}

// SAFETY, for the four functions below: every array is owned, apart from the others, and lent with its length.

fn objects(tables: &mut [u64]) {
    let (t, n) = (tables.as_mut_ptr(), tables.len());
    unsafe {
        println!("version {}", ntsync_version());
        println!("init {}", ntsync_init(t, n));
        created("create_sem", ntsync_create_sem(t, n, 4, 9));
        created("create_mutex", ntsync_create_mutex(t, n, 5, 3));
        created("create_event", ntsync_create_event(t, n, 0, 1));
        created("create_event", ntsync_create_event(t, n, 1, 0));
        let s = ntsync_read_sem(t, n, 1);
        println!("read_sem {} {} {}", s.answer, s.count, s.max);
        let m = ntsync_read_mutex(t, n, 2);
        println!("read_mutex {} {} {}", m.answer, m.owner, m.count);
        let e = ntsync_read_event(t, n, 3);
        println!("read_event {} {} {}", e.answer, e.signaled, e.manual);
        println!("close {}", ntsync_close(t, n, 4));
    }
}

fn waits(tables: &mut [u64]) {
    let (t, n) = (tables.as_mut_ptr(), tables.len());
    let (list, twice, empty) = ([2u32, 3], [3u32, 3], [0u32; 0]);
    let (l, d, e) = (list.as_ptr(), twice.as_ptr(), empty.as_ptr());
    unsafe {
        waited("wait_any", ntsync_wait_any(t, n, l, 2, 6, 3, 1, 0, 1000, 900));
        waited("wait_any", ntsync_wait_any(t, n, l, 1, 7, 0, 0, 0, 2000, 1900));
        waited("wait_all", ntsync_wait_all(t, n, l, 2, 8, 0, 0, 0, 3000, 2900));
        waited("wait_all", ntsync_wait_all(t, n, l, 1, 9, 3, 1, 0, 4000, 4000));
        waited("wait_any", ntsync_wait_any(t, n, l, 1, 7, 0, 0, 9, 2000, 1900));
        waited("empty list", ntsync_wait_any(t, n, e, 0, 7, 3, 0, 0, 2000, 1900));
        waited("empty list", ntsync_wait_all(t, n, e, 0, 7, 3, 0, 0, 2000, 1900));
        waited("list", ntsync_wait_any(t, n, d, 2, 6, 0, 1, 0, 900, 900));
        waited("list", ntsync_wait_all(t, n, d, 2, 6, 0, 1, 0, 900, 900));
        waited("list", ntsync_wait_all(t, n, d, 1, 6, 0, 1, 0, 901, 900));
        waited("list", ntsync_wait_any(t, n, l, 1, 6, 3, 1, 0, 902, 900));
        waited("list", ntsync_wait_all(t, n, l, 1, 6, 3, 1, 0, 903, 900));
    }
}

fn signals(tables: &mut [u64]) {
    let mut wake = [0; WAKE_CELLS];
    let (t, n, k) = (tables.as_mut_ptr(), tables.len(), WAKE_CELLS);
    unsafe {
        changed("post", ntsync_post(t, n, wake.as_mut_ptr(), k, 1, 2), &wake);
        changed("expire", ntsync_expire(t, n, wake.as_mut_ptr(), k, 1, 999), &wake);
        changed("unlock", ntsync_unlock(t, n, wake.as_mut_ptr(), k, 2, 5), &wake);
        changed("kill_owner", ntsync_kill_owner(t, n, wake.as_mut_ptr(), k, 2, 5), &wake);
        changed("set", ntsync_set(t, n, wake.as_mut_ptr(), k, 3), &wake);
        changed("reset", ntsync_reset(t, n, 3), &wake);
        changed("pulse", ntsync_pulse(t, n, wake.as_mut_ptr(), k, 3), &wake);
        println!("cancel {}", ntsync_cancel(t, n, 3));
    }
}

fn restored(call: &str, r: Restored) {
    println!("{call} {} {}", r.answer, r.offset);
}

fn snapshots(tables: &[u64]) {
    let (mut other, mut buffer) = (vec![0; CELLS], vec![0; SNAPSHOT_BYTES]);
    let (o, b, n) = (other.as_mut_ptr(), buffer.as_mut_ptr(), tables.len());
    unsafe {
        let r = ntsync_snapshot(tables.as_ptr(), n, b, buffer.len());
        println!("snapshot {} {}", r.answer, r.length);
        print!("{}", String::from_utf8_lossy(&buffer[..r.length as usize]));
        restored("restore", ntsync_restore(o, n, b, r.length as usize));
        println!("as queued {}", ntsync_cancel(o, n, 2));
        restored("restore", ntsync_restore(o, n, b, r.length as usize - 1));
        println!("unaltered {}", ntsync_cancel(o, n, 2));
    }
}

fn main() {
    let mut tables = vec![0; CELLS];
    layouts();
    sizes();
    answers();
    objects(&mut tables);
    waits(&mut tables);
    signals(&mut tables);
    snapshots(&tables);
}
