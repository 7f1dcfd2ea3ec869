//! What the safe calls can't ask: other lengths than theirs, flags, pads and clocks that are none. Nothing may be altered.

use crate::ffi::{self, CORRUPT, EINVAL, LIST_SHORT};
use std::vec;
use std::vec::Vec;

/// In every cell and byte that must be left.
const UNTOUCHED: u64 = 77;

fn made() -> Vec<u64> {
    let mut cells = vec![0; ffi::CELLS];
    // SAFETY: the cells are lent with their number.
    assert_eq!(unsafe { ffi::ntsync_init(cells.as_mut_ptr(), cells.len()) }, 0);
    cells
}

#[test]
fn init_takes_its_own_length_only() {
    for length in [0, 1, ffi::CELLS - 1, ffi::CELLS + 1] {
        let mut cells = vec![UNTOUCHED; length];
        // SAFETY: the cells are lent with their number.
        assert_eq!(unsafe { ffi::ntsync_init(cells.as_mut_ptr(), length) }, CORRUPT);
        assert_eq!(cells, vec![UNTOUCHED; length]);
    }
}

#[test]
fn a_short_wake_list_is_refused_before_a_bad_argument() {
    let before = made();
    for length in [0, 95] {
        let (mut cells, mut wake) = (before.clone(), vec![UNTOUCHED; length]);
        let (c, w) = (cells.as_mut_ptr(), wake.as_mut_ptr());
        // SAFETY, for all six: cells and wake list are apart and lent with their numbers.
        #[expect(clippy::multiple_unsafe_ops_per_block, clippy::undocumented_unsafe_blocks)]
        let answers = unsafe {
            [
                ffi::ntsync_post(c, ffi::CELLS, w, length, 1, 1).answer,
                ffi::ntsync_unlock(c, ffi::CELLS, w, length, 1, 1).answer,
                ffi::ntsync_kill_owner(c, ffi::CELLS, w, length, 1, 1).answer,
                ffi::ntsync_set(c, ffi::CELLS, w, length, 1).answer,
                ffi::ntsync_pulse(c, ffi::CELLS, w, length, 1).answer,
                ffi::ntsync_expire(c, ffi::CELLS, w, length, 2, 0).answer,
            ]
        };
        assert_eq!(answers, [LIST_SHORT; 6]);
        assert_eq!(cells, before);
        assert_eq!(wake, vec![UNTOUCHED; length]);
    }
}

#[test]
fn an_unknown_clock_is_refused() {
    let (mut cells, mut wake) = (made(), [UNTOUCHED; ffi::WAKE_CELLS]);
    for clock in [2, u32::MAX] {
        // SAFETY: cells and wake list are apart and lent with their numbers.
        let r = unsafe { ffi::ntsync_expire(cells.as_mut_ptr(), cells.len(), wake.as_mut_ptr(), wake.len(), clock, 0) };
        assert_eq!((r.answer, r.previous, r.woken), (EINVAL, 0, 0));
    }
    assert_eq!(cells, made());
    assert_eq!(wake, [UNTOUCHED; ffi::WAKE_CELLS]);
}

#[test]
fn unknown_flags_and_pads_are_refused() {
    let (mut cells, list) = (made(), [1]);
    // SAFETY: the cells are lent with their number.
    let created = unsafe { ffi::ntsync_create_event(cells.as_mut_ptr(), cells.len(), 1, 1) };
    assert_eq!((created.answer, created.handle), (0, list[0]));
    let before = cells.clone();
    for wait in [ffi::ntsync_wait_any, ffi::ntsync_wait_all] {
        for (flags, pad) in [(2, 0), (u32::MAX, 0), (0, 1)] {
            // SAFETY: cells and list are apart and lent with their numbers.
            let r = unsafe { wait(cells.as_mut_ptr(), cells.len(), list.as_ptr(), 1, 7, 0, flags, pad, 1, 0) };
            assert_eq!((r.answer, r.index, r.ticket), (EINVAL, 0, 0));
        }
    }
    assert_eq!(cells, before);
}

#[test]
fn a_short_buffer_is_refused_and_a_long_one_keeps_its_rest() {
    let cells = made();
    let mut buffer = vec![UNTOUCHED as u8; ffi::SNAPSHOT_BYTES + 1];
    // SAFETY: cells and buffer are apart and lent with their numbers, or with fewer.
    let short =
        unsafe { ffi::ntsync_snapshot(cells.as_ptr(), cells.len(), buffer.as_mut_ptr(), ffi::SNAPSHOT_BYTES - 1) };
    assert_eq!((short.answer, short.length), (LIST_SHORT, 0));
    assert!(buffer.iter().all(|&b| b == UNTOUCHED as u8));
    // SAFETY: as above.
    let r = unsafe { ffi::ntsync_snapshot(cells.as_ptr(), cells.len(), buffer.as_mut_ptr(), buffer.len()) };
    assert_eq!((r.answer, r.length), (0, 34));
    assert_eq!(&buffer[..34], b"next=1\nobjects=0\nwaits=0\nsum=2103\n");
    assert!(buffer[34..].iter().all(|&b| b == UNTOUCHED as u8));
}

#[test]
fn restore_takes_its_own_length_only_and_looks_at_that_before_the_text() {
    for text in [&b"next=1\nobjects=0\nwaits=0\nsum=2103\n"[..], b"next=1\n", b""] {
        for length in [0, 1, ffi::CELLS - 1, ffi::CELLS + 1] {
            let mut cells = vec![UNTOUCHED; length];
            // SAFETY: cells and text are apart and lent with their numbers.
            let r = unsafe { ffi::ntsync_restore(cells.as_mut_ptr(), length, text.as_ptr(), text.len()) };
            assert_eq!((r.answer, r.offset), (CORRUPT, 0));
            assert_eq!(cells, vec![UNTOUCHED; length]);
        }
    }
}
