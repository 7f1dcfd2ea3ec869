//! An archive of another version is refused by whatever makes or takes tables.

use crate::{CELLS, Tables, VERSION};
use std::cell::Cell;
use std::format;
use std::panic::{AssertUnwindSafe, catch_unwind};

std::thread_local! {
    static PRETENDED: Cell<Option<u32>> = const { Cell::new(None) };
}

/// The version that this thread's tests pretend to have linked, if they do.
pub fn pretended() -> Option<u32> {
    PRETENDED.get()
}

#[test]
fn versions_agree() {
    assert_eq!(crate::linked_version(), VERSION);
}

/// Not taken with a lower or a higher version, and the panic says which.
fn refused(mut make: impl FnMut()) {
    for other in [VERSION - 1, VERSION + 1] {
        PRETENDED.set(Some(other));
        let panic = catch_unwind(AssertUnwindSafe(&mut make)).expect_err("another version was taken");
        PRETENDED.set(None);
        let words = format!("libntsync.a has version {other}, this crate is for version {VERSION}");
        assert_eq!(panic.downcast_ref(), Some(&words));
    }
}

#[test]
fn another_version_makes_no_tables() {
    let mut cells = [0; CELLS];
    refused(|| _ = Tables::new());
    refused(|| _ = Tables::default());
    refused(|| _ = Tables::over(&mut cells));
    refused(|| _ = Tables::over_slice(&mut cells));
    refused(|| _ = Tables::view(&cells));
    refused(|| _ = Tables::restore(""));
    #[cfg(feature = "alloc")]
    {
        refused(|| _ = Tables::boxed());
        refused(|| _ = Tables::over_box(std::boxed::Box::new(cells)));
    }
}
