//! Tables and text on the heap: the feature `alloc`.

use crate::ffi::{CELLS, SNAPSHOT_BYTES};
use crate::{Refusal, Tables};
use alloc::boxed::Box;
use alloc::string::String;
use alloc::vec;

impl Tables {
    /// Empty tables in a box. They are made there: the stack never has to hold their 34 KiB.
    ///
    /// # Panics
    ///
    /// If the linked archive has another version than this crate.
    ///
    /// ```
    /// use ntsync::Tables;
    /// assert_eq!(*Tables::boxed(), Tables::new());
    /// ```
    #[must_use]
    pub fn boxed() -> Box<Tables> {
        let cells = vec![0; CELLS].into_boxed_slice().try_into().expect("a box of that many cells");
        let mut tables = Tables::over_box(cells);
        tables.init();
        tables
    }

    /// Cells in a box as tables, as they stand, like [`Tables::over`].
    ///
    /// # Panics
    ///
    /// If the linked archive has another version than this crate.
    ///
    /// ```
    /// use ntsync::Tables;
    /// let tables = Tables::new();
    /// let saved = Box::new(*tables.cells());
    /// assert_eq!(*Tables::over_box(saved), tables);
    /// ```
    #[must_use]
    pub fn over_box(mut cells: Box<[u64; CELLS]>) -> Box<Tables> {
        let _ = Tables::over(&mut cells); // compares the versions
        // SAFETY: Tables is these cells alone (repr(transparent)), so the box has its size and alignment.
        unsafe { Box::from_raw(Box::into_raw(cells).cast()) }
    }

    /// [`Tables::snapshot`] as a string of its own.
    ///
    /// # Errors
    ///
    /// [`Refusal::Corrupt`].
    ///
    /// ```
    /// assert_eq!(ntsync::Tables::new().snapshot_string()?, "next=1\nobjects=0\nwaits=0\nsum=2103\n");
    /// # Ok::<(), ntsync::Refusal>(())
    /// ```
    pub fn snapshot_string(&self) -> Result<String, Refusal> {
        self.snapshot(&mut vec![0; SNAPSHOT_BYTES]).map(String::from)
    }
}
