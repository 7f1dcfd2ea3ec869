#![doc = include_str!("../README.md")]
#![no_std]

#[cfg(feature = "alloc")]
extern crate alloc;
#[cfg(test)]
extern crate std;

mod ffi;
mod numbers;
#[cfg(feature = "alloc")]
mod owned;
mod refusal;
mod results;
mod tables;
mod wait;

#[cfg(test)]
mod tests;

/// The program of the repository's README, run as a documentation test.
#[cfg(doctest)]
#[doc = include_str!("../../../README.md")]
struct Readme;

/// The program of the how-to about saving, run as a documentation test.
#[cfg(doctest)]
#[doc = include_str!("../../../docs/howto/saving.md")]
struct Saving;

pub use ffi::{CELLS, MAX_LISTED, OBJECT_PLACES, SNAPSHOT_BYTES, VERSION, WAIT_PLACES};
pub use numbers::{Clock, Deadline, Handle, Now, Owner, Ticket};
pub use refusal::{Refusal, Refused};
pub use results::{Changed, EventState, MutexState, Outcome, SemState, Waited, WakeList, Woken, WokenIter, WokenWaits};
pub use tables::Tables;
pub use wait::Wait;

/// The version that the linked archive was built for. Whatever makes [`Tables`] compares it with [`VERSION`].
///
/// ```
/// assert_eq!(ntsync::linked_version(), ntsync::VERSION);
/// ```
#[must_use]
pub fn linked_version() -> u32 {
    #[cfg(test)]
    if let Some(other) = tests::version::pretended() {
        return other;
    }
    // SAFETY: it takes nothing and reads nothing.
    unsafe { ffi::ntsync_version() }
}
