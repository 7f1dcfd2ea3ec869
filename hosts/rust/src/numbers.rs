//! The host's and the library's numbers, each with a type of its own, so that none is passed for another.

use crate::ffi;
use core::fmt;

macro_rules! numbers {
    ($($(#[$doc:meta])* $name:ident($number:ty);)*) => {
        $($(#[$doc])*
        #[derive(Clone, Copy, Debug, PartialEq, Eq, PartialOrd, Ord, Hash)]
        #[repr(transparent)]
        pub struct $name(pub $number);

        impl fmt::Display for $name {
            fn fmt(&self, f: &mut fmt::Formatter<'_>) -> fmt::Result {
                self.0.fmt(f)
            }
        })*
    };
}

numbers! {
    /// An object: 1 to [`OBJECT_PLACES`](crate::OBJECT_PLACES). Any other number is refused, and never unsafe. The handle
    /// of a closed object is given again.
    #[must_use = "an object whose handle is lost can't be closed"]
    Handle(u32);

    /// Who may hold a mutex: the host's own number for a task, not 0.
    Owner(u32);

    /// A queued wait. It is not given again until [`Tables::init`](crate::Tables::init), or until a snapshot from before it
    /// is restored.
    #[must_use = "a wait whose ticket is lost can be neither cancelled nor told to its task"]
    Ticket(u64);

    /// When a wait's time is up: a time of its clock (not a span), in the host's unit.
    Deadline(u64);

    /// What a clock shows as the call is made, in the unit of the deadlines.
    Now(u64);
}

impl Owner {
    /// The owner of an unowned mutex.
    pub const NOBODY: Owner = Owner(0);
}

impl Deadline {
    /// No time reaches it, not even the same number.
    pub const NEVER: Deadline = Deadline(ffi::NEVER);
}

/// The two clocks. The library reads neither: the host tells the time.
#[derive(Clone, Copy, Debug, PartialEq, Eq, Hash)]
#[repr(u32)]
pub enum Clock {
    /// The monotonic clock.
    Monotonic = ffi::MONOTONIC,
    /// The real-time clock, which may be set back.
    RealTime = ffi::REALTIME,
}
