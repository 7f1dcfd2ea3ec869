//! The arguments of a wait.

use crate::numbers::{Clock, Deadline, Handle, Now, Owner};

/// A wait, by names: [`Wait::new`] has no alert and no end.
///
/// ```
/// use ntsync::{Clock, Deadline, Handle, Now, Owner, Wait};
/// let wait = Wait::new(&[Handle(1), Handle(2)], Owner(7))
///     .alert(Handle(3))
///     .until(Clock::RealTime, Deadline(500), Now(400));
/// assert_eq!((wait.alert, wait.deadline), (Some(Handle(3)), Deadline(500)));
/// ```
///
/// A wait for any of no objects is a sleep: its alert, its deadline or [`Tables::cancel`](crate::Tables::cancel) ends it.
///
/// ```
/// use ntsync::{Clock, Deadline, Now, Outcome, Owner, Refusal, Tables, Ticket, Wait, Waited, WakeList, Woken};
/// let (mut tables, mut wake) = (Tables::new(), WakeList::new());
/// let sleep = Wait::new(&[], Owner(7)).until(Clock::Monotonic, Deadline(500), Now(400));
/// assert_eq!(tables.wait_any(sleep)?, Waited::Queued(Ticket(1)));
/// let ended: Vec<Woken> = tables.expire(Clock::Monotonic, Now(500), &mut wake)?.iter().collect();
/// assert_eq!(ended, [Woken { ticket: Ticket(1), outcome: Outcome::TimedOut }]);
/// # Ok::<(), Refusal>(())
/// ```
///
/// Deadline and present time can't be exchanged:
///
/// ```compile_fail,E0308
/// # use ntsync::{Clock, Deadline, Handle, Now, Owner, Wait};
/// let wait = Wait::new(&[Handle(1)], Owner(7)).until(Clock::RealTime, Now(400), Deadline(500));
/// ```
///
/// A copy that is dropped is a warning, here made an error:
///
/// ```compile_fail
/// #![deny(unused_must_use)]
/// fn lost(wait: ntsync::Wait, event: ntsync::Handle) {
///     wait.alert(event);
/// }
/// ```
#[derive(Clone, Copy, Debug, PartialEq, Eq)]
#[must_use = "a wait is asked for by wait_any or wait_all; each method here hands back a changed copy"]
pub struct Wait<'a> {
    /// 0 to 64 handles; for a wait for all 1 to 64, none twice.
    pub list: &'a [Handle],
    /// Who waits, not 0; it owns the mutexes that the wait acquires.
    pub owner: Owner,
    /// An event that ends the wait if the list can't. A handle of 0 is none.
    pub alert: Option<Handle>,
    /// The clock of the two times.
    pub clock: Clock,
    /// When the wait's time is up.
    pub deadline: Deadline,
    /// What its clock shows now. A deadline that is not later makes a poll, which is never queued.
    pub now: Now,
}

impl<'a> Wait<'a> {
    /// A wait without alert that never times out: over no objects, it can only be cancelled.
    pub const fn new(list: &'a [Handle], owner: Owner) -> Wait<'a> {
        Wait { list, owner, alert: None, clock: Clock::Monotonic, deadline: Deadline::NEVER, now: Now(0) }
    }

    /// The same with that event as its alert.
    pub const fn alert(self, event: Handle) -> Wait<'a> {
        Wait { alert: Some(event), ..self }
    }

    /// The same on that clock, which shows `now`, ending at `deadline`.
    pub const fn until(self, clock: Clock, deadline: Deadline, now: Now) -> Wait<'a> {
        Wait { clock, deadline, now, ..self }
    }
}
