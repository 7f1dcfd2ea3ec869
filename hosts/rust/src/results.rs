//! What the calls hand back: objects as they stand, waits, and the wake list.

use crate::Refusal;
use crate::ffi;
use crate::numbers::{Owner, Ticket};
use crate::refusal::refused;
use core::fmt;
use core::slice::ChunksExact;

/// A semaphore as it stands.
#[derive(Clone, Copy, Debug, PartialEq, Eq)]
pub struct SemState {
    /// How many waits it can serve now.
    pub count: u32,
    /// What the count may rise to.
    pub max: u32,
}

/// A mutex as it stands.
#[derive(Clone, Copy, Debug, PartialEq, Eq)]
pub struct MutexState {
    /// Who holds it, or [`Owner::NOBODY`].
    pub owner: Owner,
    /// How many times the owner holds it.
    pub count: u32,
    /// Whether its last owner died holding it, and nobody acquired it since.
    pub abandoned: bool,
}

/// An event as it stands.
#[derive(Clone, Copy, Debug, PartialEq, Eq)]
pub struct EventState {
    /// Whether it is signaled.
    pub signaled: bool,
    /// Whether it stays signaled when a wait acquires it.
    pub manual: bool,
}

/// How a wait ended: what the host must tell its task.
#[derive(Clone, Copy, Debug, PartialEq, Eq)]
#[must_use = "the task must be told how its wait ended"]
pub enum Outcome {
    /// It holds what it waited for.
    Served {
        /// The place in the list of the object that served it, 0 for a wait for all; the list's length for the alert,
        /// so 0 where the list is empty.
        index: usize,
        /// EOWNERDEAD: an acquired mutex had been abandoned, so what it guards may be half written.
        owner_dead: bool,
    },
    /// ETIMEDOUT: its time was up, and no object was altered.
    TimedOut,
    /// EINTR: it was cancelled, and no object was altered.
    Interrupted,
}

impl Outcome {
    /// By answer and index, at once or in a record.
    pub(crate) fn new(answer: u32, index: usize) -> Result<Outcome, Refusal> {
        match answer {
            ffi::DONE | ffi::EOWNERDEAD => Ok(Outcome::Served { index, owner_dead: answer == ffi::EOWNERDEAD }),
            ffi::ETIMEDOUT => Ok(Outcome::TimedOut),
            ffi::EINTR => Ok(Outcome::Interrupted),
            other => Err(refused(other)),
        }
    }
}

/// What a wait came to when it was not refused. Dropping it, and a ticket with it, is a warning, here made an error:
///
/// ```compile_fail
/// #![deny(unused_must_use)]
/// fn lost(tables: &mut ntsync::Tables, wait: ntsync::Wait) -> Result<(), ntsync::Refusal> {
///     tables.wait_any(wait)?;
///     Ok(())
/// }
/// ```
#[derive(Clone, Copy, Debug, PartialEq, Eq)]
#[must_use = "a wait that was queued has a ticket, and one that was served holds its objects"]
pub enum Waited {
    /// It is over: served, or its time was up.
    Over(Outcome),
    /// Queued: the call that wakes or expires the wait hands back this ticket.
    Queued(Ticket),
}

/// Room for the waits that one call ends, to be lent to it. A call writes over what an earlier one left.
#[derive(Clone, Debug, PartialEq, Eq)]
pub struct WakeList {
    pub(crate) cells: [u64; ffi::WAKE_CELLS],
}

impl WakeList {
    /// An empty list.
    #[must_use]
    pub const fn new() -> WakeList {
        WakeList { cells: [0; ffi::WAKE_CELLS] }
    }

    /// The records that a call left at the front.
    pub(crate) fn woken(&self, records: u32) -> WokenWaits<'_> {
        WokenWaits { cells: &self.cells[..ffi::RECORD_CELLS * records as usize] }
    }
}

impl Default for WakeList {
    fn default() -> WakeList {
        WakeList::new()
    }
}

/// A queued wait that a call ended.
#[derive(Clone, Copy, Debug, PartialEq, Eq)]
#[must_use = "its task must be told how its wait ended"]
pub struct Woken {
    /// Which wait.
    pub ticket: Ticket,
    /// How it ended.
    pub outcome: Outcome,
}

/// The waits that a call ended, lowest ticket first. Served ones hold what they acquired already.
#[derive(Clone, Copy, PartialEq, Eq)]
#[must_use = "these waits are over: each one's task must be told"]
pub struct WokenWaits<'w> {
    cells: &'w [u64],
}

impl<'w> WokenWaits<'w> {
    /// How many there are.
    #[must_use]
    pub fn len(&self) -> usize {
        self.cells.len() / ffi::RECORD_CELLS
    }

    /// Whether the call ended none.
    #[must_use]
    pub fn is_empty(&self) -> bool {
        self.cells.is_empty()
    }

    /// One by one, lowest ticket first.
    pub fn iter(&self) -> WokenIter<'w> {
        WokenIter { records: self.cells.chunks_exact(ffi::RECORD_CELLS) }
    }
}

impl fmt::Debug for WokenWaits<'_> {
    fn fmt(&self, f: &mut fmt::Formatter<'_>) -> fmt::Result {
        f.debug_list().entries(self).finish()
    }
}

impl<'w> IntoIterator for WokenWaits<'w> {
    type Item = Woken;
    type IntoIter = WokenIter<'w>;

    fn into_iter(self) -> WokenIter<'w> {
        self.iter()
    }
}

impl<'w> IntoIterator for &WokenWaits<'w> {
    type Item = Woken;
    type IntoIter = WokenIter<'w>;

    fn into_iter(self) -> WokenIter<'w> {
        self.iter()
    }
}

/// The walk over [`WokenWaits`].
#[derive(Clone, Debug)]
#[must_use = "each woken task must be told how its wait ended"]
pub struct WokenIter<'w> {
    records: ChunksExact<'w, u64>,
}

impl Iterator for WokenIter<'_> {
    type Item = Woken;

    fn next(&mut self) -> Option<Woken> {
        let record = self.records.next()?;
        let [ticket, answer, index] = [0, 1, 2].map(|cell| record[cell]);
        let outcome = Outcome::new(answer as u32, index as usize).expect("a record is of a wait that is over");
        Some(Woken { ticket: Ticket(ticket), outcome })
    }

    fn size_hint(&self) -> (usize, Option<usize>) {
        self.records.size_hint()
    }
}

impl ExactSizeIterator for WokenIter<'_> {}

/// What a call changed in an object, with the waits that it woke by that.
#[derive(Clone, Copy, Debug, PartialEq, Eq)]
#[must_use = "its woken waits are over: each one's task must be told"]
pub struct Changed<'w, Before> {
    /// The count before, or whether the event was signaled.
    pub previous: Before,
    /// The waits that were served.
    pub woken: WokenWaits<'w>,
}
