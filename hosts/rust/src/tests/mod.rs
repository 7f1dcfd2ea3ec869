//! Every call and every refusal, through the safe calls; what those can't ask is asked of the archive directly.

mod calls;
mod lengths;
mod lent;
mod limits;
mod readings;
mod refusals;
mod restoring;
pub mod version;

use crate::{Changed, Handle, Outcome, Owner, Refusal, Tables, Ticket, Wait, Waited, WakeList, WokenWaits};
use std::vec::Vec;

const SERVED: Result<Waited, Refusal> = served(0);

const fn served(index: usize) -> Result<Waited, Refusal> {
    Ok(Waited::Over(Outcome::Served { index, owner_dead: false }))
}

const fn queued(ticket: u64) -> Result<Waited, Refusal> {
    Ok(Waited::Queued(Ticket(ticket)))
}

/// A record of a wait that was served.
const fn woken(ticket: u64, index: usize) -> (u64, Outcome) {
    (ticket, Outcome::Served { index, owner_dead: false })
}

/// Ticket and outcome of each woken wait.
fn records(woken: WokenWaits<'_>) -> Vec<(u64, Outcome)> {
    woken.iter().map(|w| (w.ticket.0, w.outcome)).collect()
}

/// What was before, and the records.
fn change<Before>(changed: Changed<'_, Before>) -> (Before, Vec<(u64, Outcome)>) {
    (changed.previous, records(changed.woken))
}

/// Empty tables and a wake list.
fn empty() -> (Tables, WakeList) {
    (Tables::new(), WakeList::new())
}

/// Owner 7 and 8 are queued on the object for good, tickets 1 and 2.
fn two_waits(tables: &mut Tables, object: Handle) {
    assert_eq!(tables.wait_any(Wait::new(&[object], Owner(7))), queued(1));
    assert_eq!(tables.wait_any(Wait::new(&[object], Owner(8))), queued(2));
}

/// The call is refused so, and no cell of the tables or the wake list is altered.
fn refused<T>(
    tables: &mut Tables,
    refusal: Refusal,
    call: impl FnOnce(&mut Tables, &mut WakeList) -> Result<T, Refusal>,
) {
    let before = tables.clone();
    let mut wake = WakeList { cells: [77; crate::ffi::WAKE_CELLS] };
    match call(tables, &mut wake) {
        Ok(_) => panic!("not refused; {refusal} was due"),
        Err(got) => assert_eq!(got, refusal),
    }
    assert!(tables.cells() == before.cells(), "a refusal altered the tables");
    assert!(wake.cells.iter().all(|&cell| cell == 77), "a refusal altered the wake list");
}
