//! The sizes of the tables, and the last ticket.

use super::{SERVED, empty, queued, records, refused, woken};
use crate::{
    Clock, Deadline, Handle, MAX_LISTED, Now, OBJECT_PLACES, Outcome, Owner, Refusal, Tables, WAIT_PLACES, Wait,
    Waited, WakeList,
};
use std::vec::Vec;

const LAST: Handle = Handle(OBJECT_PLACES as u32);

fn full_of_semaphores() -> (Tables, Vec<Handle>) {
    let (mut tables, _) = empty();
    let handles = (1..=LAST.0).map(|_| tables.create_sem(0, 1).unwrap()).collect();
    (tables, handles)
}

#[test]
fn object_places_run_out() {
    let (mut tables, handles) = full_of_semaphores();
    assert_eq!(handles, (1..=LAST.0).map(Handle).collect::<Vec<_>>());
    refused(&mut tables, Refusal::NoRoom, |t, _| t.create_sem(0, 1));
    refused(&mut tables, Refusal::NoRoom, |t, _| t.create_mutex(Owner::NOBODY, 0));
    refused(&mut tables, Refusal::NoRoom, |t, _| t.create_event(false, false));
    refused(&mut tables, Refusal::Invalid, |t, _| t.create_sem(2, 1));
    refused(&mut tables, Refusal::Invalid, |t, _| t.create_sem(0, 0));
    assert_eq!(tables.post(LAST, 1, &mut WakeList::new()).unwrap().previous, 0);
}

#[test]
fn handles_above_128_are_as_good_as_any() {
    let (mut tables, handles) = full_of_semaphores();
    let mut wake = WakeList::default();
    let [first, far] = [Handle(129), Handle(257)];
    tables.close(first).unwrap();
    assert_eq!(tables.create_event(false, false), Ok(first));
    assert_eq!(tables.wait_all(Wait::new(&[LAST, far], Owner(7))), queued(1));
    assert_eq!(tables.wait_any(Wait::new(&[handles[0]], Owner(8)).alert(first)), queued(2));
    assert!(records(tables.post(far, 1, &mut wake).unwrap().woken).is_empty());
    assert_eq!(records(tables.post(LAST, 1, &mut wake).unwrap().woken), [woken(1, 0)]);
    assert_eq!(records(tables.set(first, &mut wake).unwrap().woken), [woken(2, 1)]);
}

#[test]
fn a_list_has_64_handles_at_most() {
    let (mut tables, handles) = full_of_semaphores();
    let longest = Wait::new(&handles[..MAX_LISTED], Owner(7));
    let longer = Wait::new(&handles[..=MAX_LISTED], Owner(7));
    assert_eq!(tables.wait_all(longest), queued(1));
    assert_eq!(tables.wait_any(longest), queued(2));
    refused(&mut tables, Refusal::Invalid, |t, _| t.wait_all(longer));
    refused(&mut tables, Refusal::Invalid, |t, _| t.wait_any(longer));
    let mut wake = WakeList::default();
    let posted = tables.post(handles[MAX_LISTED - 1], 1, &mut wake).unwrap();
    assert_eq!(records(posted.woken), [woken(2, MAX_LISTED - 1)]);
}

#[test]
fn wait_places_run_out() {
    let (mut tables, mut wake) = empty();
    let (event, sem) = ([tables.create_event(false, true).unwrap()], [tables.create_sem(1, 1).unwrap()]);
    let wait = Wait::new(&event, Owner(7));
    for ticket in 1..=WAIT_PLACES as u64 {
        assert_eq!(tables.wait_any(wait), queued(ticket));
    }
    refused(&mut tables, Refusal::NoRoom, |t, _| t.wait_any(wait));
    refused(&mut tables, Refusal::NoRoom, |t, _| t.wait_all(wait));
    // A full queue refuses neither what can be served nor what times out.
    let other = Wait::new(&sem, Owner(7));
    assert_eq!(tables.wait_any(other), SERVED);
    let poll = other.until(Clock::Monotonic, Deadline(1), Now(1));
    assert_eq!(tables.wait_any(poll), Ok(Waited::Over(Outcome::TimedOut)));
    let all: Vec<_> = (1..=WAIT_PLACES as u64).map(|ticket| woken(ticket, 0)).collect();
    assert_eq!(records(tables.set(event[0], &mut wake).unwrap().woken), all);
}

#[test]
fn tickets_run_out() {
    let (mut tables, mut wake) = empty();
    let event = [tables.create_event(false, false).unwrap()];
    let mut cells = *tables.cells();
    cells[0] = u64::MAX - 1; // the next ticket
    let tables = Tables::over(&mut cells);
    let wait = Wait::new(&event, Owner(7));
    assert_eq!(tables.wait_any(wait), queued(u64::MAX - 1));
    refused(tables, Refusal::TicketsSpent, |t, _| t.wait_any(wait));
    refused(tables, Refusal::TicketsSpent, |t, _| t.wait_all(wait));
    assert_eq!(records(tables.set(event[0], &mut wake).unwrap().woken), [woken(u64::MAX - 1, 0)]);
}
