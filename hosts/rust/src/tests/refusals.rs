//! Each refusal, and that it alters nothing.

use super::{empty, queued, refused};
use crate::{CELLS, Clock, Handle, Now, Outcome, Owner, Refusal, SNAPSHOT_BYTES, Tables, Ticket, Wait};

const SEM: Handle = Handle(1);
const LOCK: Handle = Handle(2);
const EVENT: Handle = Handle(3);
const NONE: Handle = Handle(4);

/// A semaphore 1 of 3, a mutex of owner 5, an unset event.
fn three_objects() -> Tables {
    let (mut tables, _) = empty();
    assert_eq!(tables.create_sem(1, 3), Ok(SEM));
    assert_eq!(tables.create_mutex(Owner(5), 1), Ok(LOCK));
    assert_eq!(tables.create_event(false, false), Ok(EVENT));
    tables
}

#[test]
fn create_refuses_numbers_that_do_not_fit() {
    let (mut tables, _) = empty();
    refused(&mut tables, Refusal::Invalid, |t, _| t.create_sem(2, 1));
    refused(&mut tables, Refusal::Invalid, |t, _| t.create_sem(1, 0));
    refused(&mut tables, Refusal::Invalid, |t, _| t.create_mutex(Owner(5), 0));
    refused(&mut tables, Refusal::Invalid, |t, _| t.create_mutex(Owner::NOBODY, 1));
}

#[test]
fn a_semaphore_that_could_never_be_signaled_is_refused() {
    let (mut tables, mut wake) = empty();
    refused(&mut tables, Refusal::Invalid, |t, _| t.create_sem(0, 0));
    assert_eq!(tables.create_sem(0, 1), Ok(SEM));
    assert_eq!(tables.post(SEM, 1, &mut wake).unwrap().previous, 0);
    // A maximum of 0 in cells is corrupt: the fourth cell of the first object place.
    let mut cells = *empty().0.cells();
    cells[1] = 1;
    refused(Tables::over(&mut cells), Refusal::Corrupt, |t, _| t.read_sem(SEM));
    cells[4] = 1;
    assert!(Tables::over(&mut cells).read_sem(SEM).is_ok());
}

#[test]
fn no_handle_but_an_objects_is_taken() {
    let mut tables = three_objects();
    for handle in [Handle(0), NONE, Handle(512), Handle(513), Handle(u32::MAX)] {
        refused(&mut tables, Refusal::Invalid, |t, _| t.close(handle));
        refused(&mut tables, Refusal::Invalid, |t, _| t.wait_any(Wait::new(&[SEM, handle], Owner(7))));
        refused(&mut tables, Refusal::Invalid, |t, _| t.wait_all(Wait::new(&[SEM, handle], Owner(7))));
        every_kind(&mut tables, handle);
    }
}

#[test]
fn no_other_kind_is_taken() {
    let mut tables = three_objects();
    for handle in [SEM, LOCK, EVENT] {
        every_kind(&mut tables, handle);
    }
}

/// The calls for a kind refuse the handle, but for the kind of its own object.
fn every_kind(tables: &mut Tables, handle: Handle) {
    if handle != SEM {
        refused(tables, Refusal::Invalid, |t, _| t.read_sem(handle));
        refused(tables, Refusal::Invalid, |t, w| t.post(handle, 1, w).map(drop));
    }
    if handle != LOCK {
        refused(tables, Refusal::Invalid, |t, _| t.read_mutex(handle));
        refused(tables, Refusal::Invalid, |t, w| t.unlock(handle, Owner(5), w).map(drop));
        refused(tables, Refusal::Invalid, |t, w| t.kill_owner(handle, Owner(5), w).map(drop));
    }
    if handle != EVENT {
        refused(tables, Refusal::Invalid, |t, _| t.read_event(handle));
        refused(tables, Refusal::Invalid, |t, w| t.set(handle, w).map(drop));
        refused(tables, Refusal::Invalid, |t, _| t.reset(handle));
        refused(tables, Refusal::Invalid, |t, w| t.pulse(handle, w).map(drop));
    }
}

#[test]
fn owners_are_checked() {
    let mut tables = three_objects();
    for (owner, refusal) in [(Owner::NOBODY, Refusal::Invalid), (Owner(6), Refusal::NotOwner)] {
        refused(&mut tables, refusal, |t, w| t.unlock(LOCK, owner, w).map(drop));
        refused(&mut tables, refusal, |t, w| t.kill_owner(LOCK, owner, w).map(drop));
    }
}

#[test]
fn post_refuses_past_the_maximum() {
    let mut tables = three_objects();
    refused(&mut tables, Refusal::Overflow, |t, w| t.post(SEM, 3, w).map(drop));
    refused(&mut tables, Refusal::Overflow, |t, w| t.post(SEM, u32::MAX, w).map(drop));
}

#[test]
fn waits_refuse_bad_arguments() {
    let mut tables = three_objects();
    let good = Wait::new(&[SEM], Owner(7));
    let bad = [
        Wait { owner: Owner::NOBODY, ..good },
        good.alert(SEM),
        good.alert(LOCK),
        good.alert(NONE),
        good.alert(Handle(513)),
    ];
    for wait in bad {
        refused(&mut tables, Refusal::Invalid, |t, _| t.wait_any(wait));
        refused(&mut tables, Refusal::Invalid, |t, _| t.wait_any(Wait { list: &[], ..wait }));
        refused(&mut tables, Refusal::Invalid, |t, _| t.wait_all(wait));
    }
    refused(&mut tables, Refusal::Invalid, |t, _| t.wait_all(Wait { list: &[], ..good }));
    refused(&mut tables, Refusal::Invalid, |t, _| t.wait_all(Wait::new(&[SEM, EVENT, SEM], Owner(7))));
    refused(&mut tables, Refusal::Invalid, |t, _| t.wait_all(Wait::new(&[SEM, EVENT], Owner(7)).alert(EVENT)));
}

#[test]
fn cancel_refuses_what_is_not_queued() {
    let mut tables = three_objects();
    assert_eq!(tables.wait_any(Wait::new(&[EVENT], Owner(7))), queued(1));
    for ticket in [0, 2, u64::MAX] {
        refused(&mut tables, Refusal::Invalid, |t, _| t.cancel(Ticket(ticket)));
    }
}

#[test]
fn close_refuses_what_a_wait_names() {
    let mut tables = three_objects();
    let alert = tables.create_event(false, false).unwrap();
    assert_eq!(tables.wait_all(Wait::new(&[SEM, EVENT], Owner(7)).alert(alert)), queued(1));
    for handle in [SEM, EVENT, alert] {
        refused(&mut tables, Refusal::Busy, |t, _| t.close(handle));
    }
    assert_eq!(tables.close(LOCK), Ok(()));
    assert_eq!(tables.cancel(Ticket(1)), Ok(Outcome::Interrupted));
    assert_eq!(tables.close(SEM), Ok(()));
}

#[test]
fn corrupt_tables_are_refused_by_every_call() {
    let mut cells = *three_objects().cells();
    cells[CELLS - 1] = 1; // a list cell of a free wait place
    let t = Tables::over(&mut cells);
    refused(t, Refusal::Corrupt, |t, _| t.create_sem(1, 2));
    refused(t, Refusal::Corrupt, |t, _| t.create_mutex(Owner::NOBODY, 0));
    refused(t, Refusal::Corrupt, |t, _| t.create_event(true, true));
    refused(t, Refusal::Corrupt, |t, _| t.close(SEM));
    refused(t, Refusal::Corrupt, |t, _| t.read_sem(SEM));
    refused(t, Refusal::Corrupt, |t, _| t.read_mutex(LOCK));
    refused(t, Refusal::Corrupt, |t, _| t.read_event(EVENT));
    refused(t, Refusal::Corrupt, |t, w| t.post(SEM, 1, w).map(drop));
    refused(t, Refusal::Corrupt, |t, w| t.unlock(LOCK, Owner(5), w).map(drop));
    refused(t, Refusal::Corrupt, |t, w| t.kill_owner(LOCK, Owner(5), w).map(drop));
    refused(t, Refusal::Corrupt, |t, w| t.set(EVENT, w).map(drop));
    refused(t, Refusal::Corrupt, |t, _| t.reset(EVENT));
    refused(t, Refusal::Corrupt, |t, w| t.pulse(EVENT, w).map(drop));
    refused(t, Refusal::Corrupt, |t, _| t.wait_any(Wait::new(&[SEM], Owner(7))));
    refused(t, Refusal::Corrupt, |t, _| t.wait_all(Wait::new(&[SEM], Owner(7))));
    refused(t, Refusal::Corrupt, |t, w| t.expire(Clock::Monotonic, Now(0), w).map(drop));
    refused(t, Refusal::Corrupt, |t, _| t.cancel(Ticket(1)));
    refused(t, Refusal::Corrupt, |t, _| t.snapshot(&mut [0; SNAPSHOT_BYTES]).map(drop));
}
