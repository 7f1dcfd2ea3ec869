//! Each call where it takes effect.

use super::{SERVED, change, empty, queued, records, served, two_waits, woken};
use crate::{
    CELLS, Clock, Deadline, EventState, Handle, MutexState, Now, Outcome, Owner, SemState, Tables, Ticket, Wait, Waited,
};
use std::vec;

const fn held(owner: u32, count: u32) -> MutexState {
    MutexState { owner: Owner(owner), count, abandoned: false }
}

#[test]
fn new_tables_are_empty() {
    let tables = Tables::default();
    assert_eq!(tables.cells()[0], 1);
    assert!(tables.cells()[1..].iter().all(|&c| c == 0));
}

#[test]
fn init_forgets() {
    let mut cells = [9; CELLS];
    let tables = Tables::over(&mut cells);
    tables.init();
    assert_eq!(*tables, Tables::new());
}

#[test]
fn objects_are_read_as_created() {
    let (mut tables, _) = empty();
    assert_eq!(tables.create_sem(1, 2), Ok(Handle(1)));
    assert_eq!(tables.create_mutex(Owner(5), 3), Ok(Handle(2)));
    assert_eq!(tables.create_event(true, false), Ok(Handle(3)));
    assert_eq!(tables.create_event(false, true), Ok(Handle(4)));
    assert_eq!(tables.read_sem(Handle(1)), Ok(SemState { count: 1, max: 2 }));
    assert_eq!(tables.read_mutex(Handle(2)), Ok(held(5, 3)));
    assert_eq!(tables.read_event(Handle(3)), Ok(EventState { signaled: true, manual: false }));
    assert_eq!(tables.read_event(Handle(4)), Ok(EventState { signaled: false, manual: true }));
}

#[test]
fn a_closed_handle_is_given_again() {
    let (mut tables, _) = empty();
    let [first, second] = [0; 2].map(|_| tables.create_sem(1, 2).unwrap());
    assert_ne!(first, second);
    assert_eq!(tables.close(first), Ok(()));
    assert_eq!(tables.create_mutex(Owner::NOBODY, 0), Ok(first));
}

#[test]
fn post_wakes_by_ticket() {
    let (mut tables, mut wake) = empty();
    let sem = tables.create_sem(0, 3).unwrap();
    two_waits(&mut tables, sem);
    assert_eq!(tables.post(sem, 3, &mut wake).map(change), Ok((0, vec![woken(1, 0), woken(2, 0)])));
    assert_eq!(tables.read_sem(sem).unwrap().count, 1);
    assert_eq!(tables.post(sem, 0, &mut wake).map(change), Ok((1, vec![])));
}

#[test]
fn unlock_wakes_at_zero() {
    let (mut tables, mut wake) = empty();
    let lock = tables.create_mutex(Owner(5), 2).unwrap();
    two_waits(&mut tables, lock);
    assert_eq!(tables.unlock(lock, Owner(5), &mut wake).map(change), Ok((2, vec![])));
    assert_eq!(tables.unlock(lock, Owner(5), &mut wake).map(change), Ok((1, vec![woken(1, 0)])));
    assert_eq!(tables.read_mutex(lock), Ok(held(7, 1)));
}

#[test]
fn a_killed_owner_abandons() {
    let (mut tables, mut wake) = empty();
    let lock = tables.create_mutex(Owner(5), 2).unwrap();
    assert!(tables.kill_owner(lock, Owner(5), &mut wake).unwrap().is_empty());
    assert_eq!(tables.read_mutex(lock), Ok(MutexState { owner: Owner::NOBODY, count: 0, abandoned: true }));
    let dead = Outcome::Served { index: 0, owner_dead: true };
    assert_eq!(tables.wait_all(Wait::new(&[lock], Owner(7))), Ok(Waited::Over(dead)));
    assert_eq!(tables.read_mutex(lock), Ok(held(7, 1)));
}

#[test]
fn set_and_reset_tell_the_state_before() {
    let (mut tables, mut wake) = empty();
    let event = tables.create_event(false, true).unwrap();
    two_waits(&mut tables, event);
    assert_eq!(tables.set(event, &mut wake).map(change), Ok((false, vec![woken(1, 0), woken(2, 0)])));
    assert_eq!(tables.set(event, &mut wake).map(change), Ok((true, vec![])));
    assert_eq!(tables.reset(event), Ok(true));
    assert_eq!(tables.reset(event), Ok(false));
    assert_eq!(tables.pulse(event, &mut wake).map(change), Ok((false, vec![])));
}

#[test]
fn woken_waits_are_counted_and_walked() {
    let (mut tables, mut wake) = empty();
    let event = tables.create_event(false, true).unwrap();
    two_waits(&mut tables, event);
    let both = tables.set(event, &mut wake).unwrap().woken;
    assert_eq!((both.len(), both.is_empty(), both.iter().len()), (2, false, 2));
    assert_eq!(both.into_iter().map(|wait| wait.ticket).collect::<vec::Vec<_>>(), [Ticket(1), Ticket(2)]);
    let first = "Woken { ticket: Ticket(1), outcome: Served { index: 0, owner_dead: false } }";
    assert_eq!(std::format!("{both:?}"), std::format!("[{first}, {}]", first.replace("(1)", "(2)")));
}

#[test]
fn a_wait_for_any_takes_the_lowest_index() {
    let (mut tables, _) = empty();
    let unset = tables.create_event(false, false).unwrap();
    let sem = tables.create_sem(2, 2).unwrap();
    assert_eq!(tables.wait_any(Wait::new(&[unset, sem, sem], Owner(7))), served(1));
    assert_eq!(tables.read_sem(sem).unwrap().count, 1);
}

#[test]
fn a_wait_for_all_takes_all_or_nothing() {
    let (mut tables, mut wake) = empty();
    let sem = tables.create_sem(1, 1).unwrap();
    let event = tables.create_event(false, false).unwrap();
    assert_eq!(tables.wait_all(Wait::new(&[sem, event], Owner(7))), queued(1));
    assert_eq!(tables.wait_all(Wait::new(&[sem], Owner(8))), SERVED);
    assert_eq!(tables.set(event, &mut wake).map(change), Ok((false, vec![])));
    assert_eq!(tables.post(sem, 1, &mut wake).map(change), Ok((0, vec![woken(1, 0)])));
    assert_eq!(tables.read_event(event), Ok(EventState { signaled: false, manual: false }));
}

#[test]
fn an_alert_ends_a_wait_behind_the_list() {
    let (mut tables, mut wake) = empty();
    let list = [0; 2].map(|_| tables.create_sem(0, 1).unwrap());
    let alert = tables.create_event(false, false).unwrap();
    let wait = Wait::new(&list, Owner(7)).alert(alert);
    assert_eq!(tables.wait_all(wait), queued(1));
    assert_eq!(tables.set(alert, &mut wake).map(change), Ok((false, vec![woken(1, 2)])));
    assert_eq!(tables.set(alert, &mut wake).map(change), Ok((false, vec![])));
    assert_eq!(tables.wait_any(wait), served(2));
    assert_eq!(tables.reset(alert), Ok(false));
}

#[test]
fn a_wait_for_none_sleeps() {
    let (mut tables, mut wake) = empty();
    let alert = tables.create_event(false, false).unwrap();
    let sleep = Wait::new(&[], Owner(7));
    let until = |deadline| sleep.until(Clock::Monotonic, Deadline(deadline), Now(40));
    assert_eq!(tables.wait_any(sleep.alert(alert)), queued(1));
    assert_eq!(tables.set(alert, &mut wake).map(change), Ok((false, vec![woken(1, 0)])));
    assert_eq!(tables.read_event(alert), Ok(EventState { signaled: false, manual: false }));
    assert_eq!(tables.wait_any(until(50)), queued(2));
    assert_eq!(tables.wait_any(sleep), queued(3));
    let ended = records(tables.expire(Clock::Monotonic, Now(u64::MAX), &mut wake).unwrap());
    assert_eq!(ended, [(2, Outcome::TimedOut)]);
    assert_eq!(tables.cancel(Ticket(3)), Ok(Outcome::Interrupted));
    assert_eq!(tables.wait_any(until(40)), Ok(Waited::Over(Outcome::TimedOut)));
    assert_eq!(tables.set(alert, &mut wake).map(change), Ok((false, vec![])));
    assert_eq!(tables.wait_any(until(40).alert(alert)), SERVED);
}

#[test]
fn each_clock_ends_its_own_waits() {
    let (mut tables, mut wake) = empty();
    let list = [tables.create_event(false, false).unwrap()];
    let wait = |clock, deadline, now| Wait::new(&list, Owner(7)).until(clock, deadline, Now(now));
    assert_eq!(tables.wait_any(wait(Clock::Monotonic, Deadline(100), 0)), queued(1));
    assert_eq!(tables.wait_any(wait(Clock::RealTime, Deadline(100), 0)), queued(2));
    assert_eq!(tables.wait_any(wait(Clock::Monotonic, Deadline(100), 99)), queued(3));
    assert_eq!(tables.wait_any(wait(Clock::Monotonic, Deadline::NEVER, u64::MAX)), queued(4));
    let timed_out = |ticket| (ticket, Outcome::TimedOut);
    let mut expire = |clock, now| records(tables.expire(clock, Now(now), &mut wake).unwrap());
    assert_eq!(expire(Clock::Monotonic, 99), []);
    assert_eq!(expire(Clock::Monotonic, u64::MAX), [timed_out(1), timed_out(3)]);
    assert_eq!(expire(Clock::RealTime, 100), [timed_out(2)]);
    let late = Ok(Waited::Over(Outcome::TimedOut));
    assert_eq!(tables.wait_any(wait(Clock::RealTime, Deadline(5), 5)), late);
    assert_eq!(tables.wait_all(wait(Clock::Monotonic, Deadline(5), 6)), late);
}

#[test]
fn a_cancelled_wait_is_gone() {
    let (mut tables, mut wake) = empty();
    let event = tables.create_event(false, true).unwrap();
    two_waits(&mut tables, event);
    assert_eq!(tables.cancel(Ticket(1)), Ok(Outcome::Interrupted));
    assert_eq!(tables.set(event, &mut wake).map(change), Ok((false, vec![woken(2, 0)])));
}
