//! The bench readings P1 to P12 of the scope document.

use super::{SERVED, change, empty, queued, records, two_waits, woken};
use crate::{
    Clock, Deadline, EventState, Handle, MutexState, Now, Outcome, Owner, Refusal, SNAPSHOT_BYTES, Tables, Wait, Waited,
};
use std::vec;

fn p1() -> (Tables, Handle, Handle) {
    let (mut tables, _) = empty();
    let (sem, event) = (tables.create_sem(1, 2).unwrap(), tables.create_event(false, true).unwrap());
    assert_eq!(tables.wait_all(Wait::new(&[sem, event], Owner(7))), queued(1));
    (tables, sem, event)
}

#[test]
fn p1_snapshot() {
    let lines = "next=2 objects=2 handle=1 kind=sem count=1 max=2 handle=2 kind=event signaled=0 manual=1 waits=1 wait=1 \
                 mode=all owner=7 clock=mono timeout=18446744073709551615 alert=0 n=2 obj=1 obj=2 sum=15010 ";
    assert_eq!(p1().0.snapshot(&mut [0; SNAPSHOT_BYTES]), Ok(&*lines.replace(' ', "\n")));
}

#[test]
fn p2_set_serves_the_wait_for_all() {
    let (mut tables, sem, event) = p1();
    let (_, mut wake) = empty();
    assert_eq!(tables.set(event, &mut wake).map(change), Ok((false, vec![woken(1, 0)])));
    assert_eq!(tables.read_sem(sem).unwrap().count, 0);
    assert_eq!(tables.read_event(event), Ok(EventState { signaled: true, manual: true }));
}

#[test]
fn p3_p4_posts() {
    let (mut tables, mut wake) = empty();
    let sem = tables.create_sem(1, 3).unwrap();
    assert_eq!(tables.post(sem, 3, &mut wake), Err(Refusal::Overflow));
    assert_eq!(tables.post(sem, 2, &mut wake).unwrap().previous, 1);
    assert_eq!(tables.read_sem(sem).unwrap().count, 3);
}

#[test]
fn p5_p6_pulses() {
    for (manual, both) in [(false, vec![woken(1, 0)]), (true, vec![woken(1, 0), woken(2, 0)])] {
        let (mut tables, mut wake) = empty();
        let event = tables.create_event(false, manual).unwrap();
        two_waits(&mut tables, event);
        assert_eq!(tables.pulse(event, &mut wake).map(change), Ok((false, both)));
        assert_eq!(tables.read_event(event), Ok(EventState { signaled: false, manual }));
    }
}

#[test]
fn p7_one_owner_is_served_twice() {
    let (mut tables, mut wake) = empty();
    let lock = tables.create_mutex(Owner(5), 1).unwrap();
    for ticket in [1, 2] {
        assert_eq!(tables.wait_any(Wait::new(&[lock], Owner(6))), queued(ticket));
    }
    assert_eq!(tables.unlock(lock, Owner(5), &mut wake).unwrap().woken.len(), 2);
    assert_eq!(tables.read_mutex(lock), Ok(MutexState { owner: Owner(6), count: 2, abandoned: false }));
}

#[test]
fn p8_the_next_owner_hears_of_the_death() {
    let (mut tables, mut wake) = empty();
    let lock = tables.create_mutex(Owner(5), 1).unwrap();
    assert_eq!(tables.wait_any(Wait::new(&[lock], Owner(6))), queued(1));
    let told = (1, Outcome::Served { index: 0, owner_dead: true });
    assert_eq!(records(tables.kill_owner(lock, Owner(5), &mut wake).unwrap()), [told]);
    assert_eq!(tables.read_mutex(lock), Ok(MutexState { owner: Owner(6), count: 1, abandoned: false }));
}

#[test]
fn p9_a_full_mutex_wakes_its_owner() {
    let (mut tables, mut wake) = empty();
    let lock = tables.create_mutex(Owner(5), u32::MAX).unwrap();
    assert_eq!(tables.wait_any(Wait::new(&[lock], Owner(5))), queued(1));
    assert_eq!(tables.unlock(lock, Owner(5), &mut wake).map(change), Ok((u32::MAX, vec![woken(1, 0)])));
    assert_eq!(tables.read_mutex(lock).unwrap().count, u32::MAX);
}

#[test]
fn p10_the_list_comes_before_the_alert() {
    let (mut tables, _) = empty();
    let event = tables.create_event(true, false).unwrap();
    assert_eq!(tables.wait_any(Wait::new(&[event, event], Owner(7)).alert(event)), SERVED);
    assert_eq!(tables.reset(event), Ok(false));
}

#[test]
fn p11_p12_timeouts() {
    let (mut tables, _) = empty();
    let event = [tables.create_event(false, false).unwrap()];
    let wait = |deadline, now| Wait::new(&event, Owner(7)).until(Clock::Monotonic, deadline, Now(now));
    assert_eq!(tables.wait_any(wait(Deadline(50), 50)), Ok(Waited::Over(Outcome::TimedOut)));
    assert_eq!(tables.wait_any(wait(Deadline(51), 50)), queued(1));
    assert_eq!(tables.wait_any(wait(Deadline::NEVER, u64::MAX)), queued(2));
}
