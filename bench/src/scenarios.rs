//! What is measured: one table of calls, each with the tables that it begins with and the outcome that it must have.

use crate::ffi::*;
use crate::plain::cells::{parts_mut, wait_mut, EVENT, SEMAPHORE, TIMEOUT};
use crate::results::Outcome;
use crate::sides::{text_of, Call, FreshWait, TIME};
use crate::tables::*;

/// Named tables.
#[derive(Clone)]
pub struct Start {
    pub name: &'static str,
    pub tables: Vec<u64>,
}

pub struct Scenario {
    pub start: Start,
    pub call: Call,
    pub what: &'static str,
    pub expected: Outcome,
}

/// A handle that no object has.
const NONE: u32 = 513;

/// The five fillings of the check's table.
pub fn fillings() -> [Start; 5] {
    [("empty", NEW), ("typical", TYPICAL), ("block", BLOCK), ("full", FULL), ("worst", WORST)]
        .map(|(name, filling)| start(name, filling.tables()))
}

fn start(name: &'static str, tables: Vec<u64>) -> Start {
    Start { name, tables }
}

/// Every object is a semaphore, and all but 33 are signaled; every wait is for all and lacks nothing but that one.
fn lacking_one(name: &'static str, waits: usize) -> Start {
    let change = |tables: &mut [u64]| {
        for handle in 1..=OBJECT_PLACES {
            let count = if handle == 33 { 0 } else { 32 };
            put_object(tables, handle, [SEMAPHORE, count, 0, 64]);
        }
    };
    start(name, Filling { waits, ..WORST }.with(change))
}

/// A semaphore of count 1, or a signaled event, under a handle that no queued wait names.
fn signaled_sem(handle: usize) -> impl Fn(&mut [u64]) {
    move |tables| put_object(tables, handle, [SEMAPHORE, 1, 0, 5])
}

fn signaled_event(handle: usize) -> impl Fn(&mut [u64]) {
    move |tables| put_object(tables, handle, [EVENT, 1, 0, 1])
}

fn all_due(tables: &mut [u64]) {
    for place in 0..WAIT_PLACES {
        wait_mut(parts_mut(tables).waits, place)[TIMEOUT] = TIME;
    }
}

fn never(list: impl IntoIterator<Item = u32>) -> FreshWait {
    FreshWait { list: list.into_iter().collect(), alert: 0, timeout: NEVER }
}

/// The row of a scenario; the answer's number comes first in what is expected.
fn row(start: &Start, call: Call, what: &'static str, answer: u32, first: u64, second: u64) -> Scenario {
    Scenario { start: start.clone(), call, what, expected: [answer.into(), first, second] }
}

pub fn scenarios() -> Vec<Scenario> {
    let [empty, typical, block, full, _] = fillings();
    let mut all = making(&empty, &typical, &full);
    all.extend(reading(&empty, &typical, &full));
    all.extend(posting(&typical, &full));
    all.extend(signaling(&typical, &full));
    all.extend(waiting_any(&typical, &full));
    all.extend(waiting_all(&typical, &full));
    all.extend(ending(&empty, &typical, &full));
    all.extend(in_block(&block));
    all.extend(saving(&empty, &typical, &block, &full));
    all
}

fn making(empty: &Start, typical: &Start, full: &Start) -> Vec<Scenario> {
    let room = &start("full, 511 objects", FULL.with(|tables| put_object(tables, 512, [0; 4])));
    vec![
        row(full, Call::Init, "", DONE, 0, 0),
        row(empty, Call::CreateSem(1, 2), "first place", DONE, 1, 0),
        row(typical, Call::CreateSem(1, 2), "place 41", DONE, 41, 0),
        row(room, Call::CreateSem(1, 2), "last place", DONE, 512, 0),
        row(full, Call::CreateSem(1, 2), "no room", NO_ROOM, 0, 0),
        row(full, Call::CreateSem(0, 0), "maximum 0", EINVAL, 0, 0),
        row(typical, Call::CreateMutex(5, 1), "place 41", DONE, 41, 0),
        row(room, Call::CreateMutex(5, 1), "last place", DONE, 512, 0),
        row(typical, Call::CreateEvent(0, 1), "place 41", DONE, 41, 0),
        row(room, Call::CreateEvent(0, 1), "last place", DONE, 512, 0),
        row(typical, Call::Close(40), "no wait names it", DONE, 0, 0),
        row(full, Call::Close(512), "no wait names it", DONE, 0, 0),
        row(full, Call::Close(95), "busy by the last wait", BUSY, 0, 0),
        row(full, Call::Close(NONE), "bad handle", EINVAL, 0, 0),
    ]
}

fn reading(empty: &Start, typical: &Start, full: &Start) -> Vec<Scenario> {
    vec![
        row(empty, Call::ReadSem(1), "bad handle", EINVAL, 0, 0),
        row(typical, Call::ReadSem(40), "", DONE, 0, 5),
        row(full, Call::ReadSem(511), "", DONE, 0, 5),
        row(typical, Call::ReadMutex(38), "", DONE, HOLDER.into(), 1),
        row(full, Call::ReadMutex(512), "", DONE, HOLDER.into(), 1),
        row(typical, Call::ReadEvent(39), "", DONE, 0, 1),
        row(full, Call::ReadEvent(510), "", DONE, 0, 1),
    ]
}

fn posting(typical: &Start, full: &Start) -> Vec<Scenario> {
    let lacking = &lacking_one("lacking one", WAIT_PLACES);
    vec![
        row(typical, Call::Post(40, 1), "concerns nobody", DONE, 0, 0),
        row(typical, Call::Post(1, 1), "one wait names it and is woken", DONE, 0, 1),
        row(typical, Call::Post(NONE, 1), "bad handle", EINVAL, 0, 0),
        row(full, Call::Post(97, 1), "concerns nobody", DONE, 0, 0),
        row(full, Call::Post(1, 1), "one wait names it and is woken", DONE, 0, 1),
        row(full, Call::Post(34, 1), "32 name it, one is woken", DONE, 0, 1),
        row(full, Call::Post(34, 5), "32 name it, 5 are woken", DONE, 0, 5),
        row(lacking, Call::Post(33, 32), "32 for all are woken", DONE, 0, 32),
        row(full, Call::Post(97, 6), "past the maximum", EOVERFLOW, 0, 0),
        row(full, Call::Post(NONE, 1), "bad handle", EINVAL, 0, 0),
    ]
}

fn signaling(typical: &Start, full: &Start) -> Vec<Scenario> {
    let any = &start("full, all for any", Filling { every: 0, ..FULL }.tables());
    vec![
        row(typical, Call::Unlock(38, HOLDER), "concerns nobody", DONE, 1, 0),
        row(full, Call::Unlock(98, HOLDER), "concerns nobody", DONE, 1, 0),
        row(full, Call::Unlock(35, HOLDER), "32 name it, one is woken", DONE, 1, 1),
        row(full, Call::Unlock(35, 8), "another owner", EPERM, 0, 0),
        row(full, Call::KillOwner(98, HOLDER), "concerns nobody", DONE, 0, 0),
        row(full, Call::KillOwner(35, HOLDER), "32 name it, one is woken", DONE, 0, 1),
        row(typical, Call::Set(39), "concerns nobody", DONE, 0, 0),
        row(full, Call::Set(99), "concerns nobody", DONE, 0, 0),
        row(full, Call::Set(33), "32 name it, 16 are woken", DONE, 0, 16),
        row(any, Call::Set(33), "32 name it, 32 are woken", DONE, 0, 32),
        row(typical, Call::Reset(39), "", DONE, 0, 0),
        row(full, Call::Reset(99), "", DONE, 0, 0),
        row(full, Call::Pulse(99), "concerns nobody", DONE, 0, 0),
        row(any, Call::Pulse(33), "32 name it, 32 are woken", DONE, 0, 32),
    ]
}

fn waiting_any(typical: &Start, full: &Start) -> Vec<Scenario> {
    let served = &start("typical", TYPICAL.with(signaled_sem(40)));
    let full_served = &start("full", FULL.with(signaled_sem(511)));
    let alerted = &start("full", FULL.with(signaled_event(510)));
    let room = &start("full, 31 waits", Filling { waits: WAIT_PLACES - 1, ..FULL }.tables());
    let late = FreshWait { timeout: TIME, ..never([511]) };
    let with_alert = FreshWait { alert: 510, ..never(32..=95) };
    let alert_alone = FreshWait { alert: 510, ..never([]) };
    vec![
        row(typical, Call::WaitAny(never([])), "no handles, queued", QUEUED, 0, 7),
        row(alerted, Call::WaitAny(alert_alone), "no handles, the alert serves", DONE, 0, 0),
        row(served, Call::WaitAny(never([40])), "1 handle, served", DONE, 0, 0),
        row(typical, Call::WaitAny(never([40])), "1 handle, queued", QUEUED, 0, 7),
        row(full_served, Call::WaitAny(never([511])), "1 handle, served", DONE, 0, 0),
        row(room, Call::WaitAny(never([511])), "1 handle, queued in the last place", QUEUED, 0, 32),
        row(full_served, Call::WaitAny(never(448..=511)), "64 handles, the last serves", DONE, 63, 0),
        row(alerted, Call::WaitAny(with_alert), "64 handles, the alert serves", DONE, 64, 0),
        row(room, Call::WaitAny(never(449..=512)), "64 handles, queued in the last place", QUEUED, 0, 32),
        row(full, Call::WaitAny(late), "1 handle, time is up", ETIMEDOUT, 0, 0),
        row(full, Call::WaitAny(never([511])), "1 handle, no room", NO_ROOM, 0, 0),
        row(full, Call::WaitAny(never(450..=NONE)), "64 handles, the last is bad", EINVAL, 0, 0),
    ]
}

fn waiting_all(typical: &Start, full: &Start) -> Vec<Scenario> {
    let served = &start("typical", TYPICAL.with(signaled_sem(40)));
    let lacking = &lacking_one("lacking one", WAIT_PLACES);
    let room = &lacking_one("lacking one, 31 waits", WAIT_PLACES - 1);
    let repeated = never((449..=511).chain([449]));
    vec![
        row(served, Call::WaitAll(never([40])), "1 handle, served", DONE, 0, 0),
        row(typical, Call::WaitAll(never([40])), "1 handle, queued", QUEUED, 0, 7),
        row(lacking, Call::WaitAll(never([511])), "1 handle, served", DONE, 0, 0),
        row(lacking, Call::WaitAll(never(448..=511)), "64 handles, served", DONE, 0, 0),
        row(room, Call::WaitAll(never([33])), "1 handle, queued in the last place", QUEUED, 0, 32),
        row(room, Call::WaitAll(never((34..=96).chain([33]))), "64 handles, the last lacks, queued", QUEUED, 0, 32),
        row(full, Call::WaitAll(never(449..=512)), "64 handles, no room", NO_ROOM, 0, 0),
        row(full, Call::WaitAll(repeated), "64 handles, the last repeats the first", EINVAL, 0, 0),
    ]
}

fn ending(empty: &Start, typical: &Start, full: &Start) -> Vec<Scenario> {
    let due = &start("full", FULL.with(all_due));
    vec![
        row(empty, Call::Expire(MONOTONIC, TIME), "none queued", DONE, 0, 0),
        row(typical, Call::Expire(MONOTONIC, TIME), "ends none", DONE, 0, 0),
        row(full, Call::Expire(MONOTONIC, TIME), "ends none", DONE, 0, 0),
        row(due, Call::Expire(MONOTONIC, TIME), "ends 32", DONE, 0, 32),
        row(typical, Call::Cancel(6), "last wait", EINTR, 0, 0),
        row(full, Call::Cancel(32), "last wait", EINTR, 0, 0),
        row(full, Call::Cancel(33), "no such ticket", EINVAL, 0, 0),
    ]
}

/// What a large block does most: few of its many objects are named by a wait.
fn in_block(block: &Start) -> Vec<Scenario> {
    let free = &start("block", BLOCK.with(signaled_sem(400)));
    vec![
        row(block, Call::CreateSem(1, 2), "place 401", DONE, 401, 0),
        row(block, Call::Close(399), "no wait names it", DONE, 0, 0),
        row(block, Call::ReadSem(399), "", DONE, 0, 5),
        row(block, Call::Post(399, 1), "concerns nobody", DONE, 0, 0),
        row(block, Call::Post(1, 1), "one wait names it and is woken", DONE, 0, 1),
        row(block, Call::Set(320), "concerns nobody", DONE, 0, 0),
        row(free, Call::WaitAny(never([400])), "1 handle, served", DONE, 0, 0),
        row(block, Call::WaitAny(never([399])), "1 handle, queued", QUEUED, 0, 7),
        row(block, Call::WaitAll(never(396..=399)), "4 handles, queued", QUEUED, 0, 7),
        row(block, Call::Expire(MONOTONIC, TIME), "ends none", DONE, 0, 0),
        row(block, Call::Cancel(6), "last wait", EINTR, 0, 0),
    ]
}

/// A text is read over other tables than those that it shows and that its row names.
fn saving(empty: &Start, typical: &Start, block: &Start, full: &Start) -> Vec<Scenario> {
    let restore = |shown: &Start, what| {
        let other = Start { name: shown.name, tables: WORST.tables() };
        row(&other, Call::Restore(text_of(&shown.tables)), what, DONE, 0, 0)
    };
    vec![
        row(empty, Call::Snapshot, "34 bytes", DONE, 34, 0),
        row(typical, Call::Snapshot, "2,272 bytes", DONE, 2272, 0),
        row(block, Call::Snapshot, "14,423 bytes", DONE, 14423, 0),
        row(full, Call::Snapshot, "38,279 bytes", DONE, 38279, 0),
        restore(empty, "34 bytes"),
        restore(typical, "2,272 bytes"),
        restore(block, "14,423 bytes"),
        restore(full, "38,279 bytes"),
    ]
}
