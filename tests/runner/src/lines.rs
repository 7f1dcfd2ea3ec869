//! For each line of document 01's "Sound tables", tables that break it alone; and tables at the edge that break none.

use crate::calls::{all, any, event, kill, mutex, sem};
use crate::layout::{object_at, wait_at, LIST_AT};
use crate::library::Library;
use crate::states::built;
use second_model::{Call, LIST, NEVER};

pub struct Case {
    /// The line that is broken; none for sound tables.
    pub line: Option<&'static str>,
    pub tables: Vec<u64>,
    /// Cells and what was written there.
    pub edits: Vec<(usize, u64)>,
}

type Edits = Vec<(usize, u64)>;
type Row = (Option<&'static str>, Edits);

const KIND: usize = 0;
const COUNT: usize = 1;
const HOLDER: usize = 2;
const ATTRIBUTE: usize = 3;
const TICKET: usize = 0;
const MODE: usize = 1;
const OWNER: usize = 2;
const CLOCK: usize = 3;
const TIMEOUT: usize = 4;
const N: usize = 5;
const ALERT: usize = 6;
const LARGE: u64 = 1 << 32;

pub fn cases() -> Result<Vec<Case>, String> {
    let tables = built(&calls())?;
    let rows = [object_rows(), empty_rows(), wait_rows(), list_rows(), name_rows()].concat();
    let mut cases: Vec<Case> = rows.into_iter().map(|(line, edits)| case(line, &tables, edits)).collect();
    // With a wait in the queue its ticket would not be below 0 either.
    cases.push(case(Some("next ticket 0"), Library::made().tables(), vec![(0, 0)]));
    Ok(cases)
}

fn case(line: Option<&'static str>, sound: &[u64], edits: Edits) -> Case {
    let mut tables = sound.to_vec();
    edits.iter().for_each(|&(cell, value)| tables[cell] = value);
    Case { line, tables, edits }
}

/// Semaphores 1 and 6, mutexes 2 and (abandoned) 4, events 3 and 5; the next ticket is 4.
/// Place 0: any of 6, 6 with alert 3. Place 1: all of 6, 2. Place 2: all of 6, 5 with alert 3.
fn calls() -> Vec<Call> {
    vec![
        sem(2, 3),
        mutex(7, 2),
        event(0, 0),
        mutex(3, 1),
        event(0, 1),
        sem(0, 5),
        kill(4, 3),
        any(8, 3, NEVER, &[6, 6]),
        all(8, 0, NEVER, &[6, 2]),
        all(8, 3, NEVER, &[6, 5]),
    ]
}

fn in_object(handle: usize, cell: usize, value: u64) -> Edits {
    vec![(object_at(handle - 1) + cell, value)]
}

fn in_wait(place: usize, cell: usize, value: u64) -> Edits {
    vec![(wait_at(place) + cell, value)]
}

/// One row for each value of the cell.
fn rows(line: Option<&'static str>, edit: impl Fn(u64) -> Edits, values: &[u64]) -> Vec<Row> {
    values.iter().map(|&value| (line, edit(value))).collect()
}

fn object_rows() -> Vec<Row> {
    let of = |handle: usize, cell: usize| move |value: u64| in_object(handle, cell, value);
    let range = Some("a cell out of its range");
    let count = Some("count above the maximum");
    let maximum = Some("a maximum of 0");
    let owner = Some("owner 0 with a count, or no count with an owner");
    let flag = Some("an event's flag neither 0 nor 1");
    [
        rows(range, of(9, KIND), &[4, 5, 255, LARGE + 1, u64::MAX]),
        rows(range, of(1, HOLDER), &[1, LARGE, u64::MAX]),
        rows(range, of(1, ATTRIBUTE), &[LARGE, LARGE + 3, u64::MAX]),
        rows(range, of(2, COUNT), &[LARGE, LARGE + 2, u64::MAX]),
        rows(range, of(2, HOLDER), &[LARGE, LARGE + 7, u64::MAX]),
        rows(range, of(4, ATTRIBUTE), &[2, LARGE, LARGE + 1, u64::MAX]),
        rows(range, of(3, HOLDER), &[1, LARGE, u64::MAX]),
        rows(count, of(1, COUNT), &[4, 5, LARGE - 1, LARGE, LARGE + 1, u64::MAX]),
        rows(count, of(1, ATTRIBUTE), &[1]),
        rows(maximum, of(6, ATTRIBUTE), &[0]),
        rows(maximum, of(9, KIND), &[1]),
        rows(maximum, of(512, KIND), &[1]),
        rows(owner, of(2, HOLDER), &[0]),
        rows(owner, of(2, COUNT), &[0]),
        rows(owner, of(4, COUNT), &[1, LARGE - 1]),
        rows(Some("abandoned with an owner"), of(2, ATTRIBUTE), &[1]),
        rows(flag, of(3, COUNT), &[2, LARGE, LARGE + 1, u64::MAX]),
        rows(flag, of(3, ATTRIBUTE), &[2, LARGE, LARGE + 1, u64::MAX]),
        rows(None, of(1, COUNT), &[0, 3]),
        rows(None, of(1, ATTRIBUTE), &[2, LARGE - 1]),
        rows(None, of(6, ATTRIBUTE), &[1]),
        rows(None, of(2, COUNT), &[1, LARGE - 1]),
        rows(None, of(2, HOLDER), &[1, LARGE - 1]),
        rows(None, of(4, ATTRIBUTE), &[0]),
        rows(None, of(3, COUNT), &[1]),
        rows(None, of(3, ATTRIBUTE), &[1]),
        rows(None, of(9, KIND), &[2, 3]),
        rows(None, of(512, KIND), &[2, 3]),
    ]
    .concat()
}

fn empty_rows() -> Vec<Row> {
    let zeros = Some("an empty place not zeros");
    let mut all = Vec::new();
    for value in [1, LARGE, u64::MAX] {
        let objects = [7, 512].into_iter().flat_map(|handle| [COUNT, HOLDER, ATTRIBUTE].map(|cell| (handle, cell)));
        all.extend(objects.map(|(handle, cell)| (zeros, in_object(handle, cell, value))));
        let waits = [3, 31].into_iter().flat_map(|place| (MODE..LIST_AT + LIST).map(move |cell| (place, cell)));
        all.extend(waits.map(|(place, cell)| (zeros, in_wait(place, cell, value))));
    }
    all.extend([0, 1, 2].map(|place| (zeros, in_wait(place, TICKET, 0))));
    all
}

fn wait_rows() -> Vec<Row> {
    let of = |place: usize, cell: usize| move |value: u64| in_wait(place, cell, value);
    let range = Some("a cell out of its range");
    let below = Some("a ticket not below the next");
    [
        rows(range, of(0, MODE), &[2, LARGE, LARGE + 1, u64::MAX]),
        rows(range, of(0, CLOCK), &[2, LARGE, LARGE + 1, u64::MAX]),
        rows(range, of(0, OWNER), &[LARGE, LARGE + 7, u64::MAX]),
        rows(Some("a wait of owner 0"), of(1, OWNER), &[0]),
        rows(Some("a ticket twice"), of(1, TICKET), &[1, 3]),
        rows(Some("a ticket twice"), of(2, TICKET), &[1, 2]),
        rows(below, of(2, TICKET), &[4, 5, LARGE + 3, u64::MAX]),
        rows(below, |next| vec![(0, next)], &[1, 2, 3]),
        rows(None, |next| vec![(0, next)], &[5, LARGE, u64::MAX]),
        rows(None, of(0, OWNER), &[1, LARGE - 1]),
        rows(None, of(0, CLOCK), &[1]),
        rows(None, of(0, TIMEOUT), &[0, 1, LARGE, u64::MAX - 1]),
        rows(None, of(1, MODE), &[0]),
    ]
    .concat()
}

/// Place 0 with 64 listed handles.
fn full_list(n: u64) -> Edits {
    let mut edits = in_wait(0, N, n);
    edits.extend((0..LIST).map(|at| (wait_at(0) + LIST_AT + at, 6)));
    edits
}

fn list_rows() -> Vec<Row> {
    let length = Some("a list of over 64, or of none for all");
    let unused = Some("an unused list cell not zero");
    let listed = |at: usize| move |value: u64| in_wait(0, LIST_AT + at, value);
    let empty = |place: usize| move |n: u64| [N, LIST_AT, LIST_AT + 1].map(|cell| (wait_at(place) + cell, n)).to_vec();
    let shorter = |n: u64| [in_wait(0, N, n), listed(1)(0)].concat();
    [
        rows(length, full_list, &[65, 71, 128, LARGE, LARGE + 64, u64::MAX]),
        rows(length, empty(1), &[0]),
        rows(length, empty(2), &[0]),
        rows(unused, listed(2), &[6, 1, LARGE, u64::MAX]),
        rows(unused, listed(LIST - 1), &[6, 1, LARGE, u64::MAX]),
        rows(unused, |n| in_wait(0, N, n), &[0, 1]),
        rows(unused, full_list, &[0, 1, 2, 63]),
        rows(None, empty(0), &[0]),
        rows(None, full_list, &[64]),
        rows(None, shorter, &[1]),
    ]
    .concat()
}

/// Handles that a reading of too few bits would take for 6 or 3 are among the wrong ones.
fn name_rows() -> Vec<Row> {
    let wrong = [0, 7, 128, 129, 256 + 6, 512, 513, 512 + 6, 1024 + 6, 65_536 + 6, LARGE + 6, u64::MAX];
    let listed = |place: usize, at: usize| move |value: u64| in_wait(place, LIST_AT + at, value);
    let alert = |place: usize| move |value: u64| in_wait(place, ALERT, value);
    let emptied = |value: u64| [KIND, ATTRIBUTE].map(|cell| (object_at(5) + cell, value)).to_vec();
    let no_event = [1, 2, 4, 7, 128, 129, 256 + 3, 512, 513, 512 + 3, 1024 + 3, 65_536 + 3, LARGE + 3, u64::MAX];
    let twice = Some("a handle twice in a wait for all");
    let occupied = Some("a listed handle without object");
    [
        rows(occupied, listed(0, 0), &wrong),
        rows(occupied, listed(0, 1), &wrong),
        rows(occupied, listed(2, 0), &wrong),
        rows(occupied, listed(2, 1), &wrong),
        rows(occupied, emptied, &[0]),
        rows(Some("an alert that is no event"), alert(0), &no_event),
        rows(Some("an alert that is no event"), alert(2), &no_event),
        rows(twice, listed(1, 1), &[6]),
        rows(twice, listed(1, 0), &[2]),
        rows(twice, |mode| in_wait(0, MODE, mode), &[1]),
        rows(Some("a listed alert in a wait for all"), alert(2), &[5]),
        rows(Some("a listed alert in a wait for all"), listed(2, 0), &[3]),
        rows(None, alert(0), &[0, 5]),
        rows(None, alert(2), &[0]),
        rows(None, listed(0, 0), &[1, 2, 3, 4, 5]),
        rows(None, listed(2, 0), &[1, 2, 4]),
    ]
    .concat()
}
