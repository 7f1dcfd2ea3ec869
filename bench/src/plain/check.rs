//! The damage check, line by line as docs/LAYOUT.md has it: it ends at the first fault.

use super::cells::*;
use crate::ffi::{CELLS, MAX_LISTED, OBJECT_PLACES, REALTIME, WAIT_PLACES};

const MAX_32: u64 = u32::MAX as u64;

#[inline(never)]
pub fn valid(tables: &[u64]) -> bool {
    if tables.len() != CELLS || tables[0] == 0 {
        return false;
    }
    let Parts { next, objects, waits } = parts(tables);
    (0..OBJECT_PLACES).all(|place| valid_object(&objects[OBJECT_CELLS * place..OBJECT_CELLS * (place + 1)]))
        && (0..WAIT_PLACES).all(|place| valid_place(*next, objects, waits, place))
}

fn valid_object(cells: &[u64]) -> bool {
    let (kind, count, owner, attribute) = (cells[0], cells[1], cells[2], cells[3]);
    match kind {
        EMPTY => count == 0 && owner == 0 && attribute == 0,
        SEMAPHORE => count <= attribute && owner == 0 && (1..=MAX_32).contains(&attribute),
        MUTEX => {
            let held = owner != 0;
            held == (count != 0) && count <= MAX_32 && owner <= MAX_32 && attribute <= 1 && !(held && attribute == 1)
        }
        EVENT => count <= 1 && owner == 0 && attribute <= 1,
        _ => false,
    }
}

fn valid_place(next: u64, objects: &[u64], waits: &[u64], place: usize) -> bool {
    let cells = wait(waits, place);
    if cells[TICKET] == 0 {
        return cells.iter().all(|&cell| cell == 0);
    }
    cells[TICKET] < next
        && (0..place).all(|other| wait(waits, other)[TICKET] != cells[TICKET])
        && valid_header(cells)
        && valid_names(objects, cells)
}

fn valid_header(cells: &[u64]) -> bool {
    cells[MODE] <= ALL
        && (1..=MAX_32).contains(&cells[OWNER])
        && cells[CLOCK] <= u64::from(REALTIME)
        && (u64::from(cells[MODE] == ALL)..=MAX_LISTED as u64).contains(&cells[COUNT])
}

fn valid_names(objects: &[u64], cells: &[u64]) -> bool {
    let alert = cells[ALERT];
    (alert == 0 || kind(objects, alert) == EVENT)
        && list(cells).iter().all(|&handle| kind(objects, handle) != EMPTY)
        && cells[LIST + cells[COUNT] as usize..].iter().all(|&cell| cell == 0)
        && (cells[MODE] != ALL || all_differ(names(cells)))
}

/// No name twice. An alert of 0 is no handle, so it stands in no list.
pub fn all_differ<T: PartialEq>(names: &[T]) -> bool {
    (1..names.len()).all(|k| !names[..k].contains(&names[k]))
}
