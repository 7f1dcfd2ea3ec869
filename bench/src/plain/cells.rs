//! Where things stand in the tables (docs/LAYOUT.md), and the tables cut into their parts.

use crate::ffi::{MAX_LISTED, OBJECT_PLACES, WAIT_PLACES};

pub const OBJECT_CELLS: usize = 4;

pub const EMPTY: u64 = 0;
pub const SEMAPHORE: u64 = 1;
pub const MUTEX: u64 = 2;
pub const EVENT: u64 = 3;

/// Cells of a wait place.
pub const TICKET: usize = 0;
pub const MODE: usize = 1;
pub const OWNER: usize = 2;
pub const CLOCK: usize = 3;
pub const TIMEOUT: usize = 4;
pub const COUNT: usize = 5;
pub const ALERT: usize = 6;
pub const LIST: usize = 7;
pub const WAIT_CELLS: usize = LIST + MAX_LISTED;

/// The value of MODE in a wait for all.
pub const ALL: u64 = 1;

/// The first cells of the object places and of the wait places.
const OBJECTS: usize = 1;
const WAITS: usize = OBJECTS + OBJECT_CELLS * OBJECT_PLACES;

/// The tables' three parts.
pub struct Parts<'a> {
    pub next: &'a u64,
    pub objects: &'a [u64],
    pub waits: &'a [u64],
}

pub struct PartsMut<'a> {
    pub next: &'a mut u64,
    pub objects: &'a mut [u64],
    pub waits: &'a mut [u64],
}

pub fn parts(tables: &[u64]) -> Parts<'_> {
    Parts { next: &tables[0], objects: &tables[OBJECTS..WAITS], waits: &tables[WAITS..] }
}

pub fn parts_mut(tables: &mut [u64]) -> PartsMut<'_> {
    let (front, waits) = tables.split_at_mut(WAITS);
    let (next, objects) = front.split_at_mut(OBJECTS);
    PartsMut { next: &mut next[0], objects, waits }
}

/// The kind of the object with this handle; EMPTY where there is none.
pub fn kind(objects: &[u64], handle: u64) -> u64 {
    if handle == 0 || handle > OBJECT_PLACES as u64 {
        return EMPTY;
    }
    objects[OBJECT_CELLS * (handle as usize - 1)]
}

pub fn wait(waits: &[u64], place: usize) -> &[u64] {
    &waits[WAIT_CELLS * place..WAIT_CELLS * (place + 1)]
}

pub fn wait_mut(waits: &mut [u64], place: usize) -> &mut [u64] {
    &mut waits[WAIT_CELLS * place..WAIT_CELLS * (place + 1)]
}

pub fn list(wait: &[u64]) -> &[u64] {
    &wait[LIST..LIST + wait[COUNT] as usize]
}

/// The alert and the list: every object that the wait names.
pub fn names(wait: &[u64]) -> &[u64] {
    &wait[ALERT..LIST + wait[COUNT] as usize]
}

/// The place of the lowest ticket among the places that pass.
pub fn oldest(waits: &[u64], passes: impl Fn(usize) -> bool) -> Option<usize> {
    (0..WAIT_PLACES).filter(|&place| passes(place)).min_by_key(|&place| wait(waits, place)[TICKET])
}
