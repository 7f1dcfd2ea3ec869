//! Tables that the scenarios begin with, written cell by cell. All are valid.

use crate::ffi::{CELLS, NEVER, OBJECT_PLACES, WAIT_PLACES};
use crate::plain::cells::*;

/// Who holds every mutex, and the owner of the first queued wait; the others' numbers follow.
pub const HOLDER: u32 = 7;
const FIRST_OWNER: u64 = 100;

/// Objects and the cells of each, queued waits, handles in each list, and every which wait is for all (0: none).
#[derive(Clone, Copy)]
pub struct Filling {
    pub objects: usize,
    pub object: fn(usize) -> [u64; OBJECT_CELLS],
    pub waits: usize,
    pub listed: usize,
    pub every: usize,
}

pub const NEW: Filling = Filling { objects: 0, object: by_turns, waits: 0, listed: 0, every: 0 };
pub const TYPICAL: Filling = Filling { objects: 40, waits: 6, listed: 4, every: 2, ..NEW };
pub const BLOCK: Filling = Filling { objects: 400, object: of_block, ..TYPICAL };
pub const FULL: Filling = Filling { objects: OBJECT_PLACES, waits: WAIT_PLACES, listed: 64, ..TYPICAL };
pub const WORST: Filling = Filling { every: 1, ..FULL };

pub fn put_object(tables: &mut [u64], handle: usize, cells: [u64; OBJECT_CELLS]) {
    let at = OBJECT_CELLS * (handle - 1);
    parts_mut(tables).objects[at..at + OBJECT_CELLS].copy_from_slice(&cells);
}

// None of them is signaled.
const UNSIGNALED_SEM: [u64; OBJECT_CELLS] = [SEMAPHORE, 0, 0, 5];
const HELD_MUTEX: [u64; OBJECT_CELLS] = [MUTEX, 1, HOLDER as u64, 0];
const MANUAL_EVENT: [u64; OBJECT_CELLS] = [EVENT, 0, 0, 1];

/// A semaphore, a mutex or an event, by turns.
fn by_turns(place: usize) -> [u64; OBJECT_CELLS] {
    [UNSIGNALED_SEM, HELD_MUTEX, MANUAL_EVENT][place % 3]
}

/// Nineteen semaphores and then a mutex, but at every fourth time an event: of 400 objects 15 mutexes and 5 events.
fn of_block(place: usize) -> [u64; OBJECT_CELLS] {
    match place % 80 {
        79 => MANUAL_EVENT,
        19 | 39 | 59 => HELD_MUTEX,
        _ => UNSIGNALED_SEM,
    }
}

impl Filling {
    /// The wait at place p has ticket p + 1 and lists the handles from p + 1 on.
    fn put_wait(self, tables: &mut [u64], place: usize) {
        let all = self.every != 0 && place % self.every == self.every - 1;
        let cells = wait_mut(parts_mut(tables).waits, place);
        let ticket = place as u64 + 1;
        cells[..LIST].copy_from_slice(&[ticket, all.into(), FIRST_OWNER + ticket, 0, NEVER, self.listed as u64, 0]);
        for (k, cell) in cells[LIST..LIST + self.listed].iter_mut().enumerate() {
            *cell = ((place + k) % self.objects) as u64 + 1;
        }
    }

    pub fn tables(self) -> Vec<u64> {
        let mut tables = vec![0; CELLS];
        tables[0] = self.waits as u64 + 1;
        for place in 0..self.objects {
            put_object(&mut tables, place + 1, (self.object)(place));
        }
        for place in 0..self.waits {
            self.put_wait(&mut tables, place);
        }
        tables
    }

    /// The tables after a change.
    pub fn with(self, change: impl Fn(&mut [u64])) -> Vec<u64> {
        let mut tables = self.tables();
        change(&mut tables);
        tables
    }
}
