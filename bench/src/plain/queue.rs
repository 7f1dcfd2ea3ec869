//! Waits: an attempt, a fresh wait, and the waits that leave the queue.

use super::cells::*;
use super::check::all_differ;
use super::object::{acquire, is_signaled};
use crate::ffi::*;
use std::array::from_fn;

/// The answer and the index of a wait that was served.
struct Served {
    answer: u32,
    index: usize,
}

/// A wait as its caller asks for it.
pub struct Asked<'a> {
    pub all: bool,
    pub list: &'a [u32],
    pub owner: u32,
    pub alert: u32,
    pub flags: u32,
    pub pad: u32,
    pub timeout: u64,
    pub time: u64,
}

fn served(index: usize, abandoned: bool) -> Option<Served> {
    Some(Served { answer: if abandoned { EOWNERDEAD } else { DONE }, index })
}

fn take_any(objects: &mut [u64], owner: u32, list: impl Iterator<Item = u32>) -> Option<Served> {
    for (index, handle) in list.enumerate() {
        if is_signaled(objects, handle, owner) {
            return served(index, acquire(objects, handle, owner));
        }
    }
    None
}

fn take_all(objects: &mut [u64], owner: u32, list: impl Iterator<Item = u32> + Clone) -> Option<Served> {
    if !list.clone().all(|handle| is_signaled(objects, handle, owner)) {
        return None;
    }
    let mut abandoned = false;
    for handle in list {
        abandoned |= acquire(objects, handle, owner);
    }
    served(0, abandoned)
}

/// Tries the list, then the alert.
fn attempt<L>(objects: &mut [u64], all: bool, owner: u32, list: L, alert: u32) -> Option<Served>
where
    L: ExactSizeIterator<Item = u32> + Clone,
{
    let n = list.len();
    let by_list = if all { take_all(objects, owner, list) } else { take_any(objects, owner, list) };
    if by_list.is_some() || !is_signaled(objects, alert, owner) {
        return by_list;
    }
    served(n, acquire(objects, alert, owner))
}

fn time_up(timeout: u64, time: u64) -> bool {
    timeout != NEVER && timeout <= time
}

fn bad(objects: &[u64], asked: &Asked) -> bool {
    let list = asked.list;
    !(usize::from(asked.all)..=MAX_LISTED).contains(&list.len())
        || asked.owner == 0
        || asked.flags > REALTIME
        || asked.pad != 0
        || (asked.alert != 0 && kind(objects, asked.alert.into()) != EVENT)
        || list.iter().any(|&handle| kind(objects, handle.into()) == EMPTY)
        || (asked.all && (list.contains(&asked.alert) || !all_differ(list)))
}

/// A fresh wait: refused, served, timed out or queued.
pub fn ask(tables: PartsMut, asked: &Asked) -> Result<Waited, u32> {
    let PartsMut { next, objects, waits } = tables;
    if bad(objects, asked) {
        return Err(EINVAL);
    }
    if let Some(Served { answer, index }) =
        attempt(objects, asked.all, asked.owner, asked.list.iter().copied(), asked.alert)
    {
        return Ok(Waited { answer, index: index as u32, ticket: 0 });
    }
    if time_up(asked.timeout, asked.time) {
        return Err(ETIMEDOUT);
    }
    let place = (0..WAIT_PLACES).find(|&place| wait(waits, place)[TICKET] == 0).ok_or(NO_ROOM)?;
    let ticket = *next;
    *next = ticket.checked_add(1).ok_or(TICKETS_SPENT)?;
    write_wait(wait_mut(waits, place), ticket, asked);
    Ok(Waited { answer: QUEUED, index: 0, ticket })
}

fn write_wait(cells: &mut [u64], ticket: u64, asked: &Asked) {
    cells[TICKET] = ticket;
    cells[MODE] = asked.all.into();
    cells[OWNER] = asked.owner.into();
    cells[CLOCK] = asked.flags.into();
    cells[TIMEOUT] = asked.timeout;
    cells[COUNT] = asked.list.len() as u64;
    cells[ALERT] = asked.alert.into();
    for (cell, &handle) in cells[LIST..].iter_mut().zip(asked.list) {
        *cell = handle.into();
    }
}

/// The wait leaves the queue and is told in record k of the wake list.
fn leave(cells: &mut [u64], wake: &mut [u64], k: u32, served: Served) {
    let record = [cells[TICKET], served.answer.into(), served.index as u64];
    let at = RECORD_CELLS * k as usize;
    wake[at..at + RECORD_CELLS].copy_from_slice(&record);
    cells.fill(0);
}

/// After a change of this object: tries each queued wait that names it, lowest ticket first; how many were served.
pub fn walk(objects: &mut [u64], waits: &mut [u64], wake: &mut [u64], handle: u32) -> u32 {
    let mut concerned: [bool; WAIT_PLACES] = from_fn(|place| names(wait(waits, place)).contains(&handle.into()));
    let mut woken = 0;
    while let Some(place) = oldest(waits, |place| concerned[place]) {
        concerned[place] = false;
        let cells = wait_mut(waits, place);
        let list = list(cells).iter().map(|&handle| handle as u32);
        if let Some(served) = attempt(objects, cells[MODE] == ALL, cells[OWNER] as u32, list, cells[ALERT] as u32) {
            leave(cells, wake, woken, served);
            woken += 1;
        }
    }
    woken
}

/// Ends the waits on this clock whose time is up, lowest ticket first; how many.
pub fn end_due(waits: &mut [u64], wake: &mut [u64], clock: u32, time: u64) -> u32 {
    let due = |cells: &[u64]| cells[TICKET] != 0 && cells[CLOCK] == clock.into() && time_up(cells[TIMEOUT], time);
    let mut ended = 0;
    while let Some(place) = oldest(waits, |place| due(wait(waits, place))) {
        leave(wait_mut(waits, place), wake, ended, Served { answer: ETIMEDOUT, index: 0 });
        ended += 1;
    }
    ended
}

pub fn cancel(waits: &mut [u64], ticket: u64) -> Result<u32, u32> {
    let found = |&place: &usize| ticket != 0 && wait(waits, place)[TICKET] == ticket;
    let place = (0..WAIT_PLACES).find(found).ok_or(EINVAL)?;
    wait_mut(waits, place).fill(0);
    Ok(EINTR)
}
