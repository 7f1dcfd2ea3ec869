//! The whole interface in plain Rust, for comparison: the rules as they are written down, over the same cells, with
//! linear searches, early exits and a quadratic test for repeats. Each call is the check and then the operation.

pub mod cells;
mod check;
pub mod exports;
mod object;
mod queue;
mod restore;
mod snapshot;

use crate::ffi::*;
use cells::{names, parts, parts_mut, PartsMut, TICKET, WAIT_CELLS};
use object::{empty_place, get, put, Object};
use queue::{walk, Asked};

/// What a call returns, or the answer that stands alone.
type Outcome<T> = Result<T, u32>;

fn checked(tables: &[u64]) -> Outcome<()> {
    if check::valid(tables) {
        Ok(())
    } else {
        Err(CORRUPT)
    }
}

/// The two refusals that come first.
fn lent<T>(tables: &[u64], list: &[T], least: usize) -> Outcome<()> {
    checked(tables)?;
    if list.len() < least {
        Err(LIST_SHORT)
    } else {
        Ok(())
    }
}

fn init(tables: &mut [u64]) -> Outcome<u32> {
    if tables.len() != CELLS {
        return Err(CORRUPT);
    }
    tables.fill(0);
    tables[0] = 1;
    Ok(DONE)
}

/// A new object, unless its numbers are bad.
fn create(tables: &mut [u64], object: Option<Object>) -> Outcome<Created> {
    checked(tables)?;
    let object = object.ok_or(EINVAL)?;
    let objects = parts_mut(tables).objects;
    let handle = empty_place(objects).ok_or(NO_ROOM)?;
    put(objects, handle, object);
    Ok(Created { answer: DONE, handle })
}

fn create_sem(tables: &mut [u64], count: u32, max: u32) -> Outcome<Created> {
    create(tables, (count <= max && max != 0).then_some(Object::Semaphore { count, max }))
}

fn create_mutex(tables: &mut [u64], owner: u32, count: u32) -> Outcome<Created> {
    let good = (owner == 0) == (count == 0);
    create(tables, good.then_some(Object::Mutex { owner, count, abandoned: false }))
}

fn create_event(tables: &mut [u64], signaled: u32, manual: u32) -> Outcome<Created> {
    create(tables, Some(Object::Event { signaled: signaled != 0, manual: manual != 0 }))
}

fn close(tables: &mut [u64], handle: u32) -> Outcome<u32> {
    checked(tables)?;
    let PartsMut { objects, waits, .. } = parts_mut(tables);
    get(objects, handle).ok_or(EINVAL)?;
    if waits.chunks(WAIT_CELLS).any(|cells| cells[TICKET] != 0 && names(cells).contains(&handle.into())) {
        return Err(BUSY);
    }
    object::clear(objects, handle);
    Ok(DONE)
}

fn read_sem(tables: &[u64], handle: u32) -> Outcome<SemState> {
    checked(tables)?;
    match get(parts(tables).objects, handle) {
        Some(Object::Semaphore { count, max }) => Ok(SemState { answer: DONE, count, max }),
        _ => Err(EINVAL),
    }
}

fn read_mutex(tables: &[u64], handle: u32) -> Outcome<MutexState> {
    checked(tables)?;
    match get(parts(tables).objects, handle) {
        Some(Object::Mutex { abandoned: true, .. }) => Err(EOWNERDEAD),
        Some(Object::Mutex { owner, count, .. }) => Ok(MutexState { answer: DONE, owner, count }),
        _ => Err(EINVAL),
    }
}

fn read_event(tables: &[u64], handle: u32) -> Outcome<EventState> {
    checked(tables)?;
    match get(parts(tables).objects, handle) {
        Some(Object::Event { signaled, manual }) => {
            Ok(EventState { answer: DONE, signaled: signaled.into(), manual: manual.into() })
        }
        _ => Err(EINVAL),
    }
}

/// A call that changes one object and then wakes: `change` gives the object's next state and the number before.
fn signal<C>(tables: &mut [u64], wake: &mut [u64], handle: u32, change: C) -> Outcome<Changed>
where
    C: FnOnce(Option<Object>) -> Outcome<(Object, u32)>,
{
    lent(tables, wake, WAKE_CELLS)?;
    let PartsMut { objects, waits, .. } = parts_mut(tables);
    let (object, previous) = change(get(objects, handle))?;
    put(objects, handle, object);
    let woken = walk(objects, waits, wake, handle);
    Ok(Changed { answer: DONE, previous, woken })
}

fn post(tables: &mut [u64], wake: &mut [u64], handle: u32, add: u32) -> Outcome<Changed> {
    signal(tables, wake, handle, |object| match object {
        Some(Object::Semaphore { count, max }) => {
            let sum = count.checked_add(add).filter(|&sum| sum <= max).ok_or(EOVERFLOW)?;
            Ok((Object::Semaphore { count: sum, max }, count))
        }
        _ => Err(EINVAL),
    })
}

/// The count of a mutex that this owner holds.
fn held(object: Option<Object>, by: u32) -> Outcome<u32> {
    match object {
        Some(Object::Mutex { owner, count, .. }) if by != 0 => {
            if owner == by {
                Ok(count)
            } else {
                Err(EPERM)
            }
        }
        _ => Err(EINVAL),
    }
}

fn unlock(tables: &mut [u64], wake: &mut [u64], handle: u32, by: u32) -> Outcome<Changed> {
    signal(tables, wake, handle, |object| {
        let previous = held(object, by)?;
        let owner = if previous == 1 { 0 } else { by };
        Ok((Object::Mutex { owner, count: previous - 1, abandoned: false }, previous))
    })
}

fn kill_owner(tables: &mut [u64], wake: &mut [u64], handle: u32, by: u32) -> Outcome<Changed> {
    signal(tables, wake, handle, |object| {
        held(object, by)?;
        Ok((Object::Mutex { owner: 0, count: 0, abandoned: true }, 0))
    })
}

/// The event in this state, and whether it was signaled before.
fn switched(object: Option<Object>, on: bool) -> Outcome<(Object, u32)> {
    match object {
        Some(Object::Event { signaled, manual }) => Ok((Object::Event { signaled: on, manual }, signaled.into())),
        _ => Err(EINVAL),
    }
}

fn set(tables: &mut [u64], wake: &mut [u64], handle: u32) -> Outcome<Changed> {
    signal(tables, wake, handle, |object| switched(object, true))
}

fn clear_event(tables: &mut [u64], handle: u32) -> Outcome<u32> {
    let objects = parts_mut(tables).objects;
    let (object, previous) = switched(get(objects, handle), false)?;
    put(objects, handle, object);
    Ok(previous)
}

fn reset(tables: &mut [u64], handle: u32) -> Outcome<Changed> {
    checked(tables)?;
    Ok(Changed { answer: DONE, previous: clear_event(tables, handle)?, woken: 0 })
}

fn pulse(tables: &mut [u64], wake: &mut [u64], handle: u32) -> Outcome<Changed> {
    let changed = set(tables, wake, handle)?;
    clear_event(tables, handle)?;
    Ok(changed)
}

fn wait(tables: &mut [u64], asked: &Asked) -> Outcome<Waited> {
    checked(tables)?;
    queue::ask(parts_mut(tables), asked)
}

fn expire(tables: &mut [u64], wake: &mut [u64], clock: u32, time: u64) -> Outcome<Changed> {
    lent(tables, wake, WAKE_CELLS)?;
    if clock > REALTIME {
        return Err(EINVAL);
    }
    let woken = queue::end_due(parts_mut(tables).waits, wake, clock, time);
    Ok(Changed { answer: DONE, previous: 0, woken })
}

fn cancel(tables: &mut [u64], ticket: u64) -> Outcome<u32> {
    checked(tables)?;
    queue::cancel(parts_mut(tables).waits, ticket)
}

fn snapshot(tables: &[u64], buffer: &mut [u8]) -> Outcome<Written> {
    lent(tables, buffer, SNAPSHOT_BYTES)?;
    let length = snapshot::write(parts(tables), buffer).expect("every text fits");
    Ok(Written { answer: DONE, length: length as u32 })
}

fn restore(tables: &mut [u64], text: &[u8]) -> Outcome<Restored> {
    if tables.len() != CELLS {
        return Err(CORRUPT);
    }
    match restore::read(text) {
        Ok(made) => tables.copy_from_slice(&made),
        Err(offset) => return Ok(Restored { answer: NOT_A_SNAPSHOT, offset: offset as u64 }),
    }
    Ok(Restored { answer: DONE, offset: 0 })
}
