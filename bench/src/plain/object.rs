//! One object and its rules.

use super::cells::*;
use crate::ffi::OBJECT_PLACES;

#[derive(Clone, Copy)]
pub enum Object {
    Semaphore { count: u32, max: u32 },
    Mutex { owner: u32, count: u32, abandoned: bool },
    Event { signaled: bool, manual: bool },
}

impl Object {
    /// It can be acquired by this owner now.
    pub fn signaled(self, asking: u32) -> bool {
        match self {
            Object::Semaphore { count, .. } => count > 0,
            Object::Mutex { owner, count, .. } => (owner == 0 || owner == asking) && count < u32::MAX,
            Object::Event { signaled, .. } => signaled,
        }
    }

    /// The object once this owner has acquired it.
    fn acquired(self, asking: u32) -> Object {
        match self {
            Object::Semaphore { count, max } => Object::Semaphore { count: count - 1, max },
            Object::Mutex { count, .. } => Object::Mutex { owner: asking, count: count + 1, abandoned: false },
            Object::Event { signaled, manual } => Object::Event { signaled: signaled && manual, manual },
        }
    }

    fn abandoned(self) -> bool {
        matches!(self, Object::Mutex { abandoned: true, .. })
    }

    fn cells(self) -> [u64; OBJECT_CELLS] {
        match self {
            Object::Semaphore { count, max } => [SEMAPHORE, count.into(), 0, max.into()],
            Object::Mutex { owner, count, abandoned } => [MUTEX, count.into(), owner.into(), abandoned.into()],
            Object::Event { signaled, manual } => [EVENT, signaled.into(), 0, manual.into()],
        }
    }
}

pub fn get(objects: &[u64], handle: u32) -> Option<Object> {
    if handle == 0 || handle as usize > OBJECT_PLACES {
        return None;
    }
    let at = OBJECT_CELLS * (handle as usize - 1);
    let (count, owner, attribute) = (objects[at + 1] as u32, objects[at + 2] as u32, objects[at + 3] as u32);
    match objects[at] {
        SEMAPHORE => Some(Object::Semaphore { count, max: attribute }),
        MUTEX => Some(Object::Mutex { owner, count, abandoned: attribute != 0 }),
        EVENT => Some(Object::Event { signaled: count != 0, manual: attribute != 0 }),
        _ => None,
    }
}

pub fn put(objects: &mut [u64], handle: u32, object: Object) {
    place(objects, handle).copy_from_slice(&object.cells());
}

pub fn clear(objects: &mut [u64], handle: u32) {
    place(objects, handle).fill(0);
}

fn place(objects: &mut [u64], handle: u32) -> &mut [u64] {
    let at = OBJECT_CELLS * (handle as usize - 1);
    &mut objects[at..at + OBJECT_CELLS]
}

/// The handle of the lowest empty place.
pub fn empty_place(objects: &[u64]) -> Option<u32> {
    (1..=OBJECT_PLACES as u32).find(|&handle| kind(objects, handle.into()) == EMPTY)
}

pub fn is_signaled(objects: &[u64], handle: u32, asking: u32) -> bool {
    get(objects, handle).is_some_and(|object| object.signaled(asking))
}

/// Acquires an object that is signaled; whether it had been abandoned.
pub fn acquire(objects: &mut [u64], handle: u32, asking: u32) -> bool {
    let Some(object) = get(objects, handle) else { return false };
    put(objects, handle, object.acquired(asking));
    object.abandoned()
}
