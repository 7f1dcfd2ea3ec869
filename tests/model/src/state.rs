//! What the reckoning holds.

use crate::{OBJECTS, WAITS};

#[derive(Clone, Copy, PartialEq, Eq, Debug)]
pub enum Object {
    Semaphore { count: u32, max: u32 },
    Mutex { owner: u32, count: u32, abandoned: bool },
    Event { signaled: bool, manual: bool },
}

impl Object {
    pub fn signaled_for(&self, asking: u32) -> bool {
        match *self {
            Object::Semaphore { count, .. } => count > 0,
            Object::Mutex { owner, count, .. } => (owner == 0 || owner == asking) && count < u32::MAX,
            Object::Event { signaled, .. } => signaled,
        }
    }

    /// The object once `asking` has acquired it, and whether it had been abandoned.
    pub fn acquired_by(self, asking: u32) -> (Object, bool) {
        match self {
            Object::Semaphore { count, max } => (Object::Semaphore { count: count - 1, max }, false),
            Object::Mutex { count, abandoned, .. } => {
                (Object::Mutex { owner: asking, count: count + 1, abandoned: false }, abandoned)
            }
            Object::Event { signaled, manual } => (Object::Event { signaled: signaled && manual, manual }, false),
        }
    }
}

#[derive(Clone, Copy, PartialEq, Eq, Debug)]
pub enum Mode {
    Any,
    All,
}

#[derive(Clone, Copy, PartialEq, Eq, Debug)]
pub enum Clock {
    Monotonic,
    RealTime,
}

#[derive(Clone, PartialEq, Eq, Debug)]
pub struct Wait {
    pub ticket: u64,
    pub mode: Mode,
    pub owner: u32,
    pub clock: Clock,
    pub timeout: u64,
    /// 0 is no alert.
    pub alert: u32,
    pub list: Vec<u32>,
}

impl Wait {
    pub fn names(&self, handle: u32) -> bool {
        self.alert == handle || self.list.contains(&handle)
    }
}

#[derive(Clone, PartialEq, Eq, Debug)]
pub struct State {
    pub next: u64,
    pub objects: [Option<Object>; OBJECTS],
    pub waits: [Option<Wait>; WAITS],
}

impl State {
    /// Newly made tables.
    pub fn new() -> State {
        State { next: 1, objects: [None; OBJECTS], waits: [const { None }; WAITS] }
    }

    /// What the handle names.
    pub fn object(&self, handle: u32) -> Option<Object> {
        let place = (handle as usize).checked_sub(1)?;
        self.objects.get(place).copied().flatten()
    }

    pub fn queued(&self) -> impl Iterator<Item = &Wait> {
        self.waits.iter().flatten()
    }

    /// The queued waits, lowest ticket first.
    pub fn by_ticket(&self) -> impl Iterator<Item = &Wait> {
        self.places_by_ticket().into_iter().filter_map(|place| self.waits[place].as_ref())
    }

    /// Places of the queued waits, lowest ticket first.
    pub fn places_by_ticket(&self) -> Vec<usize> {
        let mut places: Vec<usize> = (0..WAITS).filter(|&p| self.waits[p].is_some()).collect();
        places.sort_by_key(|&p| self.waits[p].as_ref().map(|w| w.ticket));
        places
    }
}

impl Default for State {
    fn default() -> Self {
        State::new()
    }
}
