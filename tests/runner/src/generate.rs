//! Random calls, weighted by a mood of the history and led by the model's state.

use crate::library::{MOST_BYTES, MOST_WAKE};
use crate::random::Random;
use second_model::{Call, Mode, Object, State, NEVER, OBJECTS, PICTURE_BYTES, TICKETS_SPENT, WAKE_CELLS};

#[derive(Clone, Copy, PartialEq, Eq)]
enum Kind {
    Semaphore,
    Mutex,
    Event,
}

#[derive(Clone, Copy, PartialEq, Eq)]
enum Length {
    Short,
    Mixed,
    Long,
}

/// From here on a reading of 32 bits, or of a sign, goes wrong.
const SMALL: u64 = 1 << 32;
const HALF: u64 = 1 << 63;

/// Kinds of calls, both waits as one.
pub const KINDS: usize = 17;

/// What a history is mostly about.
pub struct Mood {
    /// By the order of `Mood::call_of`.
    weights: [usize; KINDS],
    owners: Vec<u32>,
    /// The ticket that the history begins with.
    pub next: u64,
    pub prelude: usize,
    pub calls: usize,
    length: Length,
    /// Share of waits that never time out.
    never: usize,
    /// Share of created objects that are not signaled.
    unsignaled: usize,
    /// Share of mutexes near the ceiling.
    ceiling: usize,
    /// Times are in so many from `first_time` on, so that clocks go back.
    times: usize,
    first_time: u64,
}

//                          sem mut evt cls rds rdm rde pst unl kil set rst pls wait exp can pic
const GENERAL: [usize; KINDS] = [3, 3, 3, 3, 3, 3, 3, 10, 10, 3, 8, 3, 5, 40, 3, 3, 1];
const FILLING: [usize; KINDS] = [1, 1, 1, 1, 1, 1, 1, 2, 2, 1, 2, 1, 1, 60, 1, 1, 1];
const MUTEXES: [usize; KINDS] = [1, 5, 1, 3, 1, 5, 1, 2, 25, 8, 2, 1, 1, 40, 2, 2, 1];
const OBJECTS_ALL: [usize; KINDS] = [12, 12, 12, 8, 2, 2, 2, 5, 5, 2, 5, 2, 2, 15, 2, 2, 1];
const PULSES: [usize; KINDS] = [1, 1, 3, 2, 1, 1, 2, 4, 3, 1, 10, 8, 14, 45, 2, 2, 1];
const TIMES: [usize; KINDS] = [2, 2, 2, 2, 1, 1, 1, 5, 5, 2, 5, 2, 2, 40, 15, 8, 1];

impl Mood {
    /// Many waits that stay queued.
    pub fn filling(random: &mut Random) -> Mood {
        let length = Length::Mixed;
        let (next, prelude, calls) = (1, 40, 150);
        Mood { weights: FILLING, next, prelude, calls, length, never: 60, unsignaled: 70, ..Mood::new(random) }
    }

    pub fn new(random: &mut Random) -> Mood {
        let weights = random.pick(&[GENERAL, FILLING, FILLING, MUTEXES, OBJECTS_ALL, PULSES, TIMES]);
        let many = weights == OBJECTS_ALL || random.percent(15);
        let prelude = if many { crowd(random) } else { random.below(9) };
        let pool = [1, 2, 3, 7, u32::MAX, u32::MAX - 1];
        let owners = (0..1 + random.below(4)).map(|_| random.pick(&pool)).collect();
        Mood {
            weights,
            owners,
            next: first_ticket(random),
            prelude,
            calls: 20 + random.below(280),
            length: random.pick(&[Length::Short, Length::Short, Length::Mixed, Length::Long]),
            never: random.pick(&[20, 60, 95, 100]),
            unsignaled: if weights == FILLING { 90 } else { random.pick(&[30, 60, 90]) },
            ceiling: if weights == MUTEXES { 40 } else { 10 },
            times: random.pick(&[4, 20, 1000]),
            first_time: random.pick(&[0, 0, 0, SMALL - 2, HALF - 2]),
        }
    }

    pub fn create(&self, random: &mut Random) -> Call {
        match random.below(3) {
            0 => self.sem(random),
            1 => self.mutex(random),
            _ => self.event(random),
        }
    }

    pub fn call(&self, random: &mut Random, state: &State) -> Call {
        let kind = random.weighted(&self.weights);
        self.call_of(kind, random, state)
    }

    /// A call of one kind, below `KINDS`.
    pub fn call_of(&self, kind: usize, random: &mut Random, state: &State) -> Call {
        match kind {
            0 => self.sem(random),
            1 => self.mutex(random),
            2 => self.event(random),
            3 => Call::Close { handle: handle(random, state, None) },
            4 => Call::ReadSem { handle: handle(random, state, Some(Kind::Semaphore)) },
            5 => Call::ReadMutex { handle: handle(random, state, Some(Kind::Mutex)) },
            6 => Call::ReadEvent { handle: handle(random, state, Some(Kind::Event)) },
            7 => self.post(random, state),
            8 => {
                let (handle, owner) = self.holding(random, state);
                Call::Unlock { handle, owner, wake: wake_cells(random) }
            }
            9 => {
                let (handle, owner) = self.holding(random, state);
                Call::Kill { handle, owner, wake: wake_cells(random) }
            }
            10 => Call::Set { handle: handle(random, state, Some(Kind::Event)), wake: wake_cells(random) },
            11 => Call::Reset { handle: handle(random, state, Some(Kind::Event)) },
            12 => Call::Pulse { handle: handle(random, state, Some(Kind::Event)), wake: wake_cells(random) },
            13 => self.wait(random, state),
            14 => self.expire(random),
            15 => Call::Cancel { ticket: ticket(random, state) },
            _ => Call::Picture { bytes: picture_bytes(random) },
        }
    }

    fn owner(&self, random: &mut Random) -> u32 {
        random.pick(&self.owners)
    }

    fn sem(&self, random: &mut Random) -> Call {
        let max = random.pick(&[0, 1, 2, 3, 5, 100, 1 << 31, u32::MAX - 1, u32::MAX, u32::MAX]);
        let count = match random.below(100) {
            0..4 => max.wrapping_add(1),
            at if at < self.unsignaled => 0,
            _ => max - (random.below(3) as u32).min(max),
        };
        Call::Sem { count, max }
    }

    fn mutex(&self, random: &mut Random) -> Call {
        let owner = self.owner(random);
        let (owner, count) = match random.below(100) {
            0..3 => (owner, 0),
            3..6 => (0, 1 + random.below(2) as u32),
            at if at < self.unsignaled => (owner, 1 + random.below(3) as u32),
            _ => (0, 0),
        };
        if count > 0 && random.percent(self.ceiling) {
            return Call::Mutex { owner, count: u32::MAX - random.below(2) as u32 };
        }
        Call::Mutex { owner, count }
    }

    fn event(&self, random: &mut Random) -> Call {
        let flags = [1, 1, 1, 2, 256, u32::MAX];
        let signaled = if random.percent(self.unsignaled) { 0 } else { random.pick(&flags) };
        let manual = if random.percent(50) { 0 } else { random.pick(&flags) };
        Call::Event { signaled, manual }
    }

    fn post(&self, random: &mut Random, state: &State) -> Call {
        let handle = handle(random, state, Some(Kind::Semaphore));
        let room = match state.object(handle) {
            Some(Object::Semaphore { count, max }) => max - count,
            _ => 1,
        };
        let few = random.below(4) as u32;
        let add = match random.below(10) {
            0 => room,
            1 => room.saturating_add(1),
            2 => u32::MAX - few,
            3 => room.saturating_sub(few),
            _ => few.min(room),
        };
        Call::Post { handle, add, wake: wake_cells(random) }
    }

    /// A mutex and mostly its holder.
    fn holding(&self, random: &mut Random, state: &State) -> (u32, u32) {
        let handle = handle(random, state, Some(Kind::Mutex));
        let holder = match state.object(handle) {
            Some(Object::Mutex { owner, .. }) if owner != 0 => owner,
            _ => self.owner(random),
        };
        match random.below(100) {
            0..4 => (handle, 0),
            4..15 => (handle, self.owner(random)),
            _ => (handle, holder),
        }
    }

    fn time(&self, random: &mut Random) -> u64 {
        if random.percent(3) {
            return random.pick(&[0, NEVER, NEVER - 1]);
        }
        self.first_time + random.below(self.times) as u64
    }

    fn expire(&self, random: &mut Random) -> Call {
        let clock = if random.percent(5) { random.pick(&[2, 3, 256, u32::MAX]) } else { random.below(2) as u32 };
        let time = self.time(random);
        Call::Expire { clock, time, wake: wake_cells(random) }
    }

    fn wait(&self, random: &mut Random, state: &State) -> Call {
        let mode = if random.percent(40) { Mode::All } else { Mode::Any };
        let owner = if random.percent(2) { 0 } else { self.owner(random) };
        let list = self.list(random, state, mode, owner);
        let alert = alert(random, state, &list);
        let flags = if random.percent(3) { random.pick(&[2, 3, 256, u32::MAX]) } else { random.below(2) as u32 };
        let pad = if random.percent(2) { random.pick(&[1, 256, 1 << 31, u32::MAX]) } else { 0 };
        let time = self.time(random);
        let timeout = self.timeout(random, time);
        Call::Wait { mode, list, owner, alert, flags, pad, timeout, time }
    }

    fn timeout(&self, random: &mut Random, time: u64) -> u64 {
        if random.percent(self.never) {
            return NEVER;
        }
        match random.below(8) {
            0 => time,
            1 => time.saturating_add(1),
            2 => time.saturating_sub(1),
            3 => random.pick(&[0, NEVER - 1, time ^ SMALL, time ^ HALF]),
            _ => time.saturating_add(random.below(self.times) as u64),
        }
    }

    fn list(&self, random: &mut Random, state: &State, mode: Mode, owner: u32) -> Vec<u32> {
        let length = match self.length {
            _ if random.percent(4) => 0,
            _ if random.percent(2) => random.pick(&[63, 64, 65, 66, 256, 257]),
            Length::Short => 1 + random.below(4),
            Length::Mixed => 1 + random.below(12),
            Length::Long => random.pick(&[1, 2, 30, 62, 63, 64, 64, 65]),
        };
        let pool = pool(random, state, owner);
        if mode == Mode::All && !random.percent(6) {
            let length = if length > pool.len() && random.percent(90) { pool.len() } else { length };
            return distinct(random, pool, length);
        }
        (0..length)
            .map(|_| if random.below(400) == 0 || pool.is_empty() { odd_handle(random) } else { random.pick(&pool) })
            .collect()
    }
}

fn is_kind(object: &Object, kind: Kind) -> bool {
    match object {
        Object::Semaphore { .. } => kind == Kind::Semaphore,
        Object::Mutex { .. } => kind == Kind::Mutex,
        Object::Event { .. } => kind == Kind::Event,
    }
}

fn handles(state: &State, which: impl Fn(&Object) -> bool) -> Vec<u32> {
    let places = (0..OBJECTS).filter(|&place| state.objects[place].as_ref().is_some_and(&which));
    places.map(|place| place as u32 + 1).collect()
}

/// At the edges, or 1 to a reading of too few bits.
fn odd_handle(random: &mut Random) -> u32 {
    random.pick(&[0, 0, 128, 129, 255, 257, 511, 512, 513, 514, 1025, 65_537, (1 << 31) + 1, u32::MAX])
}

/// Mostly an object of the kind; else any object, any place, or an odd handle.
fn handle(random: &mut Random, state: &State, kind: Option<Kind>) -> u32 {
    let share = random.below(100);
    let wanted = match kind {
        Some(kind) if share < 90 => handles(state, |object| is_kind(object, kind)),
        _ if share < 94 => handles(state, |_| true),
        _ => Vec::new(),
    };
    match share {
        _ if !wanted.is_empty() => one_of(random, &wanted),
        0..97 => odd_handle(random),
        _ => 1 + random.below(OBJECTS) as u32,
    }
}

/// Objects to list: any, only signaled, or only unsignaled ones.
fn pool(random: &mut Random, state: &State, owner: u32) -> Vec<u32> {
    let signaled = handles(state, |object| object.signaled_for(owner));
    let unsignaled = handles(state, |object| !object.signaled_for(owner));
    match random.below(10) {
        0..2 if !signaled.is_empty() => signaled,
        2..6 if !unsignaled.is_empty() => unsignaled,
        _ => handles(state, |_| true),
    }
}

/// `length` different handles: those of the pool first, then others.
fn distinct(random: &mut Random, mut pool: Vec<u32>, length: usize) -> Vec<u32> {
    for at in 0..pool.len().min(length) {
        let other = at + random.below(pool.len() - at);
        pool.swap(at, other);
    }
    let spare: Vec<u32> = (1..=300).filter(|handle| !pool.contains(handle)).collect();
    pool.extend(spare);
    pool.truncate(length);
    if length > 0 && random.percent(2) {
        let at = random.below(length);
        pool[at] = odd_handle(random);
    }
    pool
}

fn alert(random: &mut Random, state: &State, list: &[u32]) -> u32 {
    match random.below(100) {
        0..55 => 0,
        55..65 if !list.is_empty() => random.pick(list),
        65..67 => odd_handle(random),
        67..70 => handle(random, state, None),
        _ => {
            let events = handles(state, |object| is_kind(object, Kind::Event));
            if events.is_empty() {
                0
            } else {
                one_of(random, &events)
            }
        }
    }
}

/// So many objects that handles pass 128; now and then so many that there is no room for more.
fn crowd(random: &mut Random) -> usize {
    if random.percent(6) {
        OBJECTS + 40 + random.below(60)
    } else {
        60 + random.below(120)
    }
}

/// Mostly any of them, now and then the last.
fn one_of(random: &mut Random, handles: &[u32]) -> u32 {
    if random.percent(10) {
        handles[handles.len() - 1]
    } else {
        random.pick(handles)
    }
}

/// Mostly 1; else so that tickets are spent, or pass 32 bits or the sign.
fn first_ticket(random: &mut Random) -> u64 {
    let few = random.below(20) as u64;
    match random.below(100) {
        0..2 => TICKETS_SPENT - 2 * few,
        2..4 => TICKETS_SPENT - 32 - few, // the last tickets fill up a full queue again
        4..6 => HALF - few,
        6 => SMALL - few,
        _ => 1,
    }
}

fn ticket(random: &mut Random, state: &State) -> u64 {
    let tickets: Vec<u64> = state.queued().map(|wait| wait.ticket).collect();
    if tickets.is_empty() || random.percent(20) {
        let last = state.next - 1;
        return random.pick(&[0, 1, last, state.next, last ^ SMALL, last ^ HALF, u64::MAX]);
    }
    random.pick(&tickets)
}

fn wake_cells(random: &mut Random) -> usize {
    match random.below(100) {
        0..88 => WAKE_CELLS,
        88..94 => WAKE_CELLS + 1 + random.below(MOST_WAKE - WAKE_CELLS),
        94..97 => 93 + random.below(3),
        _ => random.below(WAKE_CELLS),
    }
}

fn picture_bytes(random: &mut Random) -> usize {
    match random.below(10) {
        0 => random.pick(&[0, 1, 32_768, 65_535]),
        1 => random.below(PICTURE_BYTES),
        2 => PICTURE_BYTES + 1 + random.below(MOST_BYTES - PICTURE_BYTES),
        _ => PICTURE_BYTES,
    }
}
