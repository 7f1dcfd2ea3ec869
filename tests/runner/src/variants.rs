//! States that differ from a given one in one value: sound or not, with a wait that could be served or without.

use second_model::{Mode, Object, State, Wait, LIST, OBJECTS, TICKETS_SPENT};

/// Every place of an object with every object below, every queued wait changed in every way, and other next tickets.
pub fn variants(state: &State) -> Vec<State> {
    let mut states = Vec::new();
    for next in [1, 2, state.next.saturating_add(1), state.next - 1, TICKETS_SPENT] {
        states.push(State { next, ..state.clone() });
    }
    let step = OBJECTS.div_ceil(32);
    for place in (0..OBJECTS).filter(|place| place % step == 0 || *place < 12 || *place == OBJECTS - 1) {
        for object in objects(state.objects[place]) {
            let mut other = state.clone();
            other.objects[place] = object;
            states.push(other);
        }
    }
    for place in state.places_by_ticket() {
        for wait in waits(state, state.waits[place].as_ref().expect("a queued wait")) {
            let mut other = state.clone();
            other.waits[place] = Some(wait);
            states.push(other);
        }
    }
    states
}

fn objects(held: Option<Object>) -> Vec<Option<Object>> {
    let semaphore = |count, max| Object::Semaphore { count, max };
    let mutex = |owner, count, abandoned| Object::Mutex { owner, count, abandoned };
    let event = |signaled, manual| Object::Event { signaled, manual };
    let mut objects = vec![
        semaphore(0, 0),
        semaphore(1, 0),
        semaphore(0, 1),
        semaphore(1, 1),
        semaphore(u32::MAX, u32::MAX),
        semaphore(u32::MAX, u32::MAX - 1),
        mutex(0, 0, false),
        mutex(0, 0, true),
        mutex(7, 1, false),
        mutex(7, 1, true),
        mutex(7, u32::MAX, false),
        mutex(7, 0, false),
        mutex(0, 7, false),
        mutex(0, 1, true),
        event(false, false),
        event(true, false),
        event(true, true),
    ];
    if let Some(Object::Semaphore { max, .. }) = held {
        objects.extend([semaphore(max, max), semaphore(max.wrapping_add(1), max)]);
    }
    objects.into_iter().map(Some).chain([None]).collect()
}

fn waits(state: &State, held: &Wait) -> Vec<Wait> {
    let with = |change: &dyn Fn(&mut Wait)| {
        let mut wait = held.clone();
        change(&mut wait);
        wait
    };
    let mode = if held.mode == Mode::Any { Mode::All } else { Mode::Any };
    let mut waits = vec![
        with(&|wait| wait.mode = mode),
        with(&|wait| wait.owner = 0),
        with(&|wait| wait.owner = 7),
        with(&|wait| wait.owner = u32::MAX),
        with(&|wait| wait.timeout = 0),
        with(&|wait| wait.list.clear()),
        with(&|wait| wait.list.truncate(1)),
        with(&|wait| wait.list.truncate(LIST - 1)),
    ];
    waits.extend([state.next, state.next - 1, 1, TICKETS_SPENT].map(|ticket| with(&|wait| wait.ticket = ticket)));
    waits.extend([0, 1, 2, 3, 10, 64, 128, 511, 512].map(|alert| with(&|wait| wait.alert = alert)));
    if held.list.len() < LIST {
        let first = held.list.first().copied().unwrap_or(1);
        waits.extend([first, 1, 4, 512].map(|handle| with(&|wait| wait.list.push(handle))));
    }
    if held.alert != 0 && !held.list.is_empty() {
        waits.push(with(&|wait| wait.list[0] = wait.alert));
    }
    waits
}
