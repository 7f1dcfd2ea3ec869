//! Sound tables to damage, built by calls.

use crate::calls::{all, event, kill, mutex, sem, wait};
use crate::generate::Mood;
use crate::library::Library;
use crate::play::Bench;
use crate::random::Random;
use crate::script::{call_text, step_or_text};
use second_model::{answer, Call, Clock, Mode, Object, State, Wait, LIST, NEVER, OBJECTS, TICKETS_SPENT, WAITS};

pub fn states(random: &mut Random) -> Result<Vec<(&'static str, Vec<u64>)>, String> {
    Ok(vec![
        ("empty", Library::made().tables().to_vec()),
        ("P1", built(&p1_calls())?),
        ("full", built(&full_calls())?),
        ("abandoned", built(&abandoned_calls())?),
        ("random, tickets spent", tickets_spent(random_state(random)?)),
    ])
}

/// The state with the longest picture.
pub fn longest() -> State {
    let mut state = State { next: TICKETS_SPENT, ..State::new() };
    state.objects = [Some(Object::Mutex { owner: u32::MAX, count: u32::MAX, abandoned: false }); OBJECTS];
    state.objects[OBJECTS - 1] = Some(Object::Event { signaled: false, manual: false });
    for (place, wait) in state.waits.iter_mut().enumerate() {
        let (ticket, list) = (TICKETS_SPENT - (WAITS - place) as u64, vec![OBJECTS as u32 - 1; LIST]);
        let (mode, clock, alert) = (Mode::Any, Clock::Monotonic, OBJECTS as u32);
        *wait = Some(Wait { ticket, mode, owner: u32::MAX, clock, timeout: NEVER, alert, list });
    }
    state
}

/// A call while a state is built: library and model must agree.
fn build(bench: &mut Bench, call: &Call) -> Result<u32, String> {
    step_or_text(bench, call).map(|outcome| outcome.answer)
}

pub fn built(calls: &[Call]) -> Result<Vec<u64>, String> {
    let mut bench = Bench::new(None);
    for call in calls {
        if answer::is_refusal(build(&mut bench, call)?) {
            return Err(format!("refused: {}", call_text(call)));
        }
    }
    Ok(bench.library.tables().to_vec())
}

fn p1_calls() -> Vec<Call> {
    vec![sem(1, 2), event(0, 1), all(7, 0, NEVER, &[1, 2])]
}

/// Every place occupied; lists of 1 to 64 all over the handles, both modes, with and without alert, and empty ones for any.
fn full_calls() -> Vec<Call> {
    let mut calls: Vec<Call> = (0..OBJECTS as u32)
        .map(|place| match place % 4 {
            0 => sem(0, place + 1),
            1 => mutex(place, u32::MAX - place),
            2 => event(0, 0),
            _ => event(0, 1),
        })
        .collect();
    for place in 0..WAITS as u32 {
        let mode = if place % 2 == 0 { Mode::All } else { Mode::Any };
        let length = [64, 0, 1, 2, 40, 64, 63, 63][place as usize % 8];
        let alert = if place % 3 == 0 { OBJECTS as u32 } else { 0 };
        let list: Vec<u32> = (1..=length).map(|k| 14 * place + k).collect();
        calls.push(wait(mode, 7, alert, u64::from(place) + 1, &list));
    }
    calls
}

/// Abandoned mutexes, closed places and holes in the queue.
fn abandoned_calls() -> Vec<Call> {
    let mut calls: Vec<Call> = (0..6).map(|_| mutex(3, 2)).collect();
    calls.extend((0..4).map(|_| event(0, 0)));
    calls.extend((0..6).map(|_| all(7, 10, NEVER, &[1, 2, 9])));
    calls.extend((1..4).map(|handle| kill(handle, 3)));
    calls.extend([1, 4].map(|ticket| Call::Cancel { ticket }));
    calls.extend([4, 8].map(|handle| Call::Close { handle }));
    calls
}

/// A random history's end, once it has ten waits and an abandoned mutex.
fn random_state(random: &mut Random) -> Result<Vec<u64>, String> {
    loop {
        let mood = Mood::filling(random);
        let mut bench = Bench::new(None);
        for at in 0..mood.prelude + mood.calls {
            let call = if at < mood.prelude { mood.create(random) } else { mood.call(random, &bench.model.state) };
            build(&mut bench, &call)?;
        }
        let state = &bench.model.state;
        let abandoned = |object: &Object| matches!(object, Object::Mutex { abandoned: true, .. });
        let holes = state.objects.iter().any(Option::is_none) && state.waits.iter().any(Option::is_none);
        if state.queued().count() >= 10 && holes && state.objects.iter().flatten().any(abandoned) {
            return Ok(bench.library.tables().to_vec());
        }
    }
}

fn tickets_spent(mut cells: Vec<u64>) -> Vec<u64> {
    cells[0] = TICKETS_SPENT;
    cells
}
