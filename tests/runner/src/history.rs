//! Random histories on library and model, with readings in them: of pictures of the history, and of changed ones.

use crate::coverage::{Before, Coverage};
use crate::generate::Mood;
use crate::play::{Bench, Difference};
use crate::random::Random;
use crate::saved::Saved;
use crate::shrink::{shrunk, Trial};
use crate::Limits;
use second_model::{Call, Slip};
use std::thread;
use std::time::Instant;

/// Each is played by a thread of its own.
const SEEDS: [u64; 4] = [1, 2, 3, 20_261_116];
/// For each seed.
const CALLS: u64 = 300_000;
/// From so many calls on every situation must have occurred.
const TELLING_CALLS: u64 = 1_000_000;

/// Calls on newly made tables, readings among them; `next` other than 1 is written into them first.
#[derive(Clone, PartialEq, Debug, Default)]
pub struct History {
    pub next: u64,
    pub calls: Vec<Call>,
}

impl History {
    /// Makes the tables that the calls begin with.
    pub fn begin(&self, bench: &mut Bench) {
        bench.make();
        if self.next != 1 {
            bench.write_next(self.next);
        }
    }

    /// The first call on which library and model differ, with its place.
    pub fn first_difference(&self, slip: Option<Slip>) -> Option<(usize, Box<Difference>)> {
        let mut bench = Bench::new(slip);
        self.begin(&mut bench);
        let mut steps = self.calls.iter().enumerate();
        steps.find_map(|(at, call)| bench.step(call).err().map(|difference| (at, difference)))
    }
}

/// A history whose last call differs.
pub struct Failure {
    pub history: History,
    pub difference: Box<Difference>,
}

pub fn run(limits: Limits) -> Result<String, String> {
    let seeds = limits.seed.map_or(SEEDS.to_vec(), |seed| vec![seed]);
    let calls = limits.calls.unwrap_or(if limits.seconds.is_some() { u64::MAX } else { CALLS });
    let end = limits.end();
    let played: Vec<_> = thread::scope(|scope| {
        let play = |seed| scope.spawn(move || play_many(Bench::new(None), seed, calls, end));
        let runs: Vec<_> = seeds.iter().copied().map(play).collect();
        runs.into_iter().map(|run| run.join().expect("a history without panic")).collect()
    });
    let mut coverage = Coverage::default();
    for (seed, (of_seed, failure)) in seeds.iter().zip(played) {
        if let Some(Failure { history, difference }) = failure {
            let (_, script) = shrunk(history, Trial::Here(None));
            return Err(format!("seed {seed}, history {}: {}\n{script}", of_seed.histories, difference.what));
        }
        coverage.add(of_seed);
    }
    print!("{}", coverage.table());
    let missing = coverage.missing();
    if coverage.calls >= TELLING_CALLS && !missing.is_empty() {
        return Err(format!("never occurred in {} calls: {}", coverage.calls, missing.join("; ")));
    }
    let Coverage { calls, histories, .. } = coverage;
    Ok(format!("seeds {seeds:?}, {histories} histories, {calls} calls, after each the picture, read back"))
}

/// Plays histories until so many calls were made, time is up, or a call differs.
pub fn play_many(mut bench: Bench, seed: u64, calls: u64, end: Option<Instant>) -> (Coverage, Option<Failure>) {
    let mut random = Random::new(seed);
    let mut coverage = Coverage::default();
    while coverage.calls < calls && end.is_none_or(|end| Instant::now() < end) {
        coverage.begun();
        let failure = play_one(&mut bench, &mut random, &mut coverage);
        if failure.is_some() {
            return (coverage, failure);
        }
    }
    (coverage, None)
}

fn play_one(bench: &mut Bench, random: &mut Random, coverage: &mut Coverage) -> Option<Failure> {
    let mood = Mood::new(random);
    let mut history = History { next: mood.next, calls: Vec::new() };
    history.begin(bench);
    let mut saved = Saved::default();
    for at in 0..mood.prelude + mood.calls {
        let reading = saved.reading(random, &bench.model.state);
        let call = match reading {
            Some(text) => Call::Restore { text },
            None if at < mood.prelude => mood.create(random),
            None => mood.call(random, &bench.model.state),
        };
        history.calls.push(call.clone());
        let before = Before::new(&bench.model.state, &call);
        match bench.step(&call) {
            Ok(outcome) => coverage.observe(&before, &call, &outcome, &bench.model.state),
            Err(difference) => return Some(Failure { history, difference }),
        }
    }
    None
}
