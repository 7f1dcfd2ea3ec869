//! A restored board answers as one that never stopped (3/13). Of one history two boards: one goes on, the other is restored
//! from its last picture; then the same further calls on both. They may differ in which wait places the waits fill.

use crate::generate::Mood;
use crate::history::History;
use crate::library::Library;
use crate::play::{Bench, PICTURE};
use crate::random::Random;
use crate::script::{call_text, outcome_text, step_or_text};
use crate::Limits;
use second_model::{answer, Call, Outcome};
use std::thread;

/// Each is played by a thread of its own.
const SEEDS: [u64; 2] = [14, 15];
/// On both boards, for each seed.
const CALLS: u64 = 60_000;

/// What was met on boards that differed in wait places.
#[derive(Default)]
struct Counts {
    calls: u64,
    boards: u64,
    apart: u64,
    queued_apart: u64,
    woken_apart: u64,
}

pub fn run(limits: Limits) -> Result<String, String> {
    let seeds = limits.seed.map_or(SEEDS.to_vec(), |seed| vec![seed]);
    let played: Vec<Result<Counts, String>> = thread::scope(|scope| {
        let play = |&seed: &u64| scope.spawn(move || play_many(seed, limits.calls.unwrap_or(CALLS)));
        let runs: Vec<_> = seeds.iter().map(play).collect();
        runs.into_iter().map(|run| run.join().expect("boards without panic")).collect()
    });
    let mut sum = Counts::default();
    for (seed, counts) in seeds.iter().zip(played) {
        sum.add(counts.map_err(|what| format!("seed {seed}, {what}"))?);
    }
    let Counts { calls, boards, apart, queued_apart, woken_apart } = sum;
    if [queued_apart, woken_apart].contains(&0) {
        return Err(format!("never on boards that differ: {queued_apart} queued, {woken_apart} woken"));
    }
    Ok(format!("{boards} boards restored, {calls} calls on both, {apart} while their wait places differed"))
}

fn play_many(seed: u64, calls: u64) -> Result<Counts, String> {
    let mut random = Random::new(seed);
    let mut bench = Bench::new(None);
    let mut counts = Counts::default();
    while counts.calls < calls {
        counts.boards += 1;
        play_two(&mut bench, &mut random, &mut counts).map_err(|what| format!("board {}: {what}", counts.boards))?;
    }
    Ok(counts)
}

fn play_two(bench: &mut Bench, random: &mut Random, counts: &mut Counts) -> Result<(), String> {
    let mood = Mood::new(random);
    History { next: mood.next, calls: Vec::new() }.begin(bench);
    for at in 0..mood.prelude + mood.calls / 2 {
        let call = if at < mood.prelude { mood.create(random) } else { mood.call(random, &bench.model.state) };
        step_or_text(bench, &call)?;
    }
    let mut board = Library::unmade();
    let text = bench.library.play(&PICTURE)?.text;
    same(&Call::Restore { text }, &mut board, &Outcome::answer(answer::DONE))?;
    for _ in 0..mood.calls {
        let call = mood.call(random, &bench.model.state);
        let outcome = step_or_text(bench, &call)?;
        let apart = board.tables() != bench.library.tables();
        same(&call, &mut board, &outcome)?;
        let seen = bench.library.play(&PICTURE)?;
        same(&PICTURE, &mut board, &seen)?;
        counts.note(apart, &outcome);
    }
    Ok(())
}

/// The restored board answers alike: the numbers, the records, the text, and no other cell written.
fn same(call: &Call, board: &mut Library, due: &Outcome) -> Result<(), String> {
    let heard = board.play(call)?;
    if heard == *due {
        return Ok(());
    }
    let [due, heard] = [due, &heard].map(|outcome| outcome_text(call, outcome));
    Err(format!("{} => {due} | RESTORED: {heard}", call_text(call)))
}

impl Counts {
    fn note(&mut self, apart: bool, outcome: &Outcome) {
        self.calls += 1;
        self.apart += u64::from(apart);
        self.queued_apart += u64::from(apart && outcome.answer == answer::QUEUED);
        self.woken_apart += u64::from(apart && outcome.reports.len() > 1);
    }

    fn add(&mut self, other: Counts) {
        self.calls += other.calls;
        self.boards += other.boards;
        self.apart += other.apart;
        self.queued_apart += other.queued_apart;
        self.woken_apart += other.woken_apart;
    }
}
