//! Damaged tables: answer 9 exactly if `layout::broken` finds a broken line, and then nothing is altered;
//! else what the rules say of the state so read.

use crate::calls::any;
use crate::coverage::{call_name, ANSWERS};
use crate::directed::PICTURE as P1;
use crate::generate::{Mood, KINDS};
use crate::layout::{self, Place, LINES};
use crate::library::{Library, CELLS};
use crate::lines;
use crate::random::Random;
use crate::script::{call_text, heard_text, outcome_text};
use crate::states::states;
use crate::Limits;
use second_model::{answer, Call, Mode, Model, Object, Outcome, State, Waking};
use second_model::{LIST, NEVER, OBJECTS, WAITS, WAKE_CELLS};
use std::collections::BTreeMap;
use std::thread;

const SEED: u64 = 9;
const LENGTHS: [usize; 10] = [0, 1, 2, 2048, 2049, 2785, CELLS - 71, CELLS - 1, CELLS + 1, CELLS + 16];
/// For each state.
const PLACES_WRITTEN: usize = 10_000;
const CELLS_WRITTEN: usize = 3_500;
const GARBAGE: usize = 3_000;

#[derive(Default)]
struct Counts {
    /// Calls by name, on damaged tables or not.
    calls: BTreeMap<(&'static str, bool), u64>,
    /// Calls on sound tables that the fresh search would answer otherwise: states that no history leads to.
    beyond_histories: u64,
    /// Damaged and sound ones.
    tables: [u64; 2],
    answers: [u64; 13],
    /// Tables that break one line alone, by line.
    only: BTreeMap<&'static str, u64>,
}

struct Damage {
    library: Library,
    random: Random,
    mood: Mood,
    base: State,
    sound_cells: Vec<u64>,
    counts: Counts,
}

/// One thread a state, and one for the tables that are no state's.
pub fn run(limits: Limits) -> Result<String, String> {
    let seed = limits.seed.unwrap_or(SEED);
    let states = states(&mut Random::new(seed))?;
    let done: Vec<Result<Counts, String>> = thread::scope(|scope| {
        let mut runs = vec![scope.spawn(move || Damage::new(seed).without_state())];
        for (at, (name, cells)) in states.iter().enumerate() {
            let damage = move || Damage::new(seed + 1 + at as u64).of_state(cells);
            runs.push(scope.spawn(move || damage().map_err(|what| format!("state {name}: {what}"))));
        }
        runs.into_iter().map(|run| run.join().expect("a call without panic")).collect()
    });
    let mut counts = Counts::default();
    for of_thread in done {
        counts.add(of_thread?);
    }
    counts.summary(states.len())
}

impl Counts {
    fn add(&mut self, other: Counts) {
        self.beyond_histories += other.beyond_histories;
        (0..2).for_each(|at| self.tables[at] += other.tables[at]);
        (0..13).for_each(|at| self.answers[at] += other.answers[at]);
        for (call, count) in other.calls {
            *self.calls.entry(call).or_default() += count;
        }
        for (line, count) in other.only {
            *self.only.entry(line).or_default() += count;
        }
    }

    fn note(&mut self, broken: &[&'static str]) {
        self.tables[usize::from(broken.is_empty())] += 1;
        if let [line] = *broken {
            *self.only.entry(line).or_default() += 1;
        }
    }

    /// Calls but for readings, which look at no cell.
    fn on(&self, damaged: bool) -> u64 {
        let calls = self.calls.iter().filter(|((name, on), _)| *on == damaged && *name != "restore");
        calls.map(|(_, count)| count).sum()
    }

    /// What never occurred, though it must.
    fn missing(&self) -> Vec<String> {
        let calls = ANSWERS.iter().flat_map(|&(name, _)| [(name, true), (name, false)]);
        let calls = calls.filter(|call| !self.calls.contains_key(call)).map(|call| format!("{call:?}"));
        let lines = LINES.iter().filter(|line| !self.only.contains_key(*line)).map(|line| line.to_string());
        let answers = (0..13).filter(|&answer| self.answers[answer] == 0).map(|answer| format!("answer {answer}"));
        let beyond = (self.beyond_histories == 0).then(|| "a state beyond histories".into());
        calls.chain(lines).chain(answers).chain(beyond).collect()
    }

    fn summary(&self, states: usize) -> Result<String, String> {
        for (line, count) in &self.only {
            println!("  tables broken by this alone: {line}: {count}");
        }
        for ((call, damaged), count) in &self.calls {
            println!("  {call} on {} tables: {count}", if *damaged { "damaged" } else { "sound" });
        }
        let missing = self.missing();
        if !missing.is_empty() {
            return Err(format!("never occurred: {}", missing.join("; ")));
        }
        let [damaged, sound] = self.tables;
        Ok(format!(
            "{states} states, {damaged} tables damaged and {sound} sound, {} calls answered 9, \
             {} otherwise ({} beyond histories), {} readings over them",
            self.on(true),
            self.on(false),
            self.beyond_histories,
            self.calls.iter().filter(|((name, _), _)| *name == "restore").map(|(_, count)| count).sum::<u64>()
        ))
    }
}

impl Damage {
    fn new(seed: u64) -> Damage {
        let mut random = Random::new(seed);
        let library = Library::made();
        let sound_cells = library.tables().to_vec();
        let mood = Mood::filling(&mut random);
        Damage { library, mood, random, base: State::new(), sound_cells, counts: Counts::default() }
    }

    fn of_state(mut self, cells: &[u64]) -> Result<Counts, String> {
        self.base = layout::read(cells).ok_or("not sound")?;
        self.sound_cells = cells.to_vec();
        self.every_cell()?;
        self.wrong_lengths()?;
        self.written_places()?;
        self.written_cells()?;
        Ok(self.counts)
    }

    fn without_state(mut self) -> Result<Counts, String> {
        self.each_line()?;
        self.garbage()?;
        Ok(self.counts)
    }

    // Ways to damage.

    /// Every cell, several values, every kind of call; but a few calls where an object place has nothing of its own.
    fn every_cell(&mut self) -> Result<(), String> {
        for cell in 0..CELLS {
            for value in values(self.sound_cells[cell]) {
                let mut tables = self.sound_cells.clone();
                tables[cell] = value;
                let tried = match layout::place_of(cell) {
                    Some(Place::Object(place)) if place >= 100 && place + 28 < OBJECTS => {
                        self.try_tables(&tables, cell)
                    }
                    _ => self.try_every_kind(&tables, cell),
                };
                tried.map_err(|what| format!("cell {cell} is {value}: {what}"))?;
            }
        }
        Ok(())
    }

    /// Sound tables, lent with a wrong length, for every kind of call, both waits and making.
    fn wrong_lengths(&mut self) -> Result<(), String> {
        self.library.tables_mut().copy_from_slice(&self.sound_cells);
        for cells in LENGTHS {
            for call in self.every_kind(&self.base.clone()) {
                let outcome = self.library.play_cells(&call, cells)?;
                *self.counts.calls.entry((call_name(&call), true)).or_default() += 1;
                if outcome != Outcome::answer(9) || self.library.tables() != &self.sound_cells[..] {
                    return Err(format!("{cells} cells: {}", heard_text(&call, &outcome)));
                }
            }
            let made = self.library.init(cells)?;
            let mut lent = self.sound_cells.clone();
            lent.resize(cells, 0);
            self.counts.note(&layout::broken(&lent));
            if made != 9 || self.library.tables() != &self.sound_cells[..] {
                return Err(format!("init of {cells} cells: {made}"));
            }
        }
        Ok(())
    }

    /// Tables that break one line of document 01 alone, and tables at the very edge of each.
    fn each_line(&mut self) -> Result<(), String> {
        for case in lines::cases()? {
            let lines::Case { line, tables, edits } = case;
            let broken = layout::broken(&tables);
            if broken.iter().ne(line.iter()) {
                return Err(format!("{edits:?} should break {line:?}: {broken:?}"));
            }
            let cell = edits[0].0;
            self.try_every_kind(&tables, cell).map_err(|what| format!("{edits:?}: {line:?}: {what}"))?;
        }
        Ok(())
    }

    /// A whole place written with likely values.
    fn written_places(&mut self) -> Result<(), String> {
        for _ in 0..PLACES_WRITTEN {
            let mut tables = self.sound_cells.clone();
            let at =
                if self.random.percent(50) { self.write_object(&mut tables) } else { self.write_wait(&mut tables) };
            self.try_tables(&tables, at)
                .map_err(|what| format!("place at {at} is {:?}: {what}", &tables[at..at + 4]))?;
        }
        Ok(())
    }

    fn write_object(&mut self, tables: &mut [u64]) -> usize {
        let places = self.random.pick(&[12, OBJECTS]);
        let at = layout::object_at(self.random.below(places));
        let likely = [0, 0, 1, 1, 2, 7, u32::MAX.into(), 1 << 32];
        tables[at] = self.random.pick(&[0, 1, 1, 2, 2, 3, 3, 4]);
        for cell in &mut tables[at + 1..at + 4] {
            *cell = self.random.pick(&likely);
        }
        at
    }

    fn write_wait(&mut self, tables: &mut [u64]) -> usize {
        let at = layout::wait_at(self.random.below(WAITS));
        let n = self.random.pick(&[0, 1, 1, 2, 3, 5, LIST]);
        let occupied: Vec<u64> =
            (0..OBJECTS).filter(|&place| self.base.objects[place].is_some()).map(|place| place as u64 + 1).collect();
        let handle = |random: &mut Random| match random.below(60) {
            0 => random.pick(&[0, 512, 513, 1 << 32]),
            _ if occupied.is_empty() => 1,
            _ => random.pick(&occupied),
        };
        let random = &mut self.random;
        let next = self.base.next;
        tables[at] = random.pick(&[1, 2, 3, next - 1, next - 1, next, next / 2]);
        tables[at + 1] = random.pick(&[0, 0, 0, 1, 1, 2]);
        tables[at + 2] = random.pick(&[1, 7, 7, 7, u32::MAX.into(), 0]);
        tables[at + 3] = random.pick(&[0, 1, 0, 1, 0, 1, 2]);
        tables[at + 4] = random.pick(&[0, 1, 5, NEVER]);
        tables[at + 5] = n as u64;
        tables[at + 6] = if random.percent(60) { 0 } else { handle(random) };
        for (place, cell) in tables[at + layout::LIST_AT..][..LIST].iter_mut().enumerate() {
            *cell = if place < n { handle(random) } else { 0 };
        }
        if random.percent(10) {
            tables[at + 5] = random.pick(&[0, n as u64 + 1, (n as u64).saturating_sub(1), 64, 65]);
        }
        at
    }

    /// A few cells with values from the tables or from the likely ones.
    fn written_cells(&mut self) -> Result<(), String> {
        for _ in 0..CELLS_WRITTEN {
            let mut tables = self.sound_cells.clone();
            let mut at = 0;
            for _ in 0..1 + self.random.below(4) {
                at = self.random.below(CELLS);
                let value = tables[self.random.below(CELLS)];
                tables[at] = self.random.pick(&[value, self.sound_cells[at] ^ 1, self.sound_cells[at]]);
            }
            self.try_tables(&tables, at).map_err(|what| format!("a few cells, {at} the last: {what}"))?;
        }
        Ok(())
    }

    fn garbage(&mut self) -> Result<(), String> {
        for round in 0..GARBAGE {
            let mask = [u64::MAX, 3, 1, u32::MAX.into()][round % 4];
            let tables: Vec<u64> = (0..CELLS).map(|_| self.random.number() & mask).collect();
            self.try_every_kind(&tables, 0).map_err(|what| format!("garbage: {what}"))?;
        }
        Ok(())
    }

    // Calls on damaged tables.

    fn put(&mut self, tables: &[u64]) -> Option<State> {
        self.library.tables_mut().copy_from_slice(tables);
        let broken = layout::broken(tables);
        self.counts.note(&broken);
        broken.is_empty().then(|| layout::values(tables))
    }

    /// A call of each kind, and both waits.
    fn every_kind(&mut self, seen: &State) -> Vec<Call> {
        let mut calls: Vec<Call> = (0..KINDS).map(|kind| self.mood.call_of(kind, &mut self.random, seen)).collect();
        let waits: Vec<Call> = calls.iter().filter_map(in_other_mode).collect();
        calls.extend(waits);
        calls
    }

    /// Each kind, making, and a call that names what the cell belongs to.
    fn try_every_kind(&mut self, tables: &[u64], cell: usize) -> Result<(), String> {
        let read = self.put(tables);
        let seen = read.as_ref().unwrap_or(&self.base).clone();
        let mut calls = self.every_kind(&seen);
        calls.extend(aimed(&mut self.random, &seen, cell));
        for call in &calls {
            self.try_call(tables, &read, call)?;
        }
        self.try_making(tables)?;
        self.try_reading(tables, read.is_none())
    }

    /// Two likely calls, and one that names what the cell belongs to.
    fn try_tables(&mut self, tables: &[u64], cell: usize) -> Result<(), String> {
        let read = self.put(tables);
        let seen = read.as_ref().unwrap_or(&self.base);
        let mut calls: Vec<Call> = (0..2).map(|_| self.mood.call(&mut self.random, seen)).collect();
        calls.extend(aimed(&mut self.random, seen, cell));
        calls.iter().try_for_each(|call| self.try_call(tables, &read, call))
    }

    /// Making looks at no cell.
    fn try_making(&mut self, tables: &[u64]) -> Result<(), String> {
        let made = self.library.init(CELLS)?;
        let due = layout::differs(self.library.tables(), &State::new());
        self.library.tables_mut().copy_from_slice(tables);
        if made == 0 && due.is_none() {
            Ok(())
        } else {
            Err(format!("init: {made} {due:?}"))
        }
    }

    /// Nor does reading a picture back, accepted or refused.
    fn try_reading(&mut self, tables: &[u64], damaged: bool) -> Result<(), String> {
        let mut model = Model::new(None);
        for text in [P1, &P1[1..]] {
            let call = Call::Restore { text: text.as_bytes().to_vec() };
            let (outcome, due) = (self.library.play(&call)?, model.step(&call));
            *self.counts.calls.entry((call_name(&call), damaged)).or_default() += 1;
            let differs = match due.answer {
                answer::DONE => layout::differs(self.library.tables(), &model.state),
                _ => altered(&self.library, tables),
            };
            self.library.tables_mut().copy_from_slice(tables);
            if outcome != due || differs.is_some() {
                return Err(format!("{} {differs:?}", heard_text(&call, &outcome)));
            }
        }
        Ok(())
    }

    fn try_call(&mut self, tables: &[u64], read: &Option<State>, call: &Call) -> Result<(), String> {
        let outcome = self.library.play(call)?;
        *self.counts.calls.entry((call_name(call), read.is_none())).or_default() += 1;
        self.counts.answers[outcome.answer.min(12) as usize] += 1;
        let (due, differs) = match read {
            None => (Outcome::answer(9), altered(&self.library, tables)),
            Some(state) => {
                let mut model = Model::on(state.clone());
                let due = model.step(call);
                let mut search = Model { state: state.clone(), waking: Waking::Search, slip: None };
                self.counts.beyond_histories += u64::from(search.step(call) != due || search.state != model.state);
                let refused = answer::is_refusal(due.answer);
                let after = self.library.tables();
                let differs =
                    if refused { altered(&self.library, tables) } else { layout::differs(after, &model.state) };
                (due, differs)
            }
        };
        if outcome != due || differs.is_some() {
            let (heard, due) = (outcome_text(call, &outcome), outcome_text(call, &due));
            return Err(format!("{} => {due} | LIBRARY: {heard} {differs:?}", call_text(call)));
        }
        if !answer::is_refusal(outcome.answer) {
            self.library.tables_mut().copy_from_slice(tables);
        }
        Ok(())
    }
}

/// A wait for any as one for all, and the other way round.
fn in_other_mode(call: &Call) -> Option<Call> {
    let Call::Wait { mode, ref list, owner, alert, flags, pad, timeout, time } = *call else { return None };
    let mode = if mode == Mode::Any { Mode::All } else { Mode::Any };
    Some(Call::Wait { mode, list: list.clone(), owner, alert, flags, pad, timeout, time })
}

/// The edges of every range and the neighbours of what is held, but not what is held.
fn values(held: u64) -> Vec<u64> {
    let large = 1 << 32;
    let mut values = vec![0, 1, 2, 3, 4, 64, 65, 512, 513, large - 1, large, u64::MAX];
    values.extend([held.wrapping_add(1), held.wrapping_sub(1)]);
    values.sort();
    values.dedup();
    values.retain(|&value| value != held);
    values
}

fn altered(library: &Library, tables: &[u64]) -> Option<String> {
    (library.tables() != tables).then(|| "tables written by a refused call".into())
}

/// A change to the object that the cell belongs to, or to one that its wait names.
fn aimed(random: &mut Random, state: &State, cell: usize) -> Option<Call> {
    let wake = WAKE_CELLS;
    let handle = match layout::place_of(cell) {
        None => return Some(any(7, 0, NEVER, &[1])),
        Some(Place::Object(place)) => place as u32 + 1,
        Some(Place::Wait(place)) => {
            let wait = state.waits[place].as_ref()?;
            match wait.list[..] {
                [] if wait.alert == 0 => return Some(Call::Cancel { ticket: wait.ticket }),
                [] => wait.alert,
                _ if wait.alert != 0 && random.percent(30) => wait.alert,
                _ => random.pick(&wait.list),
            }
        }
    };
    Some(match state.object(handle) {
        Some(Object::Semaphore { .. }) => Call::Post { handle, add: random.below(3) as u32, wake },
        Some(Object::Mutex { owner, .. }) if random.percent(50) => Call::Unlock { handle, owner, wake },
        Some(Object::Mutex { owner, .. }) => Call::Kill { handle, owner, wake },
        Some(Object::Event { .. }) if random.percent(50) => Call::Pulse { handle, wake },
        Some(Object::Event { .. }) => Call::Set { handle, wake },
        None => Call::Close { handle },
    })
}
