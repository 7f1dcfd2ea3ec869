//! Damaged pictures (3/13): of every text, answer and offset are the second model's; an accepted one makes the tables that
//! it shows, a refused one alters no cell.

use crate::layout;
use crate::library::{Fence, Library, CELLS};
use crate::mutate::{mutated, put, value_of};
use crate::play::PICTURE;
use crate::random::Random;
use crate::script::outcome_text;
use crate::states::{longest, states};
use crate::texts::{escaped, lines, mended};
use crate::variants::variants;
use crate::Limits;
use second_model::{answer, picture, Call, Model, Outcome, Slip, State};
use std::collections::BTreeMap;
use std::thread;

const SEED: u64 = 13;
/// Random changes, of each picture.
const CHANGED: usize = 4_000;
/// Texts up to so many bytes are tried in every way, longer ones in fewer.
const SHORT: usize = 400;
const MIDDLE: usize = 10_000;
const LONG: usize = 30_000;
const ENDS: usize = 3_000;
const LENGTHS: [usize; 7] = [0, 1, 2, 2785, CELLS - 1, CELLS + 1, CELLS + 16];
const MEGABYTES: usize = 4 << 20;

/// Ways to damage a picture; whether a text so damaged is accepted, refused at a line behind the first, and refused at offset
/// 0: `+` it must occur, `-` it must not.
const WAYS: [(&str, &str); 12] = [
    ("a byte changed", "-++"),
    ("a digit changed, the sum right", "+++"),
    ("cut short", "-++"),
    ("something behind", "--+"),
    // Two handles of a list, exchanged, leave the sum as it was.
    ("a line moved", "+++"),
    ("a line moved, the sum right", "+++"),
    ("a number in another form, the sum right", "-++"),
    ("the edges of ranges, the sum right", "+++"),
    ("other values, written as they are", "+-+"),
    ("random changes", "+++"),
    ("long texts", "-++"),
    ("at a fence", "+++"),
];

#[derive(Default)]
struct Counts {
    /// Accepted, refused at a line behind the first, refused at offset 0; by way.
    by_way: BTreeMap<&'static str, [u64; 3]>,
    lengths: u64,
}

type Done = Result<(), String>;

/// One thread a picture, and one for texts that are none.
pub fn run(limits: Limits) -> Result<String, String> {
    let seed = limits.seed.unwrap_or(SEED);
    let states = bases(seed)?;
    let done: Vec<Result<Counts, String>> = thread::scope(|scope| {
        let mut runs = vec![scope.spawn(move || Trial::new(seed, None).of_no_picture())];
        for (at, (name, state)) in states.iter().enumerate() {
            let trial = move || Trial::new(seed + 1 + at as u64, None).of_picture(state);
            runs.push(scope.spawn(move || trial().map_err(|what| format!("picture {name}: {what}"))));
        }
        runs.into_iter().map(|run| run.join().expect("a reading without panic")).collect()
    });
    let mut counts = Counts::default();
    for of_thread in done {
        counts.add(of_thread?);
    }
    counts.summary(states.len())
}

/// The first text that shows a slip in the model's reading, if one of P1's or of the abandoned mutexes' picture does.
pub fn finds(slip: Slip) -> Option<String> {
    let states = bases(SEED).ok()?.into_iter().filter(|(name, _)| ["P1", "abandoned"].contains(name));
    states.filter_map(|(_, state)| Trial::new(SEED, Some(slip)).of_picture(&state).err()).next()
}

fn bases(seed: u64) -> Result<Vec<(&'static str, State)>, String> {
    let cells = states(&mut Random::new(seed))?;
    let read = |(name, cells): (&'static str, Vec<u64>)| layout::read(&cells).map(|state| (name, state)).ok_or(name);
    let mut bases = cells.into_iter().map(read).collect::<Result<Vec<_>, _>>()?;
    bases.push(("longest", longest()));
    Ok(bases)
}

/// Writes the pictures to a folder, for tests/fuzz-restore to begin with.
pub fn run_corpus(folder: &str) -> Result<String, String> {
    let states = bases(SEED)?;
    for (name, state) in &states {
        let file = format!("{folder}/{}", name.replace([' ', ','], "-"));
        std::fs::write(&file, picture(state)).map_err(|what| format!("{file}: {what}"))?;
    }
    Ok(format!("{} pictures in {folder}", states.len()))
}

impl Counts {
    fn add(&mut self, other: Counts) {
        self.lengths += other.lengths;
        for (way, counts) in other.by_way {
            let sums = self.by_way.entry(way).or_default();
            sums.iter_mut().zip(counts).for_each(|(sum, count)| *sum += count);
        }
    }

    fn note(&mut self, way: &'static str, outcome: &Outcome) {
        let which = match (outcome.answer, outcome.numbers[0]) {
            (0, _) => 0,
            (_, 0) => 2,
            _ => 1,
        };
        self.by_way.entry(way).or_default()[which] += 1;
    }

    fn summary(&self, pictures: usize) -> Result<String, String> {
        for (way, [accepted, at_line, at_0]) in &self.by_way {
            println!("  {way}: accepted {accepted}, refused at a line {at_line}, at offset 0 {at_0}");
        }
        let unlike = |&&(way, due): &&(&str, &str)| {
            let counts = self.by_way.get(way).copied().unwrap_or_default();
            due.bytes().zip(counts).any(|(due, count)| due == b'+' && count == 0 || due == b'-' && count > 0)
        };
        if let Some((way, due)) = WAYS.iter().find(unlike) {
            return Err(format!("{way}: {:?}, due {due:?}", self.by_way.get(way)));
        }
        let [accepted, refused] =
            [0..1, 1..3].map(|which| self.by_way.values().flat_map(|counts| &counts[which.clone()]).sum::<u64>());
        Ok(format!("{pictures} pictures, {refused} texts refused, {accepted} accepted, {} wrong lengths", self.lengths))
    }
}

struct Trial {
    library: Library,
    garbage: Vec<u64>,
    model: Model,
    random: Random,
    counts: Counts,
}

impl Trial {
    fn new(seed: u64, slip: Option<Slip>) -> Trial {
        let library = Library::unmade();
        let garbage = library.tables().to_vec();
        Trial { library, garbage, model: Model::new(slip), random: Random::new(seed), counts: Counts::default() }
    }

    fn of_picture(mut self, state: &State) -> Result<Counts, String> {
        let text = picture(state);
        self.bytes(&text)?;
        self.digits(&text)?;
        self.prefixes(&text)?;
        self.tails(&text)?;
        self.moved_lines(&text)?;
        self.other_forms(&text)?;
        self.edges(&text)?;
        self.other_values(state)?;
        self.random_changes(&text)?;
        self.fenced(&text)?;
        self.wrong_lengths(&text)?;
        Ok(self.counts)
    }

    // One text.

    fn text(&mut self, way: &'static str, text: Vec<u8>) -> Done {
        let call = Call::Restore { text };
        self.library.fill_with_garbage();
        let heard = self.library.play(&call)?;
        let due = self.model.step(&call);
        let differs = match due.answer {
            answer::DONE => self.shows_otherwise(call.text())?,
            _ => (self.library.tables() != self.garbage).then(|| "tables written by a refused reading".into()),
        };
        if heard == due && differs.is_none() {
            self.counts.note(way, &due);
            return Ok(());
        }
        let [heard, due] = [heard, due].map(|outcome| outcome_text(&call, &outcome));
        Err(format!("{way}: restore {} => {due} | LIBRARY: {heard} {differs:?}", excerpt(call.text())))
    }

    /// How the tables that were read differ from the model's, or their picture from the text.
    fn shows_otherwise(&mut self, text: &[u8]) -> Result<Option<String>, String> {
        let differs = layout::differs(self.library.tables(), &self.model.state);
        if differs.is_some() || self.library.play(&PICTURE)?.text == text {
            return Ok(differs);
        }
        Ok(Some("written again, the text is another".into()))
    }

    // Ways to damage a picture.

    fn bytes(&mut self, text: &[u8]) -> Done {
        for at in places(text) {
            for byte in other_bytes(text, at) {
                let mut changed = text.to_vec();
                changed[at] = byte;
                self.text("a byte changed", changed)?;
            }
        }
        Ok(())
    }

    fn digits(&mut self, text: &[u8]) -> Done {
        let most = if text.len() < MIDDLE { 9 } else { 1 };
        for at in places(text).filter(|&at| text[at].is_ascii_digit()) {
            for more in 1..=most {
                let mut changed = text.to_vec();
                changed[at] = b'0' + (text[at] - b'0' + more) % 10;
                self.text("a digit changed, the sum right", mended(&changed))?;
            }
        }
        Ok(())
    }

    fn prefixes(&mut self, text: &[u8]) -> Done {
        places(text).try_for_each(|end| self.text("cut short", text[..end].to_vec()))
    }

    fn tails(&mut self, text: &[u8]) -> Done {
        let sum = lines(text).pop().unwrap_or_default();
        let tails: [&[u8]; 9] = [b"\n", b"0", b" ", b"\r\n", b"\0", b"sum=0\n", sum, text, &[0; 80_000]];
        tails.iter().try_for_each(|tail| self.text("something behind", [text, tail].concat()))
    }

    /// Lines doubled, left out, and exchanged with the next and with the one ten lines on.
    fn moved_lines(&mut self, text: &[u8]) -> Done {
        let lines = lines(text);
        for at in chosen(text, 3) {
            let mut doubled = lines.clone();
            doubled.insert(at, lines[at]);
            let mut without = lines.clone();
            without.remove(at);
            let exchanged = [at + 1, at + 10].into_iter().filter(|&other| other < lines.len()).map(|other| {
                let mut exchanged = lines.clone();
                exchanged.swap(at, other);
                exchanged
            });
            let moved: Vec<_> = exchanged.filter(|moved| *moved != lines).chain([doubled, without]).collect();
            for text in moved.iter().map(|lines| lines.concat()) {
                self.text("a line moved, the sum right", mended(&text))?;
                self.text("a line moved", text)?;
            }
        }
        Ok(())
    }

    /// The text with another value in every line, or in every so many of a long text; its sum right but for its own line.
    fn lines_with(&mut self, way: &'static str, text: &[u8], values: impl Fn(&[u8]) -> Vec<Vec<u8>>) -> Done {
        let lines = lines(text);
        let last = lines.len() - 1;
        for at in chosen(text, 7) {
            let [before, behind] = [&lines[..at], &lines[at + 1..]].map(|part| part.concat());
            for value in values(value_of(lines[at]).unwrap_or_default()) {
                let mut line = lines[at].to_vec();
                put(&mut line, &value);
                let text = [&before[..], &line, &behind].concat();
                self.text(way, if at == last { text } else { mended(&text) })?;
            }
        }
        Ok(())
    }

    fn other_forms(&mut self, text: &[u8]) -> Done {
        self.lines_with("a number in another form, the sum right", text, |value| {
            let fronts = ["0", "00000000000000000000000000", "+", "-", " ", "\t", "0x", "="];
            let ends = [" ", "\r", ".", ".0", "\0", "x", "\u{665}", "00000000000000000000000000000000000000000"];
            let before = fronts.map(|front| [front.as_bytes(), value].concat());
            let behind = ends.map(|end| [value, end.as_bytes()].concat());
            before.into_iter().chain(behind).chain([Vec::new()]).collect()
        })
    }

    fn edges(&mut self, text: &[u8]) -> Done {
        let small = [0, 1, 2, 31, 32, 33, 63, 64, 65, 127, 128, 129, 255, 256, 257, 511, 512, 513];
        let large = [32, 63, 64, 65, 127].map(|bits| 1u128 << bits);
        let edges = large.into_iter().flat_map(|edge| [edge - 1, edge, edge + 1]).chain(small);
        let edges: Vec<Vec<u8>> = edges.map(|edge| edge.to_string().into_bytes()).collect();
        self.lines_with("the edges of ranges, the sum right", text, |_| edges.clone())
    }

    /// States with one value changed, as the writer would write them: unsound, servable, or good.
    fn other_values(&mut self, state: &State) -> Done {
        variants(state).iter().try_for_each(|state| self.text("other values, written as they are", picture(state)))
    }

    fn random_changes(&mut self, text: &[u8]) -> Done {
        for _ in 0..CHANGED {
            let changed = mutated(&mut self.random, text);
            self.text("random changes", changed)?;
        }
        Ok(())
    }

    /// Reading past the text, or past the tables, ends the program.
    fn fenced(&mut self, text: &[u8]) -> Done {
        let ends = lines(text).into_iter().map(<[u8]>::len);
        let starts = ends.scan(0, |at, length| Some(std::mem::replace(at, *at + length)));
        let cuts: Vec<usize> = starts.flat_map(|at| [at, at + 1, at + 6]).filter(|&at| at < text.len()).collect();
        let step = cuts.len().div_ceil(SHORT);
        for fence in [Fence::Before, Fence::Behind] {
            self.library.fence = Some(fence);
            self.text("at a fence", text.to_vec())?;
            cuts.iter().step_by(step).try_for_each(|&cut| self.text("at a fence", text[..cut].to_vec()))?;
            for _ in 0..SHORT {
                let changed = mutated(&mut self.random, text);
                self.text("at a fence", changed)?;
            }
        }
        self.library.fence = None;
        Ok(())
    }

    /// 9 comes first, whatever the text is.
    fn wrong_lengths(&mut self, text: &[u8]) -> Done {
        for (cells, text) in LENGTHS.into_iter().flat_map(|cells| [(cells, text), (cells, &text[1..]), (cells, b"")]) {
            self.library.fill_with_garbage();
            let heard = self.library.play_cells(&Call::Restore { text: text.to_vec() }, cells)?;
            self.counts.lengths += 1;
            if heard != Outcome::answer(answer::DAMAGED) || self.library.tables() != self.garbage {
                return Err(format!("{cells} cells: {heard:?}"));
            }
        }
        Ok(())
    }

    // Texts that are no picture.

    fn of_no_picture(mut self) -> Result<Counts, String> {
        let fronts: [&[u8]; 6] =
            [b"", b"next=", b"next=1", b"next=1\nobjects=", b"next=1\nobjects=0\nwaits=0\nsum=", b"\n"];
        for front in fronts {
            for fill in *b"09\n= n\0\xff" {
                let long = [front, &vec![fill; MEGABYTES]].concat();
                self.text("long texts", [&long[..], b"\n"].concat())?;
                self.text("long texts", long)?;
            }
            let garbage = (0..MEGABYTES).map(|_| self.random.number() as u8);
            let garbage: Vec<u8> = front.iter().copied().chain(garbage).collect();
            self.text("long texts", garbage)?;
        }
        Ok(self.counts)
    }
}

/// Every line of a text; of a long one every so many, the first ones and the last.
fn chosen(text: &[u8], of_long: usize) -> impl Iterator<Item = usize> {
    let lines = lines(text).len();
    let step = if text.len() < MIDDLE { 1 } else { of_long };
    (0..lines).filter(move |at| at % step == 0 || *at < 20 || *at + 1 == lines)
}

/// Places of the text to change or to cut it at: all of them, but within a long one every fifth.
fn places(text: &[u8]) -> impl Iterator<Item = usize> {
    let length = text.len();
    (0..length).filter(move |at| length < LONG || at % 5 == 0 || *at < ENDS || at + ENDS > length)
}

/// Other bytes to put there: all of them in a short text, two in a long one.
fn other_bytes(text: &[u8], at: usize) -> Vec<u8> {
    let mut others = match text.len() {
        0..SHORT => (0..=u8::MAX).collect(),
        SHORT..MIDDLE => b"\n\r 019-+=\0\xff".to_vec(),
        _ => vec![b"\n0 9"[at % 4]],
    };
    others.push(text[at] ^ 1);
    others.retain(|&other| other != text[at]);
    others.dedup();
    others
}

/// The text, or its two ends.
fn excerpt(text: &[u8]) -> String {
    const MOST: usize = 1_000;
    match text.len() {
        0..MOST => escaped(text),
        length => format!("{} ({length} bytes) {}", escaped(&text[..MOST / 2]), escaped(&text[length - MOST / 2..])),
    }
}
