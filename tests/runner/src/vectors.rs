//! Plays vectors/histories.txt, or a script in its notation, through the C interface, and beside it the second model.

use crate::history::History;
use crate::library::{self, Far};
use crate::play::Bench;
use crate::script::{heard_text, number_names, outcome_text, step_or_text, step_text};
use crate::texts::unescaped;
use second_model::{answer, Call, Mode, Outcome, Report, LIST, NEVER, PICTURE_BYTES, WAKE_CELLS};

const FILE: &str = include_str!("../../vectors/histories.txt");
/// What the file has, so that no step is lost unseen.
const WHOLE: &str = "42 histories, 681 steps";

#[derive(Clone, Debug)]
struct Step {
    name: String,
    /// The call as it was written.
    text: String,
    call: Call,
    /// The stated length of a list that has fewer handles written out.
    length: Option<usize>,
    answer: u32,
    numbers: Vec<(String, u64)>,
    woken: Vec<Report>,
}

struct Script {
    title: String,
    /// The ticket that the history begins with.
    next: u64,
    steps: Vec<Step>,
}

pub fn run() -> Result<String, String> {
    let first = FILE.find("\nK1 ").ok_or("no history K1")?;
    match play_text(&FILE[first..], &mut String::new())? {
        played if played == WHOLE => Ok(played + &library::skipped()),
        played => Err(format!("{played}, and the file had {WHOLE}: some were lost, or came")),
    }
}

/// Plays the histories of a file and prints what was heard.
pub fn run_script(file: &str) -> Result<String, String> {
    let text = std::fs::read_to_string(file).map_err(|what| format!("{file}: {what}"))?;
    let mut heard = String::new();
    let played = play_text(&text, &mut heard);
    print!("{heard}");
    played
}

/// The calls of a script's one history.
pub fn read_back(text: &str) -> Result<History, String> {
    let script = parse(text)?.pop().ok_or("no history")?;
    Ok(History { next: script.next, calls: script.steps.into_iter().map(|step| step.call).collect() })
}

fn play_text(text: &str, heard: &mut String) -> Result<String, String> {
    let scripts = parse(text)?;
    let mut steps = 0;
    for script in &scripts {
        play(script, heard).map_err(|what| format!("{}: {what}", script.title))?;
        steps += script.steps.len();
    }
    if steps == 0 {
        return Err("no step".into());
    }
    Ok(format!("{} histories, {steps} steps", scripts.len()))
}

fn play(script: &Script, heard: &mut String) -> Result<(), String> {
    let mut bench = Bench::new(None);
    History { next: script.next, calls: Vec::new() }.begin(&mut bench);
    for step in &script.steps {
        let outcome = match step.length {
            Some(n) => match long_wait(&mut bench, &step.call, n)? {
                Some(outcome) => outcome,
                None => continue,
            },
            None => step_or_text(&mut bench, &step.call).map_err(|what| format!("{} {what}", step.name))?,
        };
        *heard += &step_text(&step.name, &step.text, &outcome_text(&step.call, &outcome));
        check(step, &outcome)
            .map_err(|what| format!("{} {}, but the step {what}", step.name, heard_text(&step.call, &outcome)))?;
        if other_steps(step).iter().any(|other| check(other, &outcome).is_ok()) {
            return Err(format!("{}: a step with other numbers would pass too", step.name));
        }
    }
    Ok(())
}

/// The step with one thing changed that it states, so that no line passes unread.
fn other_steps(step: &Step) -> Vec<Step> {
    let mut others = vec![Step { answer: step.answer + 1, ..step.clone() }];
    for at in 0..step.numbers.len() {
        let mut other = step.clone();
        other.numbers[at].1 ^= 1;
        others.push(other);
    }
    for at in 0..step.woken.len() {
        let mut other = step.clone();
        other.woken.remove(at);
        others.push(other);
    }
    others
}

/// A list too long to be written out: refused by its length, so the model is not asked. None if it can't be lent.
fn long_wait(bench: &mut Bench, call: &Call, n: usize) -> Result<Option<Outcome>, String> {
    let before = bench.library.tables().to_vec();
    let Some(outcome) = bench.library.play_far(call, Far::List, n)? else { return Ok(None) };
    if answer::is_refusal(outcome.answer) && bench.library.tables() == &before[..] {
        return Ok(Some(outcome));
    }
    Err(format!("not refused, or tables written: {}", heard_text(call, &outcome)))
}

fn check(step: &Step, outcome: &Outcome) -> Result<(), String> {
    if outcome.answer != step.answer {
        return Err(format!("answers {}", step.answer));
    }
    for (key, value) in &step.numbers {
        if number_named(&step.call, outcome, key) != Some(*value) {
            return Err(format!("has {key}={value}"));
        }
    }
    if unstated_number(step, outcome) {
        return Err("has no other number".into());
    }
    let mut woken = outcome.reports.clone();
    woken.sort_by_key(|report| report.ticket);
    if woken != step.woken {
        return Err(format!("wakes {:?}", step.woken));
    }
    Ok(())
}

fn number_named(call: &Call, outcome: &Outcome, key: &str) -> Option<u64> {
    number_names(call).iter().position(|name| *name == key).map(|at| outcome.numbers[at])
}

/// A number that the step doesn't state must be 0; `woken` is stated by the woken waits.
fn unstated_number(step: &Step, outcome: &Outcome) -> bool {
    number_names(&step.call).iter().zip(outcome.numbers).any(|(name, number)| {
        let stated = step.numbers.iter().any(|(key, _)| key == name);
        let due = if *name == "woken" { step.woken.len() as u64 } else { 0 };
        !stated && number != due
    })
}

// Reading the file.

/// Titles begin at the margin, steps don't.
fn parse(text: &str) -> Result<Vec<Script>, String> {
    let mut scripts: Vec<Script> = Vec::new();
    for line in text.lines().filter(|line| !line.trim().is_empty()) {
        if !line.starts_with(' ') && !line.contains("=>") {
            let next = line.split_once("next=").map_or(Ok(1), |(_, number)| number.trim().parse());
            let next = next.map_err(|_| format!("not understood: {line}"))?;
            scripts.push(Script { title: line.to_string(), next, steps: Vec::new() });
            continue;
        }
        let step = parse_step(line).ok_or_else(|| format!("not understood: {line}"))?;
        scripts.last_mut().ok_or("a step before any history")?.steps.push(step);
    }
    scripts.retain(|script| !script.steps.is_empty());
    Ok(scripts)
}

fn parse_step(line: &str) -> Option<Step> {
    let ours = line.split(" | ").next()?;
    let (left, right) = ours.split_once("=>")?;
    let (name, text) = left.trim().split_once(' ')?;
    let (name, text) = (name.to_string(), text.trim().to_string());
    let (words, note) = text.split_once('#').unwrap_or((&text, ""));
    let (call, length) = parse_call(&words.split_whitespace().collect::<Vec<_>>(), &parse_note(note)?)?;
    let mut right = right.split_whitespace();
    let answer = right.next()?.parse().ok()?;
    let mut step = Step { name, text, call, length, answer, numbers: Vec::new(), woken: Vec::new() };
    for word in right {
        match word.split_once('=') {
            Some((key, value)) => step.numbers.push((key.to_string(), value.parse().ok()?)),
            None => step.woken.push(parse_woken(word)?),
        }
    }
    Some(step)
}

/// What stands behind `#`, or what goes without saying.
struct Note {
    time: u64,
    wake: usize,
    bytes: usize,
}

fn parse_note(text: &str) -> Option<Note> {
    let mut note = Note { time: 0, wake: WAKE_CELLS, bytes: PICTURE_BYTES };
    let words: Vec<&str> = text.split_whitespace().collect();
    match words[..] {
        [] => {}
        ["time", time] => note.time = time.parse().ok()?,
        ["wake", cells] => note.wake = cells.parse().ok()?,
        ["buffer", bytes] => note.bytes = bytes.parse().ok()?,
        _ => return None,
    }
    Some(note)
}

fn parse_woken(word: &str) -> Option<Report> {
    let inner = word.strip_prefix("woken(")?.strip_suffix(')')?;
    let cells: Vec<u64> = inner.split(',').map(|cell| cell.parse().ok()).collect::<Option<_>>()?;
    match cells[..] {
        [ticket, answer, index] => Some(Report { ticket, answer: answer as u32, index: index as u32 }),
        _ => None,
    }
}

fn parse_call(words: &[&str], note: &Note) -> Option<(Call, Option<usize>)> {
    let wake = note.wake;
    let n = |at: usize| words.get(at)?.parse::<u32>().ok();
    let long = |at: usize| words.get(at)?.parse::<u64>().ok();
    let plain = match *words.first()? {
        "sem" => Call::Sem { count: n(1)?, max: n(2)? },
        "mutex" => Call::Mutex { owner: n(1)?, count: n(2)? },
        "event" => Call::Event { signaled: n(1)?, manual: n(2)? },
        "post" => Call::Post { handle: n(1)?, add: n(2)?, wake },
        "unlock" => Call::Unlock { handle: n(1)?, owner: n(2)?, wake },
        "kill" => Call::Kill { handle: n(1)?, owner: n(2)?, wake },
        "set" => Call::Set { handle: n(1)?, wake },
        "reset" => Call::Reset { handle: n(1)? },
        "pulse" => Call::Pulse { handle: n(1)?, wake },
        "readsem" => Call::ReadSem { handle: n(1)? },
        "readmutex" => Call::ReadMutex { handle: n(1)? },
        "readevent" => Call::ReadEvent { handle: n(1)? },
        "close" => Call::Close { handle: n(1)? },
        "expire" => Call::Expire { clock: n(1)?, time: long(2)?, wake },
        "cancel" => Call::Cancel { ticket: long(1)? },
        "picture" => Call::Picture { bytes: note.bytes },
        "restore" => Call::Restore { text: unescaped(words.get(1).unwrap_or(&""))? },
        "any" | "all" => parse_wait(words, [0, 0], note.time, words.get(4..)?)?,
        "raw" => {
            let call = parse_wait(&words[1..], [n(5)?, n(6)?], note.time, words.get(8..)?)?;
            let length = n(7)? as usize;
            return match length {
                _ if length == call.listed().len() => Some((call, None)),
                _ if length > LIST => Some((call, Some(length))),
                _ => None,
            };
        }
        _ => return None,
    };
    Some((plain, None))
}

/// `h`, `h(xN)` or `first..last`.
fn parse_handles(word: &str) -> Option<Vec<u32>> {
    if let Some((first, last)) = word.split_once("..") {
        return Some((first.parse().ok()?..=last.parse().ok()?).collect());
    }
    let (handle, times) = match word.strip_suffix(')').and_then(|word| word.split_once("(x")) {
        Some((handle, times)) => (handle, times.parse().ok()?),
        None => (word, 1),
    };
    Some(vec![handle.parse().ok()?; times])
}

/// `words`: mode, owner, alert, timeout.
fn parse_wait(words: &[&str], [flags, pad]: [u32; 2], time: u64, handles: &[&str]) -> Option<Call> {
    let mode = match *words.first()? {
        "any" => Mode::Any,
        "all" => Mode::All,
        _ => return None,
    };
    let timeout = match *words.get(3)? {
        "never" => NEVER,
        number => number.parse().ok()?,
    };
    let mut list = Vec::new();
    for word in handles {
        list.extend(parse_handles(word)?);
    }
    let (owner, alert) = (words.get(1)?.parse().ok()?, words.get(2)?.parse().ok()?);
    Some(Call::Wait { mode, list, owner, alert, flags, pad, timeout, time })
}
