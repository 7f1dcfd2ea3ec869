//! Calls, answers and failing histories in the notation of vectors/histories.txt.
//! Added here: `expire CLOCK TIME`, `picture`, `restore TEXT` (as `texts::escaped` writes it), and behind `#` the time given
//! to a wait if it is not 0 and lengths other than 96 and 65,536; in a title `next=N`, a next ticket other than 1 that the
//! history begins with.

use crate::history::History;
use crate::play::{Bench, Difference};
use crate::texts::escaped;
use second_model::{Call, Mode, Model, Outcome, Slip, NEVER, PICTURE_BYTES, WAKE_CELLS};

pub fn call_text(call: &Call) -> String {
    let words = match call {
        Call::Sem { count, max } => format!("sem {count} {max}"),
        Call::Mutex { owner, count } => format!("mutex {owner} {count}"),
        Call::Event { signaled, manual } => format!("event {signaled} {manual}"),
        Call::Close { handle } => format!("close {handle}"),
        Call::ReadSem { handle } => format!("readsem {handle}"),
        Call::ReadMutex { handle } => format!("readmutex {handle}"),
        Call::ReadEvent { handle } => format!("readevent {handle}"),
        Call::Post { handle, add, .. } => format!("post {handle} {add}"),
        Call::Unlock { handle, owner, .. } => format!("unlock {handle} {owner}"),
        Call::Kill { handle, owner, .. } => format!("kill {handle} {owner}"),
        Call::Set { handle, .. } => format!("set {handle}"),
        Call::Reset { handle } => format!("reset {handle}"),
        Call::Pulse { handle, .. } => format!("pulse {handle}"),
        Call::Wait { mode, list, owner, alert, flags, pad, timeout, .. } => {
            let mode = if *mode == Mode::All { "all" } else { "any" };
            let timeout = if *timeout == NEVER { "never".into() } else { timeout.to_string() };
            let (n, handles) = (list.len(), list_text(list));
            match (flags, pad) {
                (0, 0) => format!("{mode} {owner} {alert} {timeout}{handles}"),
                _ => format!("raw {mode} {owner} {alert} {timeout} {flags} {pad} {n}{handles}"),
            }
        }
        Call::Expire { clock, time, .. } => format!("expire {clock} {time}"),
        Call::Cancel { ticket } => format!("cancel {ticket}"),
        Call::Picture { .. } => "picture".into(),
        Call::Restore { text } => format!("restore {}", escaped(text)),
    };
    words + &note(call)
}

/// What the notation of the vectors doesn't say.
fn note(call: &Call) -> String {
    match *call {
        Call::Wait { time, .. } if time != 0 => format!(" # time {time}"),
        Call::Picture { bytes } if bytes != PICTURE_BYTES => format!(" # buffer {bytes}"),
        _ => match call.wake_cells() {
            Some(cells) if cells != WAKE_CELLS => format!(" # wake {cells}"),
            _ => String::new(),
        },
    }
}

/// Handles, repeats as `h(xN)`.
fn list_text(list: &[u32]) -> String {
    let runs = list.chunk_by(|a, b| a == b);
    runs.map(|run| if run.len() == 1 { format!(" {}", run[0]) } else { format!(" {}(x{})", run[0], run.len()) })
        .collect()
}

/// The names of the two numbers of a call's C struct.
pub fn number_names(call: &Call) -> [&'static str; 2] {
    match call {
        Call::Sem { .. } | Call::Mutex { .. } | Call::Event { .. } => ["handle", ""],
        Call::ReadSem { .. } => ["count", "max"],
        Call::ReadMutex { .. } => ["owner", "count"],
        Call::ReadEvent { .. } => ["signaled", "manual"],
        Call::Wait { .. } => ["index", "ticket"],
        Call::Close { .. } | Call::Cancel { .. } => ["", ""],
        Call::Picture { .. } => ["length", ""],
        Call::Restore { .. } => ["offset", ""],
        _ => ["previous", "woken"],
    }
}

pub fn outcome_text(call: &Call, outcome: &Outcome) -> String {
    let named = number_names(call).into_iter().zip(outcome.numbers);
    let stated = named.filter(|(name, _)| !matches!(*name, "" | "woken"));
    let numbers: String = stated.map(|(name, number)| format!(" {name}={number}")).collect();
    let woken = outcome.reports.iter().map(|r| format!(" woken({},{},{})", r.ticket, r.answer, r.index));
    format!("{}{numbers}{}", outcome.answer, woken.collect::<String>())
}

/// One step's line; `name` is the history's letters and the step's number.
pub fn step_text(name: &str, call: &str, rest: &str) -> String {
    format!("  {name:<7} {call:<58} => {rest}\n")
}

/// A failing history; what stands after => is the model's.
pub fn history_text(history: &History, slip: Option<Slip>) -> String {
    let mut bench = Bench::new(slip);
    history.begin(&mut bench);
    let mut text = title(history);
    for (at, call) in history.calls.iter().enumerate() {
        let rest = match bench.step(call) {
            Ok(outcome) => outcome_text(call, &outcome),
            Err(difference) => difference_text(call, &difference),
        };
        text += &step_text(&format!("F.{}", at + 1), &call_text(call), &rest);
    }
    text
}

fn title(history: &History) -> String {
    let next = if history.next == 1 { String::new() } else { format!(", next={}", history.next) };
    format!("F a failing history{next}\n")
}

/// A history that may end the program: the library is not asked again.
pub fn ended_text(history: &History) -> String {
    let mut model = Model::new(None);
    model.state.next = history.next;
    let mut text = title(history);
    for (at, call) in history.calls.iter().enumerate() {
        let mut rest = outcome_text(call, &model.step(call));
        if at + 1 == history.calls.len() {
            rest += " | LIBRARY: ended the program, or differed";
        }
        text += &step_text(&format!("F.{}", at + 1), &call_text(call), &rest);
    }
    text
}

fn difference_text(call: &Call, difference: &Difference) -> String {
    let Difference { library, model, what } = difference;
    let heard = library.as_ref().map_or("-".into(), |outcome| outcome_text(call, outcome));
    format!("{} | LIBRARY: {heard} ({what})", outcome_text(call, model))
}

/// A call and what was heard, or the difference, for messages.
pub fn heard_text(call: &Call, outcome: &Outcome) -> String {
    format!("{} => {}", call_text(call), outcome_text(call, outcome))
}

/// A call on both sides; a difference as text.
pub fn step_or_text(bench: &mut Bench, call: &Call) -> Result<Outcome, String> {
    let step = bench.step(call);
    step.map_err(|difference| format!("{} => {}", call_text(call), difference_text(call, &difference)))
}
