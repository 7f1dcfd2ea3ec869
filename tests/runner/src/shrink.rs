//! Makes a failing history smaller while it fails, until nothing more can go.

use crate::crash::{self, Child};
use crate::history::History;
use crate::mutate::with_one_fewer;
use crate::script::{ended_text, history_text};
use second_model::{Call, Slip, NEVER};

/// How a history is tried again.
#[derive(Clone, Copy)]
pub enum Trial {
    /// Here, beside the model with a slip.
    Here(Option<Slip>),
    /// In a child of this program, because the library may end it.
    Apart(Child),
}

impl Trial {
    /// The place of the first call that differs, or in which the program ends.
    fn first_failure(self, history: &History) -> Option<usize> {
        match self {
            Trial::Here(slip) => history.first_difference(slip).map(|(at, _)| at),
            Trial::Apart(child) => crash::first_failure(history, child),
        }
    }
}

/// The shrunk history, and it as a script.
pub fn shrunk(history: History, trial: Trial) -> (History, String) {
    let history = shrink(history, trial);
    let script = match trial {
        Trial::Here(slip) => history_text(&history, slip),
        Trial::Apart(_) => ended_text(&history),
    };
    (history, script)
}

fn shrink(mut history: History, trial: Trial) -> History {
    loop {
        let before = history.clone();
        history = failing(History { next: 1, ..history.clone() }, trial).unwrap_or(history);
        history = drop_runs(history, trial);
        history = drop_creates(history, trial);
        history = shorten_lists(history, trial);
        history = plainer_waits(history, trial);
        history = shorten_texts(history, trial);
        if history == before {
            return history;
        }
    }
}

/// The calls up to the first failure, if there is one.
fn failing(mut history: History, trial: Trial) -> Option<History> {
    let last = trial.first_failure(&history)?;
    history.calls.truncate(last + 1);
    Some(history)
}

/// The history once `change` is made to its calls, if it still fails.
fn changed(history: &History, trial: Trial, change: impl FnOnce(&mut Vec<Call>)) -> Option<History> {
    let mut other = history.clone();
    change(&mut other.calls);
    failing(other, trial)
}

/// Drops runs of calls, ever shorter.
fn drop_runs(mut history: History, trial: Trial) -> History {
    let mut run = history.calls.len().div_ceil(2);
    while run > 0 {
        let mut at = 0;
        while at < history.calls.len() {
            let end = (at + run).min(history.calls.len());
            match changed(&history, trial, |calls| drop(calls.drain(at..end))) {
                Some(fewer) => history = fewer,
                None => at += run,
            }
        }
        run /= 2;
    }
    history
}

/// Drops a creation and moves the handles above it down.
fn drop_creates(mut history: History, trial: Trial) -> History {
    let (mut at, mut created) = (0, 0);
    while at < history.calls.len() {
        if !matches!(history.calls[at], Call::Sem { .. } | Call::Mutex { .. } | Call::Event { .. }) {
            at += 1;
            continue;
        }
        let fewer = changed(&history, trial, |calls| {
            calls.remove(at);
            calls.iter_mut().for_each(|call| move_down(call, created + 1));
        });
        match fewer {
            Some(fewer) => history = fewer,
            None => (at, created) = (at + 1, created + 1),
        }
    }
    history
}

fn move_down(call: &mut Call, above: u32) {
    let lower = |handle: &mut u32| *handle -= u32::from(*handle > above);
    if let Call::Wait { list, alert, .. } = call {
        list.iter_mut().for_each(lower);
        lower(alert);
    } else if let Some(handle) = call.handle_mut() {
        lower(handle);
    }
}

fn shorten_lists(mut history: History, trial: Trial) -> History {
    for at in (0..history.calls.len()).rev() {
        let mut index = 0;
        while at < history.calls.len() && index < history.calls[at].listed().len() {
            let fewer = changed(&history, trial, |calls| {
                if let Call::Wait { list, .. } = &mut calls[at] {
                    list.remove(index);
                }
            });
            match fewer {
                Some(fewer) => history = fewer,
                None => index += 1,
            }
        }
    }
    history
}

/// The texts that are read lose objects and waits.
fn shorten_texts(mut history: History, trial: Trial) -> History {
    for at in (0..history.calls.len()).rev() {
        while let Some(shorter) = with_shorter_text(&history, trial, at) {
            history = shorter;
        }
    }
    history
}

fn with_shorter_text(history: &History, trial: Trial, at: usize) -> Option<History> {
    let texts = with_one_fewer(history.calls.get(at)?.text()).into_iter();
    let mut shorter = texts.map(|text| changed(history, trial, |calls| calls[at] = Call::Restore { text }));
    shorter.find_map(|history| history)
}

/// Waits on the monotonic clock at time 0, for ever, without alert.
fn plainer_waits(mut history: History, trial: Trial) -> History {
    let plain: [fn(&mut Call); 4] = [
        |call| wait_numbers(call, |_, flags, _, _| *flags = 0),
        |call| wait_numbers(call, |_, _, _, time| *time = 0),
        |call| wait_numbers(call, |_, _, timeout, _| *timeout = NEVER),
        |call| wait_numbers(call, |alert, _, _, _| *alert = 0),
    ];
    for at in (0..history.calls.len()).rev() {
        for plainer in plain {
            if at < history.calls.len() {
                history = changed(&history, trial, |calls| plainer(&mut calls[at])).unwrap_or(history);
            }
        }
    }
    history
}

/// Changes alert, flags, timeout or time, if the call is a wait.
fn wait_numbers(call: &mut Call, change: impl FnOnce(&mut u32, &mut u32, &mut u64, &mut u64)) {
    if let Call::Wait { alert, flags, timeout, time, .. } = call {
        change(alert, flags, timeout, time);
    }
}
