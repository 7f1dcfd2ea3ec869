//! What the random histories met. Every line that is required must have occurred.

use crate::texts::{lines, mended};
use second_model::{picture, restore, Call, Mode, Object, Outcome, Report, State, Wait};
use second_model::{LIST, OBJECTS, TICKETS_SPENT, WAITS, WAKE_CELLS};
use std::collections::BTreeMap;

/// Every call and every answer that it can have on sound tables: each must have been seen, and no other.
pub const ANSWERS: [(&str, &[u32]); 19] = [
    ("sem", &[0, 1, 7]),
    ("mutex", &[0, 1, 7]),
    ("event", &[0, 7]),
    ("close", &[0, 1, 10]),
    ("readsem", &[0, 1]),
    ("readmutex", &[0, 1, 4]),
    ("readevent", &[0, 1]),
    ("post", &[0, 1, 3, 12]),
    ("unlock", &[0, 1, 2, 12]),
    ("kill", &[0, 1, 2, 12]),
    ("set", &[0, 1, 12]),
    ("reset", &[0, 1]),
    ("pulse", &[0, 1, 12]),
    ("any", &[0, 1, 4, 5, 7, 8, 11]),
    ("all", &[0, 1, 4, 5, 7, 8, 11]),
    ("expire", &[0, 1, 12]),
    ("cancel", &[1, 6]),
    ("picture", &[0, 12]),
    ("restore", &[0, 13]),
];

const SITUATIONS: [&str; 102] = [
    "queue filled to 32",
    "no room with tickets spent",
    "served with the queue full",
    "timed out with the queue full",
    "512th object created",
    "handle 512 used",
    "handle 513 refused",
    "handle 0 refused",
    "handle of 129 to 256 in a queued list",
    "handle of 257 to 512 in a queued list",
    "handle 512 in a queued list",
    "alert of 129 to 256 queued",
    "alert of 257 to 512 queued",
    "woken by a handle above 256",
    "woken by an alert above 256",
    "restored with 400 objects",
    "mutex killed",
    "abandoned mutex acquired by any",
    "abandoned mutex acquired by all",
    "two abandoned mutexes by one all",
    "woken with 4",
    "unlock from the ceiling wakes its owner",
    "unlock above zero wakes",
    "unlock to zero wakes",
    "mutex reached the ceiling",
    "semaphore reached 2^32-1",
    "maximum 0 refused",
    "maximum 0 refused with every place in use",
    "maximum 1 created with count 0",
    "post of 0",
    "post of 0 with waits queued on it",
    "post past 2^32-1",
    "list of 0 refused, all",
    "list of 0 refused, any, for another argument",
    "list of 0 queued with alert",
    "list of 0 queued without alert",
    "list of 0 served by its alert",
    "list of 0 timed out",
    "list of 0 woken by its alert",
    "list of 0 ended by time",
    "list of 0 cancelled",
    "list of 0 keeps its alert busy",
    "list of 1 queued",
    "list of 63 queued",
    "list of 64 queued",
    "list of 64 served by all",
    "list of 65 refused",
    "alert index 64",
    "repeated handle, any",
    "repeated handle, all",
    "alert listed, any",
    "alert listed, all",
    "alert not an event",
    "served by alert",
    "woken by alert",
    "flags wrong",
    "pad wrong",
    "owner 0",
    "real-time clock queued",
    "clock went back",
    "timeout equals time",
    "never at time 2^64-1",
    "expire ends several",
    "expire at 2^64-1 spares never",
    "pulse wakes several",
    "pulse of a set event",
    "wakes out of place order",
    "wakes 8 or more",
    "short wake list refused",
    "long wake list with records",
    "freed wait place used again",
    "last ticket given",
    "ends by a time beyond 2^32",
    "ends by a time from 2^63 on and spares a later one",
    "wakes tickets on both sides of 2^63",
    "list taken though the alert is signaled",
    "alert taken though an abandoned mutex is listed",
    "holder not served at the ceiling",
    "unlock wakes several",
    "kill wakes with 4 and then with 0",
    "post wakes several",
    "woken with 64 listed",
    "ends out of place order",
    "held mutex closed",
    "abandoned mutex closed",
    "empty place refused",
    "wrong kind refused",
    "mutex held by another",
    "abandoned mutex has no holder",
    "restored from its last picture",
    "restored waits moved to other places",
    "restored from an older picture, its next ticket lower",
    "restored with 32 waits",
    "restored with tickets spent",
    "restored with an abandoned mutex",
    "text refused at its first line",
    "text refused at a later line",
    "text refused where it ends",
    "text refused as a whole, its sum wrong",
    "text refused as a whole, its sum right",
    "restored wait woken",
    "restored wait ended by time",
];

#[derive(Default)]
pub struct Coverage {
    answers: BTreeMap<(&'static str, u32), u64>,
    situations: BTreeMap<&'static str, u64>,
    pub calls: u64,
    pub histories: u64,
    last_time: [u64; 2],
    /// Tickets of the waits that the last accepted text of the history had.
    restored: Vec<u64>,
}

pub fn call_name(call: &Call) -> &'static str {
    match call {
        Call::Sem { .. } => "sem",
        Call::Mutex { .. } => "mutex",
        Call::Event { .. } => "event",
        Call::Close { .. } => "close",
        Call::ReadSem { .. } => "readsem",
        Call::ReadMutex { .. } => "readmutex",
        Call::ReadEvent { .. } => "readevent",
        Call::Post { .. } => "post",
        Call::Unlock { .. } => "unlock",
        Call::Kill { .. } => "kill",
        Call::Set { .. } => "set",
        Call::Reset { .. } => "reset",
        Call::Pulse { .. } => "pulse",
        Call::Wait { mode: Mode::Any, .. } => "any",
        Call::Wait { mode: Mode::All, .. } => "all",
        Call::Expire { .. } => "expire",
        Call::Cancel { .. } => "cancel",
        Call::Picture { .. } => "picture",
        Call::Restore { .. } => "restore",
    }
}

/// What must be known of the state before a call.
pub struct Before {
    next: u64,
    /// Of the handle that the call takes.
    object: Option<Object>,
    abandoned_listed: usize,
    alert_signaled: bool,
    /// Ticket and number of handles of each queued wait, in the order of the places.
    queued: Vec<(u64, usize)>,
    /// Of a reading: the picture before it.
    picture: Vec<u8>,
}

impl Before {
    pub fn new(state: &State, call: &Call) -> Before {
        let abandoned = |&&handle: &&u32| matches!(state.object(handle), Some(Object::Mutex { abandoned: true, .. }));
        let alert = if let Call::Wait { alert, .. } = *call { state.object(alert) } else { None };
        Before {
            next: state.next,
            object: call.handle().and_then(|handle| state.object(handle)),
            abandoned_listed: call.listed().iter().filter(abandoned).count(),
            alert_signaled: matches!(alert, Some(Object::Event { signaled: true, .. })),
            queued: state.queued().map(|wait| (wait.ticket, wait.list.len())).collect(),
            picture: if let Call::Restore { .. } = call { picture(state) } else { Vec::new() },
        }
    }
}

fn has_repeat(list: &[u32]) -> bool {
    (0..list.len()).any(|i| list[..i].contains(&list[i]))
}

impl Coverage {
    /// Another history.
    pub fn begun(&mut self) {
        self.histories += 1;
        self.restored.clear();
    }

    fn met(&mut self, situation: &'static str, holds: bool) {
        if holds {
            *self.situations.entry(situation).or_default() += 1;
        }
    }

    pub fn observe(&mut self, before: &Before, call: &Call, outcome: &Outcome, after: &State) {
        self.calls += 1;
        *self.answers.entry((call_name(call), outcome.answer)).or_default() += 1;
        match call {
            Call::Wait { .. } => {
                self.observe_arguments(call, outcome, after);
                self.observe_wait(before, call, outcome, after);
            }
            Call::Expire { clock, time, .. } => self.observe_expire(*clock, *time, outcome, after),
            Call::Restore { text } if outcome.answer == 0 => self.observe_restored(before, text, after),
            Call::Restore { text } => self.observe_refused(text, outcome.numbers[0] as usize),
            _ => self.observe_object(before, call, outcome, after),
        }
        if call.wake_cells().is_some() {
            self.observe_waking(before, call, outcome);
        }
    }

    fn observe_object(&mut self, before: &Before, call: &Call, outcome: &Outcome, after: &State) {
        let done = outcome.answer == 0;
        let several = outcome.reports.len() > 1;
        if let Some(handle) = call.handle() {
            self.observe_handle(before, call, handle, outcome);
        }
        let created = matches!(call, Call::Sem { .. } | Call::Mutex { .. } | Call::Event { .. });
        self.met("512th object created", created && done && outcome.numbers[0] == 512);
        match *call {
            Call::Sem { count, max } => {
                let (refused, full) = (outcome.answer == 1, after.objects.iter().all(Option::is_some));
                self.met("maximum 0 refused", refused && max == 0);
                self.met("maximum 0 refused with every place in use", refused && max == 0 && full);
                self.met("maximum 1 created with count 0", done && (count, max) == (0, 1));
            }
            Call::Post { handle, add, .. } => {
                self.met("post wakes several", several);
                self.observe_post(before, handle, add, outcome, after);
            }
            Call::Unlock { .. } => {
                let (woken, previous) = (outcome.numbers[1] > 0, outcome.numbers[0]);
                self.met("unlock from the ceiling wakes its owner", woken && previous == u32::MAX.into());
                self.met("unlock above zero wakes", woken && previous > 1);
                self.met("unlock to zero wakes", woken && previous == 1);
                self.met("unlock wakes several", several);
            }
            Call::Kill { .. } => {
                let answers: Vec<u32> = outcome.reports.iter().map(|report| report.answer).collect();
                self.met("mutex killed", done);
                self.met("kill wakes with 4 and then with 0", answers.starts_with(&[4, 0]));
            }
            Call::Pulse { .. } => {
                self.met("pulse wakes several", several);
                self.met("pulse of a set event", done && outcome.numbers[0] == 1);
            }
            Call::Cancel { ticket } => self.met("list of 0 cancelled", before.queued.contains(&(ticket, 0))),
            Call::Close { handle } => {
                let alert_of_none = |wait: &Wait| wait.list.is_empty() && wait.alert == handle;
                self.met("list of 0 keeps its alert busy", outcome.answer == 10 && after.queued().any(alert_of_none));
            }
            _ => {}
        }
    }

    fn observe_handle(&mut self, before: &Before, call: &Call, handle: u32, outcome: &Outcome) {
        let (done, refused) = (outcome.answer == 0, outcome.answer == 1);
        self.met("handle 512 used", done && handle == 512);
        self.met("handle 513 refused", refused && handle == 513);
        self.met("handle 0 refused", refused && handle == 0);
        let place = (1..=OBJECTS as u32).contains(&handle);
        self.met("empty place refused", refused && place && before.object.is_none());
        let Some(object) = before.object else { return };
        let mutex = matches!(object, Object::Mutex { .. });
        match (call, object) {
            (Call::Close { .. }, Object::Mutex { owner, abandoned, .. }) => {
                self.met("held mutex closed", done && owner != 0);
                self.met("abandoned mutex closed", done && abandoned);
            }
            (Call::Unlock { .. } | Call::Kill { .. }, Object::Mutex { owner, abandoned, .. }) => {
                self.met("mutex held by another", outcome.answer == 2 && owner != 0);
                self.met("abandoned mutex has no holder", outcome.answer == 2 && abandoned);
            }
            (Call::Unlock { .. } | Call::Kill { .. }, _) => self.met("wrong kind refused", refused && !mutex),
            _ => self.met("wrong kind refused", refused),
        }
    }

    fn observe_post(&mut self, before: &Before, handle: u32, add: u32, outcome: &Outcome, after: &State) {
        let done = outcome.answer == 0;
        self.met("post of 0", done && add == 0);
        let queued_on = after.queued().any(|wait| wait.names(handle));
        self.met("post of 0 with waits queued on it", done && add == 0 && queued_on);
        let full = matches!(after.object(handle), Some(Object::Semaphore { count: u32::MAX, .. }));
        self.met("semaphore reached 2^32-1", done && add > 0 && full);
        let Some(Object::Semaphore { count, .. }) = before.object else { return };
        self.met("post past 2^32-1", outcome.answer == 3 && count.checked_add(add).is_none());
    }

    /// What a wait is given.
    fn observe_arguments(&mut self, call: &Call, outcome: &Outcome, after: &State) {
        let Call::Wait { mode, ref list, owner, alert, flags, pad, .. } = *call else { return };
        let (refused, queued) = (outcome.answer == 1, outcome.answer == 11);
        let (any, all) = (mode == Mode::Any, mode == Mode::All);
        let n = list.len();
        self.met("handle 513 refused", refused && list.contains(&513));
        self.met("handle 0 refused", refused && list.contains(&0));
        self.met("handle 512 in a queued list", queued && list.contains(&512));
        for (handles, listed, as_alert) in [
            (129..=256, "handle of 129 to 256 in a queued list", "alert of 129 to 256 queued"),
            (257..=512, "handle of 257 to 512 in a queued list", "alert of 257 to 512 queued"),
        ] {
            self.met(listed, queued && list.iter().any(|handle| handles.contains(handle)));
            self.met(as_alert, queued && handles.contains(&alert));
        }
        self.met("list of 0 refused, all", all && refused && n == 0);
        self.met("list of 0 refused, any, for another argument", any && refused && n == 0);
        self.met("list of 0 queued with alert", queued && n == 0 && alert != 0);
        self.met("list of 0 queued without alert", queued && n == 0 && alert == 0);
        self.met("list of 1 queued", queued && n == 1);
        self.met("list of 63 queued", queued && n == 63);
        self.met("list of 64 queued", queued && n == LIST);
        self.met("list of 65 refused", refused && n == LIST + 1);
        self.met("repeated handle, any", any && !refused && has_repeat(list));
        self.met("repeated handle, all", all && refused && has_repeat(list));
        self.met("alert listed, any", any && !refused && list.contains(&alert));
        self.met("alert listed, all", all && refused && alert != 0 && list.contains(&alert));
        let event = matches!(after.object(alert), Some(Object::Event { .. }));
        self.met("alert not an event", refused && alert != 0 && !event);
        self.met("flags wrong", refused && flags > 1);
        self.met("pad wrong", refused && pad != 0);
        self.met("owner 0", refused && owner == 0);
    }

    /// What becomes of a wait.
    fn observe_wait(&mut self, before: &Before, call: &Call, outcome: &Outcome, after: &State) {
        let Call::Wait { mode, ref list, owner, flags, timeout, time, .. } = *call else { return };
        let (answer, index) = (outcome.answer, outcome.numbers[0] as usize);
        let (served, queued) = (matches!(answer, 0 | 4), answer == 11);
        let (any, all) = (mode == Mode::Any, mode == Mode::All);
        let (full, n) = (before.queued.len() == WAITS, list.len());
        self.met("queue filled to 32", queued && before.queued.len() == WAITS - 1);
        self.met("no room with tickets spent", outcome.answer == 7 && before.next == TICKETS_SPENT);
        self.met("served with the queue full", full && served);
        self.met("timed out with the queue full", full && answer == 5);
        self.met("abandoned mutex acquired by any", any && answer == 4);
        self.met("abandoned mutex acquired by all", all && answer == 4);
        self.met("two abandoned mutexes by one all", all && answer == 4 && before.abandoned_listed > 1);
        let by_alert = served && index == n;
        self.met("served by alert", by_alert);
        self.met("alert index 64", by_alert && n == 64);
        self.met("list of 0 served by its alert", by_alert && n == 0);
        self.met("list of 0 timed out", answer == 5 && n == 0);
        self.met("alert taken though an abandoned mutex is listed", by_alert && all && before.abandoned_listed > 0);
        self.met("list taken though the alert is signaled", served && !by_alert && before.alert_signaled);
        self.met("list of 64 served by all", all && served && n == LIST && !by_alert);
        let held_at_ceiling = Object::Mutex { owner, count: u32::MAX, abandoned: false };
        let at_ceiling = |&handle: &u32| after.object(handle) == Some(held_at_ceiling);
        self.met("mutex reached the ceiling", all && served && !by_alert && list.iter().any(at_ceiling));
        self.met("holder not served at the ceiling", matches!(answer, 5 | 11) && list.iter().any(at_ceiling));
        self.met("real-time clock queued", queued && flags == 1);
        self.met("timeout equals time", timeout == time && answer == 5);
        self.met("never at time 2^64-1", queued && time == u64::MAX && timeout == u64::MAX);
        self.met("last ticket given", queued && outcome.numbers[1] == u64::MAX - 1);
        let place = after.waits.iter().position(|wait| wait.as_ref().is_some_and(|w| w.ticket == before.next));
        self.met("freed wait place used again", queued && place < Some(before.queued.len()));
        if answer != 1 {
            self.observe_time(flags as usize, time);
        }
    }

    fn observe_time(&mut self, clock: usize, time: u64) {
        self.met("clock went back", time < self.last_time[clock]);
        self.last_time[clock] = time;
    }

    fn observe_expire(&mut self, clock: u32, time: u64, outcome: &Outcome, after: &State) {
        self.met("expire ends several", outcome.reports.len() > 1);
        let never = after.queued().any(|wait| wait.timeout == u64::MAX);
        self.met("expire at 2^64-1 spares never", outcome.answer == 0 && time == u64::MAX && never);
        let ends = !outcome.reports.is_empty() && time < u64::MAX - 1;
        let later = after.queued().any(|wait| wait.timeout > time && wait.timeout < u64::MAX - 1);
        self.met("ends by a time beyond 2^32", ends && time > 1 << 32);
        self.met("ends by a time from 2^63 on and spares a later one", ends && time >= 1 << 63 && later);
        if outcome.answer == 0 {
            self.observe_time(clock as usize, time);
        }
    }

    fn observe_waking(&mut self, before: &Before, call: &Call, outcome: &Outcome) {
        let lent = call.wake_cells().unwrap_or(0);
        let reports = &outcome.reports;
        let ended = matches!(call, Call::Expire { .. });
        self.met("short wake list refused", lent < WAKE_CELLS && outcome.answer == 12);
        self.met("long wake list with records", lent > WAKE_CELLS && !reports.is_empty());
        self.met("woken with 4", reports.iter().any(|report| report.answer == 4));
        self.met("wakes 8 or more", !ended && reports.len() >= 8);
        let place = |ticket: u64| before.queued.iter().position(|&(other, _)| other == ticket);
        let out_of_order = reports.windows(2).any(|two| place(two[0].ticket) > place(two[1].ticket));
        self.met("wakes out of place order", !ended && out_of_order);
        self.met("ends out of place order", ended && out_of_order);
        let beyond = |report: &Report| report.ticket >= 1 << 63;
        self.met("wakes tickets on both sides of 2^63", reports.iter().any(beyond) && !reports.iter().all(beyond));
        let listed = |report: &Report| place(report.ticket).map(|place| before.queued[place].1);
        let by_alert = !ended && reports.iter().any(|report| listed(report) == Some(report.index as usize));
        let woken = !ended && !reports.is_empty();
        let handle = call.handle().unwrap_or(0);
        self.met("woken by alert", by_alert);
        self.met("woken by an alert above 256", by_alert && handle > 256);
        self.met("woken by a handle above 256", woken && handle > 256);
        self.met("woken with 64 listed", !ended && reports.iter().any(|report| listed(report) == Some(LIST)));
        self.met("list of 0 woken by its alert", !ended && reports.iter().any(|report| listed(report) == Some(0)));
        let restored = reports.iter().any(|report| self.restored.contains(&report.ticket));
        self.met("restored wait woken", !ended && restored);
        self.met("restored wait ended by time", ended && restored);
        self.met("list of 0 ended by time", ended && reports.iter().any(|report| listed(report) == Some(0)));
    }

    fn observe_restored(&mut self, before: &Before, text: &[u8], after: &State) {
        let last = text == before.picture;
        let queued: Vec<u64> = after.queued().map(|wait| wait.ticket).collect();
        let moved = before.queued.iter().map(|(ticket, _)| ticket).ne(&queued);
        let abandoned = |object: &Object| matches!(object, Object::Mutex { abandoned: true, .. });
        self.met("restored from its last picture", last);
        self.met("restored waits moved to other places", last && moved);
        self.met("restored from an older picture, its next ticket lower", after.next < before.next);
        self.met("restored with 32 waits", queued.len() == WAITS);
        self.met("restored with tickets spent", after.next == TICKETS_SPENT);
        self.met("restored with 400 objects", after.objects.iter().flatten().count() >= 400);
        self.met("restored with an abandoned mutex", after.objects.iter().flatten().any(abandoned));
        self.restored = queued;
    }

    fn observe_refused(&mut self, text: &[u8], offset: usize) {
        let first = lines(text).first().copied().unwrap_or_default();
        let whole = restore(first) == Err(first.len()) && !first.is_empty();
        let right = mended(text) == text;
        self.met("text refused at its first line", offset == 0 && !whole);
        self.met("text refused at a later line", offset > 0 && offset < text.len());
        self.met("text refused where it ends", offset > 0 && offset == text.len());
        self.met("text refused as a whole, its sum wrong", offset == 0 && whole && !right);
        self.met("text refused as a whole, its sum right", offset == 0 && whole && right);
    }

    /// Takes in what another thread met.
    pub fn add(&mut self, other: Coverage) {
        self.calls += other.calls;
        self.histories += other.histories;
        for (answer, count) in other.answers {
            *self.answers.entry(answer).or_default() += count;
        }
        for (situation, count) in other.situations {
            *self.situations.entry(situation).or_default() += count;
        }
    }

    /// One line a call: its answers and how often.
    pub fn table(&self) -> String {
        let mut text = String::new();
        for (name, _) in ANSWERS {
            let counts = self.answers.iter().filter(|((call, _), _)| *call == name);
            let counts: Vec<String> = counts.map(|((_, answer), count)| format!("{answer}:{count}")).collect();
            text += &format!("  {name:<10} {}\n", counts.join("  "));
        }
        for situation in SITUATIONS {
            text += &format!("  {situation}: {}\n", self.situations.get(situation).unwrap_or(&0));
        }
        text
    }

    /// Required lines that never occurred.
    pub fn missing(&self) -> Vec<String> {
        let mut missing = Vec::new();
        for situation in self.situations.keys() {
            assert!(SITUATIONS.contains(situation), "not listed: {situation}");
        }
        for (name, answer) in self.answers.keys() {
            let listed = ANSWERS.iter().any(|(call, answers)| call == name && answers.contains(answer));
            assert!(listed, "not listed: {name} answering {answer}");
        }
        for (name, answers) in ANSWERS {
            let never = answers.iter().filter(|&&answer| !self.answers.contains_key(&(name, answer)));
            missing.extend(never.map(|answer| format!("{name} answering {answer}")));
        }
        let never = SITUATIONS.iter().filter(|situation| !self.situations.contains_key(*situation));
        missing.extend(never.map(|situation| situation.to_string()));
        missing
    }
}
