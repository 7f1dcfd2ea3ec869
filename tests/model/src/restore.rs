//! A picture read back (3/13): line by line what is due, and then what the whole must be.

use crate::step::repeats;
use crate::{sum_of, Clock, Mode, Model, Object, Slip, State, Wait, LIST, OBJECTS, WAITS};

/// The state that a text shows, its waits in the lowest places by ticket. If it is refused, the offset: of the first line
/// that is not as due, else 0.
pub fn restore(text: &[u8]) -> Result<State, usize> {
    read(text, None)
}

pub(crate) fn read(text: &[u8], slip: Option<Slip>) -> Result<State, usize> {
    let mut lines = Lines { text, due: 0, slip };
    let shown = lines.every().map_err(|start| lines.offset_of(start))?;
    let whole = lines.due == text.len() || slip == Some(Slip::TailAccepted);
    let state = if whole { shown.state(slip) } else { None };
    state.ok_or(0)
}

/// What the lines say, in their order.
struct Shown {
    next: u64,
    objects: Vec<(usize, Object)>,
    waits: Vec<Wait>,
    /// As it is written, and as it should be.
    sums: [u32; 2],
}

/// A text, and where in it the line begins that is due next.
struct Lines<'a> {
    text: &'a [u8],
    due: usize,
    slip: Option<Slip>,
}

/// "A plain number or word in that key's range": from the least to the greatest.
fn range(key: &str) -> (u64, u64) {
    match key {
        "handle" | "obj" => (1, OBJECTS as u64),
        "alert" | "objects" => (0, OBJECTS as u64),
        "waits" => (0, WAITS as u64),
        "n" => (0, LIST as u64),
        "next" | "wait" => (1, u64::MAX),
        "abandoned" | "signaled" | "manual" => (0, 1),
        "timeout" => (0, u64::MAX),
        _ => (0, u32::MAX.into()),
    }
}

/// Where the line begins that is not as due.
type Bad = usize;

impl Lines<'_> {
    fn every(&mut self) -> Result<Shown, Bad> {
        let next = self.number("next")?;
        let objects = (0..self.number("objects")?).map(|_| self.object()).collect::<Result<_, Bad>>()?;
        let waits = (0..self.number("waits")?).map(|_| self.wait()).collect::<Result<_, Bad>>()?;
        let before = sum_of(&self.text[..self.due]) + u32::from(self.slip == Some(Slip::SumFromOne));
        let sums = [self.number32("sum")?, before];
        Ok(Shown { next, objects, waits, sums })
    }

    fn object(&mut self) -> Result<(usize, Object), Bad> {
        let handle = self.number("handle")? as usize;
        let object = match self.word("kind", &["sem", "mutex", "event"])? {
            0 => Object::Semaphore { count: self.number32("count")?, max: self.number32("max")? },
            1 => Object::Mutex {
                owner: self.number32("owner")?,
                count: self.number32("count")?,
                abandoned: self.flag("abandoned")?,
            },
            _ => Object::Event { signaled: self.flag("signaled")?, manual: self.flag("manual")? },
        };
        Ok((handle, object))
    }

    fn wait(&mut self) -> Result<Wait, Bad> {
        Ok(Wait {
            ticket: self.number("wait")?,
            mode: [Mode::Any, Mode::All][self.word("mode", &["any", "all"])?],
            owner: self.number32("owner")?,
            clock: [Clock::Monotonic, Clock::RealTime][self.word("clock", &["mono", "real"])?],
            timeout: self.number("timeout")?,
            alert: self.number32("alert")?,
            list: (0..self.number("n")?).map(|_| self.number32("obj")).collect::<Result<_, Bad>>()?,
        })
    }

    /// Takes the line that is due, if it has that key and a value that passes; its line feed too.
    fn line<T>(&mut self, key: &str, value: impl FnOnce(&str) -> Option<T>) -> Result<T, Bad> {
        let rest = &self.text[self.due..];
        let end = rest.iter().position(|&byte| byte == b'\n').ok_or(self.due)?;
        let line = std::str::from_utf8(&rest[..end]).ok().and_then(|line| line.strip_prefix(key));
        let read = line.and_then(|line| line.strip_prefix('=')).and_then(value);
        let read = read.ok_or(self.due)?;
        self.due += end + 1;
        Ok(read)
    }

    fn number(&mut self, key: &str) -> Result<u64, Bad> {
        let (least, most) = range(key);
        let zeros = self.slip == Some(Slip::LeadingZero);
        self.line(key, |digits| plain(digits, zeros).filter(|number| (least..=most).contains(number)))
    }

    fn number32(&mut self, key: &str) -> Result<u32, Bad> {
        self.number(key).map(|number| u32::try_from(number).expect("a range of 32 bits"))
    }

    fn flag(&mut self, key: &str) -> Result<bool, Bad> {
        self.number(key).map(|number| number == 1)
    }

    /// Which of the words.
    fn word(&mut self, key: &str, words: &[&str]) -> Result<usize, Bad> {
        self.line(key, |value| words.iter().position(|word| *word == value))
    }

    fn offset_of(&self, start: Bad) -> usize {
        let next = self.text[start..].iter().position(|&byte| byte == b'\n');
        match next {
            Some(end) if self.slip == Some(Slip::OffsetLate) => start + end + 1,
            _ => start,
        }
    }
}

/// "No sign, no leading zero", nor anything else but digits.
fn plain(digits: &str, zeros: bool) -> Option<u64> {
    let leading = digits.len() > 1 && digits.starts_with('0') && !zeros;
    let plain = digits.bytes().all(|byte| byte.is_ascii_digit()) && !leading;
    digits.parse().ok().filter(|_| plain)
}

fn rising<T: PartialOrd>(numbers: impl Iterator<Item = T> + Clone) -> bool {
    numbers.clone().zip(numbers.skip(1)).all(|(one, other)| one < other)
}

impl Shown {
    /// None if no sound tables without a wait that could be served have this text.
    fn state(self, slip: Option<Slip>) -> Option<State> {
        let unless = |excused: Slip, holds: bool| holds || slip == Some(excused);
        let handles = rising(self.objects.iter().map(|(handle, _)| handle));
        let tickets = rising(self.waits.iter().map(|wait| wait.ticket));
        let ordered = unless(Slip::HandlesUnordered, handles) && unless(Slip::TicketsUnordered, tickets);
        let right = self.sums[0] == self.sums[1] && ordered;
        let state = self.placed(slip == Some(Slip::PlacedFromEnd));
        let good = right
            && unless(Slip::UnsoundAccepted, sound(&state))
            && unless(Slip::ZeroMaximumAccepted, !state.objects.iter().flatten().any(never_signaled))
            && unless(Slip::ServableAccepted, quiet(&state));
        good.then_some(state)
    }

    fn placed(self, from_end: bool) -> State {
        let mut state = State::new();
        state.next = self.next;
        for (handle, object) in self.objects {
            state.objects[handle - 1] = Some(object);
        }
        for (place, wait) in self.waits.into_iter().enumerate() {
            state.waits[if from_end { WAITS - 1 - place } else { place }] = Some(wait);
        }
        state
    }
}

/// "Semaphores that can never be signaled" (4/13).
fn never_signaled(object: &Object) -> bool {
    matches!(object, Object::Semaphore { max: 0, .. })
}

/// Document 01's "Sound tables", as far as the lines leave it open.
fn sound(state: &State) -> bool {
    state.objects.iter().flatten().all(sound_object) && state.queued().all(|wait| sound_wait(state, wait))
}

fn sound_object(object: &Object) -> bool {
    match *object {
        Object::Semaphore { count, max } => count <= max,
        Object::Mutex { owner, count, abandoned } => (owner == 0) == (count == 0) && !(abandoned && owner != 0),
        Object::Event { .. } => true,
    }
}

fn sound_wait(state: &State, wait: &Wait) -> bool {
    let listed = wait.list.iter().all(|&handle| state.object(handle).is_some());
    let alert = wait.alert == 0 || matches!(state.object(wait.alert), Some(Object::Event { .. }));
    let for_all = wait.mode == Mode::Any || (!wait.list.is_empty() && !repeats(&wait.list, wait.alert));
    wait.owner != 0 && wait.ticket < state.next && listed && alert && for_all
}

/// "No queued wait could be served."
fn quiet(state: &State) -> bool {
    Model::on(state.clone()).lowest_servable().is_none()
}
