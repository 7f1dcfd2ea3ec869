//! One call, one step: refusals in order; else the bare change; then the waking.

use crate::answer::*;
use crate::restore::read;
use crate::{picture, Call, Clock, Mode, Object, Outcome, Report, State, Wait};
use crate::{LIST, NEVER, OBJECTS, PICTURE_BYTES, TICKETS_SPENT, WAITS, WAKE_CELLS};

/// How waits are woken once a call has taken effect.
#[derive(Clone, Copy, PartialEq, Eq, Debug)]
pub enum Waking {
    /// The fresh reckoning: after every call, all queued waits are searched. For histories.
    Search,
    /// "Calls": one walk over the waits that name the changed object. For any sound tables.
    Walk,
}

/// Slips of document 01 and of its changes, to be put into the model on purpose.
#[derive(Clone, Copy, PartialEq, Eq, Debug)]
pub enum Slip {
    /// Waking after unlock only when the count reaches zero.
    UnlockWakesAtZero,
    /// A wait for all keeps what it took when a later object is not signaled.
    KeepPartOfAll,
    /// EOWNERDEAD as a refusal: the mutex stays unowned and abandoned.
    OwnerDeadRefuses,
    /// The alert is tried before the list.
    AlertFirst,
    /// Handle 0 is not tested and names the first place.
    HandleZeroNames,
    /// A wait for any without objects is refused, as before 1/13.
    EmptyAnyRefused,
    /// A wait for all over nothing is let pass.
    EmptyAllPasses,
    /// A semaphore of maximum 0 is created, as before 4/13.
    ZeroMaximumCreated,
    /// A maximum of 1 is refused too.
    MaximumOneRefused,
    /// A count of 0 is refused.
    CountZeroRefused,
    /// Handles above 128 name nothing, as before 5/13.
    HandlesTo128,
    /// Of a handle above 256 the low eight bits are read.
    HandleOf8Bits,
    /// Of a text that is read back: the sum begins with 1.
    SumFromOne,
    /// The offset is that of the line behind the bad one.
    OffsetLate,
    /// A number may begin with zeros.
    LeadingZero,
    /// Handles may come in any order.
    HandlesUnordered,
    /// Tickets may come in any order.
    TicketsUnordered,
    /// Bytes may follow the sum.
    TailAccepted,
    /// A queued wait may be one that could be served.
    ServableAccepted,
    /// The state need not be sound.
    UnsoundAccepted,
    /// The waits fill the wait places from the last one down.
    PlacedFromEnd,
    /// A semaphore's maximum may be 0, as before 4/13.
    ZeroMaximumAccepted,
}

pub struct Model {
    pub state: State,
    pub waking: Waking,
    pub slip: Option<Slip>,
}

/// What an attempt takes.
enum Taking {
    Listed(usize),
    Every,
    Alert,
}

impl Model {
    pub fn new(slip: Option<Slip>) -> Model {
        Model { state: State::new(), waking: Waking::Search, slip }
    }

    /// The rules on tables that no history need lead to.
    pub fn on(state: State) -> Model {
        Model { state, waking: Waking::Walk, slip: None }
    }

    pub fn step(&mut self, call: &Call) -> Outcome {
        if let Some(answer) = self.refusal(call) {
            return Outcome::answer(answer);
        }
        let mut outcome = self.bare_change(call);
        if is_refusal(outcome.answer) {
            return outcome;
        }
        let woken = self.wake(call);
        if let Call::Pulse { handle, .. } = *call {
            self.set_signaled(handle, false);
        }
        if call.wake_cells().is_some() {
            outcome.reports.extend(woken);
            outcome.numbers[1] = outcome.reports.len() as u64;
        }
        outcome
    }

    // Handles and objects.

    fn has_slip(&self, slip: Slip) -> bool {
        self.slip == Some(slip)
    }

    fn place(&self, handle: u32) -> Option<usize> {
        match handle as usize {
            0 if self.has_slip(Slip::HandleZeroNames) => Some(0),
            129.. if self.has_slip(Slip::HandlesTo128) => None,
            handle @ 257.. if self.has_slip(Slip::HandleOf8Bits) => (handle % 256).checked_sub(1),
            handle @ 1..=OBJECTS => Some(handle - 1),
            _ => None,
        }
    }

    fn object(&self, handle: u32) -> Option<Object> {
        self.place(handle).and_then(|place| self.state.objects[place])
    }

    fn put(&mut self, handle: u32, object: Object) {
        let place = self.place(handle).expect("an occupied handle");
        self.state.objects[place] = Some(object);
    }

    fn semaphore(&self, handle: u32) -> Option<(u32, u32)> {
        match self.object(handle) {
            Some(Object::Semaphore { count, max }) => Some((count, max)),
            _ => None,
        }
    }

    fn mutex(&self, handle: u32) -> Option<(u32, u32, bool)> {
        match self.object(handle) {
            Some(Object::Mutex { owner, count, abandoned }) => Some((owner, count, abandoned)),
            _ => None,
        }
    }

    fn event(&self, handle: u32) -> Option<(bool, bool)> {
        match self.object(handle) {
            Some(Object::Event { signaled, manual }) => Some((signaled, manual)),
            _ => None,
        }
    }

    fn set_signaled(&mut self, handle: u32, signaled: bool) -> bool {
        let (before, manual) = self.event(handle).expect("an event");
        self.put(handle, Object::Event { signaled, manual });
        before
    }

    // Refusals. Those of a wait after its attempt (7, 8) are in `wait`.

    fn refusal(&self, call: &Call) -> Option<u32> {
        if lent_short(call) {
            return Some(SHORT);
        }
        if self.bad_argument(call) {
            return Some(EINVAL);
        }
        match *call {
            Call::Unlock { handle, owner, .. } | Call::Kill { handle, owner, .. } => {
                let (holder, _, _) = self.mutex(handle)?;
                (holder != owner).then_some(EPERM)
            }
            Call::Post { handle, add, .. } => {
                let (count, max) = self.semaphore(handle)?;
                (u64::from(count) + u64::from(add) > u64::from(max)).then_some(EOVERFLOW)
            }
            Call::Sem { .. } | Call::Mutex { .. } | Call::Event { .. } => {
                self.state.objects.iter().all(Option::is_some).then_some(NO_ROOM)
            }
            Call::Close { handle } => self.state.queued().any(|wait| wait.names(handle)).then_some(BUSY),
            _ => None,
        }
    }

    fn bad_argument(&self, call: &Call) -> bool {
        match *call {
            Call::Sem { count, max } => self.bad_semaphore(count, max),
            Call::Mutex { owner, count } => (owner == 0) != (count == 0),
            Call::Event { .. } | Call::Picture { .. } | Call::Restore { .. } => false,
            Call::Close { handle } => self.object(handle).is_none(),
            Call::ReadSem { handle } | Call::Post { handle, .. } => self.semaphore(handle).is_none(),
            Call::ReadMutex { handle } => self.mutex(handle).is_none(),
            Call::Unlock { handle, owner, .. } | Call::Kill { handle, owner, .. } => {
                owner == 0 || self.mutex(handle).is_none()
            }
            Call::ReadEvent { handle }
            | Call::Set { handle, .. }
            | Call::Reset { handle }
            | Call::Pulse { handle, .. } => self.event(handle).is_none(),
            Call::Wait { mode, ref list, owner, alert, flags, pad, .. } => {
                self.bad_list(mode, list)
                    || owner == 0
                    || flags > 1
                    || pad != 0
                    || (alert != 0 && self.event(alert).is_none())
                    || (mode == Mode::All && repeats(list, alert))
            }
            Call::Expire { clock, .. } => clock > 1,
            Call::Cancel { ticket } => !self.state.queued().any(|wait| wait.ticket == ticket),
        }
    }

    /// One of maximum 0 could never be signaled (4/13).
    fn bad_semaphore(&self, count: u32, max: u32) -> bool {
        let least = match self.slip {
            Some(Slip::ZeroMaximumCreated) => 0,
            Some(Slip::MaximumOneRefused) => 2,
            _ => 1,
        };
        max < least || count > max || (count == 0 && self.has_slip(Slip::CountZeroRefused))
    }

    /// A wait for any may have no objects (1/13).
    fn bad_list(&self, mode: Mode, list: &[u32]) -> bool {
        let fewest = match mode {
            Mode::Any if self.has_slip(Slip::EmptyAnyRefused) => 1,
            Mode::All if !self.has_slip(Slip::EmptyAllPasses) => 1,
            _ => 0,
        };
        !(fewest..=LIST).contains(&list.len()) || list.iter().any(|&handle| self.object(handle).is_none())
    }

    // The bare change: the call's rule without its walk.

    fn bare_change(&mut self, call: &Call) -> Outcome {
        match *call {
            Call::Sem { count, max } => self.create(Object::Semaphore { count, max }),
            Call::Mutex { owner, count } => self.create(Object::Mutex { owner, count, abandoned: false }),
            Call::Event { signaled, manual } => {
                self.create(Object::Event { signaled: signaled != 0, manual: manual != 0 })
            }
            Call::Close { handle } => self.close(handle),
            Call::ReadSem { handle } | Call::ReadMutex { handle } | Call::ReadEvent { handle } => self.read(handle),
            Call::Post { handle, add, .. } => self.post(handle, add),
            Call::Unlock { handle, .. } => self.unlock(handle),
            Call::Kill { handle, .. } => {
                self.put(handle, Object::Mutex { owner: 0, count: 0, abandoned: true });
                Outcome::answer(DONE)
            }
            Call::Set { handle, .. } | Call::Pulse { handle, .. } => {
                Outcome::numbers(DONE, self.set_signaled(handle, true).into(), 0)
            }
            Call::Reset { handle } => Outcome::numbers(DONE, self.set_signaled(handle, false).into(), 0),
            Call::Wait { mode, ref list, owner, alert, flags, timeout, time, .. } => {
                let clock = if flags == 1 { Clock::RealTime } else { Clock::Monotonic };
                self.wait(Wait { ticket: 0, mode, owner, clock, timeout, alert, list: list.clone() }, time)
            }
            Call::Expire { clock, time, .. } => self.expire(clock, time),
            Call::Cancel { ticket } => {
                self.remove(|wait| wait.ticket == ticket);
                Outcome::answer(EINTR)
            }
            Call::Picture { .. } => {
                let text = picture(&self.state);
                Outcome { answer: DONE, numbers: [text.len() as u64, 0], reports: Vec::new(), text }
            }
            Call::Restore { ref text } => self.restore(text),
        }
    }

    /// From a text alone, whatever was held before.
    fn restore(&mut self, text: &[u8]) -> Outcome {
        match read(text, self.slip) {
            Ok(state) => self.state = state,
            Err(offset) => return Outcome::numbers(NO_PICTURE, offset as u64, 0),
        }
        Outcome::answer(DONE)
    }

    fn create(&mut self, object: Object) -> Outcome {
        let place = self.state.objects.iter().position(Option::is_none).expect("an empty place");
        self.state.objects[place] = Some(object);
        Outcome::numbers(DONE, place as u64 + 1, 0)
    }

    fn close(&mut self, handle: u32) -> Outcome {
        let place = self.place(handle).expect("an occupied handle");
        self.state.objects[place] = None;
        Outcome::answer(DONE)
    }

    fn read(&self, handle: u32) -> Outcome {
        match self.object(handle).expect("an object of the kind read") {
            Object::Semaphore { count, max } => Outcome::numbers(DONE, count.into(), max.into()),
            Object::Mutex { abandoned: true, .. } => Outcome::answer(EOWNERDEAD),
            Object::Mutex { owner, count, .. } => Outcome::numbers(DONE, owner.into(), count.into()),
            Object::Event { signaled, manual } => Outcome::numbers(DONE, signaled.into(), manual.into()),
        }
    }

    fn post(&mut self, handle: u32, add: u32) -> Outcome {
        let (count, max) = self.semaphore(handle).expect("a semaphore");
        self.put(handle, Object::Semaphore { count: count + add, max });
        Outcome::numbers(DONE, count.into(), 0)
    }

    fn unlock(&mut self, handle: u32) -> Outcome {
        let (owner, count, abandoned) = self.mutex(handle).expect("a mutex");
        let left = count - 1;
        let owner = if left == 0 { 0 } else { owner };
        self.put(handle, Object::Mutex { owner, count: left, abandoned });
        Outcome::numbers(DONE, count.into(), 0)
    }

    fn expire(&mut self, clock: u32, time: u64) -> Outcome {
        let clock = if clock == 1 { Clock::RealTime } else { Clock::Monotonic };
        let mut ended = self.remove(|wait| wait.clock == clock && due(wait.timeout, time));
        ended.sort();
        let reports = ended.into_iter().map(|ticket| Report { ticket, answer: ETIMEDOUT, index: 0 }).collect();
        Outcome { reports, ..Outcome::answer(DONE) }
    }

    /// Takes waits out of the queue; their tickets.
    fn remove(&mut self, which: impl Fn(&Wait) -> bool) -> Vec<u64> {
        let mut tickets = Vec::new();
        for place in self.state.waits.iter_mut() {
            if place.as_ref().is_some_and(&which) {
                tickets.extend(place.take().map(|wait| wait.ticket));
            }
        }
        tickets
    }

    fn wait(&mut self, wait: Wait, time: u64) -> Outcome {
        if let Some((answer, index)) = self.attempt(&wait) {
            return Outcome::numbers(answer, index.into(), 0);
        }
        if due(wait.timeout, time) {
            return Outcome::answer(ETIMEDOUT);
        }
        let Some(place) = (0..WAITS).find(|&p| self.state.waits[p].is_none()) else {
            return Outcome::answer(NO_ROOM);
        };
        if self.state.next == TICKETS_SPENT {
            return Outcome::answer(SPENT);
        }
        let ticket = self.state.next;
        self.state.next += 1;
        self.state.waits[place] = Some(Wait { ticket, ..wait });
        Outcome::numbers(QUEUED, 0, ticket)
    }

    // Attempts.

    fn signaled(&self, handle: u32, owner: u32) -> bool {
        self.object(handle).is_some_and(|object| object.signaled_for(owner))
    }

    fn taking_from_list(&self, wait: &Wait) -> Option<Taking> {
        let signaled = |handle: &u32| self.signaled(*handle, wait.owner);
        match wait.mode {
            Mode::Any => wait.list.iter().position(signaled).map(Taking::Listed),
            Mode::All => wait.list.iter().all(signaled).then_some(Taking::Every),
        }
    }

    /// What an attempt now would take.
    fn taking(&self, wait: &Wait) -> Option<Taking> {
        let list = self.taking_from_list(wait);
        let alert = (wait.alert != 0 && self.signaled(wait.alert, wait.owner)).then_some(Taking::Alert);
        if self.has_slip(Slip::AlertFirst) {
            alert.or(list)
        } else {
            list.or(alert)
        }
    }

    /// Answer and index if served.
    fn attempt(&mut self, wait: &Wait) -> Option<(u32, u32)> {
        if self.has_slip(Slip::KeepPartOfAll) {
            self.keep_part(wait);
        }
        let (handles, index) = match self.taking(wait)? {
            Taking::Listed(index) => (vec![wait.list[index]], index),
            Taking::Every => (wait.list.clone(), 0),
            Taking::Alert => (vec![wait.alert], wait.list.len()),
        };
        let answer = self.acquire_every(&handles, wait.owner);
        Some((answer, index as u32))
    }

    fn acquire_every(&mut self, handles: &[u32], owner: u32) -> u32 {
        let before = self.state.objects;
        let mut abandoned = false;
        for &handle in handles {
            abandoned |= self.acquire(handle, owner);
        }
        if abandoned && self.has_slip(Slip::OwnerDeadRefuses) {
            self.state.objects = before;
        }
        if abandoned {
            EOWNERDEAD
        } else {
            DONE
        }
    }

    fn acquire(&mut self, handle: u32, owner: u32) -> bool {
        let (next, abandoned) = self.object(handle).expect("an occupied handle").acquired_by(owner);
        self.put(handle, next);
        abandoned
    }

    fn keep_part(&mut self, wait: &Wait) {
        if wait.mode == Mode::Any || self.taking_from_list(wait).is_some() {
            return;
        }
        for &handle in &wait.list {
            if !self.signaled(handle, wait.owner) {
                return;
            }
            self.acquire(handle, wait.owner);
        }
    }

    // Waking.

    fn wake(&mut self, call: &Call) -> Vec<Report> {
        if self.has_slip(Slip::UnlockWakesAtZero) && self.unlocked_above_zero(call) {
            return Vec::new();
        }
        match self.waking {
            Waking::Search => self.search(),
            Waking::Walk => changed_object(call).map_or(Vec::new(), |handle| self.walk(handle)),
        }
    }

    fn unlocked_above_zero(&self, call: &Call) -> bool {
        match *call {
            Call::Unlock { handle, .. } => self.mutex(handle).is_some_and(|(_, count, _)| count > 0),
            _ => false,
        }
    }

    /// Of all queued waits that can be served, the lowest ticket; again, until none can.
    fn search(&mut self) -> Vec<Report> {
        let mut reports = Vec::new();
        while let Some(place) = self.lowest_servable() {
            reports.extend(self.serve(place));
        }
        reports
    }

    pub(crate) fn lowest_servable(&self) -> Option<usize> {
        let wait_at = |place: &usize| self.state.waits[*place].as_ref();
        (0..WAITS)
            .filter(|place| wait_at(place).is_some_and(|wait| self.taking(wait).is_some()))
            .min_by_key(|place| wait_at(place).map(|wait| wait.ticket))
    }

    /// Once over the queue, lowest ticket first, trying the waits that name the object.
    fn walk(&mut self, handle: u32) -> Vec<Report> {
        let mut reports = Vec::new();
        for place in self.state.places_by_ticket() {
            if self.state.waits[place].as_ref().is_some_and(|wait| wait.names(handle)) {
                reports.extend(self.serve(place));
            }
        }
        reports
    }

    /// The wait's attempt; if served it leaves the queue.
    fn serve(&mut self, place: usize) -> Option<Report> {
        let wait = self.state.waits[place].clone()?;
        let (answer, index) = self.attempt(&wait)?;
        self.state.waits[place] = None;
        Some(Report { ticket: wait.ticket, answer, index })
    }
}

fn lent_short(call: &Call) -> bool {
    match *call {
        Call::Picture { bytes } => bytes < PICTURE_BYTES,
        _ => call.wake_cells().is_some_and(|cells| cells < WAKE_CELLS),
    }
}

/// A handle twice in a wait for all, the alert counted.
pub(crate) fn repeats(list: &[u32], alert: u32) -> bool {
    let twice = list.iter().enumerate().any(|(i, handle)| list[..i].contains(handle));
    twice || list.contains(&alert)
}

fn due(timeout: u64, time: u64) -> bool {
    timeout != NEVER && timeout <= time
}

/// The object whose waits a call walks.
fn changed_object(call: &Call) -> Option<u32> {
    match *call {
        Call::Post { handle, .. }
        | Call::Unlock { handle, .. }
        | Call::Kill { handle, .. }
        | Call::Set { handle, .. }
        | Call::Pulse { handle, .. } => Some(handle),
        _ => None,
    }
}
