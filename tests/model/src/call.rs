//! A call's arguments, with the lengths of what is lent, and what the caller hears.

use crate::Mode;

/// `Restore` (3/13) is no call of document 01: if its text is accepted, a new history begins with what that shows.
#[derive(Clone, PartialEq, Eq, Debug)]
pub enum Call {
    Sem { count: u32, max: u32 },
    Mutex { owner: u32, count: u32 },
    Event { signaled: u32, manual: u32 },
    Close { handle: u32 },
    ReadSem { handle: u32 },
    ReadMutex { handle: u32 },
    ReadEvent { handle: u32 },
    Post { handle: u32, add: u32, wake: usize },
    Unlock { handle: u32, owner: u32, wake: usize },
    Kill { handle: u32, owner: u32, wake: usize },
    Set { handle: u32, wake: usize },
    Reset { handle: u32 },
    Pulse { handle: u32, wake: usize },
    Wait { mode: Mode, list: Vec<u32>, owner: u32, alert: u32, flags: u32, pad: u32, timeout: u64, time: u64 },
    Expire { clock: u32, time: u64, wake: usize },
    Cancel { ticket: u64 },
    Picture { bytes: usize },
    Restore { text: Vec<u8> },
}

impl Call {
    /// Cells of the lent wake list, if the call takes one.
    pub fn wake_cells(&self) -> Option<usize> {
        match *self {
            Call::Post { wake, .. }
            | Call::Unlock { wake, .. }
            | Call::Kill { wake, .. }
            | Call::Set { wake, .. }
            | Call::Pulse { wake, .. }
            | Call::Expire { wake, .. } => Some(wake),
            _ => None,
        }
    }

    /// Whether the call takes its tables for reading alone.
    pub fn only_reads(&self) -> bool {
        matches!(self, Call::ReadSem { .. } | Call::ReadMutex { .. } | Call::ReadEvent { .. } | Call::Picture { .. })
    }

    /// The list of a wait; empty for other calls.
    pub fn listed(&self) -> &[u32] {
        match self {
            Call::Wait { list, .. } => list,
            _ => &[],
        }
    }

    /// The text that is read back; empty for other calls.
    pub fn text(&self) -> &[u8] {
        match self {
            Call::Restore { text } => text,
            _ => &[],
        }
    }

    /// The one handle that a call other than a wait takes.
    pub fn handle(&self) -> Option<u32> {
        match self {
            Call::Wait { .. } | Call::Restore { .. } => None,
            other => other.clone().handle_mut().copied(),
        }
    }

    pub fn handle_mut(&mut self) -> Option<&mut u32> {
        match self {
            Call::Close { handle }
            | Call::ReadSem { handle }
            | Call::ReadMutex { handle }
            | Call::ReadEvent { handle }
            | Call::Post { handle, .. }
            | Call::Unlock { handle, .. }
            | Call::Kill { handle, .. }
            | Call::Set { handle, .. }
            | Call::Reset { handle }
            | Call::Pulse { handle, .. } => Some(handle),
            _ => None,
        }
    }
}

/// A woken or ended wait.
#[derive(Clone, Copy, PartialEq, Eq, Debug)]
pub struct Report {
    pub ticket: u64,
    pub answer: u32,
    pub index: u32,
}

/// The answer and the numbers with it, in the order of the C struct after `answer`:
/// create: handle; reads: the two values; changes: previous, woken; waits: index, ticket; picture: length; restore: offset.
#[derive(Clone, PartialEq, Eq, Debug, Default)]
pub struct Outcome {
    pub answer: u32,
    pub numbers: [u64; 2],
    pub reports: Vec<Report>,
    pub text: Vec<u8>,
}

impl Outcome {
    pub fn answer(answer: u32) -> Outcome {
        Outcome { answer, ..Outcome::default() }
    }

    pub fn numbers(answer: u32, first: u64, second: u64) -> Outcome {
        Outcome { answer, numbers: [first, second], ..Outcome::default() }
    }
}
