//! The second model: the fresh reckoning of document 01 over ordinary values.
//! Written from document 01 and its changes alone; it shares no code and no layout with the library.

mod call;
mod picture;
mod restore;
mod state;
mod step;

pub use call::{Call, Outcome, Report};
pub use picture::{picture, sum_of};
pub use restore::restore;
pub use state::{Clock, Mode, Object, State, Wait};
pub use step::{Model, Slip, Waking};

pub const OBJECTS: usize = 512;
pub const WAITS: usize = 32;
pub const LIST: usize = 64;
pub const WAKE_CELLS: usize = 96;
pub const PICTURE_BYTES: usize = 65_536;
pub const NEVER: u64 = u64::MAX;
pub const TICKETS_SPENT: u64 = u64::MAX;

/// Document 01's answer numbers.
pub mod answer {
    pub const DONE: u32 = 0;
    pub const EINVAL: u32 = 1;
    pub const EPERM: u32 = 2;
    pub const EOVERFLOW: u32 = 3;
    pub const EOWNERDEAD: u32 = 4;
    pub const ETIMEDOUT: u32 = 5;
    pub const EINTR: u32 = 6;
    pub const NO_ROOM: u32 = 7;
    pub const SPENT: u32 = 8;
    pub const DAMAGED: u32 = 9;
    pub const BUSY: u32 = 10;
    pub const QUEUED: u32 = 11;
    pub const SHORT: u32 = 12;
    pub const NO_PICTURE: u32 = 13;

    /// Nothing altered.
    pub fn is_refusal(answer: u32) -> bool {
        matches!(answer, 1 | 2 | 3 | 7 | 8 | 9 | 10 | 12 | 13)
    }
}
