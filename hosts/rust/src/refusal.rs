//! Refusals: the answers of calls that altered nothing.

use crate::ffi;
use core::error::Error;
use core::fmt;

/// Why a call was refused. It altered neither tables nor lists.
///
/// ```
/// use ntsync::{Refusal, Tables};
/// let refusal = Tables::new().create_sem(2, 1).unwrap_err();
/// assert_eq!(refusal, Refusal::Invalid);
/// assert_eq!(refusal.to_string(), "an argument is not allowed, or a handle names no object of the kind that the call takes");
/// ```
#[derive(Clone, Copy, Debug, PartialEq, Eq, Hash)]
#[non_exhaustive]
#[repr(u32)]
pub enum Refusal {
    /// EINVAL: a bad argument; a handle of no object, or of another kind of object.
    Invalid = ffi::EINVAL,
    /// EPERM: that owner does not hold the mutex.
    NotOwner = ffi::EPERM,
    /// EOVERFLOW: the post would exceed the semaphore's maximum.
    Overflow = ffi::EOVERFLOW,
    /// No empty object place, or no empty wait place.
    NoRoom = ffi::NO_ROOM,
    /// All tickets were given.
    TicketsSpent = ffi::TICKETS_SPENT,
    /// The tables break a rule of docs/LAYOUT.md, until they are restored or made again.
    Corrupt = ffi::CORRUPT,
    /// A queued wait names the object.
    Busy = ffi::BUSY,
    /// The snapshot's buffer is too short.
    ListShort = ffi::LIST_SHORT,
    /// The text is no snapshot; [`Refused`] has the offset with it.
    NotASnapshot = ffi::NOT_A_SNAPSHOT,
}

impl Refusal {
    /// Every refusal, by number.
    pub(crate) const ALL: [Refusal; 9] = {
        use Refusal::{Busy, Corrupt, Invalid, ListShort, NoRoom, NotASnapshot, NotOwner, Overflow, TicketsSpent};
        [Invalid, NotOwner, Overflow, NoRoom, TicketsSpent, Corrupt, Busy, ListShort, NotASnapshot]
    };

    /// The answer's number in include/ntsync.h.
    #[must_use]
    pub const fn number(self) -> u32 {
        self as u32
    }

    /// The refusal with that number; an answer that is no refusal has none.
    ///
    /// ```
    /// use ntsync::Refusal;
    /// assert_eq!(Refusal::from_number(10), Some(Refusal::Busy));
    /// assert_eq!(Refusal::from_number(4), None); // EOWNERDEAD: the wait was served
    /// ```
    #[must_use]
    pub fn from_number(number: u32) -> Option<Refusal> {
        Refusal::ALL.into_iter().find(|refusal| refusal.number() == number)
    }
}

impl fmt::Display for Refusal {
    fn fmt(&self, f: &mut fmt::Formatter<'_>) -> fmt::Result {
        f.write_str(match self {
            Refusal::Invalid => {
                "an argument is not allowed, or a handle names no object of the kind that the call takes"
            }
            Refusal::NotOwner => "that owner does not hold the mutex",
            Refusal::Overflow => "the post would exceed the semaphore's maximum",
            Refusal::NoRoom => "all object places, or all wait places, are in use",
            Refusal::TicketsSpent => "every ticket was given",
            Refusal::Corrupt => "the tables are damaged, and must be restored or made again",
            Refusal::Busy => "a queued wait names the object",
            Refusal::ListShort => "the buffer is too short",
            Refusal::NotASnapshot => "the text is no snapshot",
        })
    }
}

impl Error for Refusal {}

/// Why a text was not read back by [`Tables::restore`](crate::Tables::restore): it is no snapshot.
///
/// ```
/// use ntsync::{Refused, Tables};
/// let refused = Tables::restore("next=1\nobjects=many\n").unwrap_err();
/// assert_eq!(refused, Refused { offset: 7 });
/// assert_eq!(refused.to_string(), "the text is no snapshot: the line at byte 7 is not as due there");
/// ```
#[derive(Clone, Copy, Debug, PartialEq, Eq, Hash)]
pub struct Refused {
    /// Where the first line begins that is not as due there; the text's length if it ends where a line is due. It is 0 also
    /// if every line is as due and the whole is wrong: its sum, its order, the state that it shows, or bytes behind it.
    pub offset: usize,
}

impl fmt::Display for Refused {
    fn fmt(&self, f: &mut fmt::Formatter<'_>) -> fmt::Result {
        match self.offset {
            0 => write!(f, "{}: its first line, its sum, its order or its state is wrong", Refusal::from(*self)),
            offset => write!(f, "{}: the line at byte {offset} is not as due there", Refusal::from(*self)),
        }
    }
}

impl Error for Refused {}

impl From<Refused> for Refusal {
    fn from(_: Refused) -> Refusal {
        Refusal::NotASnapshot
    }
}

/// The refusal that a call answered. Answers of success were looked at before, and the version was compared.
pub(crate) fn refused(answer: u32) -> Refusal {
    Refusal::from_number(answer).unwrap_or_else(|| unreachable!("answer {answer} of a library of this version"))
}

/// For calls whose only success is DONE.
pub(crate) fn done(answer: u32) -> Result<(), Refusal> {
    if answer == ffi::DONE { Ok(()) } else { Err(refused(answer)) }
}
