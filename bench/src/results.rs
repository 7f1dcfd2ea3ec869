//! The result structs of the interface as plain numbers, and made from an answer alone.

use crate::ffi::{Changed, Created, EventState, MutexState, Restored, SemState, Waited, Written};

/// The answer and the numbers with it, in the order of the call's struct.
pub type Outcome = [u64; 3];

/// The outcome of a call that returns nothing but its answer.
pub fn alone(answer: u32) -> Outcome {
    [answer.into(), 0, 0]
}

macro_rules! results {
    ($($result:ident { $($number:ident),* })*) => {
        $(impl From<$result> for Outcome {
            fn from(result: $result) -> Outcome {
                let mut all = alone(result.answer);
                for (number, given) in all[1..].iter_mut().zip([$(u64::from(result.$number)),*]) {
                    *number = given;
                }
                all
            }
        }

        /// Every number beside the answer is 0.
        impl From<u32> for $result {
            fn from(answer: u32) -> $result {
                $result { answer, $($number: 0),* }
            }
        })*
    };
}

results! {
    Created { handle }
    SemState { count, max }
    MutexState { owner, count }
    EventState { signaled, manual }
    Changed { previous, woken }
    Waited { index, ticket }
    Written { length }
    Restored { offset }
}
