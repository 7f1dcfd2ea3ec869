//! Random histories in memory that ends where the lent arrays begin and end. Sentinels show what was written out of bounds,
//! and fences what was read: the program is ended then (`crash.rs`). What a call may only read lies in read-only pages.

use crate::history::{play_many, Failure};
use crate::library::Fence;
use crate::play::Bench;
use crate::shrink::{shrunk, Trial};
use crate::Limits;

const SEED: u64 = 11;
/// At each fence.
const CALLS: u64 = 20_000;

pub fn run(limits: Limits) -> Result<String, String> {
    let seed = limits.seed.unwrap_or(SEED);
    let mut calls = 0;
    for fence in [Fence::Before, Fence::Behind] {
        let mut bench = Bench::new(None);
        bench.library.fence = Some(fence);
        let (coverage, failure) = play_many(bench, seed, CALLS, None);
        if let Some(Failure { history, difference }) = failure {
            let (_, script) = shrunk(history, Trial::Here(None));
            return Err(format!("{fence:?}: {}\n{script}", difference.what));
        }
        calls += coverage.calls;
    }
    Ok(format!("{calls} calls, with a fence before and behind all that is lent, read-only where a call only reads"))
}
