//! Each slip of document 01 and of its changes, put into the second model, must be found by the random histories, and its
//! script must be the shrunk history when it is read back. Slips of reading must be found by the damaged pictures too.

use crate::history::{play_many, Failure};
use crate::pictures;
use crate::play::Bench;
use crate::shrink::{shrunk, Trial};
use crate::vectors::read_back;
use crate::Limits;
use second_model::Slip;

const SEED: u64 = 5;
/// In which each slip must be found.
const CALLS: u64 = 200_000;

const SLIPS: [(Slip, &str); 22] = [
    (Slip::UnlockWakesAtZero, "unlock wakes only at zero"),
    (Slip::KeepPartOfAll, "part of a wait for all kept"),
    (Slip::OwnerDeadRefuses, "EOWNERDEAD refuses"),
    (Slip::AlertFirst, "alert first"),
    (Slip::HandleZeroNames, "handle 0 names an object"),
    (Slip::EmptyAnyRefused, "empty list refused for any"),
    (Slip::EmptyAllPasses, "empty list let pass for all"),
    (Slip::ZeroMaximumCreated, "maximum 0 created"),
    (Slip::MaximumOneRefused, "maximum 1 refused"),
    (Slip::CountZeroRefused, "count 0 refused"),
    (Slip::HandlesTo128, "handles end at 128"),
    (Slip::HandleOf8Bits, "handle cut to 8 bits"),
    (Slip::SumFromOne, "sum from 1"),
    (Slip::OffsetLate, "offset one line late"),
    (Slip::LeadingZero, "leading zero accepted"),
    (Slip::HandlesUnordered, "handles in any order"),
    (Slip::TicketsUnordered, "tickets in any order"),
    (Slip::TailAccepted, "bytes behind the sum accepted"),
    (Slip::ServableAccepted, "servable wait accepted"),
    (Slip::UnsoundAccepted, "unsound state accepted"),
    (Slip::PlacedFromEnd, "waits placed from the end"),
    (Slip::ZeroMaximumAccepted, "maximum 0 accepted"),
];
/// From here on they are slips of reading.
const READING: usize = 12;

pub fn run(limits: Limits) -> Result<String, String> {
    let seed = limits.seed.unwrap_or(SEED);
    let mut found = Vec::new();
    for (slip, name) in SLIPS {
        let (coverage, failure) = play_many(Bench::new(Some(slip)), seed, CALLS, None);
        let failure = failure.ok_or(format!("slip not found in {} calls: {name}", coverage.calls))?;
        let script = script_of(failure, slip).map_err(|what| format!("{name}: {what}"))?;
        print!("{name}\n{script}");
        found.push(format!("{name}: call {}", coverage.calls + 1));
    }
    for (slip, name) in &SLIPS[READING..] {
        let text = pictures::finds(*slip).ok_or(format!("slip not found by the damaged pictures: {name}"))?;
        println!("{name}: {text}");
    }
    Ok(format!("{} of {} found, {}", found.len(), SLIPS.len(), found.join(", ")))
}

fn script_of(failure: Failure, slip: Slip) -> Result<String, String> {
    let (history, script) = shrunk(failure.history, Trial::Here(Some(slip)));
    if read_back(&script)? != history {
        return Err(format!("the script reads otherwise than the history\n{script}"));
    }
    if history.first_difference(None).is_some() {
        return Err(format!("the difference remains without the slip\n{script}"));
    }
    match history.first_difference(Some(slip)) {
        Some((last, _)) if last + 1 == history.calls.len() => Ok(script),
        _ => Err(format!("the last call does not differ\n{script}")),
    }
}
