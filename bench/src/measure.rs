//! Two ways of measuring a call: instructions by callgrind, which the program asks to write its count down after each
//! call, and nanoseconds.

use crate::sides::{perform, Call, Lent, Side, LIBRARY, PLAIN};
use std::arch::asm;
use std::hint::black_box;
use std::time::{Duration, Instant};

/// A call of one side on tables.
#[derive(Clone, Copy)]
pub struct Measured<'a> {
    pub side: &'a Side,
    pub call: &'a Call,
    pub tables: &'a [u64],
}

/// Requests of callgrind.h: set the count to 0; write it down under a label.
const ZERO_STATS: usize = CALLGRIND + 1;
const DUMP_STATS_AT: usize = CALLGRIND + 3;
const CALLGRIND: usize = (b'C' as usize) << 24 | (b'T' as usize) << 16;

/// The check as each side's calls call it; it is inlined into none of them.
const CHECKS: [&str; 2] = ["validity::valid", "bench::plain::check::valid"];

/// How often a call is timed. The shortest time counts: whatever else the machine does can only lengthen it.
const REPETITIONS: usize = 2000;

/// A request to valgrind, by the instructions that it watches for; outside valgrind they do nothing.
fn client_request(request: usize, argument: usize) {
    let arguments = [request, argument, 0, 0, 0, 0];
    // SAFETY: the rotations sum up to 128 bits, so rdi keeps its value; valgrind writes rdx alone.
    unsafe {
        asm!("rol rdi, 3", "rol rdi, 13", "rol rdi, 61", "rol rdi, 51", "xchg rbx, rbx",
            in("rax") arguments.as_ptr(), inout("rdx") 0usize => _);
    }
}

/// Makes each call once and has callgrind write down the instructions inside it. bench/run tells callgrind which
/// functions count, so what stands around a call does not.
pub fn count_all(calls: &[Measured]) {
    for call in calls {
        let mut lent = Lent::new(call.tables, call.call);
        client_request(ZERO_STATS, 0);
        black_box(perform(call.side, call.call, &mut lent));
        client_request(DUMP_STATS_AT, c"call".as_ptr() as usize);
    }
}

/// Instructions of a call, and of the check that it called, if it did.
#[derive(Clone, Copy)]
pub struct Count {
    pub whole: u64,
    pub check: Option<u64>,
}

/// The counts in callgrind's file, in the order of the calls.
pub fn read_counts(file: &str) -> Vec<Count> {
    let text = std::fs::read_to_string(file).expect("callgrind's file");
    text.split("desc: Trigger: Client Request: ").skip(1).map(read_count).collect()
}

/// One count, up to its line `totals:`. A line `cfn=` names a function that was called, and the second line after it
/// ends with the instructions inside that.
fn read_count(text: &str) -> Count {
    let last_number = |line: &str| line.rsplit(' ').next().and_then(|number| number.parse().ok());
    let mut check = None;
    let mut lines = text.lines();
    while let Some(line) = lines.next() {
        if line.strip_prefix("cfn=").is_some_and(|name| CHECKS.contains(&name)) {
            check = lines.nth(1).and_then(last_number);
        } else if line.starts_with("totals: ") {
            return Count { whole: last_number(line).expect("a total"), check };
        }
    }
    panic!("callgrind's count has no total");
}

fn timed<T>(work: impl FnOnce() -> T) -> Duration {
    let begin = Instant::now();
    black_box(work());
    begin.elapsed()
}

/// The shortest time of the call on each side in nanoseconds, without the clock's own: `times` calls in a row are
/// timed, more than one only of a call that alters nothing. The sides take turns, so that both meet the same
/// disturbances.
pub fn fastest(tables: &[u64], call: &Call, times: u32) -> [f64; 2] {
    let start = Lent::new(tables, call);
    let mut lent = start.clone();
    let mut best = [Duration::MAX; 2];
    let mut clock = Duration::MAX;
    for _ in 0..REPETITIONS {
        clock = clock.min(timed(|| ()));
        for (side, best) in [&LIBRARY, &PLAIN].into_iter().zip(&mut best) {
            lent.reset(&start);
            *best = timed(|| (0..times).for_each(|_| _ = black_box(perform(side, call, &mut lent)))).min(*best);
        }
    }
    best.map(|time| time.saturating_sub(clock).as_nanos() as f64 / f64::from(times))
}
