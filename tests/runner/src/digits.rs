//! Directed cases about the picture's numbers: each border of their digits in every line that can hold it. Besides the
//! second model, which makes its digits by hand, every text is held to Rust's own decimals.

use crate::calls::{any, mutex, sem};
use crate::directed::{Case, Done, MAX};
use crate::random::Random;
use crate::texts::summed;
use second_model::{NEVER, WAITS};

/// 0, every power of ten with one below and one above, and the same about the widths' ends.
fn borders() -> Vec<u64> {
    let powers = (0..20).map(|zeros| 10u64.pow(zeros));
    let ends = [1 << 31, 1 << 32, 1 << 63];
    let mut borders: Vec<u64> = powers.chain(ends).flat_map(|n| [n - 1, n, n + 1]).collect();
    borders.extend([u64::MAX - 1, u64::MAX]);
    borders.sort_unstable();
    borders.dedup();
    borders
}

/// As a timeout, as the next ticket, as a ticket. 0 can be none of them.
pub fn borders_of_64_bits(case: &mut Case) -> Done {
    for n in borders().into_iter().filter(|&n| n > 0) {
        case.bench.make();
        case.queues(any(1, 0, n, &[]), 1)?;
        case.shows(&summed(&format!("next=2\nobjects=0\nwaits=1\n{}", sleep(1, 1, n))))?;
        case.bench.make();
        case.bench.write_next(n);
        case.shows(&summed(&format!("next={n}\nobjects=0\nwaits=0\n")))?;
        if n == u64::MAX {
            continue;
        }
        case.queues(any(1, 0, NEVER, &[]), n)?;
        case.shows(&summed(&format!("next={}\nobjects=0\nwaits=1\n{}", n + 1, sleep(n, 1, NEVER))))?;
    }
    Ok(())
}

/// As a count; if not 0, as a maximum, as a mutex's owner and count, and as a wait's owner.
pub fn borders_of_32_bits(case: &mut Case) -> Done {
    for n in borders().into_iter().filter_map(|n| u32::try_from(n).ok()) {
        case.bench.make();
        case.create(&[sem(n, MAX)])?;
        let first = format!("handle=1\nkind=sem\ncount={n}\nmax={MAX}\n");
        case.shows(&summed(&format!("next=1\nobjects=1\n{first}waits=0\n")))?;
        if n == 0 {
            continue;
        }
        case.hears(sem(0, n), 0, [2, 0], &[])?;
        case.hears(mutex(n, n), 0, [3, 0], &[])?;
        case.queues(any(n, 0, NEVER, &[]), 1)?;
        let second = format!("handle=2\nkind=sem\ncount=0\nmax={n}\n");
        let third = format!("handle=3\nkind=mutex\nowner={n}\ncount={n}\nabandoned=0\n");
        case.shows(&summed(&format!("next=2\nobjects=3\n{first}{second}{third}waits=1\n{}", sleep(1, n, NEVER))))?;
    }
    Ok(())
}

/// Timeouts of every length in bits, a queue of random ones each.
pub fn random_numbers(case: &mut Case) -> Done {
    let mut random = Random::new(10);
    for bits in 1..=u64::BITS {
        case.bench.make();
        let mut due = format!("next={}\nobjects=0\nwaits={WAITS}\n", WAITS + 1);
        for ticket in 1..=WAITS as u64 {
            let timeout = (random.number() | 1 << 63) >> (u64::BITS - bits);
            case.queues(any(1, 0, timeout, &[]), ticket)?;
            due += &sleep(ticket, 1, timeout);
        }
        case.shows(&summed(&due))?;
    }
    Ok(())
}

/// The lines of a queued wait for no objects.
fn sleep(ticket: u64, owner: u32, timeout: u64) -> String {
    format!("wait={ticket}\nmode=any\nowner={owner}\nclock=mono\ntimeout={timeout}\nalert=0\nn=0\n")
}
