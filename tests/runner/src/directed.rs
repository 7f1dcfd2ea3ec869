//! Directed cases: the bench readings of document 01, the rules of each call, the limits, the order of refusals.
//! Every call is compared with the second model too. What is lent is in `lent.rs`, the picture's numbers in `digits.rs`,
//! pictures read back in `reading.rs`.

use crate::calls::{all, any, at_time, event, expire, kill, mutex, post, pulse, sem, set, unlock, with_wake};
use crate::digits;
use crate::lent;
use crate::library;
use crate::play::Bench;
use crate::reading;
use crate::script::{heard_text, step_or_text};
use second_model::{Call, Mode, Outcome, Report, LIST, NEVER, OBJECTS, PICTURE_BYTES, WAITS, WAKE_CELLS};

pub const MAX: u32 = u32::MAX;

pub struct Case {
    pub bench: Bench,
    pub calls: u64,
}

pub type Done = Result<(), String>;
type Test = (&'static str, fn(&mut Case) -> Done);

const TESTS: [Test; 50] = [
    ("P1, P2 and the picture", p1_p2),
    ("P3, P4", p3_p4),
    ("P5, P6", p5_p6),
    ("P7", p7),
    ("P8", p8),
    ("P9", p9),
    ("P10", p10),
    ("P11, P12", p11_p12),
    ("handles 512, 513, 0", handles),
    ("handles alike in their low bits", alike_handles),
    ("the 513th object", object_513),
    ("lists of 0, 1, 63, 64, 65", lists),
    ("an empty list, ended each way", empty_lists),
    ("maximums of 0 and 1", maximums),
    ("the 33rd wait", wait_33),
    ("tickets spent at 2^64-1", tickets_spent),
    ("the last ticket, 2^64-2", last_ticket),
    ("wake lists of 0 to 160 cells", lent::wake_lists),
    ("32 records", lent::records_32),
    ("buffers of 0 to 65,600 bytes", lent::buffers),
    ("the longest picture", lent::longest_picture),
    ("numbers of 64 bits at each border", digits::borders_of_64_bits),
    ("numbers of 32 bits at each border", digits::borders_of_32_bits),
    ("random numbers of every length", digits::random_numbers),
    ("lengths beyond 32 bits", lent::far_lengths),
    ("the header's numbers", lent::header),
    ("making", lent::making),
    ("9 before 12 and 1", lent::damage_first),
    ("12 before 1", short_first),
    ("1 before 2, 3, 7, 10", argument_first),
    ("served, 5, 7, 8, 11", wait_order),
    ("clocks", clocks),
    ("cancel", cancel),
    ("wrong kinds", wrong_kinds),
    ("all or none", all_or_none),
    ("whole numbers and flags", numbers),
    ("P1 and P2 from a text", reading::p1_again),
    ("places of restored waits", reading::places),
    ("texts cut short", reading::cut_short),
    ("sums, and what follows them", reading::sums_and_ends),
    ("forms of numbers and words", reading::forms),
    ("order of lines", reading::order_of_lines),
    ("ranges of an object's keys", reading::ranges_of_objects),
    ("ranges of a wait's keys", reading::ranges_of_waits),
    ("the far ends of ranges", reading::far_ends),
    ("order and soundness of a text", reading::order_and_soundness),
    ("rules of objects in a text, each alone", reading::objects_alone),
    ("rules of waits in a text, each alone", reading::waits_alone),
    ("servable waits in a text", reading::servable),
    ("readings: lengths first", reading::lengths_first),
];

pub fn run() -> Result<String, String> {
    let mut calls = 0;
    for (name, test) in TESTS {
        let mut case = Case { bench: Bench::new(None), calls: 0 };
        test(&mut case).map_err(|what| format!("{name}: {what}"))?;
        calls += case.calls;
    }
    Ok(format!("{} cases, {calls} calls{}", TESTS.len(), library::skipped()))
}

impl Case {
    pub fn step(&mut self, call: &Call) -> Result<Outcome, String> {
        self.calls += 1;
        step_or_text(&mut self.bench, call)
    }

    /// The call has this answer and these numbers and reports.
    pub fn hears(&mut self, call: Call, answer: u32, numbers: [u64; 2], reports: &[(u64, u32, u32)]) -> Done {
        let outcome = self.step(&call)?;
        let woken: Vec<(u64, u32, u32)> =
            outcome.reports.iter().map(|&Report { ticket, answer, index }| (ticket, answer, index)).collect();
        if (outcome.answer, outcome.numbers, &woken[..]) == (answer, numbers, reports) {
            return Ok(());
        }
        Err(format!("{}, due {answer} {numbers:?} {reports:?}", heard_text(&call, &outcome)))
    }

    /// The call has this answer and zeros.
    pub fn answers(&mut self, call: Call, answer: u32) -> Done {
        self.hears(call, answer, [0, 0], &[])
    }

    /// Creates objects, handles from 1 on.
    pub fn create(&mut self, objects: &[Call]) -> Done {
        for (place, object) in objects.iter().enumerate() {
            self.hears(object.clone(), 0, [place as u64 + 1, 0], &[])?;
        }
        Ok(())
    }

    pub fn reads(&mut self, call: Call, first: u64, second: u64) -> Done {
        self.hears(call, 0, [first, second], &[])
    }

    pub fn queues(&mut self, call: Call, ticket: u64) -> Done {
        self.hears(call, 11, [0, ticket], &[])
    }

    pub fn wakes(&mut self, call: Call, previous: u64, reports: &[(u64, u32, u32)]) -> Done {
        self.hears(call, 0, [previous, reports.len() as u64], reports)
    }

    /// The picture is this text.
    pub fn shows(&mut self, due: &str) -> Done {
        let picture = self.step(&Call::Picture { bytes: PICTURE_BYTES })?;
        if picture.text == due.as_bytes() {
            return Ok(());
        }
        Err(format!("picture {}, due {due}", String::from_utf8_lossy(&picture.text)))
    }

    pub fn fill_queue(&mut self, call: &Call) -> Done {
        self.fill_from(1, call)
    }

    fn fill_from(&mut self, first: u64, call: &Call) -> Done {
        (first..first + WAITS as u64).try_for_each(|ticket| self.queues(call.clone(), ticket))
    }
}

// Bench readings.

/// P1's, document 01's text and its sum line.
pub const PICTURE: &str =
    "next=2\nobjects=2\nhandle=1\nkind=sem\ncount=1\nmax=2\nhandle=2\nkind=event\nsignaled=0\nmanual=1\n\
    waits=1\nwait=1\nmode=all\nowner=7\nclock=mono\ntimeout=18446744073709551615\nalert=0\nn=2\nobj=1\nobj=2\nsum=15010\n";

pub fn p1_p2(case: &mut Case) -> Done {
    case.create(&[sem(1, 2), event(0, 1)])?;
    case.queues(all(7, 0, NEVER, &[1, 2]), 1)?;
    case.shows(PICTURE)?;
    case.wakes(set(2), 0, &[(1, 0, 0)])?;
    case.reads(Call::ReadSem { handle: 1 }, 0, 2)?;
    case.reads(Call::ReadEvent { handle: 2 }, 1, 1)
}

fn p3_p4(case: &mut Case) -> Done {
    case.create(&[sem(1, 3)])?;
    case.answers(post(1, 3), 3)?;
    case.wakes(post(1, 2), 1, &[])?;
    case.reads(Call::ReadSem { handle: 1 }, 3, 3)
}

fn p5_p6(case: &mut Case) -> Done {
    case.create(&[event(0, 0), event(0, 1)])?;
    case.queues(any(1, 0, NEVER, &[1]), 1)?;
    case.queues(any(2, 0, NEVER, &[1]), 2)?;
    case.wakes(pulse(1), 0, &[(1, 0, 0)])?;
    case.reads(Call::ReadEvent { handle: 1 }, 0, 0)?;
    case.queues(any(1, 0, NEVER, &[2]), 3)?;
    case.queues(any(2, 0, NEVER, &[2]), 4)?;
    case.wakes(pulse(2), 0, &[(3, 0, 0), (4, 0, 0)])?;
    case.reads(Call::ReadEvent { handle: 2 }, 0, 1)
}

fn p7(case: &mut Case) -> Done {
    case.create(&[mutex(5, 1)])?;
    case.queues(any(6, 0, NEVER, &[1]), 1)?;
    case.queues(any(6, 0, NEVER, &[1]), 2)?;
    case.wakes(unlock(1, 5), 1, &[(1, 0, 0), (2, 0, 0)])?;
    case.reads(Call::ReadMutex { handle: 1 }, 6, 2)
}

fn p8(case: &mut Case) -> Done {
    case.create(&[mutex(5, 1)])?;
    case.queues(any(6, 0, NEVER, &[1]), 1)?;
    case.wakes(kill(1, 5), 0, &[(1, 4, 0)])?;
    case.reads(Call::ReadMutex { handle: 1 }, 6, 1)
}

fn p9(case: &mut Case) -> Done {
    case.create(&[mutex(5, MAX)])?;
    case.queues(any(5, 0, NEVER, &[1]), 1)?;
    case.wakes(unlock(1, 5), MAX.into(), &[(1, 0, 0)])?;
    case.reads(Call::ReadMutex { handle: 1 }, 5, MAX.into())
}

fn p10(case: &mut Case) -> Done {
    case.create(&[event(1, 0)])?;
    case.answers(any(1, 1, NEVER, &[1, 1]), 0)?;
    case.reads(Call::ReadEvent { handle: 1 }, 0, 0)
}

fn p11_p12(case: &mut Case) -> Done {
    case.create(&[event(0, 0)])?;
    case.answers(at_time(any(1, 0, 10, &[1]), 10), 5)?;
    case.queues(at_time(any(1, 0, 11, &[1]), 10), 1)?;
    case.queues(at_time(any(1, 0, NEVER, &[1]), NEVER), 2)?;
    case.answers(at_time(any(1, 0, NEVER - 1, &[1]), NEVER), 5)
}

// Limits.

fn handles(case: &mut Case) -> Done {
    case.create(&vec![event(1, 1); OBJECTS])?;
    case.reads(Call::ReadEvent { handle: 512 }, 1, 1)?;
    case.answers(any(1, 512, NEVER, &[512]), 0)?;
    case.answers(all(1, 0, NEVER, &[512, 1]), 0)?;
    case.hears(Call::Reset { handle: 512 }, 0, [1, 0], &[])?;
    for bad in [0, 513, 514, 1024, 66_048, MAX] {
        refuse_handle(case, bad)?;
    }
    case.queues(any(1, 0, NEVER, &[512]), 1)?;
    case.answers(Call::Close { handle: 512 }, 10)?;
    case.wakes(set(512), 0, &[(1, 0, 0)])?;
    case.answers(Call::Close { handle: 512 }, 0)?;
    case.answers(any(1, 0, 0, &[512]), 1)?;
    for (handle, object) in [(512, sem(1, 1)), (512, mutex(1, 1))] {
        case.hears(object, 0, [handle, 0], &[])?;
        case.answers(any(1, 0, 0, &[512]), 0)?;
        case.answers(Call::Close { handle: 512 }, 0)?;
    }
    Ok(())
}

fn refuse_handle(case: &mut Case, bad: u32) -> Done {
    let handle = bad;
    for call in [
        Call::Close { handle },
        Call::ReadSem { handle },
        Call::ReadMutex { handle },
        Call::ReadEvent { handle },
        post(bad, 0),
        unlock(bad, 1),
        kill(bad, 1),
        set(bad),
        Call::Reset { handle },
        pulse(bad),
        any(1, 0, NEVER, &[bad]),
        any(1, 0, NEVER, &[1, bad]),
        all(1, 0, NEVER, &[bad, 1]),
    ] {
        case.answers(call, 1)?;
    }
    if bad != 0 {
        case.answers(any(1, bad, NEVER, &[1]), 1)?;
    }
    Ok(())
}

/// Handles that a narrower number, or a mask of too few bits, takes for one another: in lists, as alerts, and together in a
/// wait for all.
fn alike_handles(case: &mut Case) -> Done {
    let handles = [1, 128, 129, 256, 257, 384, 385, 511, 512];
    case.create(&vec![event(0, 0); OBJECTS])?;
    let queued: Vec<(u64, u32)> = (1..).zip(handles).collect();
    for &(ticket, handle) in &queued {
        case.queues(any(1, 0, NEVER, &[handle]), ticket)?;
    }
    for &(ticket, handle) in &queued {
        case.queues(any(1, handle, NEVER, &[]), ticket + 9)?;
    }
    for later in [0, 9] {
        for &(ticket, handle) in queued.iter().rev() {
            case.wakes(set(handle), 0, &[(ticket + later, 0, 0)])?;
        }
    }
    case.queues(all(1, 511, NEVER, &[1, 129, 257, 385, 256]), 19)?;
    case.queues(all(1, 0, NEVER, &[512, 384, 128]), 20)?;
    for handle in [1, 129, 257, 385, 512, 384] {
        case.answers(set(handle), 0)?;
    }
    case.answers(Call::Close { handle: 256 }, 10)?;
    case.wakes(set(256), 0, &[(19, 0, 0)])?;
    case.wakes(set(128), 0, &[(20, 0, 0)])?;
    case.answers(Call::Close { handle: 256 }, 0)
}

fn object_513(case: &mut Case) -> Done {
    case.create(&vec![sem(0, MAX); OBJECTS])?;
    for call in [sem(0, 1), mutex(0, 0), mutex(1, 1), event(0, 0)] {
        case.answers(call, 7)?;
    }
    case.answers(Call::Close { handle: 77 }, 0)?;
    case.answers(Call::Close { handle: 5 }, 0)?;
    case.hears(event(9, 0), 0, [5, 0], &[])?;
    case.hears(mutex(0, 0), 0, [77, 0], &[])?;
    case.answers(event(0, 0), 7)
}

fn lists(case: &mut Case) -> Done {
    case.create(&vec![event(0, 1); 66])?;
    let different: Vec<u32> = (1..=65).collect();
    let mut ticket = 0;
    for n in [0, 1, 63, 64, 65] {
        for call in
            [any(1, 66, NEVER, &different[..n]), all(1, 66, NEVER, &different[..n]), any(1, 66, NEVER, &vec![3; n])]
        {
            let none_for_all = n == 0 && matches!(call, Call::Wait { mode: Mode::All, .. });
            if none_for_all || n > LIST {
                case.answers(call, 1)?;
                continue;
            }
            ticket += 1;
            case.queues(call, ticket)?;
        }
    }
    let by_alert = [0, 0, 1, 1, 1, 63, 63, 63, 64, 64, 64];
    let woken: Vec<(u64, u32, u32)> = (1..).zip(by_alert).map(|(ticket, index)| (ticket, 0, index)).collect();
    case.wakes(set(66), 0, &woken)?;
    case.hears(all(1, 66, NEVER, &different[..64]), 0, [64, 0], &[])?;
    for handle in 1..=64 {
        case.wakes(set(handle), 0, &[])?;
    }
    case.answers(all(1, 66, NEVER, &different[..64]), 0)?;
    let mut last_set = vec![65; 63];
    last_set.push(64);
    case.hears(any(1, 66, NEVER, &last_set), 0, [63, 0], &[])
}

const SLEEPS: &str = "next=2\nobjects=1\nhandle=1\nkind=event\nsignaled=0\nmanual=0\n\
    waits=1\nwait=1\nmode=any\nowner=7\nclock=mono\ntimeout=50\nalert=1\nn=0\nsum=10526\n";

/// 1/13: served by its alert, ended by time, or cancelled.
fn empty_lists(case: &mut Case) -> Done {
    case.create(&[event(0, 0)])?;
    case.queues(any(7, 1, 50, &[]), 1)?;
    case.shows(SLEEPS)?;
    case.answers(Call::Close { handle: 1 }, 10)?;
    case.wakes(set(1), 0, &[(1, 0, 0)])?;
    case.reads(Call::ReadEvent { handle: 1 }, 0, 0)?;
    case.queues(any(7, 1, 50, &[]), 2)?;
    case.queues(any(7, 0, 50, &[]), 3)?;
    case.wakes(expire(0, 49), 0, &[])?;
    case.wakes(expire(0, 50), 0, &[(2, 5, 0), (3, 5, 0)])?;
    case.queues(any(7, 0, NEVER, &[]), 4)?;
    case.wakes(set(1), 0, &[])?;
    case.wakes(expire(0, NEVER), 0, &[])?;
    case.answers(Call::Cancel { ticket: 4 }, 6)?;
    case.answers(any(7, 0, 0, &[]), 5)?;
    case.answers(any(7, 1, 0, &[]), 0)?;
    case.answers(any(7, 1, 0, &[]), 5)?;
    case.answers(Call::Close { handle: 1 }, 0)?;
    case.answers(any(7, 1, NEVER, &[]), 1)?;
    case.answers(any(0, 0, NEVER, &[]), 1)?;
    case.fill_from(5, &any(7, 0, NEVER, &[]))?;
    case.answers(any(7, 0, NEVER, &[]), 7)?;
    case.answers(all(7, 0, NEVER, &[]), 1)
}

/// 4/13: no semaphore of maximum 0; one of maximum 1 starts with either count, and is signaled by a post.
fn maximums(case: &mut Case) -> Done {
    for count in [0, 1, MAX] {
        case.answers(sem(count, 0), 1)?;
    }
    case.create(&[sem(0, 1), sem(1, 1), sem(0, MAX)])?;
    case.queues(any(7, 0, NEVER, &[1]), 1)?;
    case.answers(post(1, 2), 3)?;
    case.wakes(post(1, 1), 0, &[(1, 0, 0)])?;
    case.reads(Call::ReadSem { handle: 1 }, 0, 1)?;
    case.answers(post(2, 1), 3)?;
    case.answers(any(7, 0, 0, &[2]), 0)?;
    case.wakes(post(2, 1), 0, &[])?;
    case.reads(Call::ReadSem { handle: 2 }, 1, 1)
}

fn wait_33(case: &mut Case) -> Done {
    case.create(&[event(0, 1), event(1, 1)])?;
    case.fill_queue(&any(1, 0, NEVER, &[1]))?;
    case.answers(any(1, 0, NEVER, &[1]), 7)?;
    case.answers(all(1, 0, NEVER, &[1, 2]), 7)?;
    case.answers(any(1, 0, 0, &[1]), 5)?;
    case.hears(any(1, 0, NEVER, &[1, 2]), 0, [1, 0], &[])?;
    case.answers(all(1, 0, NEVER, &[2]), 0)?;
    case.hears(any(1, 2, NEVER, &[1]), 0, [1, 0], &[])?;
    case.answers(Call::Cancel { ticket: 9 }, 6)?;
    case.queues(any(1, 0, NEVER, &[1]), 33)?;
    case.answers(any(1, 0, NEVER, &[1]), 7)
}

fn tickets_spent(case: &mut Case) -> Done {
    case.create(&[event(0, 0), event(1, 1)])?;
    case.bench.write_next(u64::MAX);
    case.answers(any(1, 0, NEVER, &[1]), 8)?;
    case.answers(all(1, 0, NEVER, &[1]), 8)?;
    case.answers(any(1, 0, 0, &[1]), 5)?;
    case.answers(any(1, 0, NEVER, &[2]), 0)?;
    case.answers(any(0, 0, NEVER, &[1]), 1)?;
    case.wakes(set(1), 0, &[])?;
    case.answers(any(1, 0, NEVER, &[1]), 0)
}

fn last_ticket(case: &mut Case) -> Done {
    case.create(&[event(0, 0)])?;
    case.bench.write_next(u64::MAX - 1);
    case.queues(any(1, 0, NEVER, &[1]), u64::MAX - 1)?;
    case.answers(any(1, 0, NEVER, &[1]), 8)?;
    case.answers(Call::Cancel { ticket: u64::MAX }, 1)?;
    case.wakes(set(1), 0, &[(u64::MAX - 1, 0, 0)])?;
    case.answers(any(1, 0, NEVER, &[1]), 8)
}

// The order of refusals.

fn short_first(case: &mut Case) -> Done {
    case.create(&[sem(0, 1), mutex(5, 1)])?;
    for call in [post(9, 1), post(1, 2), unlock(2, 0), unlock(2, 6), kill(1, 0), set(1), pulse(0), expire(2, 0)] {
        case.answers(with_wake(call, WAKE_CELLS - 1), 12)?;
    }
    case.answers(Call::Picture { bytes: PICTURE_BYTES - 1 }, 12)
}

fn argument_first(case: &mut Case) -> Done {
    case.create(&vec![mutex(5, 1); OBJECTS])?;
    case.answers(unlock(1, 0), 1)?;
    case.answers(unlock(1, 6), 2)?;
    case.answers(kill(1, 0), 1)?;
    case.answers(kill(1, 6), 2)?;
    case.answers(post(1, MAX), 1)?;
    case.answers(sem(2, 1), 1)?;
    case.answers(sem(0, 0), 1)?;
    case.answers(mutex(1, 0), 1)?;
    case.answers(mutex(0, 1), 1)?;
    case.answers(sem(1, 1), 7)?;
    case.fill_queue(&any(6, 0, NEVER, &[1]))?;
    case.answers(any(6, 0, NEVER, &[513]), 1)?;
    case.answers(all(6, 0, NEVER, &[1, 1]), 1)?;
    case.answers(Call::Close { handle: 513 }, 1)?;
    case.answers(Call::Close { handle: 1 }, 10)?;
    case.answers(Call::Close { handle: 2 }, 0)?;
    case.answers(unlock(2, 0), 1)?;
    case.answers(unlock(2, 5), 1)
}

fn wait_order(case: &mut Case) -> Done {
    case.create(&[event(0, 0), mutex(5, 1)])?;
    case.bench.write_next(u64::MAX - 32);
    for ticket in u64::MAX - 32..u64::MAX {
        case.queues(any(6, 0, NEVER, &[1]), ticket)?;
    }
    case.answers(any(6, 0, 0, &[1]), 5)?;
    case.answers(any(6, 0, NEVER, &[1]), 7)?;
    case.answers(Call::Cancel { ticket: u64::MAX - 32 }, 6)?;
    case.answers(any(6, 0, NEVER, &[1]), 8)?;
    case.answers(any(6, 0, 0, &[1]), 5)?;
    case.answers(any(5, 0, 0, &[2]), 0)?;
    case.wakes(kill(2, 5), 0, &[])?;
    case.answers(Call::ReadMutex { handle: 2 }, 4)?;
    case.answers(any(6, 0, 0, &[2]), 4)
}

fn clocks(case: &mut Case) -> Done {
    case.create(&[event(0, 0)])?;
    let real = |timeout: u64| match any(1, 0, timeout, &[1]) {
        Call::Wait { mode, list, owner, alert, pad, timeout, time, .. } => {
            Call::Wait { mode, list, owner, alert, flags: 1, pad, timeout, time }
        }
        other => other,
    };
    case.queues(any(1, 0, 10, &[1]), 1)?;
    case.queues(real(10), 2)?;
    case.queues(any(1, 0, 5, &[1]), 3)?;
    case.queues(any(1, 0, NEVER, &[1]), 4)?;
    case.queues(any(1, 0, NEVER - 1, &[1]), 5)?;
    case.answers(expire(2, 0), 1)?;
    case.wakes(expire(0, 4), 0, &[])?;
    case.wakes(expire(0, 5), 0, &[(3, 5, 0)])?;
    case.wakes(expire(0, 1), 0, &[])?;
    case.wakes(expire(1, NEVER), 0, &[(2, 5, 0)])?;
    case.wakes(expire(0, NEVER), 0, &[(1, 5, 0), (5, 5, 0)])?;
    case.wakes(set(1), 0, &[(4, 0, 0)])
}

fn cancel(case: &mut Case) -> Done {
    case.create(&[event(0, 0)])?;
    case.answers(Call::Cancel { ticket: 0 }, 1)?;
    case.queues(any(1, 0, NEVER, &[1]), 1)?;
    for ticket in [0, 2, u64::MAX] {
        case.answers(Call::Cancel { ticket }, 1)?;
    }
    case.answers(Call::Cancel { ticket: 1 }, 6)?;
    case.answers(Call::Cancel { ticket: 1 }, 1)
}

/// Every call that wants a kind, on an object of each other kind.
fn wrong_kinds(case: &mut Case) -> Done {
    case.create(&[sem(1, 2), mutex(5, 1), event(1, 1)])?;
    for handle in 1..=3 {
        let of_kind = [
            (1, Call::ReadSem { handle }),
            (1, post(handle, 1)),
            (2, Call::ReadMutex { handle }),
            (2, unlock(handle, 5)),
            (2, kill(handle, 5)),
            (3, Call::ReadEvent { handle }),
            (3, set(handle)),
            (3, Call::Reset { handle }),
            (3, pulse(handle)),
        ];
        let wrong = of_kind.into_iter().filter(|(kind, _)| *kind != handle);
        wrong.map(|(_, call)| call).try_for_each(|call| case.answers(call, 1))?;
    }
    for alert in [1, 2] {
        case.answers(any(5, alert, NEVER, &[3]), 1)?;
        case.answers(all(5, alert, NEVER, &[3]), 1)?;
    }
    case.hears(any(5, 3, NEVER, &[3]), 0, [0, 0], &[])
}

/// A wait for all takes everything at once or nothing; its alert takes only the alert.
fn all_or_none(case: &mut Case) -> Done {
    case.create(&[sem(1, 2), mutex(5, 1), event(0, 0), event(1, 0)])?;
    case.wakes(kill(2, 5), 0, &[])?;
    case.answers(all(6, 0, 0, &[1, 2, 3]), 5)?;
    case.answers(all(6, 0, 0, &[2, 1, 3]), 5)?;
    case.hears(all(6, 4, 0, &[1, 2, 3]), 0, [3, 0], &[])?;
    case.answers(Call::ReadMutex { handle: 2 }, 4)?;
    case.reads(Call::ReadSem { handle: 1 }, 1, 2)?;
    case.reads(Call::ReadEvent { handle: 4 }, 0, 0)?;
    case.queues(all(6, 4, NEVER, &[1, 2, 3]), 1)?;
    case.queues(any(7, 0, NEVER, &[3]), 2)?;
    case.wakes(set(3), 0, &[(1, 4, 0)])?;
    case.reads(Call::ReadMutex { handle: 2 }, 6, 1)?;
    case.reads(Call::ReadSem { handle: 1 }, 0, 2)?;
    case.reads(Call::ReadEvent { handle: 3 }, 0, 0)?;
    case.wakes(pulse(3), 0, &[(2, 0, 0)])
}

fn numbers(case: &mut Case) -> Done {
    case.create(&[sem(MAX, MAX), event(2, 256), event(0, MAX), event(MAX, 0), mutex(MAX, MAX), sem(1, MAX)])?;
    for add in [1, 2, MAX] {
        case.answers(post(1, add), 3)?;
    }
    case.wakes(post(1, 0), MAX.into(), &[])?;
    case.reads(Call::ReadEvent { handle: 2 }, 1, 1)?;
    case.reads(Call::ReadEvent { handle: 3 }, 0, 1)?;
    case.reads(Call::ReadEvent { handle: 4 }, 1, 0)?;
    case.answers(any(MAX, 0, 0, &[5]), 5)?;
    case.wakes(unlock(5, MAX), MAX.into(), &[])?;
    case.answers(any(MAX, 0, 0, &[5]), 0)?;
    case.answers(post(6, MAX), 3)?;
    case.wakes(post(6, MAX - 1), 1, &[])?;
    case.reads(Call::ReadSem { handle: 6 }, MAX.into(), MAX.into())
}
