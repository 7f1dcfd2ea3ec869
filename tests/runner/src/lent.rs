//! Directed cases about what is lent: lengths of tables, wake lists, buffers and lists, and the header that has them.

use crate::calls::{any, event, expire, kill, mutex, post, pulse, sem, set, unlock, with_wake};
use crate::directed::{p1_p2, Case, Done, MAX};
use crate::layout;
use crate::library::{self, Far, Library, CELLS, MOST_BYTES, MOST_WAKE};
use crate::reading::EMPTY;
use crate::script::heard_text;
use second_model::{answer, Call, Outcome, State, LIST, NEVER, OBJECTS, PICTURE_BYTES, WAITS, WAKE_CELLS};

const HEADER: &str = include_str!("../../../include/ntsync.h");

pub fn wake_lists(case: &mut Case) -> Done {
    case.create(&[sem(0, MAX), mutex(5, MAX), mutex(5, 1), event(0, 0)])?;
    for cells in 0..=MOST_WAKE {
        let ticket = case.bench.model.state.next;
        case.queues(any(1, 0, 5, &[1]), ticket)?;
        for call in [post(1, 1), unlock(2, 5), kill(3, 5), set(4), pulse(4), expire(0, 5)] {
            let outcome = case.step(&with_wake(call.clone(), cells))?;
            if (outcome.answer == 12) != (cells < WAKE_CELLS) {
                return Err(format!("{cells} cells: {}", heard_text(&call, &outcome)));
            }
        }
        case.answers(Call::Cancel { ticket }, if cells < WAKE_CELLS { 6 } else { 1 })?;
    }
    Ok(())
}

/// The longest that a wake list is filled, in ticket order though the places are not.
pub fn records_32(case: &mut Case) -> Done {
    case.create(&[event(0, 1), sem(0, 100)])?;
    case.fill_queue(&any(1, 0, NEVER, &[1]))?;
    case.answers(Call::Cancel { ticket: 1 }, 6)?;
    case.queues(any(2, 0, NEVER, &[1]), 33)?;
    let records: Vec<(u64, u32, u32)> = (2..=33).map(|ticket| (ticket, 0, 0)).collect();
    case.wakes(set(1), 0, &records)?;
    case.hears(Call::Reset { handle: 1 }, 0, [1, 0], &[])?;
    (34..66).try_for_each(|ticket| case.queues(any(1, 0, 9, &[2]), ticket))?;
    let ended: Vec<(u64, u32, u32)> = (34..66).map(|ticket| (ticket, 5, 0)).collect();
    case.wakes(expire(0, 9), 0, &ended)?;
    (66..98).try_for_each(|ticket| case.queues(any(1, 0, 9, &[2]), ticket))?;
    let posted: Vec<(u64, u32, u32)> = (66..98).map(|ticket| (ticket, 0, 0)).collect();
    case.wakes(post(2, 32), 0, &posted)
}

pub fn buffers(case: &mut Case) -> Done {
    p1_p2(case)?;
    for bytes in 0..=MOST_BYTES {
        let outcome = case.step(&Call::Picture { bytes })?;
        if (outcome.answer == 12) != (bytes < PICTURE_BYTES) {
            return Err(format!("{bytes} bytes: answer {}", outcome.answer));
        }
    }
    Ok(())
}

pub fn longest_picture(case: &mut Case) -> Done {
    let mut objects = vec![mutex(MAX, MAX); OBJECTS - 1];
    objects.push(event(0, 1));
    case.create(&objects)?;
    let list = vec![511; LIST];
    case.bench.write_next(u64::MAX - 32);
    for ticket in u64::MAX - 32..u64::MAX {
        case.queues(any(MAX, 512, NEVER, &list), ticket)?;
    }
    let outcome = case.step(&Call::Picture { bytes: PICTURE_BYTES })?;
    if outcome.numbers != [54_549, 0] {
        return Err(format!("{} bytes", outcome.numbers[0]));
    }
    Ok(())
}

/// The low 32 bits of each length alone would get another answer.
pub fn far_lengths(case: &mut Case) -> Done {
    const LARGE: usize = 1 << 32;
    case.create(&[event(0, 1), sem(0, 1)])?;
    case.queues(any(1, 0, NEVER, &[1]), 1)?;
    let read = Call::ReadEvent { handle: 1 };
    let picture = Call::Picture { bytes: LARGE };
    for call in [&read, &set(1), &event(0, 0), &Call::Picture { bytes: PICTURE_BYTES }] {
        far(case, call, Far::Tables, LARGE + CELLS, Some(Outcome::answer(9)))?;
    }
    for n in [LARGE, LARGE + 1] {
        far(case, &any(1, 0, NEVER, &[1]), Far::List, n, Some(Outcome::answer(1)))?;
    }
    far(case, &picture, Far::Buffer, LARGE, None)?;
    // The front of the long text is a picture, but zeros follow it.
    let empty = Call::Restore { text: EMPTY.as_bytes().to_vec() };
    far(case, &empty, Far::Tables, LARGE + CELLS, Some(Outcome::answer(9)))?;
    far(case, &empty, Far::Text, LARGE + EMPTY.len(), Some(Outcome::answer(13)))?;
    far(case, &with_wake(set(1), LARGE), Far::Wake, LARGE, None)
}

/// Hears the outcome that is due, or else the model's.
fn far(case: &mut Case, call: &Call, far: Far, length: usize, due: Option<Outcome>) -> Done {
    case.calls += 1;
    let before = case.bench.library.tables().to_vec();
    let Some(heard) = case.bench.library.play_far(call, far, length)? else { return Ok(()) };
    let due = due.unwrap_or_else(|| case.bench.model.step(call));
    let tables = case.bench.library.tables();
    let kept = !answer::is_refusal(due.answer) || tables == &before[..];
    match layout::differs(tables, &case.bench.model.state) {
        None if heard == due && kept => Ok(()),
        differs => Err(format!("{far:?} of {length}: {} {differs:?}", heard_text(call, &heard))),
    }
}

/// What the header states is what the tests and the archive hold it to.
pub fn header(_: &mut Case) -> Done {
    let stated = |name: &str| {
        let line = HEADER.lines().find_map(|line| line.strip_prefix(&format!("#define NTSYNC_{name} ")));
        line.and_then(|rest| rest.split_whitespace().next()).unwrap_or("nothing").to_string()
    };
    let numbers = [
        ("VERSION", library::version() as usize),
        ("CELLS", CELLS),
        ("OBJECT_PLACES", OBJECTS),
        ("WAIT_PLACES", WAITS),
        ("MAX_LISTED", LIST),
        ("RECORD_CELLS", 3),
        ("WAKE_CELLS", WAKE_CELLS),
        ("SNAPSHOT_BYTES", PICTURE_BYTES),
        ("MONOTONIC", 0),
        ("REALTIME", 1),
        ("DONE", 0),
        ("EINVAL", 1),
        ("EPERM", 2),
        ("EOVERFLOW", 3),
        ("EOWNERDEAD", 4),
        ("ETIMEDOUT", 5),
        ("EINTR", 6),
        ("NO_ROOM", 7),
        ("TICKETS_SPENT", 8),
        ("CORRUPT", 9),
        ("BUSY", 10),
        ("QUEUED", 11),
        ("LIST_SHORT", 12),
        ("NOT_A_SNAPSHOT", 13),
    ];
    if stated("NEVER") != "UINT64_MAX" {
        return Err(format!("NTSYNC_NEVER is {}", stated("NEVER")));
    }
    match numbers.iter().find(|(name, number)| stated(name) != number.to_string()) {
        Some((name, number)) => Err(format!("NTSYNC_{name} is {}, not {number}", stated(name))),
        None => Ok(()),
    }
}

/// Making needs only the length, whatever the tables hold.
pub fn making(case: &mut Case) -> Done {
    for cells in [0, 1, 2, 2785, CELLS - 1, CELLS + 1] {
        let mut library = Library::unmade();
        let before = library.tables().to_vec();
        case.calls += 1;
        if library.init(cells)? != 9 || library.tables() != &before[..] {
            return Err(format!("{cells} cells"));
        }
    }
    let mut library = Library::unmade();
    case.calls += 1;
    if library.init(CELLS)? != 0 || layout::read(library.tables()) != Some(State::new()) {
        return Err("newly made tables".into());
    }
    Ok(())
}

/// Damaged tables, with a short wake list or buffer and bad arguments besides.
pub fn damage_first(case: &mut Case) -> Done {
    let mut library = Library::made();
    library.tables_mut()[0] = 0;
    let before = library.tables().to_vec();
    let short = [post(0, 1), unlock(0, 0), kill(0, 0), set(0), pulse(0), expire(2, 0)].map(|call| with_wake(call, 0));
    let others =
        [sem(2, 1), mutex(0, 1), any(0, 9, NEVER, &[]), Call::Cancel { ticket: 0 }, Call::Picture { bytes: 0 }];
    for call in short.into_iter().chain(others) {
        case.calls += 1;
        let outcome = library.play(&call)?;
        if outcome != Outcome::answer(9) || library.tables() != &before[..] {
            return Err(heard_text(&call, &outcome));
        }
    }
    Ok(())
}
