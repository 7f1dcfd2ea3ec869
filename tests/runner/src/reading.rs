//! Directed cases of reading a picture back (3/13): texts, answers and offsets are written out here.

use crate::calls::{all, any, event, mutex, post, sem, set, unlock};
use crate::directed::{Case, Done, PICTURE};
use crate::library::{Library, CELLS};
use crate::script::heard_text;
use crate::texts::summed;
use second_model::{Call, Outcome, NEVER, PICTURE_BYTES};

pub const EMPTY: &str = "next=1\nobjects=0\nwaits=0\nsum=2103\n";

/// A semaphore, a mutex, an event; a wait for any with alert, a wait for all. Behind each line the offset of the next one.
const LINES: [(&str, u64); 33] = [
    ("next=9\n", 7),
    ("objects=3\n", 17),
    ("handle=2\n", 26),
    ("kind=sem\n", 35),
    ("count=0\n", 43),
    ("max=5\n", 49),
    ("handle=3\n", 58),
    ("kind=mutex\n", 69),
    ("owner=7\n", 77),
    ("count=2\n", 85),
    ("abandoned=0\n", 97),
    ("handle=9\n", 106),
    ("kind=event\n", 117),
    ("signaled=0\n", 128),
    ("manual=1\n", 137),
    ("waits=2\n", 145),
    ("wait=4\n", 152),
    ("mode=any\n", 161),
    ("owner=8\n", 169),
    ("clock=mono\n", 180),
    ("timeout=50\n", 191),
    ("alert=9\n", 199),
    ("n=2\n", 203),
    ("obj=2\n", 209),
    ("obj=2\n", 215),
    ("wait=8\n", 222),
    ("mode=all\n", 231),
    ("owner=8\n", 239),
    ("clock=real\n", 250),
    ("timeout=18446744073709551615\n", 279),
    ("alert=0\n", 287),
    ("n=1\n", 291),
    ("obj=3\n", 297),
];
const SUM: &str = "sum=24589\n";

/// What is due of a text.
#[derive(Clone, Copy)]
enum Due {
    Accepted,
    /// Refused at this offset.
    At(u64),
}
use Due::{Accepted, At};

/// Refused, but no line is bad.
const WHOLE: Due = At(0);

fn reading(text: &[u8]) -> Call {
    Call::Restore { text: text.to_vec() }
}

fn hears(case: &mut Case, text: &[u8], due: Due) -> Done {
    match due {
        Accepted => case.answers(reading(text), 0),
        At(offset) => case.hears(reading(text), 13, [offset, 0], &[]),
    }
}

fn all_lines() -> String {
    LINES.iter().map(|(line, _)| *line).collect()
}

/// The text with other lines in place of the one at this offset, its sum made right.
fn with(offset: u64, line: &str, others: &str) -> String {
    let text = all_lines();
    let rest = text[offset as usize..].strip_prefix(line).expect("the line at that offset");
    summed(&format!("{}{others}{rest}", &text[..offset as usize]))
}

/// Offset, the line there, what stands there instead, what is due.
type Row = (u64, &'static str, &'static str, Due);

fn rows(case: &mut Case, rows: &[Row]) -> Done {
    for &(offset, line, others, due) in rows {
        hears(case, with(offset, line, others).as_bytes(), due)
            .map_err(|what| format!("{others:?} for {line:?} at {offset}: {what}"))?;
    }
    Ok(())
}

/// P1's picture starts a new history, and P2 follows; so does an older picture of the same history.
pub fn p1_again(case: &mut Case) -> Done {
    case.create(&[mutex(3, 1)])?;
    hears(case, PICTURE.as_bytes(), Accepted)?;
    case.shows(PICTURE)?;
    case.wakes(set(2), 0, &[(1, 0, 0)])?;
    case.reads(Call::ReadSem { handle: 1 }, 0, 2)?;
    hears(case, EMPTY.as_bytes(), Accepted)?;
    case.shows(EMPTY)?;
    case.answers(Call::ReadSem { handle: 1 }, 1)?;
    hears(case, PICTURE.as_bytes(), Accepted)?;
    hears(case, PICTURE.replace("sum=15010", "sum=15011").as_bytes(), WHOLE)?;
    case.wakes(set(2), 0, &[(1, 0, 0)])?;
    hears(case, format!("{}{SUM}", all_lines()).as_bytes(), Accepted)?;
    case.wakes(post(2, 1), 0, &[(4, 0, 0)])?;
    case.wakes(unlock(3, 7), 2, &[])?;
    case.wakes(unlock(3, 7), 1, &[(8, 0, 0)])?;
    case.queues(any(1, 0, NEVER, &[2]), 9)
}

/// Waits return to the lowest places, by ticket.
pub fn places(case: &mut Case) -> Done {
    case.create(&[event(0, 1), sem(0, 9)])?;
    case.fill_queue(&any(1, 0, NEVER, &[1]))?;
    for ticket in [1, 2, 30] {
        case.answers(Call::Cancel { ticket }, 6)?;
    }
    case.queues(all(2, 1, NEVER, &[2]), 33)?;
    let before = case.step(&Call::Picture { bytes: PICTURE_BYTES })?.text;
    hears(case, &before, Accepted)?;
    let tickets = case.bench.model.state.waits.iter().map(|wait| wait.as_ref().map(|wait| wait.ticket));
    let due = (3..=33).filter(|ticket| *ticket != 30).map(Some).chain([None, None]);
    if tickets.ne(due) {
        return Err("the waits fill other places".into());
    }
    case.queues(any(3, 0, NEVER, &[1]), 34)
}

/// "The text's length if it ends where a line is due", and the line's own start if it ends within one.
pub fn cut_short(case: &mut Case) -> Done {
    let text = format!("{}{SUM}", all_lines());
    let starts = [0].into_iter().chain(LINES.map(|(_, next)| next));
    for (start, (line, _)) in starts.zip(LINES.into_iter().chain([(SUM, 0)])) {
        for end in start..start + line.len() as u64 {
            hears(case, &text.as_bytes()[..end as usize], At(start))?;
        }
    }
    hears(case, b"", At(0))?;
    hears(case, b"next=1", At(0))?;
    hears(case, b"next=1\n", At(7))?;
    hears(case, b"next=1\nobjects=0\nwaits=0", At(17))?;
    hears(case, b"next=1\nobjects=0\nwaits=0\n", At(25))?;
    hears(case, b"next=1\nobjects=0\nwaits=0\nsum=2103", At(25))?;
    hears(case, EMPTY.as_bytes(), Accepted)
}

/// Behind the sum line nothing may stand, and the sum is that of all before it.
pub fn sums_and_ends(case: &mut Case) -> Done {
    let text = |end: &str| format!("{}{end}", all_lines());
    for end in ["sum=24588\n", "sum=24590\n", "sum=0\n", "sum=4294967295\n", "sum=24589\n\n", "sum=24589\n\0"] {
        hears(case, text(end).as_bytes(), WHOLE)?;
    }
    let ends = ["sum=24589\nsum=24589\n", "sum=24589\nnext=9\n", "sum=24589\n ", "sum=24589\n1"];
    ends.into_iter().try_for_each(|end| hears(case, text(end).as_bytes(), WHOLE))?;
    for end in [
        "sum=024589\n",
        "sum=\n",
        "sum=-1\n",
        "sum=4294967296\n",
        "sum=4294991885\n",
        "sum=18446744073709576205\n",
        "\n",
        "sum\n",
    ] {
        hears(case, text(end).as_bytes(), At(297))?;
    }
    let lines = ["sum=24589\r\n", "sum=24589 \n", "sum= 24589\n", "Sum=24589\n", "summ=24589\n", "sum=24589"];
    lines.into_iter().try_for_each(|end| hears(case, text(end).as_bytes(), At(297)))?;
    hears(case, text("sum=24589\n").replace('\n', "\r\n").as_bytes(), At(0))
}

/// The key, and a plain number or a word.
pub fn forms(case: &mut Case) -> Done {
    for bad in ["", "0", "00", "-9", "+9", " 9", "9 ", "09", "0x9", "9.", "9\r", "nine", "9\0", "\u{665}", "1e1"] {
        let line = format!("next={bad}\n");
        hears(case, with(0, "next=9\n", &line).as_bytes(), At(0))?;
    }
    rows(
        case,
        &[
            (7, "objects=3\n", "objects=03\n", At(7)),
            (7, "objects=3\n", "object=3\n", At(7)),
            (7, "objects=3\n", "objects:3\n", At(7)),
            (7, "objects=3\n", "Objects=3\n", At(7)),
            (7, "objects=3\n", "\nobjects=3\n", At(7)),
            (17, "handle=2\n", "handle=02\n", At(17)),
            (35, "count=0\n", "count=00\n", At(35)),
            (35, "count=0\n", "count=\n", At(35)),
            (35, "count=0\n", "count=-0\n", At(35)),
            (85, "abandoned=0\n", "abandoned=00\n", At(85)),
            (85, "abandoned=0\n", "abandoned=no\n", At(85)),
            (180, "timeout=50\n", "timeout=050\n", At(180)),
            (180, "timeout=50\n", "timeout=50\r\n", At(180)),
            (180, "timeout=50\n", "timeout=99999999999999999999999999999999999999999\n", At(180)),
            (199, "n=2\n", "n=2", At(199)),
            (203, "obj=2\n", " obj=2\n", At(203)),
            (26, "kind=sem\n", "kind=semaphore\n", At(26)),
            (26, "kind=sem\n", "kind=Sem\n", At(26)),
            (26, "kind=sem\n", "kind=se\n", At(26)),
            (26, "kind=sem\n", "kind=\n", At(26)),
            (26, "kind=sem\n", "kind=1\n", At(26)),
            (152, "mode=any\n", "mode=every\n", At(152)),
            (152, "mode=any\n", "mode=any \n", At(152)),
            (169, "clock=mono\n", "clock=monotonic\n", At(169)),
            (239, "clock=real\n", "clock=1\n", At(239)),
        ],
    )
}

/// Lines where others are due: doubled, left out, exchanged, of another kind, or counted wrongly.
pub fn order_of_lines(case: &mut Case) -> Done {
    rows(
        case,
        &[
            (0, "next=9\n", "", At(0)),
            (0, "next=9\n", "next=9\nnext=9\n", At(7)),
            (0, "next=9\nobjects=3\n", "objects=3\nnext=9\n", At(0)),
            (7, "objects=3\n", "", At(7)),
            (7, "objects=3\n", "objects=4\n", At(137)),
            (7, "objects=3\n", "objects=512\n", At(139)),
            (7, "objects=3\n", "objects=2\n", At(97)),
            (7, "objects=3\n", "objects=0\n", At(17)),
            (26, "kind=sem\n", "kind=event\n", At(37)),
            (26, "kind=sem\n", "kind=mutex\n", At(37)),
            (35, "count=0\nmax=5\n", "max=5\ncount=0\n", At(35)),
            (43, "max=5\n", "", At(43)),
            (43, "max=5\n", "max=5\nmax=5\n", At(49)),
            (69, "owner=7\ncount=2\n", "count=2\nowner=7\n", At(69)),
            (58, "kind=mutex\n", "kind=sem\n", At(67)),
            (128, "manual=1\n", "", At(128)),
            (137, "waits=2\n", "waits=3\n", At(297)),
            (137, "waits=2\n", "waits=1\n", At(215)),
            (137, "waits=2\n", "waits=0\n", At(145)),
            (137, "waits=2\n", "", At(137)),
            (161, "owner=8\nclock=mono\n", "clock=mono\nowner=8\n", At(161)),
            (199, "n=2\n", "n=3\n", At(215)),
            (199, "n=2\n", "n=1\n", At(209)),
            (199, "n=2\n", "n=0\n", At(203)),
            (287, "n=1\n", "n=2\n", At(297)),
            (287, "n=1\n", "n=64\n", At(298)),
            (287, "n=1\n", "n=0\n", At(291)),
            (291, "obj=3\n", "obj=3\nobj=3\n", At(297)),
            (291, "obj=3\n", "obj=3\n\n", At(297)),
        ],
    )
}

/// Both ends of every key's range, and one beyond.
pub fn ranges_of_objects(case: &mut Case) -> Done {
    rows(
        case,
        &[
            (0, "next=9\n", "next=18446744073709551615\n", Accepted),
            (0, "next=9\n", "next=18446744073709551616\n", At(0)),
            (7, "objects=3\n", "objects=513\n", At(7)),
            (17, "handle=2\n", "handle=0\n", At(17)),
            (17, "handle=2\n", "handle=1\n", WHOLE),
            (97, "handle=9\n", "handle=512\n", WHOLE),
            (97, "handle=9\n", "handle=513\n", At(97)),
            (35, "count=0\nmax=5\n", "count=0\nmax=4294967295\n", Accepted),
            (35, "count=0\nmax=5\n", "count=0\nmax=4294967296\n", At(43)),
            (35, "count=0\nmax=5\n", "count=0\nmax=0\n", WHOLE),
            (35, "count=0\nmax=5\n", "count=0\nmax=1\n", Accepted),
            (35, "count=0\nmax=5\n", "count=4294967295\nmax=5\n", WHOLE),
            (35, "count=0\nmax=5\n", "count=4294967296\nmax=5\n", At(35)),
            (69, "owner=7\ncount=2\n", "owner=4294967295\ncount=4294967295\n", Accepted),
            (69, "owner=7\ncount=2\n", "owner=4294967296\ncount=2\n", At(69)),
            (69, "owner=7\ncount=2\n", "owner=7\ncount=4294967296\n", At(77)),
            (85, "abandoned=0\n", "abandoned=1\n", WHOLE),
            (85, "abandoned=0\n", "abandoned=2\n", At(85)),
            (117, "signaled=0\n", "signaled=1\n", WHOLE),
            (117, "signaled=0\n", "signaled=2\n", At(117)),
            (128, "manual=1\n", "manual=0\n", Accepted),
            (128, "manual=1\n", "manual=2\n", At(128)),
        ],
    )
}

/// The same of a wait's keys.
pub fn ranges_of_waits(case: &mut Case) -> Done {
    rows(
        case,
        &[
            (137, "waits=2\n", "waits=32\n", At(298)),
            (137, "waits=2\n", "waits=33\n", At(137)),
            (145, "wait=4\n", "wait=1\n", Accepted),
            (145, "wait=4\n", "wait=0\n", At(145)),
            (215, "wait=8\n", "wait=18446744073709551615\n", WHOLE),
            (215, "wait=8\n", "wait=18446744073709551616\n", At(215)),
            (161, "owner=8\n", "owner=0\n", WHOLE),
            (161, "owner=8\n", "owner=4294967295\n", Accepted),
            (161, "owner=8\n", "owner=4294967296\n", At(161)),
            (180, "timeout=50\n", "timeout=0\n", Accepted),
            (180, "timeout=50\n", "timeout=18446744073709551615\n", Accepted),
            (180, "timeout=50\n", "timeout=18446744073709551616\n", At(180)),
            (191, "alert=9\n", "alert=0\n", Accepted),
            (191, "alert=9\n", "alert=512\n", WHOLE),
            (191, "alert=9\n", "alert=513\n", At(191)),
            (199, "n=2\nobj=2\nobj=2\n", "n=0\n", Accepted),
            (287, "n=1\n", "n=65\n", At(287)),
            (203, "obj=2\n", "obj=0\n", At(203)),
            (203, "obj=2\n", "obj=1\n", WHOLE),
            (203, "obj=2\n", "obj=512\n", WHOLE),
            (203, "obj=2\n", "obj=513\n", At(203)),
        ],
    )
}

/// Ends that need more than one other line: 512 objects, handle 512, 64 listed, the last ticket.
pub fn far_ends(case: &mut Case) -> Done {
    let objects: String = (1..=512).map(|h| format!("handle={h}\nkind=event\nsignaled=0\nmanual=0\n")).collect();
    let listed = "obj=512\n".repeat(64);
    let wait = format!("mode=any\nowner=1\nclock=mono\ntimeout=0\nalert=512\nn=64\n{listed}");
    let last = u64::MAX - 32;
    let waits: String = (last..u64::MAX).map(|ticket| format!("wait={ticket}\n{wait}")).collect();
    let text = |next: u64| summed(&format!("next={next}\nobjects=512\n{objects}waits=32\n{waits}"));
    hears(case, text(u64::MAX).as_bytes(), Accepted)?;
    case.answers(any(1, 0, NEVER, &[1]), 7)?;
    hears(case, text(u64::MAX - 1).as_bytes(), WHOLE)
}

/// Handles and tickets rise; the values are those of sound tables.
pub fn order_and_soundness(case: &mut Case) -> Done {
    rows(
        case,
        &[
            (49, "handle=3\n", "handle=2\n", WHOLE),
            (17, "handle=2\n", "handle=3\n", WHOLE),
            (97, "handle=9\n", "handle=1\n", WHOLE),
            (215, "wait=8\n", "wait=4\n", WHOLE),
            (215, "wait=8\n", "wait=3\n", WHOLE),
            (145, "wait=4\n", "wait=8\n", WHOLE),
            (0, "next=9\n", "next=8\n", WHOLE),
            (0, "next=9\n", "next=1\n", WHOLE),
            (35, "count=0\nmax=5\n", "count=6\nmax=5\n", WHOLE),
            (69, "owner=7\n", "owner=0\n", WHOLE),
            (77, "count=2\n", "count=0\n", WHOLE),
            (231, "owner=8\n", "owner=0\n", WHOLE),
            (191, "alert=9\n", "alert=2\n", WHOLE),
            (191, "alert=9\n", "alert=3\n", WHOLE),
            (191, "alert=9\n", "alert=10\n", WHOLE),
            (203, "obj=2\nobj=2\n", "obj=2\nobj=4\n", WHOLE),
            (287, "n=1\nobj=3\n", "n=2\nobj=3\nobj=3\n", WHOLE),
            (287, "n=1\nobj=3\n", "n=0\n", WHOLE),
            (287, "n=1\nobj=3\n", "n=2\nobj=3\nobj=9\n", Accepted),
            (279, "alert=0\nn=1\nobj=3\n", "alert=9\nn=2\nobj=3\nobj=9\n", WHOLE),
            (279, "alert=0\nn=1\nobj=3\n", "alert=9\nn=1\nobj=3\n", Accepted),
            (222, "mode=all\n", "mode=any\n", Accepted),
            (152, "mode=any\n", "mode=all\n", WHOLE),
        ],
    )
}

const SEM_2: &str = "handle=2\nkind=sem\ncount=0\nmax=1\n";
const EVENT_5: &str = "handle=5\nkind=event\nsignaled=0\nmanual=0\n";

/// The text of these objects and waits, next ticket 9.
fn of_parts(objects: &[&str], waits: &[&str]) -> String {
    let (n, m) = (objects.len(), waits.len());
    summed(&format!("next=9\nobjects={n}\n{}waits={m}\n{}", objects.concat(), waits.concat()))
}

/// Each rule of an object broken alone: no wait is there that could be served.
pub fn objects_alone(case: &mut Case) -> Done {
    let sem = |values: &str| format!("handle=1\nkind=sem\n{values}");
    let mutex = |values: &str| format!("handle=1\nkind=mutex\n{values}");
    let rows = [
        (sem("count=0\nmax=0\n"), WHOLE),
        (sem("count=1\nmax=0\n"), WHOLE),
        (sem("count=0\nmax=1\n"), Accepted),
        (sem("count=1\nmax=1\n"), Accepted),
        (sem("count=2\nmax=1\n"), WHOLE),
        (sem("count=4294967295\nmax=4294967294\n"), WHOLE),
        (mutex("owner=0\ncount=0\nabandoned=1\n"), Accepted),
        (mutex("owner=1\ncount=1\nabandoned=0\n"), Accepted),
        (mutex("owner=1\ncount=0\nabandoned=0\n"), WHOLE),
        (mutex("owner=0\ncount=1\nabandoned=0\n"), WHOLE),
        (mutex("owner=0\ncount=1\nabandoned=1\n"), WHOLE),
        (mutex("owner=1\ncount=1\nabandoned=1\n"), WHOLE),
    ];
    rows.iter().try_for_each(|(object, due)| hears(case, of_parts(&[object], &[]).as_bytes(), *due))?;
    hears(case, of_parts(&[SEM_2, EVENT_5], &[]).as_bytes(), Accepted)?;
    hears(case, of_parts(&[EVENT_5, SEM_2], &[]).as_bytes(), WHOLE)?;
    hears(case, of_parts(&[SEM_2, SEM_2], &[]).as_bytes(), WHOLE)
}

/// Each rule of a wait broken alone: none could be served.
pub fn waits_alone(case: &mut Case) -> Done {
    let wait = |ticket: u64, mode: &str, owner: u32, rest: &str| {
        format!("wait={ticket}\nmode={mode}\nowner={owner}\nclock=mono\ntimeout=0\n{rest}")
    };
    let rows = [
        (wait(8, "any", 1, "alert=0\nn=0\n"), Accepted),
        (wait(8, "all", 1, "alert=0\nn=0\n"), WHOLE),
        (wait(8, "all", 1, "alert=5\nn=0\n"), WHOLE),
        (wait(8, "any", 0, "alert=0\nn=0\n"), WHOLE),
        (wait(9, "any", 1, "alert=0\nn=0\n"), WHOLE),
        (wait(10, "any", 1, "alert=0\nn=0\n"), WHOLE),
        (wait(8, "any", 1, "alert=5\nn=0\n"), Accepted),
        (wait(8, "any", 1, "alert=2\nn=0\n"), WHOLE),
        (wait(8, "any", 1, "alert=3\nn=0\n"), WHOLE),
        (wait(8, "any", 1, "alert=0\nn=1\nobj=3\n"), WHOLE),
        (wait(8, "any", 1, "alert=5\nn=3\nobj=5\nobj=2\nobj=5\n"), Accepted),
        (wait(8, "all", 1, "alert=0\nn=2\nobj=5\nobj=2\n"), Accepted),
        (wait(8, "all", 1, "alert=0\nn=3\nobj=5\nobj=2\nobj=5\n"), WHOLE),
        (wait(8, "all", 1, "alert=5\nn=2\nobj=2\nobj=5\n"), WHOLE),
    ];
    rows.iter().try_for_each(|(wait, due)| hears(case, of_parts(&[SEM_2, EVENT_5], &[wait]).as_bytes(), *due))?;
    let [third, eighth] = [3, 8].map(|ticket| wait(ticket, "any", 1, "alert=0\nn=0\n"));
    hears(case, of_parts(&[], &[&third, &eighth]).as_bytes(), Accepted)?;
    hears(case, of_parts(&[], &[&eighth, &third]).as_bytes(), WHOLE)?;
    hears(case, of_parts(&[], &[&eighth, &eighth]).as_bytes(), WHOLE)
}

/// "No queued wait could be served": by its list, by its alert, whatever its timeout.
pub fn servable(case: &mut Case) -> Done {
    let held = "owner=7\ncount=2\nabandoned=0\n";
    rows(
        case,
        &[
            (35, "count=0\n", "count=1\n", WHOLE),
            (117, "signaled=0\n", "signaled=1\n", WHOLE),
            (69, held, "owner=0\ncount=0\nabandoned=0\n", WHOLE),
            (69, held, "owner=0\ncount=0\nabandoned=1\n", WHOLE),
            (69, held, "owner=8\ncount=2\nabandoned=0\n", WHOLE),
            (69, held, "owner=8\ncount=4294967294\nabandoned=0\n", WHOLE),
            (69, held, "owner=8\ncount=4294967295\nabandoned=0\n", Accepted),
            (69, held, "owner=9\ncount=1\nabandoned=0\n", Accepted),
            (287, "n=1\nobj=3\n", "n=2\nobj=9\nobj=3\n", Accepted),
        ],
    )
}

/// "Of the lent tables only the lengths matter, else 9", which comes first.
pub fn lengths_first(case: &mut Case) -> Done {
    for cells in [0, 1, 2, 2785, CELLS - 1, CELLS + 1] {
        for text in [EMPTY, PICTURE, "", "next=0\n"] {
            refuses_length(case, cells, text)?;
        }
    }
    Ok(())
}

fn refuses_length(case: &mut Case, cells: usize, text: &str) -> Done {
    let mut library = Library::unmade();
    let before = library.tables().to_vec();
    let call = reading(text.as_bytes());
    let outcome = library.play_cells(&call, cells)?;
    case.calls += 1;
    if outcome == Outcome::answer(9) && library.tables() == &before[..] {
        return Ok(());
    }
    Err(format!("{cells} cells: {}", heard_text(&call, &outcome)))
}
