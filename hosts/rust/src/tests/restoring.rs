//! Snapshots read back, and the texts that are none.

use super::{change, empty, queued, woken};
use crate::{
    CELLS, Clock, Deadline, Handle, Now, Outcome, Owner, Refusal, Refused, SNAPSHOT_BYTES, Tables, Ticket, Wait,
};
use std::borrow::ToOwned;
use std::format;
use std::string::{String, ToString};
use std::vec::Vec;

const FIRST_WAIT: usize = 2049;
const WAIT_CELLS: usize = 71;

/// A semaphore, a mutex of owner 5, handle 4 an auto event; waits 2 to 4 of one handle, of two with an alert, of none. Handle
/// 3 and ticket 1 were given and are free again, so that places are skipped.
fn board() -> Tables {
    let (mut tables, _) = empty();
    let sem = tables.create_sem(0, 2).unwrap();
    let lock = tables.create_mutex(Owner(5), 2).unwrap();
    let gone = tables.create_event(true, true).unwrap();
    let event = tables.create_event(false, false).unwrap();
    assert_eq!(tables.wait_any(Wait::new(&[sem], Owner(6))), queued(1));
    assert_eq!(tables.wait_any(Wait::new(&[sem], Owner(7))), queued(2));
    assert_eq!(tables.wait_all(Wait::new(&[lock, sem], Owner(8)).alert(event)), queued(3));
    assert_eq!(tables.close(gone), Ok(()));
    assert_eq!(tables.cancel(Ticket(1)), Ok(Outcome::Interrupted));
    let sleep = Wait::new(&[], Owner(9)).until(Clock::RealTime, Deadline(50), Now(40));
    assert_eq!(tables.wait_any(sleep), queued(4));
    tables
}

fn text_of(tables: &Tables) -> String {
    tables.snapshot(&mut [0; SNAPSHOT_BYTES]).unwrap().to_owned()
}

/// Those lines, the words of one string, with their sum.
fn with_sum(lines: &str) -> String {
    let text = lines.replace(' ', "\n") + "\n";
    let sum: u32 = text.bytes().map(u32::from).sum();
    format!("{text}sum={sum}\n")
}

/// Refused so, and no cell is altered.
#[track_caller]
fn refused(text: impl AsRef<[u8]>, offset: usize) {
    let mut cells = [77; CELLS];
    assert_eq!(Tables::over(&mut cells).restore_in_place(&text), Err(Refused { offset }));
    assert!(cells.iter().all(|&cell| cell == 77), "a refusal altered the tables");
    assert_eq!(Tables::restore(text), Err(Refused { offset }));
}

#[test]
fn what_was_written_is_read_back() {
    for tables in [Tables::new(), board()] {
        let text = text_of(&tables);
        let again = Tables::restore(&text).unwrap();
        assert_eq!(text_of(&again), text);
        assert_eq!(again.cells()[..FIRST_WAIT], tables.cells()[..FIRST_WAIT], "objects are in their places");
    }
}

#[test]
fn waits_fill_the_lowest_places_by_ticket() {
    let tickets = |tables: &Tables| [0, 1, 2, 3].map(|place| tables.cells()[FIRST_WAIT + WAIT_CELLS * place]);
    let tables = board();
    assert_eq!(tickets(&tables), [4, 2, 3, 0]);
    assert_eq!(tickets(&Tables::restore(text_of(&tables)).unwrap()), [2, 3, 4, 0]);
}

#[test]
fn a_restored_board_answers_as_one_that_never_stopped() {
    let (mut one, mut wake) = (board(), crate::WakeList::new());
    let mut two = Tables::restore(text_of(&one)).unwrap();
    for tables in [&mut one, &mut two] {
        let late = Wait::new(&[Handle(2)], Owner(10));
        assert_eq!(tables.wait_any(late), queued(5));
        assert_eq!(tables.post(Handle(1), 2, &mut wake).map(change).unwrap().1, [woken(2, 0)]);
        assert_eq!(tables.set(Handle(4), &mut wake).map(change).unwrap().1, [woken(3, 2)]);
        assert_eq!(tables.create_sem(1, 1), Ok(Handle(3)));
        assert_eq!(tables.expire(Clock::RealTime, Now(50), &mut wake).unwrap().len(), 1);
    }
    assert_eq!(text_of(&one), text_of(&two));
}

#[test]
fn one_changed_byte_is_refused() {
    let text = text_of(&board()).into_bytes();
    for at in 0..text.len() {
        for byte in [b'0', b'1', b'9', b'\n', b'=', 0, text[at] ^ 1, text[at] ^ 0x80] {
            let mut damaged = text.clone();
            damaged[at] = byte;
            assert_eq!(Tables::restore(&damaged).is_ok(), damaged == text, "byte {at} is {byte}");
        }
    }
}

#[test]
fn a_text_that_ends_early_has_the_offset_of_its_last_line() {
    let text = text_of(&board());
    for cut in 0..text.len() {
        refused(&text[..cut], text[..cut].rfind('\n').map_or(0, |feed| feed + 1));
    }
}

/// No line of these is due anywhere in place of a line with that key and value.
fn bad_lines(key: &str, value: &str) -> Vec<String> {
    let values = ["", "+1", "-1", " 1", "01", "1 ", "1\r", "18446744073709551616", "99999999999999999999999", "word"];
    let mut lines: Vec<String> = values.iter().map(|bad| format!("{key}={bad}\n")).collect();
    lines.extend([format!("{key} ={value}\n"), format!("x={value}\n"), format!("{key}\n"), "\n".to_owned()]);
    lines
}

#[test]
fn a_bad_line_has_its_offset() {
    let text = text_of(&board());
    let mut offset = 0;
    for line in text.split_inclusive('\n') {
        let (key, value) = line.trim_end().split_once('=').unwrap();
        let (before, after) = (&text[..offset], &text[offset + line.len()..]);
        for bad in bad_lines(key, value) {
            refused(format!("{before}{bad}{after}"), offset);
        }
        offset += line.len();
    }
}

#[test]
fn a_number_has_its_keys_range() {
    let good = "next=3 objects=1 handle=512 kind=event signaled=0 manual=0 waits=1 wait=1 mode=any owner=1 clock=mono \
                timeout=0 alert=512 n=1 obj=512";
    assert!(Tables::restore(with_sum(good)).is_ok());
    let bad = "next=0 objects=513 handle=0 handle=513 kind=even signaled=2 manual=2 waits=33 wait=0 mode=both \
               owner=4294967296 clock=none timeout=18446744073709551616 alert=513 n=65 obj=0 obj=513";
    for bad in bad.split(' ') {
        let key = bad.split('=').next().unwrap();
        let at = good.split(' ').position(|word| word.starts_with(&format!("{key}="))).unwrap();
        let words: Vec<&str> = good.split(' ').enumerate().map(|(i, word)| if i == at { bad } else { word }).collect();
        refused(with_sum(&words.join(" ")), words[..at].iter().map(|word| word.len() + 1).sum());
    }
}

#[test]
fn lines_as_due_that_are_wrong_together_have_offset_0() {
    let event = |handle, signaled| format!("handle={handle} kind=event signaled={signaled} manual=0");
    let wait = |ticket, n| format!("wait={ticket} mode=any owner=1 clock=mono timeout=0 alert=0 n={n}");
    let two = |a, b| format!("next=9 objects=2 {} {} waits=0", event(a, 0), event(b, 0));
    let queue = |a, b| format!("next=9 objects=0 waits=2 {} {}", wait(a, 0), wait(b, 0));
    let on_event = |signaled| format!("next=9 objects=1 {} waits=1 {} obj=1", event(1, signaled), wait(1, 1));
    for good in [two(1, 2), two(1, 512), queue(1, 2), queue(7, 8), on_event(0)] {
        assert!(Tables::restore(with_sum(&good)).is_ok(), "{good}");
    }
    // In each pair the order does not rise, or a number stands twice; then a ticket that was not given, a wait that could be
    // served, a count over its maximum, a maximum of 0.
    for bad in [two(2, 1), two(1, 1), queue(2, 1), queue(1, 1), queue(1, 9), on_event(1)] {
        refused(with_sum(&bad), 0);
    }
    let sem = |count, max| with_sum(&format!("next=1 objects=1 handle=1 kind=sem count={count} max={max} waits=0"));
    assert!(Tables::restore(sem(0, 1)).is_ok());
    refused(sem(2, 1), 0);
    refused(sem(0, 0), 0);
    let text = text_of(&board());
    refused(format!("{text}\n"), 0);
    refused(format!("{text}{text}"), 0);
    refused(text.replace("count=2", "count=3"), 0);
}

#[test]
fn a_refused_text_is_an_error_with_a_sentence() {
    let refusal = Refusal::from(Tables::restore("").unwrap_err());
    assert_eq!((refusal, refusal.number()), (Refusal::NotASnapshot, 13));
    let sentence = "the text is no snapshot: its first line, its sum, its order or its state is wrong";
    assert_eq!(Refused { offset: 0 }.to_string(), sentence);
}
