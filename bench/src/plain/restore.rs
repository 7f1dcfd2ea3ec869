//! A snapshot read back: lines into values, values into tables of the reader's own, which are then judged as a whole.

use super::cells::*;
use super::check::valid;
use super::object::is_signaled;
use crate::ffi::{CELLS, MAX_LISTED, NEVER, OBJECT_PLACES, WAIT_PLACES};
use std::ops::RangeInclusive;

/// The offset of a refused text.
type Offset = usize;

/// The tables that the text shows.
pub fn read(text: &[u8]) -> Result<Vec<u64>, Offset> {
    let mut lines = Lines { text, at: 0 };
    let mut tables = vec![0; CELLS];
    let PartsMut { next, objects, waits } = parts_mut(&mut tables);
    *next = lines.number("next=", 1..=NEVER)?;
    let rising = read_objects(&mut lines, objects)? & read_waits(&mut lines, waits)?;
    let due = sum(&text[..lines.at]);
    let right = lines.number("sum=", NUMBERS_32)? == due.into() && lines.at == text.len();
    if right && rising && valid(&tables) && quiet(parts(&tables)) {
        Ok(tables)
    } else {
        Err(0)
    }
}

pub fn sum(text: &[u8]) -> u32 {
    text.iter().fold(0, |sum: u32, &byte| sum.wrapping_add(byte.into()))
}

const NUMBERS_32: RangeInclusive<u64> = 0..=u32::MAX as u64;
const HANDLES: RangeInclusive<u64> = 1..=OBJECT_PLACES as u64;

/// A text, read up to the line at this offset.
struct Lines<'a> {
    text: &'a [u8],
    at: usize,
}

impl<'a> Lines<'a> {
    /// What stands behind the key.
    fn value(&self, key: &str) -> Option<&'a str> {
        let rest = &self.text[self.at..];
        let end = rest.iter().position(|&byte| byte == b'\n')?;
        std::str::from_utf8(&rest[..end]).ok()?.strip_prefix(key)
    }

    fn pass(&mut self, key: &str, value: &str) {
        self.at += key.len() + value.len() + 1;
    }

    fn number(&mut self, key: &str, range: RangeInclusive<u64>) -> Result<u64, Offset> {
        let value = self.value(key).filter(|value| plain(value)).ok_or(self.at)?;
        let number = value.parse().ok().filter(|number| range.contains(number)).ok_or(self.at)?;
        self.pass(key, value);
        Ok(number)
    }

    /// The place of the word among these.
    fn word(&mut self, key: &str, words: &[&str]) -> Result<u64, Offset> {
        let value = self.value(key).ok_or(self.at)?;
        let place = words.iter().position(|word| *word == value).ok_or(self.at)?;
        self.pass(key, value);
        Ok(place as u64)
    }
}

/// Digits without a leading zero; `parse` would take a sign too.
fn plain(digits: &str) -> bool {
    digits.bytes().all(|byte| byte.is_ascii_digit()) && (digits == "0" || !digits.starts_with('0'))
}

/// Whether the handles rise.
fn read_objects(lines: &mut Lines, objects: &mut [u64]) -> Result<bool, Offset> {
    let (mut last, mut rising) = (0, true);
    for _ in 0..lines.number("objects=", 0..=OBJECT_PLACES as u64)? {
        let handle = lines.number("handle=", HANDLES)?;
        let at = OBJECT_CELLS * (handle as usize - 1);
        objects[at..at + OBJECT_CELLS].copy_from_slice(&read_object(lines)?);
        rising &= handle > last;
        last = handle;
    }
    Ok(rising)
}

fn read_object(lines: &mut Lines) -> Result<[u64; OBJECT_CELLS], Offset> {
    let kind = 1 + lines.word("kind=", &["sem", "mutex", "event"])?;
    Ok(match kind {
        SEMAPHORE => [kind, lines.number("count=", NUMBERS_32)?, 0, lines.number("max=", NUMBERS_32)?],
        MUTEX => {
            let owner = lines.number("owner=", NUMBERS_32)?;
            [kind, lines.number("count=", NUMBERS_32)?, owner, lines.number("abandoned=", 0..=1)?]
        }
        _ => [kind, lines.number("signaled=", 0..=1)?, 0, lines.number("manual=", 0..=1)?],
    })
}

/// Whether the tickets rise.
fn read_waits(lines: &mut Lines, waits: &mut [u64]) -> Result<bool, Offset> {
    let (mut last, mut rising) = (0, true);
    for place in 0..lines.number("waits=", 0..=WAIT_PLACES as u64)? {
        let cells = wait_mut(waits, place as usize);
        read_wait(lines, cells)?;
        rising &= cells[TICKET] > last;
        last = cells[TICKET];
    }
    Ok(rising)
}

fn read_wait(lines: &mut Lines, cells: &mut [u64]) -> Result<(), Offset> {
    cells[TICKET] = lines.number("wait=", 1..=NEVER)?;
    cells[MODE] = lines.word("mode=", &["any", "all"])?;
    cells[OWNER] = lines.number("owner=", NUMBERS_32)?;
    cells[CLOCK] = lines.word("clock=", &["mono", "real"])?;
    cells[TIMEOUT] = lines.number("timeout=", 0..=NEVER)?;
    cells[ALERT] = lines.number("alert=", 0..=OBJECT_PLACES as u64)?;
    cells[COUNT] = lines.number("n=", 0..=MAX_LISTED as u64)?;
    for k in 0..cells[COUNT] as usize {
        cells[LIST + k] = lines.number("obj=", HANDLES)?;
    }
    Ok(())
}

/// No queued wait could be served.
fn quiet(tables: Parts) -> bool {
    let queued = tables.waits.chunks(WAIT_CELLS).filter(|cells| cells[TICKET] != 0);
    !queued.into_iter().any(|cells| servable(tables.objects, cells))
}

fn servable(objects: &[u64], cells: &[u64]) -> bool {
    let signaled = |&handle: &u64| is_signaled(objects, handle as u32, cells[OWNER] as u32);
    let by_list = match cells[MODE] {
        ALL => list(cells).iter().all(signaled),
        _ => list(cells).iter().any(signaled),
    };
    by_list || signaled(&cells[ALERT])
}
