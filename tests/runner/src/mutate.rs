//! Changes to a picture's text, by bytes and by lines, as it may come to be damaged or forged.

use crate::random::Random;
use crate::texts::{self, mended};
use second_model::OBJECTS;

type Lines = Vec<Vec<u8>>;

/// One change or a few; half of the time the sum is then made right.
pub fn mutated(random: &mut Random, text: &[u8]) -> Vec<u8> {
    let mut text = text.to_vec();
    for _ in 0..random.pick(&[1, 1, 1, 1, 2, 3]) {
        text = if random.percent(20) { change_bytes(random, text) } else { change_lines(random, &text) };
    }
    if random.percent(50) {
        mended(&text)
    } else {
        text
    }
}

/// A byte set, put in or taken out; or the text cut short, or followed by something.
fn change_bytes(random: &mut Random, mut text: Vec<u8>) -> Vec<u8> {
    let likely = *b"\n\n0019=- \r\0\xffnwsz";
    let byte = if random.percent(70) { random.pick(&likely) } else { random.number() as u8 };
    let at = random.below(text.len() + 1);
    match random.below(6) {
        0 => text.truncate(at),
        1 => text.insert(at, byte),
        2 => text.push(byte),
        3 if at < text.len() => drop(text.remove(at)),
        _ if at < text.len() => text[at] = byte,
        _ => {}
    }
    text
}

fn lines_of(text: &[u8]) -> Lines {
    texts::lines(text).into_iter().map(<[u8]>::to_vec).collect()
}

fn change_lines(random: &mut Random, text: &[u8]) -> Vec<u8> {
    let mut lines = lines_of(text);
    if lines.is_empty() {
        return text.to_vec();
    }
    let at = random.below(lines.len());
    match random.below(10) {
        0..4 => change_number(random, &mut lines, at),
        4 => change_form(random, &mut lines[at]),
        5 => change_word(random, &mut lines[at]),
        6 => move_line(random, &mut lines, at),
        7 => move_block(random, &mut lines, b"handle=", b"objects="),
        8 => move_block(random, &mut lines, b"wait=", b"waits="),
        _ => change_value_of(random, &mut lines),
    }
    lines.concat()
}

/// Key and value of a line `key=value` with its line feed.
fn parts(line: &[u8]) -> Option<(&[u8], &[u8])> {
    let at = line.iter().position(|&byte| byte == b'=')?;
    Some((&line[..=at], line[at + 1..].strip_suffix(b"\n")?))
}

pub fn value_of(line: &[u8]) -> Option<&[u8]> {
    parts(line).map(|(_, value)| value)
}

fn number_of(line: &[u8]) -> Option<u64> {
    std::str::from_utf8(value_of(line)?).ok()?.parse().ok()
}

pub fn put(line: &mut Vec<u8>, value: &[u8]) {
    if let Some((key, _)) = parts(line) {
        *line = [key, value, b"\n"].concat();
    }
}

/// Near what it was, at the edge of some range, or another line's.
fn change_number(random: &mut Random, lines: &mut Lines, at: usize) {
    let Some(held) = number_of(&lines[at]) else { return };
    let edges =
        [0, 1, 2, 32, 33, 64, 65, 128, 129, 511, 512, 513, (1 << 32) - 1, 1 << 32, 1 << 63, u64::MAX - 1, u64::MAX];
    let other = number_of(&lines[random.below(lines.len())]).unwrap_or(0);
    let value = match random.below(8) {
        0..2 => held.wrapping_add(1),
        2 => held.wrapping_sub(1),
        3 => other,
        4 => random.number(),
        5 => random.below(OBJECTS + 2) as u64,
        _ => random.pick(&edges),
    };
    put(&mut lines[at], value.to_string().as_bytes());
}

/// The same number, but not as the writer has it; or a number past every range.
fn change_form(random: &mut Random, line: &mut Vec<u8>) {
    let Some((_, value)) = parts(line) else { return };
    let value = value.to_vec();
    let fronts: [&[u8]; 7] = [b"0", b"000000000000000000000000", b"+", b"-", b" ", b"0x", b"1"];
    let ends: [&[u8]; 7] = [b" ", b"\r", b".", b".0", b"\0", b"0", b"18446744073709551616"];
    let formed = match random.below(4) {
        0 => Vec::new(),
        1 => b"18446744073709551616".to_vec(),
        2 => [random.pick(&fronts), &value].concat(),
        _ => [&value[..], random.pick(&ends)].concat(),
    };
    put(line, &formed);
}

fn change_word(random: &mut Random, line: &mut Vec<u8>) {
    let words = ["sem", "mutex", "event", "any", "all", "mono", "real", "Sem", "semaphore", "0", ""];
    if number_of(line).is_none() || random.percent(5) {
        put(line, random.pick(&words).as_bytes());
    }
}

/// Doubled, left out, or exchanged with the next or any other.
fn move_line(random: &mut Random, lines: &mut Lines, at: usize) {
    let other = if random.percent(50) { (at + 1) % lines.len() } else { random.below(lines.len()) };
    match random.below(3) {
        0 => lines.insert(other, lines[at].clone()),
        1 => drop(lines.remove(at)),
        _ => lines.swap(at, other),
    }
}

/// Where an object or a wait begins and ends.
fn blocks(lines: &Lines, first: &[u8]) -> Vec<(usize, usize)> {
    let heads: [&[u8]; 4] = [b"handle=", b"waits=", b"wait=", b"sum="];
    let ends = |line: &Vec<u8>| heads.iter().any(|head| line.starts_with(head));
    let starts = (0..lines.len()).filter(|&at| lines[at].starts_with(first));
    let end = |start: usize| lines[start + 1..].iter().position(ends).map_or(lines.len(), |at| start + 1 + at);
    starts.map(|start| (start, end(start))).collect()
}

/// Two objects or two waits exchanged; or one left out or doubled, and counted so.
fn move_block(random: &mut Random, lines: &mut Lines, first: &[u8], count: &[u8]) {
    let blocks = blocks(lines, first);
    if blocks.is_empty() {
        return;
    }
    let (start, end) = random.pick(&blocks);
    let (other, other_end) = random.pick(&blocks);
    match random.below(4) {
        0 => {
            lines.drain(start..end);
            count_again(lines, count, blocks.len() - 1);
        }
        1 => {
            let block = lines[start..end].to_vec();
            lines.splice(other..other, block);
            count_again(lines, count, blocks.len() + 1);
        }
        _ if start < other => exchange(lines, [start, end, other, other_end]),
        _ if start > other => exchange(lines, [other, other_end, start, end]),
        _ => {}
    }
}

/// The text without one of its objects or waits, each of them once, counted so and its sum right.
pub fn with_one_fewer(text: &[u8]) -> Vec<Vec<u8>> {
    let lines = lines_of(text);
    let kinds: [(&[u8], &[u8]); 2] = [(b"handle=", b"objects="), (b"wait=", b"waits=")];
    let mut texts = Vec::new();
    for (first, count) in kinds {
        let blocks = blocks(&lines, first);
        for &(start, end) in &blocks {
            let mut fewer = lines.clone();
            fewer.drain(start..end);
            count_again(&mut fewer, count, blocks.len() - 1);
            texts.push(mended(&fewer.concat()));
        }
    }
    texts
}

fn exchange(lines: &mut Lines, [start, end, other, other_end]: [usize; 4]) {
    let parts = [&lines[other..other_end], &lines[end..other], &lines[start..end]].concat();
    lines.splice(start..other_end, parts);
}

fn count_again(lines: &mut Lines, key: &[u8], count: usize) {
    if let Some(line) = lines.iter_mut().find(|line| line.starts_with(key)) {
        put(line, count.to_string().as_bytes());
    }
}

/// An object's value, so that it may become unsound, or a wait for it servable.
fn change_value_of(random: &mut Random, lines: &mut Lines) {
    let keys: [&[u8]; 7] = [b"count=", b"max=", b"owner=", b"abandoned=", b"signaled=", b"alert=", b"next="];
    let key = random.pick(&keys);
    let found: Vec<usize> = (0..lines.len()).filter(|&at| lines[at].starts_with(key)).collect();
    if !found.is_empty() {
        let at = random.pick(&found);
        let value = random.pick(&["0", "1", "1", "2", "7", "4294967295"]);
        put(&mut lines[at], value.as_bytes());
    }
}
