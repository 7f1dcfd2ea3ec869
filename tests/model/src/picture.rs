//! The picture: lines key=value, objects by handle, waits by ticket, and last the sum of all bytes before (3/13).
//! Written by hand, digits too, because the runner asks for it after every call.

use crate::{Clock, Mode, Object, State, Wait, PICTURE_BYTES};

pub fn picture(state: &State) -> Vec<u8> {
    let mut text = Vec::with_capacity(PICTURE_BYTES);
    number(&mut text, "next", state.next);
    number(&mut text, "objects", state.objects.iter().flatten().count() as u64);
    for (place, object) in state.objects.iter().enumerate() {
        if let Some(object) = object {
            number(&mut text, "handle", place as u64 + 1);
            write_object(&mut text, object);
        }
    }
    number(&mut text, "waits", state.queued().count() as u64);
    for place in state.places_by_ticket() {
        write_wait(&mut text, state.waits[place].as_ref().unwrap());
    }
    let sum = sum_of(&text);
    number(&mut text, "sum", sum);
    text
}

/// "The wrapping 32-bit sum of all bytes."
pub fn sum_of(bytes: &[u8]) -> u32 {
    bytes.iter().fold(0, |sum: u32, &byte| sum.wrapping_add(byte.into()))
}

fn line(text: &mut Vec<u8>, key: &str, value: &[u8]) {
    text.extend_from_slice(key.as_bytes());
    text.push(b'=');
    text.extend_from_slice(value);
    text.push(b'\n');
}

/// Decimal, no leading zeros.
fn number(text: &mut Vec<u8>, key: &str, value: impl Into<u64>) {
    let mut digits = [0; 20];
    let (mut first, mut left) = (digits.len() - 1, value.into());
    while left >= 10 {
        digits[first] = b'0' + (left % 10) as u8;
        (first, left) = (first - 1, left / 10);
    }
    digits[first] = b'0' + left as u8;
    line(text, key, &digits[first..]);
}

fn write_object(text: &mut Vec<u8>, object: &Object) {
    match *object {
        Object::Semaphore { count, max } => {
            line(text, "kind", b"sem");
            number(text, "count", count);
            number(text, "max", max);
        }
        Object::Mutex { owner, count, abandoned } => {
            line(text, "kind", b"mutex");
            number(text, "owner", owner);
            number(text, "count", count);
            number(text, "abandoned", abandoned);
        }
        Object::Event { signaled, manual } => {
            line(text, "kind", b"event");
            number(text, "signaled", signaled);
            number(text, "manual", manual);
        }
    }
}

fn write_wait(text: &mut Vec<u8>, wait: &Wait) {
    number(text, "wait", wait.ticket);
    line(text, "mode", if wait.mode == Mode::All { b"all" } else { b"any" });
    number(text, "owner", wait.owner);
    line(text, "clock", if wait.clock == Clock::RealTime { b"real" } else { b"mono" });
    number(text, "timeout", wait.timeout);
    number(text, "alert", wait.alert);
    number(text, "n", wait.list.len() as u64);
    for &handle in &wait.list {
        number(text, "obj", handle);
    }
}
