//! The tables as text.

use super::cells::*;
use super::object::{get, Object};
use super::restore::sum;
use crate::ffi::OBJECT_PLACES;
use std::io::{Result, Write};

/// Writes the text to the front of the buffer; its length.
pub fn write(tables: Parts, buffer: &mut [u8]) -> Result<usize> {
    let size = buffer.len();
    let length = size - write_lines(tables, buffer)?.len();
    let (lines, mut rest) = buffer.split_at_mut(length);
    writeln!(rest, "sum={}", sum(lines))?;
    Ok(size - rest.len())
}

/// All lines but the sum; the rest of the buffer.
fn write_lines<'a>(tables: Parts, buffer: &'a mut [u8]) -> Result<&'a mut [u8]> {
    let mut rest = buffer;
    let handles = 1..=OBJECT_PLACES as u32;
    let occupied = handles.clone().filter(|&handle| get(tables.objects, handle).is_some()).count();
    writeln!(rest, "next={}\nobjects={occupied}", tables.next)?;
    for handle in handles {
        if let Some(object) = get(tables.objects, handle) {
            write_object(&mut rest, handle, object)?;
        }
    }
    write_waits(&mut rest, tables.waits)?;
    Ok(rest)
}

fn write_object(out: &mut impl Write, handle: u32, object: Object) -> Result<()> {
    writeln!(out, "handle={handle}")?;
    match object {
        Object::Semaphore { count, max } => writeln!(out, "kind=sem\ncount={count}\nmax={max}"),
        Object::Mutex { owner, count, abandoned } => {
            writeln!(out, "kind=mutex\nowner={owner}\ncount={count}\nabandoned={}", u8::from(abandoned))
        }
        Object::Event { signaled, manual } => {
            writeln!(out, "kind=event\nsignaled={}\nmanual={}", u8::from(signaled), u8::from(manual))
        }
    }
}

fn write_waits(out: &mut impl Write, waits: &[u64]) -> Result<()> {
    let queued = waits.chunks(WAIT_CELLS).filter(|cells| cells[TICKET] != 0).count();
    writeln!(out, "waits={queued}")?;
    let mut last = 0;
    while let Some(place) = oldest(waits, |place| wait(waits, place)[TICKET] > last) {
        let cells = wait(waits, place);
        last = cells[TICKET];
        write_wait(out, cells)?;
    }
    Ok(())
}

fn write_wait(out: &mut impl Write, cells: &[u64]) -> Result<()> {
    let mode = if cells[MODE] == ALL { "all" } else { "any" };
    let clock = if cells[CLOCK] == 0 { "mono" } else { "real" };
    writeln!(out, "wait={}\nmode={mode}\nowner={}\nclock={clock}", cells[TICKET], cells[OWNER])?;
    writeln!(out, "timeout={}\nalert={}\nn={}", cells[TIMEOUT], cells[ALERT], cells[COUNT])?;
    for handle in list(cells) {
        writeln!(out, "obj={handle}")?;
    }
    Ok(())
}
