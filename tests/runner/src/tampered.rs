//! The comparison itself: whatever is changed in what a call left behind or answered must be noticed, or no mode could
//! fail. The change is made between the library's call and the comparison.

use crate::calls::{all, any, event, expire, mutex, post, pulse, sem, unlock, with_wake};
use crate::directed::PICTURE as P1;
use crate::library::{Tamper, CELLS, GUARD, MOST_BYTES, MOST_WAKE};
use crate::play::Bench;
use crate::script::{call_text, step_or_text};
use second_model::{Call, NEVER, PICTURE_BYTES, WAKE_CELLS};

/// Bytes of the buffer that are tried, but for its front: every so many.
const STRIDE: isize = 41;

/// How many changes were tried and noticed.
#[derive(Default)]
struct Tampering {
    noticed: u64,
}

pub fn run() -> Result<String, String> {
    let mut tampering = Tampering::default();
    for call in calls() {
        tampering.passes(&call)?;
        tampering.every_cell(&call)?;
        tampering.numbers(&call)?;
    }
    tampering.buffers()?;
    tampering.texts()?;
    tampering.copies()?;
    Ok(format!("{} changes noticed", tampering.noticed))
}

/// Three objects and two waits, so that a call of each kind below can be done.
fn setup() -> [Call; 5] {
    [sem(0, 5), mutex(7, 2), event(0, 1), any(8, 0, NEVER, &[1, 3]), all(8, 0, NEVER, &[3, 1])]
}

/// With records and without, refused at each stage, lent a wake list, a buffer, a list, or nothing.
fn calls() -> Vec<Call> {
    vec![
        post(1, 2),
        with_wake(post(1, 0), WAKE_CELLS + 5),
        with_wake(post(1, 2), WAKE_CELLS - 1),
        post(2, 2),
        post(1, 6),
        unlock(2, 8),
        pulse(3),
        expire(0, NEVER),
        event(0, 0),
        Call::Close { handle: 1 },
        Call::Close { handle: 2 },
        Call::ReadMutex { handle: 2 },
        Call::Cancel { ticket: 1 },
        Call::Cancel { ticket: 3 },
        any(8, 0, NEVER, &[1, 2]),
        all(8, 0, NEVER, &[1, 1]),
        Call::Picture { bytes: PICTURE_BYTES },
        Call::Picture { bytes: PICTURE_BYTES - 1 },
        Call::Restore { text: P1.as_bytes().to_vec() },
        Call::Restore { text: P1.as_bytes()[..20].to_vec() },
    ]
}

fn prepared() -> Result<Bench, String> {
    let mut bench = Bench::new(None);
    for call in setup() {
        step_or_text(&mut bench, &call)?;
    }
    Ok(bench)
}

/// Every cell from guard to guard.
fn cells(most: usize) -> impl Iterator<Item = isize> {
    -(GUARD as isize)..(most + GUARD) as isize
}

impl Tampering {
    /// The call is fine if nothing is changed.
    fn passes(&self, call: &Call) -> Result<(), String> {
        step_or_text(&mut prepared()?, call).map(|_| ())
    }

    /// The change after so many more calls is made and noticed. A step's second call is the picture.
    fn notices(&mut self, call: &Call, later: usize, what: &str, tamper: Tamper) -> Result<(), String> {
        let mut bench = prepared()?;
        bench.library.tamper = Some((later, tamper));
        if bench.step(call).is_ok() || bench.library.tamper.is_some() {
            return Err(format!("{}: not noticed: {what}", call_text(call)));
        }
        self.noticed += 1;
        Ok(())
    }

    /// Cells of tables, wake list and list of handles, lent or not.
    fn every_cell(&mut self, call: &Call) -> Result<(), String> {
        let tables = cells(CELLS).filter(|cell| cell % 13 == 0 || *cell < 20 || *cell > CELLS as isize - 20);
        for (cell, later) in tables.flat_map(|cell| [(cell, 0), (cell, 1)]) {
            let tamper: Tamper = Box::new(move |library, _| *library.tables.cell_mut(cell) ^= 1);
            self.notices(call, later, &format!("cell {cell} of the tables"), tamper)?;
        }
        for cell in cells(MOST_WAKE) {
            let tamper: Tamper = Box::new(move |library, _| *library.wake.cell_mut(cell) ^= 1 << 40);
            self.notices(call, 0, &format!("cell {cell} of the wake list"), tamper)?;
        }
        for cell in cells(4) {
            let tamper: Tamper = Box::new(move |library, _| *library.list.cell_mut(cell) ^= 1);
            self.notices(call, 0, &format!("handle {cell} of the list"), tamper)?;
        }
        Ok(())
    }

    /// Bytes of the text that is read, from guard to guard.
    fn texts(&mut self) -> Result<(), String> {
        let call = Call::Restore { text: P1.as_bytes().to_vec() };
        for byte in 0..P1.len() + 2 * GUARD {
            self.notices(
                &call,
                0,
                &format!("byte {byte} of the text"),
                Box::new(move |library, _| library.text[byte] ^= 1),
            )?;
        }
        Ok(())
    }

    /// The same where the picture is read back: its tables, the answer, the offset, and the picture that is then written.
    fn copies(&mut self) -> Result<(), String> {
        for cell in cells(CELLS) {
            self.notices_copy(
                0,
                &format!("cell {cell}"),
                Box::new(move |library, _| *library.tables.cell_mut(cell) ^= 1),
            )?;
        }
        self.notices_copy(0, "the answer", Box::new(|_, outcome| outcome.answer = 13))?;
        self.notices_copy(0, "the offset", Box::new(|_, outcome| outcome.numbers[0] += 1))?;
        self.notices_copy(1, "the length", Box::new(|_, outcome| outcome.numbers[0] -= 1))?;
        for byte in 0..40 {
            let tamper: Tamper = Box::new(move |library, _| *library.buffer.cell_mut(byte) ^= 1);
            self.notices_copy(1, &format!("byte {byte}"), tamper)?;
        }
        Ok(())
    }

    fn notices_copy(&mut self, later: usize, what: &str, tamper: Tamper) -> Result<(), String> {
        let mut bench = prepared()?;
        bench.copy.tamper = Some((later, tamper));
        if bench.step(&Call::ReadMutex { handle: 2 }).is_ok() || bench.copy.tamper.is_some() {
            return Err(format!("not noticed in what is read back: {what}"));
        }
        self.noticed += 1;
        Ok(())
    }

    fn numbers(&mut self, call: &Call) -> Result<(), String> {
        self.notices(call, 0, "the answer", Box::new(|_, outcome| outcome.answer ^= 1))?;
        for at in 0..2 {
            let more: Tamper = Box::new(move |_, outcome| outcome.numbers[at] += 1);
            self.notices(call, 0, &format!("number {at}"), more)?;
        }
        Ok(())
    }

    /// Bytes of the buffer: by a picture, by a refused one, by a call that is lent none, and by the picture afterwards.
    fn buffers(&mut self) -> Result<(), String> {
        let [picture, short] = [PICTURE_BYTES, PICTURE_BYTES - 1].map(|bytes| Call::Picture { bytes });
        let read = Call::ReadMutex { handle: 2 };
        let near = |byte: &isize| *byte < 400 || *byte > PICTURE_BYTES as isize - 8 || byte % STRIDE == 0;
        for byte in cells(MOST_BYTES).filter(near) {
            for (call, later) in [(&picture, 0), (&short, 0), (&read, 0), (&read, 1)] {
                let tamper: Tamper = Box::new(move |library, _| *library.buffer.cell_mut(byte) ^= 1);
                self.notices(call, later, &format!("byte {byte} of the buffer"), tamper)?;
            }
        }
        Ok(())
    }
}
