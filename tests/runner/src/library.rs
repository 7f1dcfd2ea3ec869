//! The library through its C interface, with sentinels around all that is lent, and in what is lent for writing.

use crate::crash;
use second_model::{Call, Mode, Outcome, Report};
use std::os::raw::c_void;
use std::sync::atomic::{AtomicUsize, Ordering::Relaxed};

#[repr(C)]
struct Pair {
    answer: u32,
    first: u32,
}

#[repr(C)]
struct Triple {
    answer: u32,
    first: u32,
    second: u32,
}

#[repr(C)]
struct Waited {
    answer: u32,
    index: u32,
    ticket: u64,
}

#[repr(C)]
struct Restored {
    answer: u32,
    offset: u64,
}

/// A 32-bit argument. The platform's C convention leaves open what stands in the upper half of its register or place on
/// the stack, so something is put there.
type Word = u64;

fn word(number: u32) -> Word {
    u64::from(number) | 0xd1d1_7e57 << 32
}

type WaitCall = unsafe extern "C" fn(*mut u64, usize, *const u32, usize, Word, Word, Word, Word, u64, u64) -> Waited;

extern "C" {
    fn ntsync_version() -> u32;
    fn ntsync_init(tables: *mut u64, cells: usize) -> u32;
    fn ntsync_create_sem(tables: *mut u64, cells: usize, count: Word, max: Word) -> Pair;
    fn ntsync_create_mutex(tables: *mut u64, cells: usize, owner: Word, count: Word) -> Pair;
    fn ntsync_create_event(tables: *mut u64, cells: usize, signaled: Word, manual: Word) -> Pair;
    fn ntsync_close(tables: *mut u64, cells: usize, handle: Word) -> u32;
    fn ntsync_read_sem(tables: *const u64, cells: usize, handle: Word) -> Triple;
    fn ntsync_read_mutex(tables: *const u64, cells: usize, handle: Word) -> Triple;
    fn ntsync_read_event(tables: *const u64, cells: usize, handle: Word) -> Triple;
    fn ntsync_post(t: *mut u64, c: usize, wake: *mut u64, wake_cells: usize, handle: Word, add: Word) -> Triple;
    fn ntsync_unlock(t: *mut u64, c: usize, wake: *mut u64, wake_cells: usize, handle: Word, owner: Word) -> Triple;
    fn ntsync_kill_owner(t: *mut u64, c: usize, wake: *mut u64, wake_cells: usize, handle: Word, owner: Word)
        -> Triple;
    fn ntsync_set(t: *mut u64, c: usize, wake: *mut u64, wake_cells: usize, handle: Word) -> Triple;
    fn ntsync_reset(tables: *mut u64, cells: usize, handle: Word) -> Triple;
    fn ntsync_pulse(t: *mut u64, c: usize, wake: *mut u64, wake_cells: usize, handle: Word) -> Triple;
    fn ntsync_wait_any(
        tables: *mut u64,
        cells: usize,
        list: *const u32,
        n: usize,
        owner: Word,
        alert: Word,
        flags: Word,
        pad: Word,
        timeout: u64,
        time: u64,
    ) -> Waited;
    fn ntsync_wait_all(
        tables: *mut u64,
        cells: usize,
        list: *const u32,
        n: usize,
        owner: Word,
        alert: Word,
        flags: Word,
        pad: Word,
        timeout: u64,
        time: u64,
    ) -> Waited;
    fn ntsync_expire(t: *mut u64, c: usize, wake: *mut u64, wake_cells: usize, clock: Word, time: u64) -> Triple;
    fn ntsync_cancel(tables: *mut u64, cells: usize, ticket: u64) -> u32;
    fn ntsync_snapshot(tables: *const u64, cells: usize, buffer: *mut u8, bytes: usize) -> Pair;
    fn ntsync_restore(tables: *mut u64, cells: usize, text: *const u8, bytes: usize) -> Restored;

    fn mmap(at: *mut c_void, length: usize, protection: i32, flags: i32, file: i32, offset: i64) -> *mut c_void;
    fn mprotect(at: *mut c_void, length: usize, protection: i32) -> i32;
    fn munmap(at: *mut c_void, length: usize) -> i32;
}

pub const CELLS: usize = 4321;
pub const GUARD: usize = 16;
/// The longest wake list, picture buffer and list of handles that calls here lend, `play_far` excepted.
pub const MOST_WAKE: usize = 160;
pub const MOST_BYTES: usize = 65_536 + 64;
const MOST_LISTED: usize = 512;
/// What stands around a text: a line cut short would be whole with the first byte behind it.
const TEXT_GUARD: [u8; GUARD] = *b"\n01234\nsum=567\n8";

/// An array to lend, with guards at both ends. Between calls it holds sentinels, but for the tables.
pub struct Lent<T> {
    cells: Vec<T>,
    untouched: Vec<T>,
}

impl<T: Copy + PartialEq> Lent<T> {
    fn new(most: usize, sentinel: impl Fn(usize) -> T) -> Lent<T> {
        let untouched: Vec<T> = (0..most + 2 * GUARD).map(sentinel).collect();
        Lent { cells: untouched.clone(), untouched }
    }

    fn at(&mut self) -> *mut T {
        self.cells[GUARD..].as_mut_ptr()
    }

    fn front(&self, filled: usize) -> &[T] {
        &self.cells[GUARD..GUARD + filled]
    }

    fn front_mut(&mut self, filled: usize) -> &mut [T] {
        &mut self.cells[GUARD..GUARD + filled]
    }

    /// For tampering; a negative cell is in the guard.
    pub fn cell_mut(&mut self, cell: isize) -> &mut T {
        &mut self.cells[GUARD.checked_add_signed(cell).expect("a cell or a guard")]
    }

    /// An error if an element before or behind the filled front was written.
    fn kept_beside(&self, filled: usize, name: &str) -> Result<(), String> {
        let behind = GUARD + filled;
        if self.cells[..GUARD] == self.untouched[..GUARD] && self.cells[behind..] == self.untouched[behind..] {
            return Ok(());
        }
        let mut others = (0..GUARD).chain(behind..self.cells.len());
        let at = others.find(|&i| self.cells[i] != self.untouched[i]).expect("a written element");
        Err(format!("element {} of {name} was written, with {filled} due", at as isize - GUARD as isize))
    }

    /// Sentinels again.
    fn refill(&mut self, filled: usize) {
        self.cells[GUARD..GUARD + filled].copy_from_slice(&self.untouched[GUARD..GUARD + filled]);
    }
}

/// Changes what a call left behind or answered, to see that this is noticed.
pub type Tamper = Box<dyn FnOnce(&mut Library, &mut Outcome)>;

pub struct Library {
    pub tables: Lent<u64>,
    pub wake: Lent<u64>,
    pub buffer: Lent<u8>,
    pub list: Lent<u32>,
    /// The text that a reading takes, between its guards.
    pub text: Vec<u8>,
    /// Done once, after the given number of calls.
    pub tamper: Option<(usize, Tamper)>,
    /// Whether the arrays are lent in fenced memory, and at which fence.
    pub fence: Option<Fence>,
    /// In which calls to end the program, as a library with an error might.
    pub ends_at: Option<fn(&Call) -> bool>,
}

/// Where the arrays of a call begin, and the lengths that no `Call` has.
struct Lending {
    tables: *mut u64,
    cells: usize,
    wake: *mut u64,
    buffer: *mut u8,
    list: *const u32,
    listed: usize,
    text: *const u8,
    bytes: usize,
}

fn sentinel(cell: usize) -> u64 {
    0x5a5a_0000_c3c3_0000 ^ (cell as u64).wrapping_mul(0x9e37_79b9)
}

/// Calls with long arrays that were not played.
static SKIPPED: AtomicUsize = AtomicUsize::new(0);

/// What to say of them, if there were any.
pub fn skipped() -> String {
    match SKIPPED.swap(0, Relaxed) {
        0 => String::new(),
        calls => format!("; SKIPPED, for the address space is limited: {calls} with an array of 2^32 elements"),
    }
}

pub fn version() -> u32 {
    unsafe { ntsync_version() }
}

impl Library {
    /// Tables filled with sentinels, not yet made.
    pub fn unmade() -> Library {
        Library {
            tables: Lent::new(CELLS, sentinel),
            wake: Lent::new(MOST_WAKE, sentinel),
            buffer: Lent::new(MOST_BYTES, |i| (i * 31 + 7) as u8),
            list: Lent::new(MOST_LISTED, |i| sentinel(i) as u32),
            text: Vec::new(),
            tamper: None,
            fence: None,
            ends_at: None,
        }
    }

    pub fn made() -> Library {
        let mut library = Library::unmade();
        assert_eq!(library.init(CELLS), Ok(0), "init");
        library
    }

    pub fn tables(&self) -> &[u64] {
        self.tables.front(CELLS)
    }

    pub fn tables_mut(&mut self) -> &mut [u64] {
        self.tables.front_mut(CELLS)
    }

    /// Whatever a reading must not look at.
    pub fn fill_with_garbage(&mut self) {
        self.tables.refill(CELLS);
    }

    pub fn init(&mut self, cells: usize) -> Result<u32, String> {
        let answer = unsafe { ntsync_init(self.tables.at(), cells) };
        self.kept_beside(0, 0).map(|()| answer)
    }

    /// One call on the tables; an error if something was written that the numbers don't cover.
    pub fn play(&mut self, call: &Call) -> Result<Outcome, String> {
        self.play_cells(call, CELLS)
    }

    /// The same, lending `cells` cells of tables (at most `CELLS` and the guards).
    pub fn play_cells(&mut self, call: &Call, cells: usize) -> Result<Outcome, String> {
        assert!(cells <= CELLS + GUARD && call.wake_cells().unwrap_or(0) <= MOST_WAKE);
        assert!(!matches!(call, Call::Picture { bytes } if *bytes > MOST_BYTES));
        if let Some(fence) = self.fence {
            return self.play_fenced(call, fence);
        }
        let lending = self.lending(call, cells);
        let outcome = self.heard(call, &lending);
        self.taken_back(call, outcome)
    }

    /// The same, every array in memory of its own that ends at a fence.
    fn play_fenced(&mut self, call: &Call, fence: Fence) -> Result<Outcome, String> {
        let bytes = if let Call::Picture { bytes } = call { *bytes } else { 0 };
        let woken = call.wake_cells().unwrap_or(0);
        let mut tables = Fenced::new(self.tables(), fence)?;
        if call.only_reads() {
            tables.protect()?;
        }
        let wake = Fenced::new(self.wake.front(woken), fence)?;
        let buffer = Fenced::new(self.buffer.front(bytes), fence)?;
        let mut list = Fenced::new(call.listed(), fence)?;
        list.protect()?;
        let mut text = Fenced::new(call.text(), fence)?;
        text.protect()?;
        let lending = Lending {
            tables: tables.elements,
            wake: wake.elements,
            buffer: buffer.elements,
            list: list.elements,
            text: text.elements,
            ..self.lending(call, CELLS)
        };
        let outcome = self.heard(call, &lending);
        tables.give_back(self.tables_mut());
        wake.give_back(self.wake.front_mut(woken));
        buffer.give_back(self.buffer.front_mut(bytes));
        list.give_back(self.list.front_mut(call.listed().len()));
        self.taken_back(call, outcome)
    }

    /// The same, with one array `length` elements long, in a mapping of its own. Nothing is played, and that is counted,
    /// where the address space is too small for it.
    pub fn play_far(&mut self, call: &Call, far: Far, length: usize) -> Result<Option<Outcome>, String> {
        let Some(mapping) = Mapping::new(length) else {
            SKIPPED.fetch_add(1, Relaxed);
            return Ok(None);
        };
        let mut lending = self.lending(call, CELLS);
        match far {
            Far::Tables => (lending.tables, lending.cells) = (mapping.hold(self.tables()), length),
            Far::Wake => lending.wake = mapping.hold(self.wake.front(MOST_WAKE)),
            Far::Buffer => lending.buffer = mapping.hold(self.buffer.front(MOST_BYTES)),
            Far::List => (lending.list, lending.listed) = (mapping.hold(call.listed()), length),
            Far::Text => (lending.text, lending.bytes) = (mapping.hold(call.text()), length),
        }
        let outcome = self.heard(call, &lending);
        match far {
            Far::Tables => mapping.give_back(self.tables_mut()),
            Far::Wake => mapping.give_back(self.wake.front_mut(MOST_WAKE)),
            Far::Buffer => mapping.give_back(self.buffer.front_mut(MOST_BYTES)),
            Far::List => mapping.give_back(self.list.front_mut(call.listed().len())),
            Far::Text => mapping.give_back(&mut self.text[GUARD..][..call.text().len()]),
        }
        self.taken_back(call, outcome).map(Some)
    }

    fn heard(&self, call: &Call, lending: &Lending) -> Outcome {
        crash::call(call);
        if self.ends_at.is_some_and(|ends| ends(call)) {
            crash::end();
        }
        // SAFETY: the arrays of a `Lending` are of the call's lengths, and apart.
        unsafe { heard(call, lending) }
    }

    fn lending(&mut self, call: &Call, cells: usize) -> Lending {
        let list = call.listed();
        self.list.front_mut(list.len()).copy_from_slice(list);
        self.text.clear();
        [&TEXT_GUARD, call.text(), &TEXT_GUARD].iter().for_each(|part| self.text.extend_from_slice(part));
        Lending {
            tables: self.tables.at(),
            cells,
            wake: self.wake.at(),
            buffer: self.buffer.at(),
            list: self.list.at(),
            listed: list.len(),
            text: self.text[GUARD..].as_ptr(),
            bytes: call.text().len(),
        }
    }

    fn taken_back(&mut self, call: &Call, mut outcome: Outcome) -> Result<Outcome, String> {
        match self.tamper.take() {
            Some((0, tamper)) => tamper(self, &mut outcome),
            later => self.tamper = later.map(|(calls, tamper)| (calls - 1, tamper)),
        }
        let list = call.listed();
        if self.list.front(list.len()) != list {
            return Err("the list of handles was written".into());
        }
        self.list.refill(list.len());
        if !self.text_kept(call.text()) {
            return Err("the text was written".into());
        }
        self.taken(call, outcome)
    }

    fn text_kept(&self, text: &[u8]) -> bool {
        let (before, rest) = self.text.split_at(GUARD);
        before == TEXT_GUARD && rest.strip_prefix(text) == Some(&TEXT_GUARD)
    }

    /// An error if anything but the tables, `woken` cells of the wake list and `length` bytes was written.
    fn kept_beside(&self, woken: usize, length: usize) -> Result<(), String> {
        self.tables.kept_beside(CELLS, "the tables")?;
        self.wake.kept_beside(woken, "the wake list")?;
        self.buffer.kept_beside(length, "the buffer")?;
        self.list.kept_beside(0, "the list of handles")
    }

    /// The outcome with its records and text, taken from the fronts of what was lent for writing.
    fn taken(&mut self, call: &Call, mut outcome: Outcome) -> Result<Outcome, String> {
        let [first, second] = outcome.numbers.map(|number| number as usize);
        let (woken, length) = match *call {
            Call::Picture { bytes } if first <= bytes => (0, first),
            Call::Picture { bytes } => return Err(format!("a picture of {first} bytes in a buffer of {bytes}")),
            _ => match call.wake_cells() {
                Some(lent) if second > lent / 3 => return Err(format!("{second} records in {lent} cells")),
                Some(_) => (3 * second, 0),
                None => (0, 0),
            },
        };
        self.kept_beside(woken, length)?;
        for record in self.wake.front(woken).chunks(3) {
            let small = |cell: u64| u32::try_from(cell).map_err(|_| format!("record cell {cell}"));
            outcome.reports.push(Report { ticket: record[0], answer: small(record[1])?, index: small(record[2])? });
        }
        outcome.text = self.buffer.front(length).to_vec();
        self.wake.refill(woken);
        self.buffer.refill(length);
        Ok(outcome)
    }
}

/// The array that is longer than 32 bits can tell.
#[derive(Clone, Copy, Debug)]
pub enum Far {
    Tables,
    Wake,
    Buffer,
    List,
    Text,
}

/// Zeros to read, private and not reserved, of which the first can be written.
struct Mapping {
    at: *mut c_void,
    bytes: usize,
}

impl Mapping {
    const WRITABLE: usize = 131_072;

    /// Room for so many cells, if the address space has it.
    fn new(cells: usize) -> Option<Mapping> {
        let bytes = (8 * cells).max(Mapping::WRITABLE);
        let at = unsafe { mmap(std::ptr::null_mut(), bytes, 1, 0x4022, -1, 0) };
        if at as isize == -1 || unsafe { mprotect(at, Mapping::WRITABLE, 3) } != 0 {
            return None;
        }
        Some(Mapping { at, bytes })
    }

    fn hold<T: Copy>(&self, front: &[T]) -> *mut T {
        assert!(size_of_val(front) <= Mapping::WRITABLE);
        unsafe { std::ptr::copy_nonoverlapping(front.as_ptr(), self.at.cast(), front.len()) };
        self.at.cast()
    }

    fn give_back<T: Copy>(&self, front: &mut [T]) {
        unsafe { std::ptr::copy_nonoverlapping(self.at.cast(), front.as_mut_ptr(), front.len()) };
    }
}

impl Drop for Mapping {
    fn drop(&mut self) {
        unsafe { munmap(self.at, self.bytes) };
    }
}

/// On which side of an array the pages begin that can't be touched; the other side has the rest of a page.
#[derive(Clone, Copy, Debug)]
pub enum Fence {
    Before,
    Behind,
}

/// An array between pages that can't be touched: reading or writing past its fence ends the program.
struct Fenced<T> {
    at: *mut c_void,
    bytes: usize,
    elements: *mut T,
}

impl<T: Copy> Fenced<T> {
    const PAGE: usize = 4096;

    fn new(elements: &[T], fence: Fence) -> Result<Fenced<T>, String> {
        let inner = size_of_val(elements).div_ceil(Self::PAGE) * Self::PAGE;
        let bytes = inner + 2 * Self::PAGE;
        let at = unsafe { mmap(std::ptr::null_mut(), bytes, 0, 0x22, -1, 0) };
        if at as isize == -1 || unsafe { mprotect(at.byte_add(Self::PAGE), inner, 3) } != 0 {
            return Err(format!("no room to map {bytes} bytes"));
        }
        let slack = match fence {
            Fence::Before => 0,
            Fence::Behind => inner - size_of_val(elements),
        };
        let lent: *mut T = unsafe { at.byte_add(Self::PAGE + slack) }.cast();
        unsafe { std::ptr::copy_nonoverlapping(elements.as_ptr(), lent, elements.len()) };
        Ok(Fenced { at, bytes, elements: lent })
    }

    /// From now on writing ends the program too.
    fn protect(&mut self) -> Result<(), String> {
        let inner = self.bytes - 2 * Self::PAGE;
        match unsafe { mprotect(self.at.byte_add(Self::PAGE), inner, 1) } {
            0 => Ok(()),
            _ => Err(format!("{inner} bytes can't be made read-only")),
        }
    }

    fn give_back(&self, elements: &mut [T]) {
        unsafe { std::ptr::copy_nonoverlapping(self.elements, elements.as_mut_ptr(), elements.len()) };
    }
}

impl<T> Drop for Fenced<T> {
    fn drop(&mut self) {
        unsafe { munmap(self.at, self.bytes) };
    }
}

unsafe fn heard(call: &Call, lent: &Lending) -> Outcome {
    let (t, c, w) = (lent.tables, lent.cells, lent.wake);
    match *call {
        Call::Sem { count, max } => pair(ntsync_create_sem(t, c, word(count), word(max))),
        Call::Mutex { owner, count } => pair(ntsync_create_mutex(t, c, word(owner), word(count))),
        Call::Event { signaled, manual } => pair(ntsync_create_event(t, c, word(signaled), word(manual))),
        Call::Close { handle } => Outcome::answer(ntsync_close(t, c, word(handle))),
        Call::ReadSem { handle } => triple(ntsync_read_sem(t, c, word(handle))),
        Call::ReadMutex { handle } => triple(ntsync_read_mutex(t, c, word(handle))),
        Call::ReadEvent { handle } => triple(ntsync_read_event(t, c, word(handle))),
        Call::Post { handle, add, wake } => triple(ntsync_post(t, c, w, wake, word(handle), word(add))),
        Call::Unlock { handle, owner, wake } => triple(ntsync_unlock(t, c, w, wake, word(handle), word(owner))),
        Call::Kill { handle, owner, wake } => triple(ntsync_kill_owner(t, c, w, wake, word(handle), word(owner))),
        Call::Set { handle, wake } => triple(ntsync_set(t, c, w, wake, word(handle))),
        Call::Reset { handle } => triple(ntsync_reset(t, c, word(handle))),
        Call::Pulse { handle, wake } => triple(ntsync_pulse(t, c, w, wake, word(handle))),
        Call::Wait { mode, owner, alert, flags, pad, timeout, time, .. } => waited(wait_call(mode)(
            t,
            c,
            lent.list,
            lent.listed,
            word(owner),
            word(alert),
            word(flags),
            word(pad),
            timeout,
            time,
        )),
        Call::Expire { clock, time, wake } => triple(ntsync_expire(t, c, w, wake, word(clock), time)),
        Call::Cancel { ticket } => Outcome::answer(ntsync_cancel(t, c, ticket)),
        Call::Picture { bytes } => pair(ntsync_snapshot(t, c, lent.buffer, bytes)),
        Call::Restore { .. } => restored(ntsync_restore(t, c, lent.text, lent.bytes)),
    }
}

fn wait_call(mode: Mode) -> WaitCall {
    match mode {
        Mode::Any => ntsync_wait_any,
        Mode::All => ntsync_wait_all,
    }
}

fn pair(heard: Pair) -> Outcome {
    Outcome::numbers(heard.answer, heard.first.into(), 0)
}

fn triple(heard: Triple) -> Outcome {
    Outcome::numbers(heard.answer, heard.first.into(), heard.second.into())
}

fn restored(heard: Restored) -> Outcome {
    Outcome::numbers(heard.answer, heard.offset, 0)
}

fn waited(heard: Waited) -> Outcome {
    Outcome::numbers(heard.answer, heard.index.into(), heard.ticket)
}
