//! The calls, as methods of the tables.

use crate::ffi::{self, CELLS};
use crate::numbers::{Clock, Handle, Now, Owner, Ticket};
use crate::refusal::{done, refused};
use crate::{Changed, EventState, MutexState, Outcome, Refusal, Refused, SemState, Wait, Waited, WakeList, WokenWaits};
use core::{fmt, ptr, str};

/// The tables of one NT instance: [`CELLS`] cells and nothing else, wherever they lie.
///
/// A value of this type owns its cells, and can stand in a `static` or a struct. [`Tables::over`] takes the host's own
/// cells for tables, where they are. Each call hands back what include/ntsync.h says of it. A refusal is `Err`, and it
/// altered nothing. Every call on cells that the library did not leave so may be refused as [`Refusal::Corrupt`].
#[derive(Clone, PartialEq, Eq)]
#[repr(transparent)]
pub struct Tables {
    cells: [u64; CELLS],
}

impl Default for Tables {
    fn default() -> Tables {
        Tables::new()
    }
}

/// The snapshot: on one line, or with `{:#?}` line by line. It takes 64 KiB of the stack.
impl fmt::Debug for Tables {
    fn fmt(&self, f: &mut fmt::Formatter<'_>) -> fmt::Result {
        let mut buffer = [0; ffi::SNAPSHOT_BYTES];
        let (between, end) = if f.alternate() { ("\n    ", "\n}") } else { (" ", " }") };
        f.write_str("Tables {")?;
        match self.snapshot(&mut buffer) {
            Ok(text) => text.lines().try_for_each(|line| write!(f, "{between}{line}"))?,
            Err(refusal) => write!(f, "{between}{refusal:?}")?,
        }
        f.write_str(end)
    }
}

/// Another version may mean other tables, so none are made or taken.
fn compare_versions() {
    let linked = crate::linked_version();
    assert!(linked == ffi::VERSION, "libntsync.a has version {linked}, this crate is for version {}", ffi::VERSION);
}

/// Making, lending, and the cells.
impl Tables {
    /// Empty tables.
    ///
    /// # Panics
    ///
    /// If the linked archive has another version than this crate.
    ///
    /// ```
    /// let tables = ntsync::Tables::new();
    /// assert_eq!(format!("{tables:?}"), "Tables { next=1 objects=0 waits=0 sum=2103 }");
    /// ```
    #[must_use]
    pub fn new() -> Tables {
        compare_versions();
        let mut tables = Tables { cells: [0; CELLS] };
        tables.init();
        tables
    }

    /// The host's own cells as tables, in place and as they stand: static, shared, mapped or battery-backed memory.
    /// New memory needs [`Tables::init`]; what is not valid is refused as [`Refusal::Corrupt`].
    ///
    /// # Panics
    ///
    /// If the linked archive has another version than this crate.
    ///
    /// ```
    /// use ntsync::{CELLS, Refusal, Tables};
    /// use std::sync::Mutex;
    ///
    /// static MEMORY: Mutex<[u64; CELLS]> = Mutex::new([0; CELLS]);
    ///
    /// let mut cells = MEMORY.lock().unwrap();
    /// let tables = Tables::over(&mut cells);
    /// assert_eq!(tables.create_sem(1, 2), Err(Refusal::Corrupt));
    /// tables.init();
    /// assert!(tables.create_sem(1, 2).is_ok());
    /// assert_eq!(cells[0], 1); // the next ticket: the state is in the host's cells
    /// ```
    #[must_use]
    pub fn over(cells: &mut [u64; CELLS]) -> &mut Tables {
        compare_versions();
        // SAFETY: Tables is these cells alone (repr(transparent)), any content is allowed, and the borrow is handed on.
        unsafe { &mut *ptr::from_mut(cells).cast() }
    }

    /// [`Tables::over`] for a slice, whose length is known only as the program runs.
    ///
    /// # Errors
    ///
    /// [`Refusal::Corrupt`] if it has not [`CELLS`] cells.
    ///
    /// # Panics
    ///
    /// If the linked archive has another version than this crate.
    ///
    /// ```
    /// use ntsync::{CELLS, Refusal, Tables};
    /// let mut memory = vec![0; CELLS + 1];
    /// assert!(Tables::over_slice(&mut memory[1..]).is_ok());
    /// assert_eq!(Tables::over_slice(&mut memory).err(), Some(Refusal::Corrupt));
    /// ```
    pub fn over_slice(cells: &mut [u64]) -> Result<&mut Tables, Refusal> {
        cells.try_into().map(Tables::over).map_err(|_| Refusal::Corrupt)
    }

    /// Cells that are only read, as tables for the calls that alter nothing. They may lie in read-only memory.
    ///
    /// # Panics
    ///
    /// If the linked archive has another version than this crate.
    ///
    /// ```
    /// use ntsync::{CELLS, Handle, Refusal, Tables};
    /// static SAVED: [u64; CELLS] = [7; CELLS];
    /// assert_eq!(Tables::view(&SAVED).read_sem(Handle(1)), Err(Refusal::Corrupt));
    /// ```
    #[must_use]
    pub fn view(cells: &[u64; CELLS]) -> &Tables {
        compare_versions();
        // SAFETY: as in `over`, for reading.
        unsafe { &*ptr::from_ref(cells).cast() }
    }

    /// The cells, in the layout of docs/LAYOUT.md, to be saved or copied.
    #[must_use]
    pub fn cells(&self) -> &[u64; CELLS] {
        &self.cells
    }

    /// Makes the tables empty, whatever the cells held. Handles and tickets from before mean nothing afterwards, and the
    /// tasks of queued waits must be told by the host: no call will name them.
    ///
    /// ```
    /// use ntsync::{Refusal, Tables};
    /// let mut tables = Tables::new();
    /// let _ = tables.create_event(true, true)?;
    /// tables.init();
    /// assert_eq!(tables, Tables::new());
    /// # Ok::<(), Refusal>(())
    /// ```
    pub fn init(&mut self) {
        // SAFETY: the cells are borrowed alone and passed with their number.
        let answer = unsafe { ffi::ntsync_init(self.cells.as_mut_ptr(), CELLS) };
        debug_assert_eq!(answer, ffi::DONE, "only another number of cells is refused");
    }

    /// Writes the tables as text, lines `key=value`, to the front of the buffer, and hands out that front. Its last line is
    /// the sum of all bytes before it.
    ///
    /// # Errors
    ///
    /// [`Refusal::Corrupt`]; [`Refusal::ListShort`] if the buffer has under [`SNAPSHOT_BYTES`](crate::SNAPSHOT_BYTES).
    ///
    /// ```
    /// use ntsync::{Refusal, SNAPSHOT_BYTES, Tables};
    /// let mut buffer = [0; SNAPSHOT_BYTES];
    /// let mut tables = Tables::new();
    /// let _ = tables.create_sem(1, 2)?;
    /// let text = tables.snapshot(&mut buffer)?;
    /// assert_eq!(text, "next=1\nobjects=1\nhandle=1\nkind=sem\ncount=1\nmax=2\nwaits=0\nsum=4782\n");
    /// assert_eq!(tables.snapshot(&mut buffer[1..]), Err(Refusal::ListShort));
    /// # Ok::<(), Refusal>(())
    /// ```
    pub fn snapshot<'b>(&self, buffer: &'b mut [u8]) -> Result<&'b str, Refusal> {
        // SAFETY: cells and buffer are borrowed, apart, and passed with their lengths.
        let r = unsafe { ffi::ntsync_snapshot(self.cells.as_ptr(), CELLS, buffer.as_mut_ptr(), buffer.len()) };
        done(r.answer)?;
        Ok(text(&buffer[..r.length as usize]))
    }

    /// The tables that a snapshot shows: the objects under their handles, the queued waits under their tickets. A snapshot
    /// of them is the same text. It is all that a host needs of the old tables after a power cut. Reading takes some 36 KiB
    /// of the stack beside the tables handed back.
    ///
    /// # Errors
    ///
    /// [`Refused`] for any text that [`Tables::snapshot`] can't have written, as one with a byte changed or cut off.
    ///
    /// # Panics
    ///
    /// If the linked archive has another version than this crate.
    ///
    /// ```
    /// use ntsync::{Outcome, Owner, Refusal, Refused, Tables, Wait, Waited};
    /// let mut tables = Tables::new();
    /// let event = tables.create_event(false, false)?;
    /// let Waited::Queued(ticket) = tables.wait_any(Wait::new(&[event], Owner(7)))? else { panic!() };
    /// let saved = tables.snapshot_string()?;
    /// drop(tables);
    ///
    /// let mut tables = Tables::restore(&saved)?;
    /// assert_eq!(tables.cancel(ticket), Ok(Outcome::Interrupted));
    ///
    /// let damaged = saved.replace("kind=event", "kind=evens");
    /// assert_eq!(Tables::restore(damaged), Err(Refused { offset: saved.find("kind=").unwrap() }));
    /// # Ok::<(), Refusal>(())
    /// ```
    pub fn restore(text: impl AsRef<[u8]>) -> Result<Tables, Refused> {
        compare_versions();
        let mut tables = Tables { cells: [0; CELLS] };
        tables.restore_in_place(text).map(|()| tables)
    }

    /// [`Tables::restore`] over the cells of these tables, whatever they held; a refusal leaves them as they are. As with
    /// [`Tables::init`], no call will name waits that were queued in them.
    ///
    /// # Errors
    ///
    /// As for [`Tables::restore`].
    ///
    /// ```
    /// use ntsync::{CELLS, Refused, Tables};
    /// let saved = Tables::new().snapshot_string()?;
    /// let mut memory = [7; CELLS];
    /// assert_eq!(Tables::over(&mut memory).restore_in_place("next=1\n"), Err(Refused { offset: 7 }));
    /// assert_eq!(memory, [7; CELLS]);
    /// Tables::over(&mut memory).restore_in_place(saved)?;
    /// assert_eq!(*Tables::view(&memory), Tables::new());
    /// # Ok::<(), ntsync::Refusal>(())
    /// ```
    pub fn restore_in_place(&mut self, text: impl AsRef<[u8]>) -> Result<(), Refused> {
        let (cells, text) = (self.cells.as_mut_ptr(), text.as_ref());
        // SAFETY: cells and text are borrowed, apart, and passed with their lengths; a slice's pointer is not null.
        let r = unsafe { ffi::ntsync_restore(cells, CELLS, text.as_ptr(), text.len()) };
        match r.answer {
            ffi::DONE => Ok(()),
            ffi::NOT_A_SNAPSHOT => Err(Refused { offset: r.offset as usize }),
            other => unreachable!("answer {other} of a library of this version"),
        }
    }
}

/// Objects: creating takes the lowest empty place, so the handle of a closed object is given again.
impl Tables {
    /// A new semaphore.
    ///
    /// # Errors
    ///
    /// [`Refusal::Corrupt`]; [`Refusal::Invalid`] if `count` exceeds `max`, or if `max` is 0: it could never be signaled;
    /// [`Refusal::NoRoom`] if all places are in use.
    ///
    /// ```
    /// use ntsync::{Handle, Refusal, Tables};
    /// let mut tables = Tables::new();
    /// assert_eq!(tables.create_sem(1, 2), Ok(Handle(1)));
    /// assert_eq!(tables.create_sem(3, 2), Err(Refusal::Invalid));
    /// assert_eq!(tables.create_sem(0, 0), Err(Refusal::Invalid));
    /// ```
    pub fn create_sem(&mut self, count: u32, max: u32) -> Result<Handle, Refusal> {
        // SAFETY: the cells are borrowed alone and passed with their number.
        let r = unsafe { ffi::ntsync_create_sem(self.cells.as_mut_ptr(), CELLS, count, max) };
        done(r.answer).map(|()| Handle(r.handle))
    }

    /// A new mutex that `owner` holds `count` times, or an unowned one: [`Owner::NOBODY`], 0 times.
    ///
    /// # Errors
    ///
    /// [`Refusal::Corrupt`]; [`Refusal::Invalid`] if exactly one of the two is 0; [`Refusal::NoRoom`] if all places are in
    /// use.
    ///
    /// ```
    /// use ntsync::{Handle, Owner, Refusal, Tables};
    /// let mut tables = Tables::new();
    /// assert_eq!(tables.create_mutex(Owner::NOBODY, 0), Ok(Handle(1)));
    /// assert_eq!(tables.create_mutex(Owner(5), 0), Err(Refusal::Invalid));
    /// ```
    pub fn create_mutex(&mut self, owner: Owner, count: u32) -> Result<Handle, Refusal> {
        // SAFETY: the cells are borrowed alone and passed with their number.
        let r = unsafe { ffi::ntsync_create_mutex(self.cells.as_mut_ptr(), CELLS, owner.0, count) };
        done(r.answer).map(|()| Handle(r.handle))
    }

    /// A new event, as it shall stand.
    ///
    /// # Errors
    ///
    /// [`Refusal::Corrupt`]; [`Refusal::NoRoom`] if all places are in use.
    ///
    /// ```
    /// use ntsync::{Refusal, Tables};
    /// let mut tables = Tables::new();
    /// let (signaled, manual) = (false, true);
    /// let event = tables.create_event(signaled, manual)?;
    /// assert!(tables.read_event(event)?.manual);
    /// # Ok::<(), Refusal>(())
    /// ```
    pub fn create_event(&mut self, signaled: bool, manual: bool) -> Result<Handle, Refusal> {
        let cells = self.cells.as_mut_ptr();
        // SAFETY: the cells are borrowed alone and passed with their number.
        let r = unsafe { ffi::ntsync_create_event(cells, CELLS, u32::from(signaled), u32::from(manual)) };
        done(r.answer).map(|()| Handle(r.handle))
    }

    /// Empties the object's place.
    ///
    /// # Errors
    ///
    /// [`Refusal::Corrupt`]; [`Refusal::Invalid`] for no object; [`Refusal::Busy`] while a queued wait names it.
    ///
    /// ```
    /// use ntsync::{Refusal, Tables};
    /// let mut tables = Tables::new();
    /// let sem = tables.create_sem(0, 1)?;
    /// assert_eq!(tables.close(sem), Ok(()));
    /// assert_eq!(tables.close(sem), Err(Refusal::Invalid));
    /// # Ok::<(), Refusal>(())
    /// ```
    pub fn close(&mut self, object: Handle) -> Result<(), Refusal> {
        // SAFETY: the cells are borrowed alone and passed with their number.
        done(unsafe { ffi::ntsync_close(self.cells.as_mut_ptr(), CELLS, object.0) })
    }

    /// Reads a semaphore.
    ///
    /// # Errors
    ///
    /// [`Refusal::Corrupt`]; [`Refusal::Invalid`] if the handle is no semaphore.
    ///
    /// ```
    /// use ntsync::{Refusal, SemState, Tables};
    /// let mut tables = Tables::new();
    /// let sem = tables.create_sem(1, 2)?;
    /// assert_eq!(tables.read_sem(sem), Ok(SemState { count: 1, max: 2 }));
    /// # Ok::<(), Refusal>(())
    /// ```
    pub fn read_sem(&self, sem: Handle) -> Result<SemState, Refusal> {
        // SAFETY: the cells are borrowed for reading and passed with their number.
        let r = unsafe { ffi::ntsync_read_sem(self.cells.as_ptr(), CELLS, sem.0) };
        done(r.answer).map(|()| SemState { count: r.count, max: r.max })
    }

    /// Reads a mutex. An abandoned one stays so.
    ///
    /// # Errors
    ///
    /// [`Refusal::Corrupt`]; [`Refusal::Invalid`] if the handle is no mutex.
    ///
    /// ```
    /// use ntsync::{MutexState, Owner, Refusal, Tables};
    /// let mut tables = Tables::new();
    /// let lock = tables.create_mutex(Owner(5), 2)?;
    /// assert_eq!(tables.read_mutex(lock), Ok(MutexState { owner: Owner(5), count: 2, abandoned: false }));
    /// # Ok::<(), Refusal>(())
    /// ```
    pub fn read_mutex(&self, mutex: Handle) -> Result<MutexState, Refusal> {
        // SAFETY: the cells are borrowed for reading and passed with their number.
        let r = unsafe { ffi::ntsync_read_mutex(self.cells.as_ptr(), CELLS, mutex.0) };
        let abandoned = r.answer == ffi::EOWNERDEAD;
        if !abandoned {
            done(r.answer)?;
        }
        Ok(MutexState { owner: Owner(r.owner), count: r.count, abandoned })
    }

    /// Reads an event.
    ///
    /// # Errors
    ///
    /// [`Refusal::Corrupt`]; [`Refusal::Invalid`] if the handle is no event.
    ///
    /// ```
    /// use ntsync::{EventState, Refusal, Tables};
    /// let mut tables = Tables::new();
    /// let event = tables.create_event(true, false)?;
    /// assert_eq!(tables.read_event(event), Ok(EventState { signaled: true, manual: false }));
    /// # Ok::<(), Refusal>(())
    /// ```
    pub fn read_event(&self, event: Handle) -> Result<EventState, Refusal> {
        // SAFETY: the cells are borrowed for reading and passed with their number.
        let r = unsafe { ffi::ntsync_read_event(self.cells.as_ptr(), CELLS, event.0) };
        done(r.answer).map(|()| EventState { signaled: r.signaled != 0, manual: r.manual != 0 })
    }
}

/// Signaling: each call changes one object and then serves the queued waits that it can, lowest ticket first. They are
/// handed back in the wake list, and the host must tell their tasks.
impl Tables {
    /// Adds to a semaphore's count.
    ///
    /// # Errors
    ///
    /// [`Refusal::Corrupt`]; [`Refusal::Invalid`] if the handle is no semaphore; [`Refusal::Overflow`] past its maximum.
    ///
    /// ```
    /// use ntsync::{Owner, Refusal, Tables, Ticket, Wait, Waited, WakeList};
    /// let (mut tables, mut wake) = (Tables::new(), WakeList::new());
    /// let sem = tables.create_sem(0, 1)?;
    /// assert_eq!(tables.wait_any(Wait::new(&[sem], Owner(7)))?, Waited::Queued(Ticket(1)));
    /// let posted = tables.post(sem, 1, &mut wake)?;
    /// assert_eq!((posted.previous, posted.woken.len()), (0, 1));
    /// assert_eq!(tables.post(sem, 2, &mut wake), Err(Refusal::Overflow));
    /// # Ok::<(), Refusal>(())
    /// ```
    pub fn post<'w>(&mut self, sem: Handle, add: u32, wake: &'w mut WakeList) -> Result<Changed<'w, u32>, Refusal> {
        let (cells, records) = (self.cells.as_mut_ptr(), wake.cells.as_mut_ptr());
        // SAFETY: cells and wake list are borrowed alone, apart, and passed with their numbers of cells.
        let r = unsafe { ffi::ntsync_post(cells, CELLS, records, ffi::WAKE_CELLS, sem.0, add) };
        done(r.answer).map(|()| Changed { previous: r.previous, woken: wake.woken(r.woken) })
    }

    /// Takes one from a mutex's count; at 0 it is unowned.
    ///
    /// # Errors
    ///
    /// [`Refusal::Corrupt`]; [`Refusal::Invalid`] if `owner` is 0 or the handle is no mutex; [`Refusal::NotOwner`] if
    /// `owner` does not hold it.
    ///
    /// ```
    /// use ntsync::{Owner, Refusal, Tables, WakeList};
    /// let (mut tables, mut wake) = (Tables::new(), WakeList::new());
    /// let lock = tables.create_mutex(Owner(5), 2)?;
    /// assert_eq!(tables.unlock(lock, Owner(6), &mut wake), Err(Refusal::NotOwner));
    /// assert_eq!(tables.unlock(lock, Owner(5), &mut wake)?.previous, 2);
    /// # Ok::<(), Refusal>(())
    /// ```
    pub fn unlock<'w>(
        &mut self,
        mutex: Handle,
        owner: Owner,
        wake: &'w mut WakeList,
    ) -> Result<Changed<'w, u32>, Refusal> {
        let (cells, records) = (self.cells.as_mut_ptr(), wake.cells.as_mut_ptr());
        // SAFETY: as in `post`.
        let r = unsafe { ffi::ntsync_unlock(cells, CELLS, records, ffi::WAKE_CELLS, mutex.0, owner.0) };
        done(r.answer).map(|()| Changed { previous: r.previous, woken: wake.woken(r.woken) })
    }

    /// For an owner that died: the mutex becomes unowned and abandoned. First [`cancel`](Tables::cancel) every wait of
    /// that owner, for they could be served; then make this call for every mutex that it held.
    ///
    /// # Errors
    ///
    /// As for [`Tables::unlock`].
    ///
    /// ```
    /// use ntsync::{Outcome, Owner, Refusal, Tables, Wait, Waited, WakeList};
    /// let (mut tables, mut wake) = (Tables::new(), WakeList::new());
    /// let lock = tables.create_mutex(Owner(5), 1)?;
    /// let Waited::Queued(ticket) = tables.wait_any(Wait::new(&[lock], Owner(6)))? else { panic!() };
    /// let woken = tables.kill_owner(lock, Owner(5), &mut wake)?.iter().next().unwrap();
    /// assert_eq!((woken.ticket, woken.outcome), (ticket, Outcome::Served { index: 0, owner_dead: true }));
    /// # Ok::<(), Refusal>(())
    /// ```
    pub fn kill_owner<'w>(
        &mut self,
        mutex: Handle,
        owner: Owner,
        wake: &'w mut WakeList,
    ) -> Result<WokenWaits<'w>, Refusal> {
        let (cells, records) = (self.cells.as_mut_ptr(), wake.cells.as_mut_ptr());
        // SAFETY: as in `post`.
        let r = unsafe { ffi::ntsync_kill_owner(cells, CELLS, records, ffi::WAKE_CELLS, mutex.0, owner.0) };
        done(r.answer).map(|()| wake.woken(r.woken))
    }

    /// Signals an event.
    ///
    /// # Errors
    ///
    /// [`Refusal::Corrupt`]; [`Refusal::Invalid`] if the handle is no event.
    ///
    /// ```
    /// use ntsync::{Refusal, Tables, WakeList};
    /// let (mut tables, mut wake) = (Tables::new(), WakeList::new());
    /// let event = tables.create_event(false, false)?;
    /// assert!(!tables.set(event, &mut wake)?.previous);
    /// assert!(tables.set(event, &mut wake)?.previous);
    /// # Ok::<(), Refusal>(())
    /// ```
    ///
    /// Dropping the woken waits is a warning, here made an error:
    ///
    /// ```compile_fail
    /// #![deny(unused_must_use)]
    /// fn lost(tables: &mut ntsync::Tables, wake: &mut ntsync::WakeList) -> Result<(), ntsync::Refusal> {
    ///     tables.set(ntsync::Handle(1), wake)?;
    ///     Ok(())
    /// }
    /// ```
    pub fn set<'w>(&mut self, event: Handle, wake: &'w mut WakeList) -> Result<Changed<'w, bool>, Refusal> {
        let (cells, records) = (self.cells.as_mut_ptr(), wake.cells.as_mut_ptr());
        // SAFETY: as in `post`.
        let r = unsafe { ffi::ntsync_set(cells, CELLS, records, ffi::WAKE_CELLS, event.0) };
        done(r.answer).map(|()| Changed { previous: r.previous != 0, woken: wake.woken(r.woken) })
    }

    /// Clears an event, which wakes nobody, and hands back whether it was signaled.
    ///
    /// # Errors
    ///
    /// [`Refusal::Corrupt`]; [`Refusal::Invalid`] if the handle is no event.
    ///
    /// ```
    /// use ntsync::{Refusal, Tables};
    /// let mut tables = Tables::new();
    /// let event = tables.create_event(true, false)?;
    /// assert_eq!(tables.reset(event), Ok(true));
    /// assert_eq!(tables.reset(event), Ok(false));
    /// # Ok::<(), Refusal>(())
    /// ```
    pub fn reset(&mut self, event: Handle) -> Result<bool, Refusal> {
        // SAFETY: the cells are borrowed alone and passed with their number.
        let r = unsafe { ffi::ntsync_reset(self.cells.as_mut_ptr(), CELLS, event.0) };
        done(r.answer).map(|()| r.previous != 0)
    }

    /// Signals an event, wakes, and clears it whether or not a wait was served.
    ///
    /// # Errors
    ///
    /// [`Refusal::Corrupt`]; [`Refusal::Invalid`] if the handle is no event.
    ///
    /// ```
    /// use ntsync::{Owner, Refusal, Tables, Ticket, Wait, Waited, WakeList};
    /// let (mut tables, mut wake) = (Tables::new(), WakeList::new());
    /// let event = tables.create_event(false, true)?;
    /// assert_eq!(tables.wait_any(Wait::new(&[event], Owner(7)))?, Waited::Queued(Ticket(1)));
    /// assert_eq!(tables.pulse(event, &mut wake)?.woken.len(), 1);
    /// assert!(!tables.read_event(event)?.signaled);
    /// # Ok::<(), Refusal>(())
    /// ```
    pub fn pulse<'w>(&mut self, event: Handle, wake: &'w mut WakeList) -> Result<Changed<'w, bool>, Refusal> {
        let (cells, records) = (self.cells.as_mut_ptr(), wake.cells.as_mut_ptr());
        // SAFETY: as in `post`.
        let r = unsafe { ffi::ntsync_pulse(cells, CELLS, records, ffi::WAKE_CELLS, event.0) };
        done(r.answer).map(|()| Changed { previous: r.previous != 0, woken: wake.woken(r.woken) })
    }
}

/// Waiting: no call blocks.
impl Tables {
    /// Waits for the first listed object that can be acquired. Over no objects it is a sleep: its alert, its deadline or
    /// [`Tables::cancel`] ends it.
    ///
    /// # Errors
    ///
    /// [`Refusal::Corrupt`]; [`Refusal::Invalid`] for a bad argument; if the wait would have to queue, [`Refusal::NoRoom`]
    /// without a wait place and [`Refusal::TicketsSpent`] without a ticket.
    ///
    /// ```
    /// use ntsync::{Clock, Deadline, Now, Outcome, Owner, Refusal, Tables, Ticket, Wait, Waited};
    /// let mut tables = Tables::new();
    /// let sem = tables.create_sem(1, 1)?;
    /// let event = tables.create_event(false, false)?;
    /// let either = [event, sem];
    /// let wait = Wait::new(&either, Owner(7)).until(Clock::Monotonic, Deadline(100), Now(40));
    /// assert_eq!(tables.wait_any(wait)?, Waited::Over(Outcome::Served { index: 1, owner_dead: false }));
    /// assert_eq!(tables.wait_any(wait)?, Waited::Queued(Ticket(1)));
    /// # Ok::<(), Refusal>(())
    /// ```
    pub fn wait_any(&mut self, wait: Wait<'_>) -> Result<Waited, Refusal> {
        let (cells, list, n) = (self.cells.as_mut_ptr(), wait.list.as_ptr().cast(), wait.list.len());
        let (owner, alert, clock) = (wait.owner.0, wait.alert.map_or(0, |alert| alert.0), wait.clock as u32);
        let (timeout, time) = (wait.deadline.0, wait.now.0);
        // SAFETY: the cells are borrowed alone, the list is borrowed apart from them, and both are passed with their
        // numbers; a slice's pointer is not null, and a handle is a u32 (repr(transparent)).
        let r = unsafe { ffi::ntsync_wait_any(cells, CELLS, list, n, owner, alert, clock, 0, timeout, time) };
        waited(r)
    }

    /// Waits for all listed objects at once: it takes every one, or none.
    ///
    /// # Errors
    ///
    /// As for [`Tables::wait_any`]; an empty list is a bad argument, and so is a handle that occurs twice, the alert
    /// included.
    ///
    /// ```
    /// use ntsync::{Owner, Refusal, Tables, Ticket, Wait, Waited, WakeList};
    /// let (mut tables, mut wake) = (Tables::new(), WakeList::new());
    /// let sem = tables.create_sem(1, 1)?;
    /// let event = tables.create_event(false, false)?;
    /// assert_eq!(tables.wait_all(Wait::new(&[sem, event], Owner(7)))?, Waited::Queued(Ticket(1)));
    /// assert_eq!(tables.read_sem(sem)?.count, 1); // nothing is taken before all can be
    /// assert_eq!(tables.set(event, &mut wake)?.woken.len(), 1);
    /// assert_eq!(tables.read_sem(sem)?.count, 0);
    /// # Ok::<(), Refusal>(())
    /// ```
    pub fn wait_all(&mut self, wait: Wait<'_>) -> Result<Waited, Refusal> {
        let (cells, list, n) = (self.cells.as_mut_ptr(), wait.list.as_ptr().cast(), wait.list.len());
        let (owner, alert, clock) = (wait.owner.0, wait.alert.map_or(0, |alert| alert.0), wait.clock as u32);
        let (timeout, time) = (wait.deadline.0, wait.now.0);
        // SAFETY: as in `wait_any`.
        let r = unsafe { ffi::ntsync_wait_all(cells, CELLS, list, n, owner, alert, clock, 0, timeout, time) };
        waited(r)
    }

    /// Ends every queued wait of that clock whose deadline is not later than `now`. No time is kept, so a clock may go
    /// back.
    ///
    /// # Errors
    ///
    /// [`Refusal::Corrupt`].
    ///
    /// ```
    /// use ntsync::{Clock, Deadline, Now, Outcome, Owner, Refusal, Tables, Ticket, Wait, Waited, WakeList, Woken};
    /// let (mut tables, mut wake) = (Tables::new(), WakeList::new());
    /// let event = [tables.create_event(false, false)?];
    /// let wait = Wait::new(&event, Owner(7)).until(Clock::RealTime, Deadline(100), Now(0));
    /// assert_eq!(tables.wait_any(wait)?, Waited::Queued(Ticket(1)));
    /// assert!(tables.expire(Clock::Monotonic, Now(100), &mut wake)?.is_empty());
    /// let ended: Vec<Woken> = tables.expire(Clock::RealTime, Now(100), &mut wake)?.iter().collect();
    /// assert_eq!(ended, [Woken { ticket: Ticket(1), outcome: Outcome::TimedOut }]);
    /// # Ok::<(), Refusal>(())
    /// ```
    pub fn expire<'w>(&mut self, clock: Clock, now: Now, wake: &'w mut WakeList) -> Result<WokenWaits<'w>, Refusal> {
        let (cells, records) = (self.cells.as_mut_ptr(), wake.cells.as_mut_ptr());
        // SAFETY: as in `post`.
        let r = unsafe { ffi::ntsync_expire(cells, CELLS, records, ffi::WAKE_CELLS, clock as u32, now.0) };
        done(r.answer).map(|()| wake.woken(r.woken))
    }

    /// Takes a wait out of the queue. No record is written: its task must be told what this call hands back, which is
    /// [`Outcome::Interrupted`].
    ///
    /// # Errors
    ///
    /// [`Refusal::Corrupt`]; [`Refusal::Invalid`] if no queued wait has that ticket.
    ///
    /// ```
    /// use ntsync::{Outcome, Owner, Refusal, Tables, Wait, Waited};
    /// let mut tables = Tables::new();
    /// let event = tables.create_event(false, false)?;
    /// let Waited::Queued(ticket) = tables.wait_any(Wait::new(&[event], Owner(7)))? else { panic!() };
    /// assert_eq!(tables.cancel(ticket), Ok(Outcome::Interrupted));
    /// assert_eq!(tables.cancel(ticket), Err(Refusal::Invalid));
    /// # Ok::<(), Refusal>(())
    /// ```
    pub fn cancel(&mut self, ticket: Ticket) -> Result<Outcome, Refusal> {
        // SAFETY: the cells are borrowed alone and passed with their number.
        match unsafe { ffi::ntsync_cancel(self.cells.as_mut_ptr(), CELLS, ticket.0) } {
            ffi::EINTR => Ok(Outcome::Interrupted),
            other => Err(refused(other)),
        }
    }
}

fn text(snapshot: &[u8]) -> &str {
    str::from_utf8(snapshot).expect("a snapshot is ASCII")
}

fn waited(r: ffi::Waited) -> Result<Waited, Refusal> {
    match r.answer {
        ffi::QUEUED => Ok(Waited::Queued(Ticket(r.ticket))),
        over => Outcome::new(over, r.index as usize).map(Waited::Over),
    }
}
