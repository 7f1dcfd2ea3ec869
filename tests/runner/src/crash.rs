//! A library with an error may end the program. The calls so far are kept, and a handler of the signal prints them as a
//! script; such a history is shrunk in children of this program.

use crate::history::History;
use crate::library::Fence;
use crate::play::Bench;
use crate::script::{call_text, ended_text};
use crate::shrink::{shrunk, Trial};
use crate::vectors::read_back;
use second_model::Call;
use std::cell::RefCell;
use std::os::raw::c_void;
use std::process::{Command, Stdio};
use std::sync::atomic::{AtomicUsize, Ordering::SeqCst};

extern "C" {
    fn signal(signal: i32, handler: usize) -> usize;
    fn raise(signal: i32) -> i32;
    fn alarm(seconds: u32) -> u32;
    fn fork() -> i32;
    fn waitpid(child: i32, status: *mut i32, options: i32) -> i32;
    fn _exit(code: i32) -> !;
    fn write(file: i32, bytes: *const u8, length: usize) -> isize;
    fn mmap(at: *mut c_void, length: usize, protection: i32, flags: i32, file: i32, offset: i64) -> *mut c_void;
    fn munmap(at: *mut c_void, length: usize) -> i32;
}

/// SIGILL, SIGABRT, SIGBUS, SIGFPE, SIGSEGV.
const SIGNALS: [i32; 5] = [4, 6, 7, 8, SEGV];
const SEGV: i32 = 11;
/// Seconds after which what hangs is ended.
const LONG: u32 = 20;
const PAGE: usize = 4096;

thread_local! {
    static PLAYED: RefCell<History> = const { RefCell::new(History { next: 1, calls: Vec::new() }) };
    static LAST: RefCell<Option<Call>> = const { RefCell::new(None) };
}

/// A history begins with that ticket.
pub fn begun(next: u64) {
    PLAYED.with_borrow_mut(|played| {
        played.next = next;
        played.calls.clear();
    });
}

/// The next call of the history.
pub fn step(call: &Call) {
    PLAYED.with_borrow_mut(|played| played.calls.push(call.clone()));
}

/// What the library is about to be asked, also between the steps.
pub fn call(call: &Call) {
    LAST.with_borrow_mut(|last| *last = Some(call.clone()));
}

/// Ends the program as an error in the library would.
pub fn end() {
    // SAFETY: the handler ends the program, or the signal's default does.
    unsafe { raise(SEGV) };
}

/// From now on the signals above print what was kept by the thread that they end.
pub fn watch() {
    handle(ended as *const () as usize);
}

fn handle(handler: usize) {
    // SAFETY: `ended` takes a signal's number, and 0 is the default.
    SIGNALS.iter().for_each(|&number| _ = unsafe { signal(number, handler) });
}

/// Allocates, which a handler should not: but the signal came from inside the library, which does not. If it did not, and
/// this hangs, the alarm ends it.
extern "C" fn ended(number: i32) {
    // SAFETY: takes a number alone.
    unsafe { alarm(LONG) };
    let text = last_words(number);
    // SAFETY: the text is passed with its length; nothing runs afterwards.
    unsafe {
        write(1, text.as_ptr(), text.len());
        _exit(128 + number)
    }
}

fn last_words(number: i32) -> String {
    let call = LAST.with_borrow(|last| last.as_ref().map_or("none".into(), call_text));
    let history = PLAYED.with_borrow(|played| if played.calls.is_empty() { String::new() } else { ended_text(played) });
    format!("signal {number} ended the program; the last call: {call}\n{history}")
}

/// How a child plays a history.
#[derive(Clone, Copy)]
pub struct Child {
    pub fence: Option<Fence>,
    pub ends_at: Option<fn(&Call) -> bool>,
}

/// The place of the first call that differs from the model's, or in which a child that plays the history is ended.
pub fn first_failure(history: &History, child: Child) -> Option<usize> {
    // SAFETY, here and below: memory of its own, which is given back once; and no other thread runs, so that the child has
    // no lock of one.
    let shared = unsafe { mmap(std::ptr::null_mut(), PAGE, 3, 0x21, -1, 0) };
    assert!(shared as isize != -1, "a page to share with a child");
    // SAFETY: the page is mapped until the end of this function, zeroed, and only these two write it.
    let begun = unsafe { &*shared.cast::<AtomicUsize>() };
    let mut status = 0;
    match unsafe { fork() } {
        -1 => panic!("no child to play a history"),
        0 => {
            handle(0);
            unsafe { alarm(LONG) };
            let failed = play(history, child, begun);
            unsafe { _exit(i32::from(failed)) }
        }
        id => assert!(unsafe { waitpid(id, &mut status, 0) } == id, "the child's end"),
    }
    let at = begun.load(SeqCst);
    unsafe { munmap(shared, PAGE) };
    (status != 0).then_some(at)
}

/// Whether a call differs; its place, or that of the call that ends the child, is left in `begun`.
fn play(history: &History, child: Child, begun: &AtomicUsize) -> bool {
    let mut bench = Bench::new(None);
    history.begin(&mut bench);
    (bench.library.fence, bench.library.ends_at) = (child.fence, child.ends_at);
    history.calls.iter().enumerate().any(|(at, call)| {
        begun.store(at, SeqCst);
        bench.step(call).is_err()
    })
}

/// Shrinks the history of a file, without fences or with those with which it fails.
pub fn run_shrink(file: &str) -> Result<String, String> {
    let text = std::fs::read_to_string(file).map_err(|what| format!("{file}: {what}"))?;
    let history = read_back(&text)?;
    for fence in [None, Some(Fence::Before), Some(Fence::Behind)] {
        let child = Child { fence, ends_at: None };
        if first_failure(&history, child).is_some() {
            let (_, script) = shrunk(history, Trial::Apart(child));
            print!("{script}");
            return Ok(fence.map_or("without fences".into(), |fence| format!("with fences: {fence:?}")));
        }
    }
    Err("the history does not fail".into())
}

/// What is kept is tried on a library that seems to end the program in every pulse.
pub fn run() -> Result<String, String> {
    let program = std::env::current_exe().map_err(|what| what.to_string())?;
    let ended = Command::new(program).arg("--ending").stdin(Stdio::null()).output().map_err(|what| what.to_string())?;
    let text = String::from_utf8_lossy(&ended.stdout);
    let script = text.find("F a failing history").map(|at| &text[at..]).ok_or(format!("no script: {text}"))?;
    let kept = read_back(script)?;
    if ended.status.code() != Some(128 + SEGV) || kept != ending_history() || !text.contains("last call: pulse 3") {
        return Err(format!("{}: kept otherwise than played: {text}", ended.status));
    }
    let (shrunk, script) = shrunk(kept, Trial::Apart(ending_child(None)));
    match shrunk.calls[..] {
        [Call::Pulse { .. }] if read_back(&script)? == shrunk => {
            Ok("a history that ends the program is kept and shrunk".into())
        }
        _ => Err(format!("not shrunk to its pulse\n{script}")),
    }
}

fn ending_child(fence: Option<Fence>) -> Child {
    Child { fence, ends_at: Some(|call| matches!(call, Call::Pulse { .. })) }
}

fn ending_history() -> History {
    use crate::calls::{all, any, event, mutex, post, pulse, sem, set};
    let waits = [any(7, 3, 9, &[1, 3]), all(8, 0, 12, &[1, 2])];
    let calls = [sem(0, 5), mutex(7, 2), event(0, 1), event(1, 0), post(1, 2), set(4)];
    History { next: 1 << 40, calls: calls.into_iter().chain(waits).chain([pulse(3)]).collect() }
}

/// The mode that `run` starts in another process: it ends in the pulse.
pub fn run_ending() -> Result<String, String> {
    play(&ending_history(), ending_child(Some(Fence::Behind)), &AtomicUsize::new(0));
    Err("not ended".into())
}
