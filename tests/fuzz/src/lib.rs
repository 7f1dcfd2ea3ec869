//! libFuzzer's target: ntsync_restore beside the second model (3/13). Equal answer, offset and cells, or the program is
//! aborted. The library is not instrumented: what libFuzzer learns from is the second model's way through a text.

#[allow(dead_code)]
#[path = "../../runner/src/layout.rs"]
mod layout;
#[allow(dead_code)]
#[path = "../../runner/src/mutate.rs"]
mod mutate;
#[allow(dead_code)]
#[path = "../../runner/src/random.rs"]
mod random;
#[allow(dead_code)]
#[path = "../../runner/src/texts.rs"]
mod texts;

use second_model::{picture, restore};
use std::os::raw::c_void;
use std::slice::{from_raw_parts, from_raw_parts_mut};
use std::sync::OnceLock;

#[repr(C)]
struct Restored {
    answer: u32,
    offset: u64,
}

extern "C" {
    fn ntsync_restore(tables: *mut u64, cells: usize, text: *const u8, bytes: usize) -> Restored;
    fn LLVMFuzzerMutate(data: *mut u8, size: usize, most: usize) -> usize;
    fn mmap(at: *mut c_void, length: usize, protection: i32, flags: i32, file: i32, offset: i64) -> *mut c_void;
    fn mprotect(at: *mut c_void, length: usize, protection: i32) -> i32;
}

const CELLS: usize = 4321;
const PAGE: usize = 4096;
/// Room for tables, and for any text that libFuzzer may try.
const ROOM: usize = 1 << 20;
/// What a refused text must leave in every cell.
const GARBAGE: u64 = 0xa5a5_0000_5a5a_ffff;

/// Where memory ends before which the arrays are lent: behind it is a page that can't be touched.
fn fences() -> [usize; 2] {
    static FENCES: OnceLock<[usize; 2]> = OnceLock::new();
    *FENCES.get_or_init(|| [(); 2].map(|()| fenced_end()))
}

fn fenced_end() -> usize {
    // SAFETY: a mapping of its own, kept for ever.
    unsafe {
        let at = mmap(std::ptr::null_mut(), ROOM + PAGE, 3, 0x22, -1, 0);
        assert!(at as isize != -1 && mprotect(at.byte_add(ROOM), PAGE, 0) == 0, "room to map");
        at as usize + ROOM
    }
}

/// # Safety
/// As libFuzzer calls it: so many bytes at `data`.
#[no_mangle]
pub unsafe extern "C" fn LLVMFuzzerTestOneInput(data: *const u8, size: usize) -> i32 {
    let given = from_raw_parts(data, size);
    let [tables_end, text_end] = fences();
    // One thread calls this, and nothing else uses these mappings.
    let tables = from_raw_parts_mut((tables_end as *mut u64).sub(CELLS), CELLS);
    let text = from_raw_parts_mut((text_end as *mut u8).sub(size), size);
    tables.fill(GARBAGE);
    text.copy_from_slice(given);
    let heard = ntsync_restore(tables.as_mut_ptr(), CELLS, text.as_ptr(), size);
    assert!(text == given, "the text was written");
    judge(&heard, tables, text);
    0
}

fn judge(heard: &Restored, tables: &[u64], text: &[u8]) {
    let heard = (heard.answer, heard.offset as usize);
    match restore(text) {
        Ok(state) => {
            assert_eq!(heard, (0, 0), "an accepted text");
            assert_eq!(layout::differs(tables, &state), None, "what it shows");
            assert!(picture(&state) == text, "written again, the text is another");
        }
        Err(offset) => {
            assert_eq!(heard, (13, offset), "a refused text");
            assert!(tables.iter().all(|&cell| cell == GARBAGE), "tables written by a refused reading");
        }
    }
}

/// Changes by lines, or libFuzzer's own by bytes; the sum is made right half of the time.
///
/// # Safety
/// As libFuzzer calls it: room for `most` bytes at `data`, `size` of them given.
#[no_mangle]
pub unsafe extern "C" fn LLVMFuzzerCustomMutator(data: *mut u8, size: usize, most: usize, seed: u32) -> usize {
    let mut random = random::Random::new(seed.into());
    let changed = if random.percent(60) {
        mutate::mutated(&mut random, from_raw_parts(data, size))
    } else {
        let size = LLVMFuzzerMutate(data, size, most);
        let bytes = from_raw_parts(data, size);
        if random.percent(50) {
            texts::mended(bytes)
        } else {
            bytes.to_vec()
        }
    };
    let length = changed.len().min(most);
    std::ptr::copy_nonoverlapping(changed.as_ptr(), data, length);
    length
}
