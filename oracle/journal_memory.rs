// What is lent to a call: bytes that reach up to a page that nothing may touch, on one side or on the other, so that a call that
// reads or writes outside of them ends the run by a fault; and outputs among words of their own, which it has to leave alone.
use crate::inputs::Inputs;
use std::ffi::{c_int, c_long, c_void};

unsafe extern "C" {
    fn mmap(at: *mut c_void, len: usize, protection: c_int, flags: c_int, file: c_int, offset: c_long) -> *mut c_void;
    fn mprotect(at: *mut c_void, len: usize, protection: c_int) -> c_int;
}

const NOTHING: c_int = 0;
const READ_AND_WRITE: c_int = 3;
const PRIVATE_AND_ANONYMOUS: c_int = 0x22;

// A whole number of pages of every machine that this runs on, and more than the largest journal.
const PAGES: usize = 1 << 18;

// On which side of the bytes that are put the page is that nothing may touch.
#[derive(Clone, Copy, PartialEq)]
pub enum Side {
    Before,
    Behind,
}

pub struct Memory {
    start: *mut u8,
}

impl Default for Memory {
    fn default() -> Memory {
        unsafe {
            let first = mmap(std::ptr::null_mut(), 3 * PAGES, NOTHING, PRIVATE_AND_ANONYMOUS, -1, 0) as *mut u8;
            assert!(first as isize != -1, "no memory");
            let start = first.add(PAGES);
            assert!(mprotect(start as *mut c_void, PAGES, READ_AND_WRITE) == 0, "no memory");
            Memory { start }
        }
    }
}

impl Memory {
    // A copy of the bytes, with the page at its side.
    pub fn put(&mut self, side: Side, bytes: &[u8]) -> &mut [u8] {
        let from = if side == Side::Before { 0 } else { PAGES - bytes.len() };
        let all = unsafe { std::slice::from_raw_parts_mut(self.start, PAGES) };
        let place = &mut all[from..from + bytes.len()];
        place.copy_from_slice(bytes);
        place
    }
}

// The outputs of a read, and of the call for the end.
#[repr(C)]
#[derive(Clone, Copy, PartialEq, Debug)]
pub struct Outputs {
    before: [u32; 2],
    pub what: u32,
    between: [u32; 2],
    pub kind: u32,
    above: [u32; 2],
    pub words: [u32; 7],
    behind: [u32; 3],
    pub next: u64,
    last: u64,
}

impl Outputs {
    // Of any contents: no place has those that a call would store there, but by chance.
    pub fn filled(i: &mut Inputs) -> Outputs {
        let mut r = i.next();
        let mut word = || {
            r = r.wrapping_mul(0x5851_f42d_4c95_7f2d).wrapping_add(0x1405_7b7e_f767_814f);
            (r >> 32) as u32
        };
        let [before, between, above] = std::array::from_fn(|_| [word(), word()]);
        let [what, kind] = [word(), word()];
        let (words, behind) = (std::array::from_fn(|_| word()), std::array::from_fn(|_| word()));
        let [next, last] = std::array::from_fn(|_| (word() as u64) << 32 | word() as u64);
        Outputs { before, what, between, kind, above, words, behind, next, last }
    }
}
