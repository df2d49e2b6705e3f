// The calls that are compared; and, so that it is seen that a change of what they only read would be found, calls that make
// one.
use crate::{nz_date_all, nz_date_at, nz_date_table};

// In which calls something must be found: in those that make tables, in those for one time, in those for many.
pub type Places = [bool; 3];
pub const MAKING: Places = [true, false, false];
pub const ONE: Places = [false, true, false];
pub const MANY: Places = [false, false, true];
pub const DATING: Places = [false, true, true];
pub const ALL: Places = [true; 3];

#[derive(Clone, Copy)]
pub struct Calls {
    pub table: unsafe extern "C" fn(*const f32, u64, f32, u32, *mut u32, u64) -> u32,
    pub at: unsafe extern "C" fn(*const u32, u64, u32, *mut u32) -> u32,
    pub all: unsafe extern "C" fn(*const u32, u64, *mut u32, u64, *mut u64) -> u32,
}

pub const LIBRARY: Calls = Calls { table: nz_date_table, at: nz_date_at, all: nz_date_all };

impl Default for Calls {
    fn default() -> Calls {
        LIBRARY
    }
}

pub const CHANGING: [(Calls, Places, &str); 3] = [
    (Calls { table: changing_its_source, ..LIBRARY }, MAKING, "the source of a table changed"),
    (Calls { at: changing_its_table, ..LIBRARY }, ONE, "the table changed by a lookup"),
    (Calls { all: changing_the_table_of_many, ..LIBRARY }, MANY, "the table changed by a call for many times"),
];

unsafe extern "C" fn changing_its_source(src: *const f32, src_len: u64, weight: f32, level: u32, table: *mut u32, table_len: u64) -> u32 {
    unsafe {
        let answer = nz_date_table(src, src_len, weight, level, table, table_len);
        *(src as *mut u32) ^= 1;
        answer
    }
}

// The last number grows: the xs stay, so that the times that were drawn for the table still suit it.
unsafe fn change(table: *const u32, len: u64) {
    unsafe {
        let last = (table as *mut u32).add(len.saturating_sub(1) as usize);
        *last = (*last).wrapping_add(1);
    }
}

unsafe extern "C" fn changing_its_table(table: *const u32, len: u64, recorded: u32, date: *mut u32) -> u32 {
    unsafe {
        let answer = nz_date_at(table, len, recorded, date);
        change(table, len);
        answer
    }
}

unsafe extern "C" fn changing_the_table_of_many(table: *const u32, len: u64, times: *mut u32, times_len: u64, first_bad: *mut u64) -> u32 {
    unsafe {
        let answer = nz_date_all(table, len, times, times_len, first_bad);
        change(table, len);
        answer
    }
}
