// The calls that are judged; and, so that it is seen that a wrong library would be found, the same with their answers spoiled
// in one way.
use crate::journal_memory::Outputs;
use crate::journal_spoils::Spoil;
use crate::{nz_journal_end, nz_journal_read, nz_journal_write};

// A journal as it is lent, reached as what may be written, so that a change by a call that only reads is seen.
#[derive(Clone, Copy)]
pub struct Lent {
    pub from: *mut u8,
    pub len: usize,
}

impl Lent {
    pub fn of(bytes: &mut [u8]) -> Lent {
        Lent { from: bytes.as_mut_ptr(), len: bytes.len() }
    }

    // The first of its bytes.
    pub fn cut(self, len: usize) -> Lent {
        assert!(len <= self.len);
        Lent { len, ..self }
    }

    pub fn bytes(&self) -> &[u8] {
        unsafe { std::slice::from_raw_parts(self.from, self.len) }
    }
}

#[derive(Clone, Copy, Default)]
pub struct Library {
    pub spoil: Spoil,
}

impl Library {
    pub fn read(&self, journal: Lent, at: u64, out: &mut Outputs) -> u32 {
        let before = *out;
        let answer = unsafe { nz_journal_read(journal.from, journal.len as u64, at, &mut out.what, &mut out.kind, &mut out.words, &mut out.next) };
        if self.spoil == Spoil::Nothing { answer } else { self.spoil.read(journal, at, &before, out, answer) }
    }

    pub fn write(&self, journal: Lent, at: u64, kind: u32, words: &mut [u32; 7], next: &mut u64) -> u32 {
        let len = journal.len as u64;
        let call = |kind: u32, words: &mut [u32; 7], next: &mut u64| unsafe { nz_journal_write(journal.from, len, at, kind, words, next) };
        if self.spoil == Spoil::Nothing { call(kind, words, next) } else { self.spoil.write(journal, at, kind, words, next, &call) }
    }

    pub fn end(&self, journal: Lent, end: &mut u64) -> u32 {
        let before = *end;
        let answer = unsafe { nz_journal_end(journal.from, journal.len as u64, end) };
        if self.spoil == Spoil::Nothing { answer } else { self.spoil.end(journal, before, end, answer) }
    }
}
