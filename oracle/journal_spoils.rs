// Ways in which the library's answers are spoiled, each as a wrong library could give them, and the parts of the judge in which
// each must be seen.
use crate::journal_calls::Lent;
use crate::journal_memory::Outputs;
use crate::journal_model::{words_of, BAD_LENGTH, TOO_SHORT, UNKNOWN_KIND};
use crate::{nz_journal_read, NZ_JOURNAL_END, NZ_JOURNAL_RECORD, NZ_JOURNAL_SHORT};

// The parts: reads, ends and writes beside the model; whether a journal that was read is as it was; and each promise, tested on
// the library's own answers.
pub const PARTS: [&str; 8] = ["reads", "ends", "writes", "journals changed", "round trips", "restored", "cuts", "written on"];
pub const READS: usize = 0;
pub const ENDS: usize = 1;
pub const WRITES: usize = 2;
pub const CHANGED: usize = 3;
pub const ROUND_TRIPS: usize = 4;
pub const RESTORED: usize = 5;
pub const CUTS: usize = 6;
pub const WRITTEN_ON: usize = 7;

#[derive(Clone, Copy, PartialEq, Default)]
pub enum Spoil {
    #[default]
    Nothing,
    // of a record that was read
    NextTooEarly,
    QuietWhenRead,
    PlusZero,
    SeventhTouched,
    SignLost,
    KindTooLarge,
    // of an end, or of what is short
    NextAtTheEnd,
    ShortForEnd,
    EndForShort,
    RecordForShort,
    RefusedForShort,
    WordsCleared,
    KindCleared,
    ShortPastTheEnd,
    OffsetOf32Bits,
    JournalChanged,
    // of a refusal
    KindStored,
    WhatStored,
    LengthForKind,
    KindForLength,
    NextRecordNamed,
    NextKept,
    ShortBeforeKind,
    ShortBeforeLength,
    ShortBeforeSmall,
    // of writes
    WideKindTaken,
    ExactRoomRefused,
    QuietWhenWritten,
    WrappedOffset,
    BehindTouched,
    BeforeTouched,
    WriteNextTooEarly,
    WordsChanged,
    ShortBeforeUnknown,
    NextStored,
    WrittenThoughRefused,
    // of ends
    EndOfBytes,
    EndTooEarly,
    EndKept,
    EndNotRefused,
    EndLengthForKind,
    JournalChangedByEnd,
    // what only a fault shows
    ReadBehind,
    ReadBefore,
    WrittenBehind,
}

use Spoil::*;

const ALL_BY_READS: &[usize] = &[READS, ROUND_TRIPS, RESTORED, CUTS, WRITTEN_ON];
const ALL_BY_WRITES: &[usize] = &[WRITES, ROUND_TRIPS, RESTORED, WRITTEN_ON];

// Each with the parts in which it must be seen.
pub const SPOILS: [(Spoil, &[usize], &str); 42] = [
    (NextTooEarly, ALL_BY_READS, "next too early by the four bytes of the length"),
    (QuietWhenRead, ALL_BY_READS, "a NaN made quiet when it is read"),
    (PlusZero, ALL_BY_READS, "−0 read as 0"),
    (SignLost, ALL_BY_READS, "the sign of a correction lost"),
    (SeventhTouched, &[READS], "word 6 stored for a transform"),
    (KindTooLarge, ALL_BY_READS, "a kind stored with a bit of its high half"),
    (NextAtTheEnd, &[READS], "next at the end of the bytes where they are short"),
    (ShortForEnd, &[READS, RESTORED, CUTS, WRITTEN_ON], "short for end"),
    (EndForShort, &[READS, CUTS], "end for short"),
    (RecordForShort, &[READS, CUTS], "a record for short"),
    (RefusedForShort, &[READS, CUTS], "17 for a payload that is short"),
    (WordsCleared, &[READS], "words stored where there is no record"),
    (KindCleared, &[READS], "a kind stored where there is no record"),
    (ShortPastTheEnd, &[READS], "short for an offset past the end"),
    (OffsetOf32Bits, &[READS], "an offset taken by its low 32 bits"),
    (JournalChanged, &[CHANGED], "a journal changed by a read"),
    (KindStored, &[READS], "the kind stored beside 18"),
    (WhatStored, &[READS], "what is found stored beside a refusal"),
    (LengthForKind, &[READS], "17 for 18"),
    (KindForLength, &[READS], "18 for 17"),
    (NextRecordNamed, &[READS], "the offset of the next record named on a refusal"),
    (NextKept, &[READS], "no offset named on a refusal"),
    (ShortBeforeKind, &[READS], "short before 18"),
    (ShortBeforeLength, &[READS], "short before 17, for a length that is not its kind's"),
    (ShortBeforeSmall, &[READS], "short before 17, for a length below 2"),
    (WideKindTaken, &[WRITES], "65537 written as 1"),
    (ExactRoomRefused, &[WRITES, RESTORED], "exact room refused"),
    (QuietWhenWritten, ALL_BY_WRITES, "a NaN made quiet when it is written"),
    (WrappedOffset, &[WRITES], "an offset near 2^64 taken"),
    (BehindTouched, &[WRITES], "a byte behind the record changed"),
    (BeforeTouched, &[WRITES, RESTORED, WRITTEN_ON], "a byte before the record changed"),
    (WriteNextTooEarly, ALL_BY_WRITES, "next of a write too early by four bytes"),
    (WordsChanged, &[WRITES], "the lent words changed"),
    (ShortBeforeUnknown, &[WRITES], "2 before 18"),
    (NextStored, &[WRITES], "next stored beside a refused write"),
    (WrittenThoughRefused, &[WRITES], "a byte written where a record does not fit"),
    (EndOfBytes, &[ENDS, WRITTEN_ON], "the end of the bytes where the tail is torn"),
    (EndTooEarly, &[ENDS, WRITTEN_ON], "the end a record too early"),
    (EndKept, &[ENDS], "no offset beside a refusal by the call for the end"),
    (EndNotRefused, &[ENDS], "0 for a refusal by the call for the end"),
    (EndLengthForKind, &[ENDS], "17 for 18 by the call for the end"),
    (JournalChangedByEnd, &[CHANGED], "a journal changed by the call for its end"),
];

// Each has to end the run by a fault.
pub const FAULTS: [(Spoil, &str); 3] = [
    (ReadBehind, "a byte behind the journal read"),
    (ReadBefore, "a byte before the journal read"),
    (WrittenBehind, "a byte behind the buffer written"),
];

// A write as the library makes it, of a kind and words, with the place for the next offset.
type Call<'a> = &'a dyn Fn(u32, &mut [u32; 7], &mut u64) -> u32;

fn quiet(kind: u32, words: &mut [u32]) {
    for w in words.iter_mut().filter(|w| kind != 3 && **w & 0x7fff_ffff > 0x7f80_0000) {
        *w |= 0x40_0000;
    }
}

impl Spoil {
    pub fn read(self, journal: Lent, at: u64, before: &Outputs, out: &mut Outputs, answer: u32) -> u32 {
        match self {
            ReadBehind => unsafe { _ = journal.from.add(journal.len).read_volatile() },
            ReadBefore => unsafe { _ = journal.from.sub(1).read_volatile() },
            _ => {}
        }
        match (answer, out.what) {
            (0, NZ_JOURNAL_RECORD) => self.record(out),
            (0, _) => self.tail(journal, at, before, out),
            _ => self.refusal(journal, at, before, out, answer),
        }
    }

    fn record(self, out: &mut Outputs) -> u32 {
        let n = words_of(out.kind).unwrap_or(0);
        match self {
            NextTooEarly => out.next -= 4,
            QuietWhenRead => quiet(out.kind, &mut out.words[..n]),
            PlusZero if out.kind != 3 => out.words[..n].iter_mut().filter(|w| **w == 1 << 31).for_each(|w| *w = 0),
            SeventhTouched if n == 6 => out.words[6] = 0,
            SignLost if out.kind == 3 => out.words[0] = (out.words[0] as i32).unsigned_abs(),
            KindTooLarge => out.kind |= 1 << 16,
            _ => {}
        }
        0
    }

    fn tail(self, journal: Lent, at: u64, before: &Outputs, out: &mut Outputs) -> u32 {
        let (short, len) = (out.what == NZ_JOURNAL_SHORT, journal.len as u64);
        match self {
            NextAtTheEnd if short => out.next = len,
            ShortForEnd if !short => out.what = NZ_JOURNAL_SHORT,
            EndForShort if short => out.what = NZ_JOURNAL_END,
            RecordForShort if short => out.what = NZ_JOURNAL_RECORD,
            RefusedForShort if short && len - at >= 6 => {
                out.what = before.what;
                return BAD_LENGTH;
            }
            WordsCleared => out.words = [0; 7],
            KindCleared => out.kind = 0,
            ShortPastTheEnd if at > len => out.what = NZ_JOURNAL_SHORT,
            OffsetOf32Bits if at >> 32 > 0 => unsafe {
                *out = *before;
                return nz_journal_read(journal.from, len, at & 0xffff_ffff, &mut out.what, &mut out.kind, &mut out.words, &mut out.next);
            },
            JournalChanged if !short && len > 0 => unsafe { *journal.from ^= 1 },
            _ => {}
        }
        0
    }

    fn refusal(self, journal: Lent, at: u64, before: &Outputs, out: &mut Outputs, answer: u32) -> u32 {
        let left = &journal.bytes()[at as usize..];
        let length = u32::from_le_bytes(left[..4].try_into().unwrap()) as u64;
        let (torn, small) = ((left.len() as u64) < 4 + length, length < 2);
        let short = match self {
            ShortBeforeKind => answer == UNKNOWN_KIND && torn,
            ShortBeforeLength => answer == BAD_LENGTH && torn && !small,
            ShortBeforeSmall => small && left.len() < 6,
            _ => false,
        };
        match self {
            _ if short => {
                out.what = NZ_JOURNAL_SHORT;
                return 0;
            }
            KindStored if answer == UNKNOWN_KIND => out.kind = u16::from_le_bytes([left[4], left[5]]) as u32,
            WhatStored => out.what = NZ_JOURNAL_RECORD,
            LengthForKind if answer == UNKNOWN_KIND => return BAD_LENGTH,
            KindForLength if answer == BAD_LENGTH => return UNKNOWN_KIND,
            NextRecordNamed => out.next = at + 4 + length,
            NextKept => out.next = before.next,
            _ => {}
        }
        answer
    }

    pub fn write(self, journal: Lent, at: u64, kind: u32, words: &mut [u32; 7], next: &mut u64, call: Call) -> u32 {
        let (size, known) = (words_of(kind).map_or(34, |n| 6 + 4 * n as u64), words_of(kind).is_some());
        match self {
            WideKindTaken => return call(kind & 0xffff, words, next),
            ExactRoomRefused if known && at.checked_add(size) == Some(journal.len as u64) => return TOO_SHORT,
            QuietWhenWritten => {
                let mut other = *words;
                quiet(kind, &mut other);
                return call(kind, &mut other, next);
            }
            WrappedOffset if known && at.checked_add(size).is_none() => {
                *next = at.wrapping_add(size);
                return 0;
            }
            WrittenBehind => unsafe { journal.from.add(journal.len).write_volatile(0) },
            _ => {}
        }
        let answer = call(kind, words, next);
        if answer == 0 { self.written(journal, at, words, next) } else { self.not_written(journal, at, size, next, answer) }
    }

    fn written(self, journal: Lent, at: u64, words: &mut [u32; 7], next: &mut u64) -> u32 {
        match self {
            BehindTouched if *next < journal.len as u64 => unsafe { *journal.from.add(*next as usize) ^= 1 },
            BeforeTouched if at > 0 => unsafe { *journal.from.add(at as usize - 1) ^= 1 },
            WriteNextTooEarly => *next -= 4,
            WordsChanged => words[0] ^= 1,
            _ => {}
        }
        0
    }

    fn not_written(self, journal: Lent, at: u64, size: u64, next: &mut u64, answer: u32) -> u32 {
        let len = journal.len as u64;
        match self {
            ShortBeforeUnknown if answer == UNKNOWN_KIND && at.saturating_add(size) > len => return TOO_SHORT,
            NextStored => *next = at,
            WrittenThoughRefused if answer == TOO_SHORT && at < len => unsafe { *journal.from.add(at as usize) ^= 1 },
            _ => {}
        }
        answer
    }

    pub fn end(self, journal: Lent, before: u64, end: &mut u64, answer: u32) -> u32 {
        match self {
            EndOfBytes if answer == 0 => *end = journal.len as u64,
            EndTooEarly if answer == 0 => *end = end.saturating_sub(10),
            EndKept if answer != 0 => *end = before,
            EndNotRefused => return 0,
            EndLengthForKind if answer == UNKNOWN_KIND => return BAD_LENGTH,
            JournalChangedByEnd if journal.len > 0 => unsafe { *journal.from ^= 1 },
            _ => {}
        }
        answer
    }
}
