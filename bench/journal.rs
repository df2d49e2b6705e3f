// Journals beside the same in plain safe Rust, which refuses as the library does: one of some 64 KiB is read and written record by
// record, and its end is found. A row where the plain Rust makes one call a record, as the C face does, and one where it is
// inlined. Both sides of a row are timed in turns.
use crate::*;

const BYTES: usize = 1 << 16;

type Record = (u32, [u32; 7]);

mod plain {
    use super::*;

    #[derive(PartialEq)]
    pub enum Found<T> {
        Record(u32, T),
        End,
        Short,
    }

    pub fn words_of(kind: u32) -> Option<usize> {
        match kind {
            NZ_KIND_CONIC => Some(7),
            NZ_KIND_TRANSFORM => Some(6),
            NZ_KIND_CORRECTION => Some(1),
            _ => None,
        }
    }

    // The kind and the payload of the record at an offset, or what is there in its place.
    #[inline(always)]
    fn judged(journal: &[u8], at: usize) -> Result<Found<&[u8]>, u32> {
        let Some(left @ [_, ..]) = journal.get(at..) else {
            return Ok(Found::End);
        };
        let Some((length, left)) = left.split_first_chunk() else {
            return Ok(Found::Short);
        };
        let length = u32::from_le_bytes(*length);
        if length < 2 {
            return Err(NZ_BAD_LENGTH);
        }
        let Some((kind, left)) = left.split_first_chunk() else {
            return Ok(Found::Short);
        };
        let kind = u16::from_le_bytes(*kind) as u32;
        let n = words_of(kind).ok_or(NZ_UNKNOWN_KIND)?;
        if length as usize != 2 + 4 * n {
            return Err(NZ_BAD_LENGTH);
        }
        Ok(left.get(..4 * n).map_or(Found::Short, |payload| Found::Record(kind, payload)))
    }

    #[inline(always)]
    pub fn read_inlined(journal: &[u8], at: usize, words: &mut [u32; 7]) -> Result<Found<usize>, u32> {
        Ok(match judged(journal, at)? {
            Found::Record(kind, payload) => {
                for (word, bytes) in words.iter_mut().zip(payload.as_chunks().0) {
                    *word = u32::from_le_bytes(*bytes);
                }
                Found::Record(kind, at + 6 + payload.len())
            }
            Found::End => Found::End,
            Found::Short => Found::Short,
        })
    }

    #[inline(never)]
    pub fn read(journal: &[u8], at: usize, words: &mut [u32; 7]) -> Result<Found<usize>, u32> {
        read_inlined(journal, at, words)
    }

    #[inline(always)]
    pub fn write_inlined(journal: &mut [u8], at: usize, kind: u32, words: &[u32; 7]) -> Result<usize, u32> {
        let n = words_of(kind).ok_or(NZ_UNKNOWN_KIND)?;
        let record = journal.get_mut(at..).and_then(|left| left.get_mut(..6 + 4 * n)).ok_or(NZ_BUFFER_TOO_SHORT)?;
        let (head, payload) = record.split_at_mut(6);
        head[..4].copy_from_slice(&(2 + 4 * n as u32).to_le_bytes());
        head[4..].copy_from_slice(&(kind as u16).to_le_bytes());
        for (bytes, word) in payload.as_chunks_mut().0.iter_mut().zip(words) {
            *bytes = word.to_le_bytes();
        }
        Ok(at + 6 + 4 * n)
    }

    #[inline(never)]
    pub fn write(journal: &mut [u8], at: usize, kind: u32, words: &[u32; 7]) -> Result<usize, u32> {
        write_inlined(journal, at, kind, words)
    }

    #[inline(never)]
    pub fn end(journal: &[u8]) -> Result<usize, (u32, usize)> {
        let mut at = 0;
        loop {
            match judged(journal, at).map_err(|refused| (refused, at))? {
                Found::Record(_, payload) => at += 6 + payload.len(),
                Found::End | Found::Short => return Ok(at),
            }
        }
    }
}

// Records of all kinds in no order, and their journal, which is as long as they.
fn records() -> (Vec<Record>, Vec<u8>) {
    let mut s = 88172645463325252u64;
    let mut next = move || {
        s ^= s << 13;
        s ^= s >> 7;
        s ^= s << 17;
        (s >> 32) as u32
    };
    let (mut records, mut journal, mut at) = (Vec::new(), vec![0; BYTES], 0);
    loop {
        let (kind, words) = (1 + next() % 3, std::array::from_fn(|_| next()));
        match plain::write(&mut journal, at, kind, &words) {
            Ok(behind) => at = behind,
            Err(_) => break,
        }
        records.push((kind, words));
    }
    journal.truncate(at);
    (records, journal)
}

// Reads all of it, each record handed to `take`; where that ends, and whether by its end.
fn read_all(journal: &[u8], mut take: impl FnMut(u32, &[u32; 7])) -> (u64, bool) {
    let (mut at, mut what, mut kind, mut words, mut next) = (0, 0, 0, [0; 7], 0);
    loop {
        let answer = unsafe { nz_journal_read(journal.as_ptr(), journal.len() as u64, at, &mut what, &mut kind, &mut words, &mut next) };
        if answer != NZ_OK || what != NZ_JOURNAL_RECORD {
            return (at, answer == NZ_OK && what == NZ_JOURNAL_END);
        }
        take(kind, &words);
        at = next;
    }
}

type Read = Result<plain::Found<usize>, u32>;

// The same in plain Rust, by one of its reads.
#[inline(always)]
fn read_plainly(journal: &[u8], read: impl Fn(&[u8], usize, &mut [u32; 7]) -> Read, mut take: impl FnMut(u32, &[u32; 7])) -> (u64, bool) {
    let (mut at, mut words) = (0, [0; 7]);
    loop {
        match read(journal, at, &mut words) {
            Ok(plain::Found::Record(kind, next)) => {
                take(kind, &words);
                at = next;
            }
            other => return (at as u64, other == Ok(plain::Found::End)),
        }
    }
}

// Writes all records; where that ends.
fn write_all(records: &[Record], journal: &mut [u8]) -> u64 {
    let (len, mut at) = (journal.len() as u64, 0);
    for (kind, words) in records {
        let mut next = 0;
        if unsafe { nz_journal_write(journal.as_mut_ptr(), len, at, *kind, words, &mut next) } != NZ_OK {
            break;
        }
        at = next;
    }
    at
}

#[inline(always)]
fn write_plainly(records: &[Record], journal: &mut [u8], write: impl Fn(&mut [u8], usize, u32, &[u32; 7]) -> Result<usize, u32>) -> u64 {
    let mut at = 0;
    for (kind, words) in records {
        match write(journal, at, *kind, words) {
            Ok(next) => at = next,
            Err(_) => break,
        }
    }
    at as u64
}

// A row: both sides' millions of bytes a second, and how many times as long the library takes.
fn speeds(table: &mut Table, name: &str, bytes: usize, rounds: &Rounds) {
    let speed = |side: usize| format!("{:.0}", 1000.0 * bytes as f64 / rounds.ns(side));
    table.row(vec![name.to_string(), speed(1), speed(0), rounds.times(1, 0).to_string()]);
}

fn reading(table: &mut Table, records: &[Record], journal: &[u8]) {
    let (len, mut met) = (journal.len(), Vec::new());
    let keep = |kind: u32, words: &[u32; 7]| {
        let n = plain::words_of(kind).unwrap_or(0);
        met.push((kind, words[..n].to_vec()));
    };
    assert!(read_all(journal, keep) == (len as u64, true) && read_plainly(journal, plain::read, |_, _| {}) == (len as u64, true));
    let same = met.iter().zip(records).all(|(a, b)| a.0 == b.0 && *a.1 == b.1[..a.1.len()]);
    assert!(same && met.len() == records.len(), "a journal that is read otherwise is not timed");
    let take = |kind: u32, words: &[u32; 7]| _ = black_box((kind, words));
    let library = || _ = black_box(read_all(black_box(journal), take));
    let calls = || _ = black_box(read_plainly(black_box(journal), plain::read, take));
    let inlined = || _ = black_box(read_plainly(black_box(journal), |j, at, w| plain::read_inlined(j, at, w), take));
    speeds(table, "`nz_journal_read`, a call a record", len, &pair(1, calls, library));
    speeds(table, "the same, the plain Rust inlined", len, &pair(1, inlined, library));
}

fn writing(table: &mut Table, records: &[Record], journal: &[u8]) {
    let len = journal.len();
    let (mut ours, mut theirs) = (vec![0; len], vec![0; len]);
    assert!(write_all(records, &mut ours) == len as u64 && write_plainly(records, &mut theirs, plain::write) == len as u64);
    assert!(ours == journal && theirs == journal, "a journal that is written otherwise is not timed");
    let mut library = || _ = black_box(write_all(black_box(records), black_box(&mut ours)));
    let calls = || _ = black_box(write_plainly(black_box(records), black_box(&mut theirs), plain::write));
    let called = pair(1, calls, &mut library);
    let inlined = || _ = black_box(write_plainly(black_box(records), black_box(&mut theirs), |j, at, k, w| plain::write_inlined(j, at, k, w)));
    speeds(table, "`nz_journal_write`, a call a record", len, &called);
    speeds(table, "the same, the plain Rust inlined", len, &pair(1, inlined, library));
}

fn ending(table: &mut Table, journal: &[u8]) {
    let (len, mut end) = (journal.len(), 0);
    let answer = unsafe { nz_journal_end(journal.as_ptr(), len as u64, &mut end) };
    assert!((answer, end) == (NZ_OK, len as u64) && plain::end(journal) == Ok(len), "an end that differs is not timed");
    let library = || _ = black_box(unsafe { nz_journal_end(black_box(journal).as_ptr(), len as u64, &mut end) });
    let rust = || _ = black_box(plain::end(black_box(journal)));
    speeds(table, "`nz_journal_end`, by one call", len, &pair(1, rust, library));
}

pub fn all() {
    let (records, journal) = records();
    say(&format!(
        "A journal of {} records of all kinds in no order, {} bytes, beside plain Rust, {ROUNDS} batches a side, in turns, a batch
        being all of it: millions of bytes a second, and how many times as long the library takes.",
        records.len(),
        journal.len()
    ));
    let mut table = Table::new(&["call", "library, MB/s", "plain Rust, MB/s", "times"]);
    reading(&mut table, &records, &journal);
    writing(&mut table, &records, &journal);
    ending(&mut table, &journal);
    table.print();
}
