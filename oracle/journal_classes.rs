// How often each class of inputs was met, as the model has it.
use crate::journal_model::{words_of, Found, Record, BAD_LENGTH, KINDS, TOO_SHORT, UNKNOWN_KIND};

// Of fewer journals, a class that was hardly met says nothing.
pub const FEW: u64 = 20_000;

// A class, of how many inputs at least one must be in it, and whether this one is.
pub type Class = (&'static str, u64, bool);

#[derive(Default)]
pub struct Classes {
    of: u64,
    met: Vec<(&'static str, u64, u64)>,
}

impl Classes {
    // Counts an input; the classes stand in the same order each time.
    pub fn count<const N: usize>(&mut self, classes: [Class; N]) {
        if self.met.is_empty() {
            self.met = classes.iter().map(|c| (c.0, c.1, 0)).collect();
        }
        self.of += 1;
        for (met, class) in self.met.iter_mut().zip(classes) {
            met.2 += class.2 as u64;
        }
    }

    // Whether one was hardly met, or no input at all; it is named.
    pub fn hardly(&self, what: &str) -> bool {
        let rare: Vec<_> = self.met.iter().filter(|(_, one_of, n)| n * one_of < self.of).collect();
        rare.iter().for_each(|(name, one_of, n)| println!("hardly met: {what}: {name}, {n} of {}, not one of {one_of}", self.of));
        if self.of == 0 {
            println!("never met: {what}");
        }
        !rare.is_empty() || self.of == 0
    }

    pub fn text(&self) -> String {
        self.met.iter().map(|m| format!("{} {}", m.0, m.2)).collect::<Vec<_>>().join(", ")
    }
}

// By what a read comes to.
pub fn by_found(found: &Found) -> [Class; 7] {
    let of = |kind: u32| matches!(found, Found::Record(r) if r.kind == kind);
    [
        ("a conic", 12, of(1)),
        ("a transform", 12, of(2)),
        ("a correction", 12, of(3)),
        ("end", 24, *found == Found::End),
        ("short", 6, *found == Found::Short),
        ("17", 60, *found == Found::Refused(BAD_LENGTH)),
        ("18", 30, *found == Found::Refused(UNKNOWN_KIND)),
    ]
}

// The classes of a record that is read; `bounded` is false where it is known that none was made there.
pub fn by_record(r: &Record, at: u64, behind: usize, bounded: bool) -> [Class; 9] {
    let words = r.payload();
    let (float, whole) = (r.kind != 3, r.kind == 3);
    let is_nan = |w: &u32| w & 0x7fff_ffff > 0x7f80_0000;
    [
        ("a quiet NaN in it", 6, float && words.iter().any(|w| is_nan(w) && w & 0x40_0000 != 0)),
        ("another NaN", 8, float && words.iter().any(|w| is_nan(w) && w & 0x40_0000 == 0)),
        ("−0", 30, float && words.contains(&0x8000_0000)),
        ("the largest correction", 300, whole && words[0] == i32::MAX as u32),
        ("the least correction", 300, whole && words[0] == i32::MIN as u32),
        ("−250", 300, whole && words[0] as i32 == -250),
        ("the last bytes of a journal", 80, behind == 0),
        ("one where none was made", 8000, !bounded),
        ("an offset above 65535", 200, at > 0xffff),
    ]
}

// The classes of a read without a record, by how many bytes are left and what they begin with.
pub fn by_tail(journal: &[u8], at: u64) -> [Class; 13] {
    let left = journal.get(at as usize..).map_or(0, <[u8]>::len);
    let (past, inside) = (at > journal.len() as u64, (at & 0xffff_ffff) < journal.len() as u64);
    let kind = if left >= 6 { u16::from_le_bytes([journal[at as usize + 4], journal[at as usize + 5]]) as u32 } else { 0 };
    let missing = words_of(kind).map_or(0, |n| (6 + 4 * n).saturating_sub(left));
    let large = left >= 4 && left < 6 && journal[at as usize + 3] == 0xff;
    [
        ("no byte in the journal", 60, journal.is_empty()),
        ("no byte left", 20, at == journal.len() as u64),
        ("an offset past the end", 20, past),
        ("one near 2^64", 60, at > u64::MAX - 40),
        ("one whose low half lies inside", 70, past && inside),
        ("1 byte left", 60, left == 1),
        ("2 bytes", 60, left == 2),
        ("3 bytes", 60, left == 3),
        ("4 or 5 bytes", 14, left == 4 || left == 5),
        ("4 or 5 bytes with a length near 2^32", 120, large),
        ("no byte of a payload", 70, left == 6),
        ("all but one", 70, missing == 1),
        ("another part of one", 4, left > 6 && missing > 1),
    ]
}

// The classes of a refused read, by the length and the kind.
pub fn by_refusal(left: &[u8], number: u32) -> [Class; 18] {
    let length = u32::from_le_bytes(left[..4].try_into().unwrap());
    let kind = if left.len() >= 6 { u16::from_le_bytes([left[4], left[5]]) as u32 } else { 0 };
    let (small, torn) = (length < 2, (left.len() as u64) < 4 + length as u64);
    let right = words_of(kind).map_or(0, |n| 2 + 4 * n as u32);
    let (other, unknown) = (number == BAD_LENGTH && !small, number == UNKNOWN_KIND);
    let is_of_a_kind = KINDS.iter().any(|k| length == 2 + 4 * k.1 as u32);
    [
        ("17 for length 0", 14, length == 0),
        ("for length 1", 120, length == 1),
        ("for a length below 2 with fewer than six bytes left", 30, small && left.len() < 6),
        ("for length 2", 300, other && length == 2),
        ("for a length one too many or too few", 220, other && length.abs_diff(right) == 1),
        ("for a length that counts itself", 300, other && length == right.wrapping_add(4)),
        ("for the bytes of a length the other way round", 600, other && length.swap_bytes() == right),
        ("for the length 2^32 − 1", 400, other && length == u32::MAX),
        ("for a length near 2^32", 450, other && length > u32::MAX - 40 && length != u32::MAX),
        ("for a length that is right in its low byte", 60, other && length & 0xff == right),
        ("for the length of another kind", 90, other && is_of_a_kind),
        ("for a length with bytes missing", 20, other && torn),
        ("18 for kind 0", 20, unknown && kind == 0),
        ("for kind 4", 80, unknown && kind == 4),
        ("for a high byte over a kind", 60, unknown && words_of(kind & 0xff).is_some()),
        ("for the bytes of a kind the other way round", 50, unknown && kind & 0xff == 0 && words_of(kind >> 8).is_some()),
        ("for kind 65535", 20, unknown && kind == 0xffff),
        ("for a kind with bytes missing", 4, unknown && torn),
    ]
}

// The classes of a call for the end, by the model's answer and how many bytes are behind the end that it gives.
pub fn by_end(answer: u32, end: u64, left: u64) -> [Class; 6] {
    [
        ("at the last byte", 24, answer == 0 && left == 0),
        ("before a torn tail", 2, answer == 0 && left > 0),
        ("17", 80, answer == BAD_LENGTH),
        ("18", 50, answer == UNKNOWN_KIND),
        ("17 behind good records", 120, answer == BAD_LENGTH && end > 0),
        ("18 behind good records", 80, answer == UNKNOWN_KIND && end > 0),
    ]
}

// The classes of a write, by the model's answer.
pub fn by_write(room: usize, at: u64, kind: u32, answer: u32) -> [Class; 16] {
    let size = words_of(kind).map_or(34, |n| 6 + 4 * n as u64);
    let (written, short, unknown) = (answer == 0, answer == TOO_SHORT, answer == UNKNOWN_KIND);
    let (room, behind) = (room as u64, at.saturating_add(size));
    let wraps = at.checked_add(size).is_none();
    [
        ("a conic written", 20, written && kind == 1),
        ("a transform", 20, written && kind == 2),
        ("a correction", 20, written && kind == 3),
        ("with exact room", 12, written && behind == room),
        ("with a byte more", 30, written && behind + 1 == room),
        ("with more", 40, written && behind + 1 < room),
        ("at the first byte", 60, written && at == 0),
        ("2 for one byte too few", 30, short && behind == room + 1),
        ("for an offset at the end", 30, short && at == room),
        ("past it", 8, short && at > room),
        ("near 2^64, where a sum would wrap into the buffer", 40, short && wraps && at.wrapping_add(size) <= room),
        ("with its low half inside", 70, short && at >> 32 > 0 && (at & 0xffff_ffff) + size <= room),
        ("18 for a kind with a high half over one that is", 40, unknown && kind >> 16 == 1 && words_of(kind & 0xffff).is_some()),
        ("for kind 2^32 − 1", 120, unknown && kind == u32::MAX),
        ("for kind 0 or 4", 60, unknown && (kind == 0 || kind == 4)),
        ("for one that would not fit", 20, unknown && at.saturating_add(6) > room),
    ]
}
