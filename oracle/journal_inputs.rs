// Journals from a seed: of good records, two of three then damaged; and offsets, kinds and rooms for reads and writes.
use crate::inputs::Inputs;
use crate::journal_model::{words_of, Record, KINDS};

// Zeros, infinities, NaNs that are quiet and NaNs that are not, the ends of the numbers with a sign, −250, and small ones.
const SPECIAL: [u32; 24] = [
    0, 0x8000_0000, 0x7f80_0000, 0xff80_0000, 0x7fc0_0000, 0xffc0_0000, 0x7f80_0001, 0xff80_0001, 0x7fbf_ffff, 0xffbf_ffff, 0x7fff_ffff, 0xffff_ffff,
    1, 0x8000_0001, 0x007f_ffff, 0x3f80_0000, 0xffff_ff06, 2, 3, 4, 6, 26, 30, 0x0003_0000,
];

pub fn word(i: &mut Inputs) -> u32 {
    if i.chance(2) { SPECIAL[i.below(24) as usize] } else { (i.next() >> 32) as u32 }
}

// In some payloads there is a whole correction, which an offset within the record can meet.
pub fn record(i: &mut Inputs) -> Record {
    let (kind, n) = KINDS[i.below(3) as usize];
    let mut words = [0; 7];
    words[..n].fill_with(|| word(i));
    if n > 3 && i.chance(3) {
        let k = i.below(n as u64 - 2) as usize;
        (words[k], words[k + 1]) = (6, 3 | words[k + 1] << 16);
    }
    Record { kind, words }
}

// What is done to a journal before it is read.
pub const DAMAGES: [&str; 9] =
    ["nothing", "a length", "a kind", "a length and a kind", "one bit", "bytes lost", "any bytes", "erased flash behind it", "zeros behind it"];

#[derive(Default)]
pub struct Journal {
    pub bytes: Vec<u8>,
    // of what it was made; and where each record begins, and the last ends
    pub records: Vec<Record>,
    pub bounds: Vec<usize>,
    pub damage: usize,
    // where the damage begins
    pub damaged_at: usize,
}

// A length that is not the right one, but by chance.
fn length(i: &mut Inputs, right: u32) -> u32 {
    match i.below(17) {
        0 => right + 1,
        1 => right - 1,
        // one that counts itself, and one that leaves the kind out
        2 => right + 4,
        3 => right - 2,
        4 => right - 4,
        5 => 0,
        6 => 1,
        7 => 2,
        8 => right.swap_bytes(),
        9 => u32::MAX,
        10 => u32::MAX - i.below(40) as u32,
        // right but for a bit of another byte
        11 => right | 1 << 31,
        12 => right + (256 << (8 * i.below(2))),
        13 | 14 => [6, 26, 30][i.below(3) as usize],
        15 => i.below(64) as u32,
        _ => (i.next() >> 32) as u32,
    }
}

// Two bytes that are no kind, or another one.
fn kind(i: &mut Inputs) -> u16 {
    let known = KINDS[i.below(3) as usize].0 as u16;
    match i.below(8) {
        0 => 0,
        1 => 4,
        2 => known.swap_bytes(),
        3 => 0xffff,
        4 => known + 256 * (1 + i.below(255) as u16),
        5 => (i.next() >> 48) as u16,
        6 => i.below(6) as u16,
        _ => known,
    }
}

impl Journal {
    // Draws another one; `harmed` says whether some are damaged, and `large` that it is larger than 64 KiB.
    pub fn draw(&mut self, i: &mut Inputs, harmed: bool, large: bool) {
        let n = match i.below(8) {
            _ if large => 2_800 + i.below(3_000),
            0..=3 => i.below(4),
            4 | 5 => 1 + i.below(4),
            6 => i.below(12),
            _ => i.below(41),
        };
        self.make(i, n);
        self.damage = if harmed && !i.chance(3) { 1 + i.below(DAMAGES.len() as u64 - 1) as usize } else { 0 };
        // one that has a record, where a record is to be damaged
        if (1..=5).contains(&self.damage) && n == 0 {
            self.make(i, 1);
        }
        self.harm(i);
    }

    // Of so many good records.
    pub fn make(&mut self, i: &mut Inputs, records: u64) {
        self.records.clear();
        self.bytes.clear();
        self.bounds.clear();
        self.bounds.push(0);
        self.damage = 0;
        for _ in 0..records {
            let record = record(i);
            self.bytes.extend(record.bytes());
            self.records.push(record);
            self.bounds.push(self.bytes.len());
        }
    }

    // Damages it, mostly in its first record or in its last.
    pub fn harm(&mut self, i: &mut Inputs) {
        let n = self.records.len();
        let k = [0, n.saturating_sub(1), i.below(n.max(1) as u64) as usize][i.below(3) as usize];
        self.damaged_at = self.bounds[k];
        match self.damage {
            1 => self.put_length(i),
            2 => self.put_kind(i),
            3 => {
                self.put_length(i);
                self.put_kind(i);
            }
            4 => self.bytes[self.bounds[k] + i.below(6) as usize] ^= 1 << i.below(8),
            5 => {
                let from = self.bounds[k] + i.below(10) as usize;
                self.bytes.drain(from..(from + 1 + i.below(8) as usize).min(self.bytes.len()));
            }
            6 => self.any_bytes(i),
            7 | 8 => {
                self.damaged_at = self.bytes.len();
                let fill = if self.damage == 7 { 0xff } else { 0 };
                self.bytes.resize(self.bytes.len() + 1 + i.below(80) as usize, fill);
            }
            _ => {}
        }
    }

    fn put_length(&mut self, i: &mut Inputs) {
        let to = &mut self.bytes[self.damaged_at..][..4];
        let right = u32::from_le_bytes((&*to).try_into().unwrap());
        to.copy_from_slice(&length(i, right).to_le_bytes());
    }

    fn put_kind(&mut self, i: &mut Inputs) {
        self.bytes[self.damaged_at + 4..][..2].copy_from_slice(&kind(i).to_le_bytes());
    }

    // All random, or a random length and a random kind, again and again, with some bytes behind them.
    fn any_bytes(&mut self, i: &mut Inputs) {
        self.damaged_at = 0;
        self.bytes.clear();
        let (len, plain) = (i.below(80) as usize, i.chance(4));
        while self.bytes.len() < len {
            if !plain {
                let right = [6, 26, 30][i.below(3) as usize];
                let length = if i.chance(2) { right } else { length(i, right) };
                self.bytes.extend(length.to_le_bytes());
                self.bytes.extend(kind(i).to_le_bytes());
            }
            self.bytes.extend((0..1 + i.below(28)).map(|_| (i.next() >> 40) as u8).collect::<Vec<u8>>());
        }
    }

    // Where it is cut: a short one of good records at every byte; any other not at all, anywhere, and mostly just behind where
    // its damage begins.
    pub fn cuts(&self, i: &mut Inputs, into: &mut Vec<usize>) {
        const SHORT: usize = 110;
        let len = self.bytes.len();
        into.clear();
        if self.damage == 0 && len <= SHORT {
            into.extend(0..=len);
            return;
        }
        into.extend([len, i.below(len as u64 + 1) as usize, i.below(len as u64 + 1) as usize]);
        if self.damage > 0 {
            let near = [5, 6, 7, 9, 40].map(|most| (self.damaged_at + 4 + i.below(most - 4) as usize).min(len));
            into.extend(near);
        }
    }
}

// An offset in a journal of so many bytes, or outside of it.
pub fn offset(i: &mut Inputs, len: usize) -> u64 {
    let (len, inside) = (len as u64, i.below(len as u64 + 1));
    match i.below(10) {
        0 => len,
        1 => len + 1 + i.below(40),
        2 => u64::MAX - i.below(40),
        // what 32 bits would take for an offset inside
        3 => (1 + i.below(1 << 31)) << 32 | inside,
        4 => (i.next() >> i.below(64)).max(len),
        _ => inside,
    }
}

// A kind to write: mostly one that is.
pub fn kind_to_write(i: &mut Inputs) -> u32 {
    const NONE: [u32; 10] = [0, 4, 256, 257, 65535, 65536, 65537, 65538, 65539, u32::MAX];
    match i.below(16) {
        0..=2 => NONE[i.below(10) as usize],
        3 => (i.next() >> 32) as u32,
        _ => KINDS[i.below(3) as usize].0,
    }
}

// The room of a buffer, and an offset in it, for a record of a kind: exact, one byte short, one byte more, or any.
pub fn room(i: &mut Inputs, kind: u32) -> (usize, u64) {
    let size = 6 + 4 * words_of(kind).unwrap_or(i.below(8) as usize) as u64;
    let (before, any) = (i.below(40).saturating_sub(4), i.below(120));
    match i.below(12) {
        0..=2 => ((before + size) as usize, before),
        3 => ((before + size - 1) as usize, before),
        4 => ((before + size + 1) as usize, before),
        5 => (before as usize, before),
        6 => (before as usize, before + 1 + i.below(40)),
        // so near to 2^64 that the sum with the size wraps into the buffer; and not so near
        7 => (any as usize, 0u64.wrapping_sub(1 + i.below(size))),
        8 => (any as usize, 0u64.wrapping_sub(1 + size + i.below(9))),
        9 => (any as usize, (1 + i.below(1 << 31)) << 32 | i.below(any + 1)),
        _ => (any as usize, i.below(any + 1)),
    }
}
