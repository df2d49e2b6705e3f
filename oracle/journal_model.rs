// A journal as the rules have it, apart from the library: bytes are taken one after the other from an iterator, so that no
// offset is ever computed from a length that was read, and numbers are summed up from bytes in 128 bits.

pub const BAD_LENGTH: u32 = 17;
pub const UNKNOWN_KIND: u32 = 18;
pub const TOO_SHORT: u32 = 2;

// Each kind, and how many words its payload has.
pub const KINDS: [(u32, usize); 3] = [(1, 7), (2, 6), (3, 1)];

// How many words a kind has, and none for what is no kind.
pub fn words_of(kind: u32) -> Option<usize> {
    KINDS.iter().find(|k| k.0 == kind).map(|k| k.1)
}

// A kind and its words; those past the payload are 0.
#[derive(Clone, Copy, PartialEq, Debug)]
pub struct Record {
    pub kind: u32,
    pub words: [u32; 7],
}

impl Record {
    pub fn payload(&self) -> &[u32] {
        &self.words[..words_of(self.kind).unwrap()]
    }

    // The bytes of its length, its kind and its words, each number from its least byte on.
    pub fn bytes(&self) -> impl Iterator<Item = u8> + '_ {
        let length = 2 + 4 * self.payload().len() as u32;
        let words = self.payload().iter().flat_map(|w| w.to_le_bytes());
        length.to_le_bytes().into_iter().chain((self.kind as u16).to_le_bytes()).chain(words)
    }

    // How many bytes these are.
    pub fn size(&self) -> usize {
        6 + 4 * self.payload().len()
    }
}

// What a read comes to.
#[derive(Clone, Copy, PartialEq, Debug)]
pub enum Found {
    Record(Record),
    End,
    Short,
    Refused(u32),
}

// The number of the next `n` bytes, the first of them the least; none where they are not all there.
fn number(left: &mut impl Iterator<Item = u8>, n: usize) -> Option<u128> {
    let (mut sum, mut unit) = (0, 1);
    for _ in 0..n {
        sum += left.next()? as u128 * unit;
        unit *= 256;
    }
    Some(sum)
}

// Reads at an offset, in the order of the rules.
pub fn read(journal: &[u8], at: u64) -> Found {
    if at as i128 >= journal.len() as i128 {
        return Found::End;
    }
    let mut left = journal.iter().copied().skip(at as usize);
    let Some(length) = number(&mut left, 4) else {
        return Found::Short;
    };
    if length < 2 {
        return Found::Refused(BAD_LENGTH);
    }
    let Some(kind) = number(&mut left, 2) else {
        return Found::Short;
    };
    let Some(n) = words_of(kind as u32) else {
        return Found::Refused(UNKNOWN_KIND);
    };
    if length != 2 + 4 * n as u128 {
        return Found::Refused(BAD_LENGTH);
    }
    let mut words = [0; 7];
    for word in words[..n].iter_mut() {
        match number(&mut left, 4) {
            Some(w) => *word = w as u32,
            None => return Found::Short,
        }
    }
    Found::Record(Record { kind: kind as u32, words })
}

// Where the last whole record ends; or a refusal, and where its record begins.
pub fn end(journal: &[u8]) -> (u32, u64) {
    let mut at = 0;
    loop {
        match read(journal, at) {
            Found::Record(r) => at += r.size() as u64,
            Found::Refused(number) => return (number, at),
            Found::End | Found::Short => return (0, at),
        }
    }
}

// Writes a record at an offset; where it ends, or why nothing was written.
pub fn write(buffer: &mut [u8], at: u64, kind: u32, words: &[u32; 7]) -> Result<u64, u32> {
    if words_of(kind).is_none() {
        return Err(UNKNOWN_KIND);
    }
    let record = Record { kind, words: *words };
    let behind = at as i128 + record.size() as i128;
    if behind > buffer.len() as i128 {
        return Err(TOO_SHORT);
    }
    buffer.iter_mut().skip(at as usize).zip(record.bytes()).for_each(|(to, b)| *to = b);
    Ok(behind as u64)
}
