// What a call gave, word by word, and how two such lists are compared.

#[derive(Clone, Copy, PartialEq)]
enum Kind {
    Bits,     // no float: the same bits
    Copied,   // a float that was copied: the same bits
    Computed, // the same bits, but that any NaN equals any NaN
}

// As many as a cut's: its answer, and its buffer.
const WORDS: usize = 1 + crate::of_conics::LENT;

pub struct Output {
    words: [u32; WORDS],
    kinds: [Kind; WORDS],
    len: usize,
}

// What stands in lent memory before a call: a number of its own in each place.
pub fn stood(k: usize) -> f32 {
    7000.0 + k as f32
}

pub fn buffer<const N: usize>() -> [f32; N] {
    std::array::from_fn(stood)
}

impl Output {
    pub fn new() -> Output {
        Output { words: [0; WORDS], kinds: [Kind::Bits; WORDS], len: 0 }
    }

    pub fn clear(&mut self) {
        self.len = 0;
    }

    fn push(&mut self, word: u32, kind: Kind) {
        self.words[self.len] = word;
        self.kinds[self.len] = kind;
        self.len += 1;
    }

    pub fn number(&mut self, n: u32) {
        self.push(n, Kind::Bits);
    }

    pub fn flag(&mut self, b: bool) {
        self.number(b as u32);
    }

    pub fn computed(&mut self, xs: &[f32]) {
        for x in xs {
            self.push(x.to_bits(), Kind::Computed);
        }
    }

    pub fn copied(&mut self, xs: &[f32]) {
        for x in xs {
            self.push(x.to_bits(), Kind::Copied);
        }
    }

    pub fn double(&mut self, x: f64) {
        let bits = if x.is_nan() { f64::NAN.to_bits() } else { x.to_bits() };
        self.number(bits as u32);
        self.number((bits >> 32) as u32);
    }

    // What stood in the places from `from` up to `to`.
    pub fn untouched(&mut self, from: usize, to: usize) {
        for k in from..to {
            self.copied(&[stood(k)]);
        }
    }

    // The words as the list has them: every NaN as one, since Rattle does not tell them apart.
    pub fn words(&self) -> impl Iterator<Item = u32> + '_ {
        (0..self.len).map(|k| match self.kinds[k] {
            Kind::Copied | Kind::Computed if f32::from_bits(self.words[k]).is_nan() => 0x7fc0_0000,
            _ => self.words[k],
        })
    }

    // Word k as it is.
    pub fn word(&self, k: usize) -> u32 {
        self.words[k]
    }

    // Whether the two are the same; `self` is the library's, and the judge says which words are computed.
    pub fn same(&self, judge: &Output) -> bool {
        self.len == judge.len && (0..self.len).all(|k| {
            let (a, b) = (self.words[k], judge.words[k]);
            a == b || judge.kinds[k] == Kind::Computed && f32::from_bits(a).is_nan() && f32::from_bits(b).is_nan()
        })
    }

    // Whether an f32 that was computed is −0.
    pub fn minus_zero(&self) -> bool {
        (0..self.len).any(|k| self.kinds[k] == Kind::Computed && self.words[k] == 0x8000_0000)
    }

    // The words in which two outputs are not the same bits.
    pub fn apart(&self, judge: &Output) -> String {
        let words = (0..self.len.max(judge.len)).filter(|&k| self.words[k] != judge.words[k]);
        words.map(|k| format!("word {}: {:08x}, not {:08x}", k, self.words[k], judge.words[k])).collect::<Vec<_>>().join("; ")
    }
}
