// Inputs from a seed: numbers of one kind for a whole record, with a special value thrown in now and then, and in some
// records zeros of either sign for about half of the numbers.

pub struct Inputs {
    state: u64,
    kind: u64,
    zeros: bool,
    base: u32,
}

const SPECIAL: [u32; 24] = [
    0, 0x8000_0000, 1, 0x8000_0001, 0x007f_ffff, 0x0080_0000, 0x3f00_0000, 0x3f80_0000, 0xbf80_0000, 0x4000_0000, 0x3f7f_ffff, 0x3f80_0001,
    0x5f00_0000, 0x5f80_0000, 0x6000_0000, 0x7f00_0000, 0xff00_0000, 0x7f7f_ffff, 0xff7f_ffff, 0x7f80_0000, 0xff80_0000, 0x7fc0_0000, 0x1f80_0000, 0x0d80_0000,
];

// A computed NaN has other bits on another processor, and the inputs are to be the same on all.
fn plain(x: f32) -> f32 {
    if x.is_nan() { f32::from_bits(0x7fc0_0000) } else { x }
}

impl Inputs {
    pub fn new(seed: u64) -> Inputs {
        Inputs { state: seed.wrapping_mul(0x9e37_79b9_7f4a_7c15) | 1, kind: 0, zeros: false, base: 0 }
    }

    pub fn next(&mut self) -> u64 {
        self.state ^= self.state << 13;
        self.state ^= self.state >> 7;
        self.state ^= self.state << 17;
        self.state.wrapping_mul(0x2545_f491_4f6c_dd1d)
    }

    pub fn below(&mut self, n: u64) -> u64 {
        (self.next() >> 16) % n
    }

    pub fn chance(&mut self, n: u64) -> bool {
        self.below(n) == 0
    }

    // Begins a record: its numbers will be of one kind.
    pub fn begin(&mut self) {
        self.kind = self.below(10);
        self.zeros = self.chance(4);
        self.base = ((self.below(2) << 31) | (90 + self.below(80)) << 23 | self.below(1 << 23)) as u32;
    }

    pub fn special(&mut self) -> f32 {
        f32::from_bits(SPECIAL[self.below(24) as usize])
    }

    // A zero of either sign.
    pub fn zero(&mut self) -> f32 {
        if self.chance(2) { 0.0 } else { -0.0 }
    }

    pub fn any(&mut self) -> f32 {
        f32::from_bits((self.next() >> 32) as u32)
    }

    // A number of the record's kind.
    pub fn value(&mut self) -> f32 {
        if self.zeros && self.chance(2) {
            return self.zero();
        }
        if self.chance(24) {
            return self.special();
        }
        let r = self.next() >> 11;
        let sign = ((r & 1) as u32) << 31;
        let digits = (r >> 8) as u32 & 0x7f_ffff;
        match self.kind {
            0 => self.any(),
            // whole and quarter steps, many of them equal
            1 => ((r >> 4) % 65) as f32 * 0.25 - 8.0,
            2 => ((r >> 4) % 20001) as f32 - 10000.0,
            // near 1 and near powers of two
            3 => f32::from_bits(sign | (120 + ((r >> 40) % 16) as u32) << 23 | digits),
            4 => f32::from_bits(((127 - 30 + (r >> 40) % 60) as u32) << 23 | (digits & 0x7f_fff8) >> 20 | sign),
            // about the underflow, and about the overflow of products and sums
            5 => f32::from_bits(sign | ((r >> 40) % 80) as u32 * 0x80_0000 | digits),
            6 => f32::from_bits(sign | (180 + ((r >> 40) % 75) as u32) << 23 | digits),
            // a huge span: differences overflow; and a tiny one: a few units in the last place
            7 => f32::from_bits(sign | (249 + ((r >> 40) % 6) as u32) << 23 | digits),
            8 => f32::from_bits(self.base + (r >> 40) as u32 % 6),
            // a millisecond clock
            _ => ((r >> 4) % 16_777_217) as f32,
        }
    }

    // A parameter for evaluation and chops: mostly in range.
    pub fn parameter(&mut self) -> f32 {
        match self.below(12) {
            0 => 0.0,
            1 => 1.0,
            2 => -0.0,
            3 => self.special(),
            4 => self.any(),
            5 => 0.5,
            _ => ((self.next() >> 40) as f32 + 1.0) / 16_777_218.0,
        }
    }

    pub fn weight(&mut self) -> f32 {
        match self.below(16) {
            // about -1, where the formulas divide by zero
            12 => f32::from_bits(0xbf80_0000 - 4 + self.below(9) as u32),
            13 => -1.0 + (self.below(2001) as f32 - 1000.0) / 1_000_000.0,
            0 => f32::from_bits(0x7fc0_0000),
            1 | 14 | 15 => self.zero(),
            2 => -1.0,
            3 => 1.0,
            4 => self.any(),
            5 => self.special(),
            6 => -((self.next() >> 40) as f32) / 4_000_000.0,
            _ => (self.next() >> 40) as f32 / 8_000_000.0,
        }
    }

    // A conic's six numbers: some with two coordinates one unit in the last place apart, and every other one with its
    // middle y between its ends.
    pub fn conic(&mut self) -> [f32; 6] {
        let mut p = [0.0; 6];
        for v in p.iter_mut() {
            *v = self.value();
        }
        if self.chance(6) {
            let (k, other) = (self.below(6) as usize, 2 + 2 * self.below(2) as usize);
            p[(k + other) % 6] = f32::from_bits(p[k].to_bits() ^ 1);
        }
        if self.chance(2) {
            for k in 0..2 {
                let (a, b, c) = (p[k], p[k + 2], p[k + 4]);
                if !(a <= b && b <= c) && !(a >= b && b >= c) {
                    p[k + 2] = if self.chance(2) { a } else { c };
                    let half = a * 0.5 + c * 0.5;
                    if half.is_finite() && self.chance(2) {
                        p[k + 2] = half;
                    }
                }
            }
        }
        p
    }

    // One axis of a conic: some put in order; some with the least or the greatest number in the middle; some with a middle
    // that is one unit in the last place outside of the ends.
    pub fn axis(&mut self, mut p: [f32; 3]) -> [f32; 3] {
        match self.below(8) {
            0..=2 => p.sort_by(f32::total_cmp),
            3 => {
                p.sort_by(f32::total_cmp);
                p.swap(1, 2 * self.below(2) as usize);
            }
            4 => {
                let far = if p[0].abs() > p[2].abs() { p[0] } else { p[2] };
                p[1] = f32::from_bits(far.to_bits().wrapping_add(1));
            }
            _ => {}
        }
        if self.chance(2) {
            p.reverse();
        }
        p
    }

    // A matrix in from_row order: of every kind, near-singular ones among them.
    pub fn matrix(&mut self) -> [f32; 6] {
        let mut m = [0.0; 6];
        for v in m.iter_mut() {
            *v = self.value();
        }
        match self.below(10) {
            0 => m = [1.0, self.zero(), self.zero(), 1.0, self.zero(), self.zero()],
            1 => m = [1.0, self.zero(), self.zero(), 1.0, m[4], m[5]],
            2 => m = [m[0], self.zero(), self.zero(), m[3], m[4], m[5]],
            3 => m = [m[0], self.zero(), self.zero(), m[3], self.zero(), self.zero()],
            4 => m = [1.0, m[1], m[2], 1.0, self.zero(), self.zero()],
            // a determinant about zero: rows that are nearly multiples
            5 => {
                let k = self.value();
                m[2] = plain(m[0] * k);
                m[3] = plain(m[1] * k);
                if self.chance(2) {
                    m[3] = f32::from_bits(m[3].to_bits() ^ 1);
                }
            }
            // a determinant about 2^-36
            6 => {
                let e = 2f32.powi(-18 - self.below(3) as i32 + 1);
                m[0] = e * (1.0 + self.below(5) as f32 * f32::EPSILON);
                m[3] = e * (1.0 - self.below(5) as f32 * f32::EPSILON);
                m[1] = self.zero();
                m[2] = 1.0;
            }
            _ => {}
        }
        m
    }

    // A double: any bits, or where binary32 has its values and about its ends, half of these beside a tie; or a zero of
    // either sign and what is next to it, or so small that it is narrowed to a zero.
    pub fn double(&mut self) -> f64 {
        let r = self.next();
        let mut b = self.next();
        if r % 2 == 0 {
            b = (b & (1 << 63)) | (868 + (r >> 8) % 290) << 52 | (b & 0xf_ffff_ffff_ffff);
            if r % 4 == 0 {
                b = (b & !0x1fff_ffff) + 0x1000_0000 + (r >> 40) % 3 - 1;
            }
        } else if r % 8 == 1 {
            b = (b & (1 << 63)) | ((r >> 8) % 4).saturating_sub(2);
        } else if r % 16 == 3 {
            b = (b & (1 << 63)) | (r >> 8) % 872 << 52 | (b & 0xf_ffff_ffff_ffff);
        }
        f64::from_bits(b)
    }

    // A quad's or a cubic's 2n numbers, some points of it coinciding, and a parameter.
    pub fn curve(&mut self, n: usize) -> ([f32; 8], f32) {
        let mut xs = [0.0; 8];
        for x in xs[..2 * n].iter_mut() {
            *x = self.value();
        }
        if self.chance(3) {
            let k = self.below(n as u64 - 1) as usize;
            xs[2 * k + 2] = xs[2 * k];
            xs[2 * k + 3] = if self.chance(4) { -xs[2 * k + 1] } else { xs[2 * k + 1] };
        }
        let t = self.parameter();
        (xs, t)
    }

    pub fn tolerance(&mut self) -> f32 {
        match self.below(8) {
            0 => self.special(),
            1 => self.any(),
            2 => 0.25,
            3 => self.zero(),
            _ => self.below(4000) as f32 / 1000.0,
        }
    }

    // A length about the limit: mostly enough.
    pub fn length(&mut self, limit: usize) -> usize {
        match self.below(8) {
            0 => self.below(limit as u64 + 4) as usize,
            1 => limit - 1,
            2 => limit + self.below(4) as usize,
            _ => limit,
        }
    }
}
