// What of strict-num the crate re-exports: an f32 within a range, compared as floats are.

#[derive(Copy, Clone, PartialEq, PartialOrd, Default, Debug)]
pub struct FiniteF32(f32);

impl Eq for FiniteF32 {}

impl Ord for FiniteF32 {
    fn cmp(&self, other: &Self) -> core::cmp::Ordering {
        self.partial_cmp(other).unwrap()
    }
}

impl FiniteF32 {
    pub fn new(n: f32) -> Option<Self> {
        if n.is_finite() { Some(FiniteF32(n)) } else { None }
    }

    pub const unsafe fn new_unchecked(n: f32) -> Self {
        FiniteF32(n)
    }

    pub const fn get(self) -> f32 {
        self.0
    }
}

#[derive(Copy, Clone, PartialEq, PartialOrd, Default, Debug)]
pub struct NonZeroPositiveF32(f32);

// 0 <= n <= 1
#[derive(Copy, Clone, PartialEq, PartialOrd, Default, Debug)]
pub struct NormalizedF32(f32);

impl NormalizedF32 {
    pub const ZERO: Self = NormalizedF32(0.0);
    pub const ONE: Self = NormalizedF32(1.0);

    pub fn new(n: f32) -> Option<Self> {
        if n >= 0.0 && n <= 1.0 { Some(NormalizedF32(n)) } else { None }
    }

    pub fn new_clamped(n: f32) -> Self {
        if n.is_nan() { NormalizedF32(0.0) } else { NormalizedF32(n.max(0.0).min(1.0)) }
    }

    pub const unsafe fn new_unchecked(n: f32) -> Self {
        NormalizedF32(n)
    }

    pub const fn get(self) -> f32 {
        self.0
    }
}
