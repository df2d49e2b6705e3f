// The conics that are timed, by kinds, all from the same drawn numbers.
pub const CONICS: usize = 64;

pub type Inputs = Vec<([f32; 6], f32)>;

#[derive(Clone, Copy)]
pub enum Kind {
    Plain,
    Falling,
    NoOrder,
    YsEqual,
    XsEqual,
    Overflowing,
    NanWeight,
    Subnormals,
    Corrected,
    ThroughF64,
}

pub const KINDS: [(&str, Kind); 10] = [
    ("plain", Kind::Plain),
    ("falling", Kind::Falling),
    ("in no order", Kind::NoOrder),
    ("all ys equal", Kind::YsEqual),
    ("all xs equal", Kind::XsEqual),
    ("overflowing", Kind::Overflowing),
    ("NaN weight", Kind::NanWeight),
    ("subnormals", Kind::Subnormals),
    ("corrected", Kind::Corrected),
    ("through f64", Kind::ThroughF64),
];

pub const LEGEND: &str = "
    Plain: numbers below 2^25 that rise along both axes, weights from 0.25 to 1.25. Falling: the ends exchanged. In no order: each
    number drawn by itself, so that along an axis one middle in three lies between the ends. Overflowing: finite coordinates whose
    products overflow, so that the cut is pinned. NaN weight: of plain points. Subnormals: every coordinate is one. Corrected:
    weights below 0, so that the first chop runs out of order along both axes. Through f64: ys whose sums overflow, so that midpoints
    are computed again through f64.";

// Bits, the same each time.
pub fn bits() -> impl FnMut() -> u64 {
    let mut s = 88172645463325252u64;
    move || {
        s ^= s << 13;
        s ^= s >> 7;
        s ^= s << 17;
        s
    }
}

// Whole numbers below 2^24, the same each time.
pub fn random() -> impl FnMut() -> f32 {
    let mut next = bits();
    move || (next() >> 40) as f32
}

fn points(kind: Kind, next: &mut impl FnMut() -> f32) -> [f32; 6] {
    let (a, b, c) = (next(), next(), next());
    let rising = [a, c, a + b * 0.5, c + b * 0.25, a + b, c + b];
    let [x0, y0, x1, y1, x2, y2] = rising;
    match kind {
        Kind::Plain | Kind::NanWeight | Kind::Corrected => rising,
        Kind::Falling => [x2, y2, x1, y1, x0, y0],
        Kind::NoOrder => [a, b, c, next(), next(), next()],
        Kind::YsEqual => [x0, y0, x1, y0, x2, y0],
        Kind::XsEqual => [x0, y0, x0, y1, x0, y2],
        Kind::Overflowing => rising.map(|v| v * 1.0e30),
        // the bits of a subnormal are its place among them, and there are 2^23 of them
        Kind::Subnormals => rising.map(|v| f32::from_bits(v as u32 / 4)),
        // the xs are so small that the products do not overflow
        Kind::ThroughF64 => {
            let (a, b) = (a / 16777216.0, b / 16777216.0);
            [a * 1e-30, 2.9e38, (a + b) * 1e-30, 3.0e38 + b * 1e37, (a + 2.0 * b) * 1e-30, 3.3e38]
        }
    }
}

// Whether the points are what the name of the kind says, where that is not seen at once.
fn fits(kind: Kind, p: &[f32; 6]) -> bool {
    match kind {
        Kind::Overflowing => p.chunks(2).all(|c| c[0].is_finite() && c[1].is_finite() && !(c[0] * c[1]).is_finite()),
        Kind::Subnormals => p.iter().all(|v| v.is_subnormal()),
        Kind::ThroughF64 => p.chunks(2).all(|c| (c[0] * c[1]).is_finite()) && !(p[1] + p[5]).is_finite(),
        _ => true,
    }
}

pub fn conics(kind: Kind) -> Inputs {
    let mut next = random();
    let mut conic = || {
        let p = points(kind, &mut next);
        let weight = 0.25 + next() / 16777216.0;
        assert!(fits(kind, &p), "a conic of another kind is not timed");
        match kind {
            Kind::NanWeight => (p, f32::NAN),
            Kind::Corrected => (p, -0.5 * weight),
            _ => (p, weight),
        }
    };
    (0..CONICS).map(|_| conic()).collect()
}
