// Ways in which what the library left is spoiled, each as a wrong library could leave it, and the classes of inputs in which each
// must be seen.
use crate::flags::lost;
use crate::flags_calls::{transform, Call, Given, Left, To};
use crate::{NZ_INVERSE_NOT_FINITE, NZ_NEARLY_SINGULAR, NZ_OK};

#[derive(Clone, Copy, PartialEq)]
pub enum Spoil {
    Nothing,
    // of the numbers that are narrowed one is left out: of a product's six, or of the determinant and an inverse's six
    ProductWithout(usize),
    InverseWithout(usize),
    LastOnly,
    DeterminantOnly,
    // which values count as lost
    NanLost,
    InfinityLost,
    SubnormalLost,
    MinusZeroLost,
    ToInfinityKept,
    FiniteKept,
    ToZeroKept,
    // where nothing is narrowed, or behind the narrowing
    FloatsCounted,
    AdditionCounted,
    NothingSet,
    // how it is stored
    NeverSet,
    NotCleared,
    NotABool,
    OtherInPlace,
    // beside a refusal
    ClearedBeside6,
    ClearedBeside7,
    SetBesideRefusal,
    ResultBesideRefusal,
    SevenForSix,
    SixForSeven,
    // of the result
    EntryOff,
}

use Spoil::*;

const ONE_SUM: &[&str] = &["one sum rounded", "infinities and NaN given, and one sum rounded"];
const DETERMINANT: &[&str] = &["inverse: the determinant alone, gone to infinity", "inverse: the determinant alone, rounded"];
const ONE_ENTRY: &[&str] = &["inverse: one entry rounded"];
const BOTH: &[&str] = &["one sum rounded", "inverse: one entry rounded"];
const NOT_FINITE: &[&str] = &["infinities and NaN given, else whole numbers"];
const TINY_KEPT: &[&str] = &["all sums subnormal or zero, kept", "inverse: one entry subnormal, kept"];
const TINY: &[&str] = &["one sum rounded to a subnormal number or to zero"];
const TO_INFINITY: &[&str] = &["one sum gone to infinity", "inverse: the determinant alone, gone to infinity"];
const ADDED: &[&str] = &["whole numbers, and the addition behind them rounded", "a move after"];
const UNSKEWED: &[&str] = &["neither skews", "inverse: no skew"];
const NO_PART: &[&str] = &["one does nothing", "inverse: of what does nothing"];
const ALL_CLEAR: &[&str] = &["whole numbers", "neither skews", "one does nothing", "inverse: no skew", "inverse: of what does nothing"];
const SINGULAR: &[&str] = &["inverse: nearly singular"];
const NO_INVERSE: &[&str] = &["inverse: not finite", "inverse: no skew, not finite"];
const REFUSED: &[&str] = &["inverse: nearly singular", "inverse: not finite", "inverse: no skew, not finite"];

// Each with the classes in which it must be seen.
pub const SPOILS: [(Spoil, &[&str], &str); 36] = [
    (ProductWithout(0), ONE_SUM, "a product's flag without sx"),
    (ProductWithout(1), ONE_SUM, "a product's flag without ky"),
    (ProductWithout(2), ONE_SUM, "a product's flag without kx"),
    (ProductWithout(3), ONE_SUM, "a product's flag without sy"),
    (ProductWithout(4), ONE_SUM, "a product's flag without tx"),
    (ProductWithout(5), ONE_SUM, "a product's flag without ty"),
    (InverseWithout(0), DETERMINANT, "an inverse's flag without the determinant"),
    (InverseWithout(1), ONE_ENTRY, "an inverse's flag without sx"),
    (InverseWithout(2), ONE_ENTRY, "an inverse's flag without ky"),
    (InverseWithout(3), ONE_ENTRY, "an inverse's flag without kx"),
    (InverseWithout(4), ONE_ENTRY, "an inverse's flag without sy"),
    (InverseWithout(5), ONE_ENTRY, "an inverse's flag without tx"),
    (InverseWithout(6), ONE_ENTRY, "an inverse's flag without ty"),
    (LastOnly, BOTH, "the flag of the last entry only"),
    (DeterminantOnly, ONE_ENTRY, "the flag of the determinant only"),
    (NanLost, NOT_FINITE, "a NaN that was given counted as lost"),
    (InfinityLost, NOT_FINITE, "an infinity that was given counted as lost"),
    (SubnormalLost, TINY_KEPT, "a subnormal number that is kept counted as lost"),
    (MinusZeroLost, &["inverse: the determinant a power of two"], "−0 counted as lost"),
    (ToInfinityKept, TO_INFINITY, "what is gone to infinity counted as kept"),
    (FiniteKept, BOTH, "only what is gone to infinity counted as lost"),
    (ToZeroKept, TINY, "what is rounded to a zero counted as kept"),
    (FloatsCounted, UNSKEWED, "set by float arithmetic where nothing skews"),
    (AdditionCounted, ADDED, "set by the addition behind the narrowing"),
    (NothingSet, NO_PART, "set where a matrix does nothing"),
    (NeverSet, BOTH, "never set"),
    (NotCleared, ALL_CLEAR, "not cleared where it stood at true"),
    (NotABool, BOTH, "a byte that is no bool"),
    (OtherInPlace, ALL_CLEAR, "another flag in place"),
    (ClearedBeside6, SINGULAR, "cleared beside 6"),
    (ClearedBeside7, NO_INVERSE, "cleared beside 7"),
    (SetBesideRefusal, REFUSED, "set beside a refusal"),
    (ResultBesideRefusal, REFUSED, "the result stored beside a refusal"),
    (SevenForSix, SINGULAR, "7 for 6"),
    (SixForSeven, NO_INVERSE, "6 for 7"),
    (EntryOff, &["plain numbers", "inverse: plain numbers"], "an entry one unit off"),
];

fn differs(float: f32, exact: f64) -> bool {
    float as f64 != exact && !exact.is_nan()
}

// Whether the sum is rounded as a float, or already as an f64.
fn sum_rounded(a: f32, b: f32) -> bool {
    let (x, y) = (a as f64, b as f64);
    (x + y).is_finite() && (differs(a + b, x + y) || x + y - x != y)
}

// Whether an addition behind the narrowing is rounded.
fn addition_rounded(g: &Given) -> bool {
    let ((list, n), (a, _)) = (g.narrowed(), g.pair());
    n == 6 && (sum_rounded(list[4] as f32, a.tx) || sum_rounded(list[5] as f32, a.ty))
}

// Whether a product or an inverse that narrows nothing rounds in float arithmetic.
fn unskewed_rounded(g: &Given) -> bool {
    if g.narrowed().1 > 0 {
        return false;
    }
    if g.call == Call::Invert {
        let t = transform(&g.m);
        return !t.is_identity() && [t.sx, t.sy].iter().any(|x| differs(1.0 / x, 1.0 / *x as f64));
    }
    let (a, b) = g.pair();
    let rounded = |x: f32, y: f32| differs(x * y, x as f64 * y as f64);
    !a.is_identity() && !b.is_identity() && (rounded(a.sx, b.sx) || rounded(a.sy, b.sy))
}

// Whether some float arithmetic rounds, of which the flag says nothing.
pub fn floats_rounded(g: &Given) -> bool {
    addition_rounded(g) || unskewed_rounded(g)
}

fn does_nothing(g: &Given) -> bool {
    let (a, b) = g.pair();
    if g.call == Call::Invert { transform(&g.m).is_identity() } else { a.is_identity() || b.is_identity() }
}

impl Spoil {
    pub fn spoil(self, g: &Given, to: To, stood: u8, left: &mut Left) {
        if left.number != NZ_OK {
            return self.refused(left);
        }
        match self {
            Nothing => {}
            NeverSet => left.flag = 0,
            NotCleared => left.flag |= stood,
            NotABool if left.flag == 1 => left.flag = 255,
            OtherInPlace if to != To::Apart => left.flag ^= 1,
            EntryOff => left.m[5] = f32::from_bits(left.m[5].to_bits() ^ 1),
            FloatsCounted => left.flag |= unskewed_rounded(g) as u8,
            AdditionCounted => left.flag |= addition_rounded(g) as u8,
            NothingSet => left.flag |= does_nothing(g) as u8,
            _ => {
                let (list, n) = g.narrowed();
                if let Some(flag) = self.flag(&list[..n]) {
                    left.flag = flag as u8;
                }
            }
        }
    }

    // A wrong flag of the numbers that are narrowed, if it is of such.
    fn flag(self, xs: &[f64]) -> Option<bool> {
        let (product, inverse) = (xs.len() == 6, xs.len() == 7);
        let without = |k: usize| xs.iter().enumerate().any(|(j, x)| j != k && lost(*x));
        let also = |counted: fn(f64) -> bool| xs.iter().any(|x| lost(*x) || counted(*x));
        let only = |counted: fn(f32) -> bool| xs.iter().any(|x| lost(*x) && counted(*x as f32));
        Some(match self {
            ProductWithout(k) if product => without(k),
            InverseWithout(k) if inverse => without(k),
            LastOnly => lost(*xs.last()?),
            DeterminantOnly if inverse => lost(xs[0]),
            NanLost => also(f64::is_nan),
            InfinityLost => also(f64::is_infinite),
            SubnormalLost => also(|x| (x as f32).is_subnormal()),
            MinusZeroLost => also(|x| x == 0.0 && x.is_sign_negative()),
            ToInfinityKept => only(f32::is_finite),
            FiniteKept => only(f32::is_infinite),
            ToZeroKept => only(|r| r != 0.0),
            _ => return None,
        })
    }

    fn refused(self, left: &mut Left) {
        match (self, left.number) {
            (ClearedBeside6, NZ_NEARLY_SINGULAR) | (ClearedBeside7, NZ_INVERSE_NOT_FINITE) => left.flag = 0,
            (SetBesideRefusal, _) => left.flag = 1,
            (ResultBesideRefusal, _) => left.m = [0.0; 6],
            (SevenForSix, NZ_NEARLY_SINGULAR) => left.number = NZ_INVERSE_NOT_FINITE,
            (SixForSeven, NZ_INVERSE_NOT_FINITE) => left.number = NZ_NEARLY_SINGULAR,
            _ => {}
        }
    }
}
