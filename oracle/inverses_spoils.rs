// Ways in which what the library left is spoiled, each as a wrong library could leave it, and the classes of inputs in which each
// must be seen.
use crate::flags;
use crate::flags_calls::{transform, Given, Left, To};
use crate::inverse::{computed, entries, inverse, not_finite, NEARLY_SINGULAR, NOT_FINITE};
use crate::inverses_classes::{way, Way};
use original::transform::{dcross, inv_determinant};
use original::Transform;

#[derive(Clone, Copy, PartialEq)]
pub enum Spoil {
    Nothing,
    // which entries of the inverse are tested, and for what
    ScalesOnly,
    FirstOnly,
    Without(Way, usize),
    Unchecked(Way),
    NanKept,
    InfinityKept,
    LargestRefused,
    // what is tested in the place of the inverse, or beside it
    GivenTested,
    GivenTestedToo,
    BeforeNarrowing,
    SumTested,
    ZeroScalesOnly,
    SubnormalScales,
    // which determinants are nearly zero
    SixWithoutSkew,
    SixBeforeNarrowing,
    // of what does nothing
    NothingRefused,
    MinusZeroRefused,
    MinusZeroAsZero,
    NothingComputed,
    // the numbers of the refusals
    ZerosAsSix,
    SevenFirst,
    SixForSeven,
    SevenForSix,
    AllRefused,
    // what is stored
    StoredBeside7,
    ClearedBeside7,
    SetBeside7,
    SkewsKept,
    EntryOff(usize),
}

use Spoil::*;

// The largest determinant that counts as 0.
const NEARLY_ZERO: f64 = 1.0 / (1u64 << 36) as f64;

// Names of classes.
const NOTHING: &str = "does nothing";
const PLAIN_MOVE: &str = "move: plain numbers";
const PLAIN_SCALE: &str = "scale: plain numbers";
const PLAIN_SKEW: &str = "skewed: plain numbers";
const MOVE_ALONE: &str = "move: one number alone not finite";
const MOVES: &str = "move: special numbers in both places";
const ZEROS: &str = "scale: zeros in all places";
const TOO_SMALL: &str = "scale: of 0, or too small for an inverse";
const SMALLEST: &str = "scale: about the smallest that has an inverse";
const INFINITE: &str = "scale: infinite";
const SCALE_ALONE: &str = "scale: the move alone too large";
const SCALE_LARGEST: &str = "scale: the move about the largest";
const SKEW_ALONE: &str = "skewed: one entry alone too large";
const SKEW_LARGEST: &str = "skewed: one entry about the largest";
const NO_DETERMINANT: &str = "skewed: the determinant an infinity or a NaN";
const SINGULAR: &str = "skewed: nearly singular";
const SINGULAR_TOO: &str = "skewed: nearly singular, and not finite";
const NOT_SINGULAR: &str = "skewed: not quite singular, and not finite";
const ABOUT_SINGULAR: &str = "skewed: about singular, the move not finite";

const PLAIN: &[&str] = &[PLAIN_MOVE, PLAIN_SCALE, PLAIN_SKEW];
const EACH_ALONE: &[&str] = &[MOVE_ALONE, SCALE_ALONE, SKEW_ALONE];
const MOVES_7: &[&str] = &["does nothing but for an infinity or a NaN", MOVES, MOVE_ALONE];
const SCALES_7: &[&str] = &[ZEROS, TOO_SMALL, SMALLEST, INFINITE, SCALE_ALONE, SCALE_LARGEST];
const SKEWS_7: &[&str] = &[NO_DETERMINANT, SKEW_ALONE, SKEW_LARGEST, NOT_SINGULAR, ABOUT_SINGULAR];
const ALL_7: &[&str] = &[MOVE_ALONE, ZEROS, SKEW_ALONE];
const NANS: &[&str] = &[MOVE_ALONE, INFINITE, NO_DETERMINANT];
const INFINITIES: &[&str] = &[MOVE_ALONE, SMALLEST, SCALE_ALONE, SKEW_ALONE];

// Each with the classes in which it must be seen.
pub const SPOILS: [(Spoil, &[&str], &str); 45] = [
    (ScalesOnly, EACH_ALONE, "only the scales of the inverse tested"),
    (FirstOnly, EACH_ALONE, "only the first entry of the inverse tested"),
    (Without(Way::Move, 4), &[MOVE_ALONE], "a move's inverse without a test of tx"),
    (Without(Way::Move, 5), &[MOVE_ALONE], "a move's inverse without a test of ty"),
    (Without(Way::Scale, 4), &[SCALE_ALONE], "a scale's inverse without a test of tx"),
    (Without(Way::Scale, 5), &[SCALE_ALONE], "a scale's inverse without a test of ty"),
    (Without(Way::Skew, 0), &[SKEW_ALONE], "a skewed inverse without a test of sx"),
    (Without(Way::Skew, 1), &[SKEW_ALONE], "a skewed inverse without a test of ky"),
    (Without(Way::Skew, 2), &[SKEW_ALONE], "a skewed inverse without a test of kx"),
    (Without(Way::Skew, 3), &[SKEW_ALONE], "a skewed inverse without a test of sy"),
    (Without(Way::Skew, 4), &[SKEW_ALONE], "a skewed inverse without a test of tx"),
    (Without(Way::Skew, 5), &[SKEW_ALONE], "a skewed inverse without a test of ty"),
    (Unchecked(Way::Move), MOVES_7, "a move inverted unchecked"),
    (Unchecked(Way::Scale), SCALES_7, "a scale inverted unchecked"),
    (Unchecked(Way::Skew), SKEWS_7, "a skewed matrix inverted unchecked"),
    (NanKept, NANS, "infinities refused, but not NaN"),
    (InfinityKept, INFINITIES, "NaN refused, but not infinities"),
    (LargestRefused, &[MOVES, SCALE_LARGEST, SKEW_LARGEST], "the largest float refused"),
    (GivenTested, &[ZEROS, INFINITE, SCALE_ALONE, SKEW_ALONE], "the given matrix tested in place of the inverse"),
    (GivenTestedToo, &[INFINITE], "the given matrix tested beside the inverse"),
    (BeforeNarrowing, &[SKEW_ALONE, SKEW_LARGEST], "a skewed inverse tested before it is narrowed"),
    (SumTested, &[MOVES], "the sum of the entries tested"),
    (ZeroScalesOnly, &[TOO_SMALL, SMALLEST], "of scales only 0 refused"),
    (SubnormalScales, &[SMALLEST], "every subnormal scale refused"),
    (SixWithoutSkew, &[PLAIN_SCALE, ZEROS, SMALLEST], "6 by the determinant of a matrix without skew"),
    (SixBeforeNarrowing, &[SINGULAR, SINGULAR_TOO, ABOUT_SINGULAR], "6 by the determinant before it is narrowed"),
    (NothingRefused, &[NOTHING], "what does nothing refused"),
    (MinusZeroRefused, &[NOTHING], "what does nothing refused where it has a −0"),
    (MinusZeroAsZero, &[NOTHING], "of what does nothing a −0 given as 0"),
    (NothingComputed, &[NOTHING], "what does nothing inverted as a move"),
    (ZerosAsSix, &[ZEROS], "6 where all is 0"),
    (SevenFirst, &[SINGULAR_TOO, ABOUT_SINGULAR], "7 before 6"),
    (SixForSeven, ALL_7, "6 for 7"),
    (SevenForSix, &[SINGULAR, SINGULAR_TOO, ABOUT_SINGULAR], "7 for 6"),
    (AllRefused, &[NOTHING, PLAIN_MOVE, PLAIN_SCALE, PLAIN_SKEW], "all refused with 7"),
    (StoredBeside7, ALL_7, "the inverse stored beside 7"),
    (ClearedBeside7, ALL_7, "the flag cleared beside 7"),
    (SetBeside7, ALL_7, "the flag set beside 7"),
    (SkewsKept, &[PLAIN_MOVE, PLAIN_SCALE], "without skew, a −0 of the skews kept"),
    (EntryOff(0), PLAIN, "sx one unit off"),
    (EntryOff(1), PLAIN, "ky one unit off"),
    (EntryOff(2), PLAIN, "kx one unit off"),
    (EntryOff(3), PLAIN, "sy one unit off"),
    (EntryOff(4), PLAIN, "tx one unit off"),
    (EntryOff(5), PLAIN, "ty one unit off"),
];

// What nothing can show: an entry left out that is never alone not finite.
pub const UNSEEN: [(Spoil, &str); 2] = [
    (Without(Way::Scale, 0), "a scale's inverse without a test of sx"),
    (Without(Way::Scale, 3), "a scale's inverse without a test of sy"),
];

fn determinant(t: &Transform) -> f64 {
    dcross(t.sx as f64, t.sy as f64, t.kx as f64, t.ky as f64)
}

fn is_minus_zero(x: &f32) -> bool {
    *x == 0.0 && x.is_sign_negative()
}

impl Spoil {
    pub fn spoil(self, g: &Given, flag: bool, to: To, stood: u8, left: &mut Left) {
        let t = transform(&g.m);
        match (self, left.number) {
            (Nothing, _) => {}
            (StoredBeside7, NOT_FINITE) => left.m = entries(&computed(&t)),
            (ClearedBeside7, NOT_FINITE) => left.flag = 0,
            (SetBeside7, NOT_FINITE) => left.flag = 1,
            (EntryOff(k), 0) => left.m[k] = f32::from_bits(left.m[k].to_bits() ^ 1),
            (StoredBeside7 | ClearedBeside7 | SetBeside7 | EntryOff(_), _) => {}
            _ => *left = g.expected(&self.answer(&t), flag, to, stood),
        }
    }

    // A wrong inverse, or a wrong number.
    fn answer(self, t: &Transform) -> Result<[f32; 6], u32> {
        let (m, right) = (entries(t), inverse(t).map(|r| entries(&r)));
        let nearly = inv_determinant(t).is_none();
        match (self, way(t), right) {
            (AllRefused, ..) | (NothingRefused, Way::Nothing, _) => Err(NOT_FINITE),
            (MinusZeroRefused, Way::Nothing, _) if m.iter().any(is_minus_zero) => Err(NOT_FINITE),
            (MinusZeroAsZero, Way::Nothing, _) => Ok(m.map(|x| x + 0.0)),
            (NothingComputed, Way::Nothing, _) => Ok([1.0, 0.0, 0.0, 1.0, -m[4], -m[5]]),
            (SixWithoutSkew, Way::Scale, _) if nearly => Err(NEARLY_SINGULAR),
            (ZerosAsSix, ..) if m == [0.0; 6] => Err(NEARLY_SINGULAR),
            (SixForSeven, _, Err(NOT_FINITE)) => Err(NEARLY_SINGULAR),
            (SevenForSix, _, Err(NEARLY_SINGULAR)) => Err(NOT_FINITE),
            (SevenFirst, Way::Skew, _) if !not_finite(t).is_empty() => Err(NOT_FINITE),
            (SixBeforeNarrowing, Way::Skew, _) if determinant(t).abs() > NEARLY_ZERO => tested(t, !not_finite(t).is_empty()),
            (SkewsKept, Way::Move | Way::Scale, Ok(r)) => Ok([r[0], m[1], m[2], r[3], r[4], r[5]]),
            (_, Way::Nothing, right) | (_, _, right @ Err(NEARLY_SINGULAR)) => right,
            (_, _, right) => self.refuses(t).map_or(right, |refused| tested(t, refused)),
        }
    }

    // Whether a wrong test refuses the inverse, if it is such a test.
    fn refuses(self, t: &Transform) -> Option<bool> {
        let (given, xs, goes) = (entries(t), entries(&computed(t)), way(t));
        let wrong = |xs: &[f32]| xs.iter().any(|x| !x.is_finite());
        let scales = [t.sx, t.sy];
        Some(match self {
            ScalesOnly => wrong(&[xs[0], xs[3]]),
            FirstOnly => wrong(&xs[..1]),
            Without(way, k) if way == goes => wrong(&xs[..k]) || wrong(&xs[k + 1..]),
            Unchecked(way) if way == goes => false,
            NanKept => xs.iter().any(|x| x.is_infinite()),
            InfinityKept => xs.iter().any(|x| x.is_nan()),
            LargestRefused => !xs.iter().all(|x| x.abs() < f32::MAX),
            GivenTested => wrong(&given),
            GivenTestedToo => wrong(&given) || wrong(&xs),
            BeforeNarrowing => flags::of_inverse(t)?[1..].iter().any(|x| !x.is_finite()),
            SumTested => wrong(&[xs.iter().sum()]),
            ZeroScalesOnly if goes == Way::Scale => scales.contains(&0.0),
            SubnormalScales if goes == Way::Scale => scales.iter().any(|x| x.is_subnormal()) || wrong(&xs),
            _ => return None,
        })
    }
}

// The inverse that is computed, or 7 where a test refuses it.
fn tested(t: &Transform, refused: bool) -> Result<[f32; 6], u32> {
    if refused { Err(NOT_FINITE) } else { Ok(entries(&computed(t))) }
}
