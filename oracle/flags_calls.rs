// The calls that are judged: what is given to them, what they leave, and what the original and the flags of flags.rs have.
use crate::flags;
use crate::inverse::{entries, inverse};
use crate::*;
use original::Transform;

#[derive(Clone, Copy, PartialEq, Debug)]
pub enum Call {
    PreConcat,
    PostConcat,
    PreScale,
    PostScale,
    PreTranslate,
    PostTranslate,
    Invert,
}

use Call::*;

pub const CALLS: [(Call, &str); 7] = [
    (PreConcat, "pre_concat"),
    (PostConcat, "post_concat"),
    (PreScale, "pre_scale"),
    (PostScale, "post_scale"),
    (PreTranslate, "pre_translate"),
    (PostTranslate, "post_translate"),
    (Invert, "invert"),
];

// A matrix, and the one that it is multiplied with; of one that scales or moves the two numbers are lent. An inverse has no
// second one.
#[derive(Clone, Copy)]
pub struct Given {
    pub call: Call,
    pub m: [f32; 6],
    pub other: [f32; 6],
}

// Where the result goes: a place of its own, or that of the first matrix or the second.
#[derive(Clone, Copy, PartialEq, Debug)]
pub enum To {
    Apart,
    First,
    Second,
}

// What a call leaves; `beside` where it changed what it only reads, or a byte beside the flag.
#[derive(Clone, Copy, Debug)]
pub struct Left {
    pub number: u32,
    pub m: [f32; 6],
    pub flag: u8,
    pub beside: bool,
}

// What stands in a place for a matrix, and about the flag.
const STOOD: [f32; 6] = [7000.0, 7001.0, 7002.0, 7003.0, 7004.0, 7005.0];
const ABOUT: u8 = 0xa5;

fn bits(m: &[f32; 6]) -> [u32; 6] {
    m.map(f32::to_bits)
}

pub fn transform(m: &[f32; 6]) -> Transform {
    Transform::from_row(m[0], m[1], m[2], m[3], m[4], m[5])
}

impl Left {
    // The same number, flag and six numbers. Any NaN that is given equals any, and beside a refusal all is kept to the bit.
    pub fn same(&self, judge: &Left) -> bool {
        let given = judge.number == NZ_OK;
        let numbers = self.m.iter().zip(&judge.m).all(|(a, b)| a.to_bits() == b.to_bits() || given && a.is_nan() && b.is_nan());
        numbers && (self.number, self.flag, self.beside) == (judge.number, judge.flag, judge.beside)
    }
}

// A call that did not leave what it must.
pub struct Difference {
    to: To,
    stood: u8,
    ours: Left,
    judge: Left,
}

impl Difference {
    pub fn show(&self, class: &str, g: &Given) {
        let bits = |m: &[f32; 6]| bits(m).map(|x| format!("{x:08x}")).join(" ");
        println!("{class}: {:?}, result {:?}, flag stood at {}", g.call, self.to, self.stood);
        println!("    of {:?} and {:?}\n    bits {} and {}", g.m, g.other, bits(&g.m), bits(&g.other));
        println!("    {:?}\n    not {:?}", self.ours, self.judge);
    }
}

impl Given {
    // The two matrices of a product, which does the second first.
    pub fn pair(&self) -> (Transform, Transform) {
        let (m, other) = (transform(&self.m), transform(&self.other));
        if matches!(self.call, PreConcat | PreScale | PreTranslate) { (m, other) } else { (other, m) }
    }

    pub fn is_concat(&self) -> bool {
        matches!(self.call, PreConcat | PostConcat)
    }

    // The numbers that are narrowed, and how many of them there are: six of a product, the determinant and six of an inverse.
    pub fn narrowed(&self) -> ([f64; 7], usize) {
        let mut list = [0.0; 7];
        if self.call == Invert {
            return flags::of_inverse(&transform(&self.m)).map_or((list, 0), |xs| (xs, 7));
        }
        let (a, b) = self.pair();
        flags::of_product(&a, &b).map_or((list, 0), |xs| {
            list[..6].copy_from_slice(&xs);
            (list, 6)
        })
    }

    // What stands in the place for the result.
    fn before(&self, to: To) -> [f32; 6] {
        match to {
            To::Apart => STOOD,
            To::First => self.m,
            To::Second => self.other,
        }
    }

    // What the original gives, and of an inverse the rule, or the number of the refusal.
    pub fn theirs(&self) -> Result<[f32; 6], u32> {
        let (t, o) = (transform(&self.m), &self.other);
        let product = match self.call {
            PreConcat => t.pre_concat(transform(o)),
            PostConcat => t.post_concat(transform(o)),
            PreScale => t.pre_scale(o[0], o[3]),
            PostScale => t.post_scale(o[0], o[3]),
            PreTranslate => t.pre_translate(o[4], o[5]),
            PostTranslate => t.post_translate(o[4], o[5]),
            Invert => return inverse(&t).map(|r| entries(&r)),
        };
        Ok(entries(&product))
    }

    // What has to be left of that: beside a refusal all keeps its contents.
    pub fn expected(&self, theirs: &Result<[f32; 6], u32>, flag: bool, to: To, stood: u8) -> Left {
        match *theirs {
            Ok(m) => Left { number: NZ_OK, m, flag: flag as u8, beside: false },
            Err(number) => Left { number, m: self.before(to), flag: stood, beside: false },
        }
    }

    // The first of two calls, if there is one, that left something else, when that is spoiled: one with the result in a place of
    // its own, where the flag stood at true, and one in place, where it stood at false.
    pub fn difference(
        &self, theirs: &Result<[f32; 6], u32>, flag: bool, over: To, spoil: impl Fn(To, u8, &mut Left),
    ) -> Option<Difference> {
        [(To::Apart, 1), (over, 0)].into_iter().find_map(|(to, stood)| {
            let mut ours = self.ours(to, stood);
            spoil(to, stood, &mut ours);
            let judge = self.expected(theirs, flag, to, stood);
            (!ours.same(&judge)).then_some(Difference { to, stood, ours, judge })
        })
    }

    // What the library leaves. The flag is lent as a byte among others, so that one that is no bool is seen, and one too long.
    pub fn ours(&self, to: To, stood: u8) -> Left {
        let (mut m, mut other, mut apart) = (self.m, self.other, STOOD);
        let mut bytes = [ABOUT; 12];
        bytes[4] = stood;
        let flag: *mut bool = unsafe { bytes.as_mut_ptr().add(4) }.cast();
        let (first, second): (*mut [f32; 6], *mut [f32; 6]) = (&mut m, &mut other);
        let out = match to {
            To::Apart => &raw mut apart,
            To::First => first,
            To::Second => second,
        };
        let number = unsafe { self.called(first, second, out, flag) };
        let kept = |a: &[f32; 6], b: &[f32; 6], place: To| to == place || bits(a) == bits(b);
        let about = bytes.iter().enumerate().all(|(k, b)| k == 4 || *b == ABOUT);
        let beside = !(about && kept(&m, &self.m, To::First) && kept(&other, &self.other, To::Second));
        Left { number, m: [apart, m, other][to as usize], flag: bytes[4], beside }
    }

    unsafe fn called(&self, m: *const [f32; 6], other: *const [f32; 6], out: *mut [f32; 6], rounded: *mut bool) -> u32 {
        let o = &self.other;
        unsafe {
            match self.call {
                PreConcat => nz_transform_pre_concat(m, other, out, rounded),
                PostConcat => nz_transform_post_concat(m, other, out, rounded),
                PreScale => nz_transform_pre_scale(m, o[0], o[3], out, rounded),
                PostScale => nz_transform_post_scale(m, o[0], o[3], out, rounded),
                PreTranslate => nz_transform_pre_translate(m, o[4], o[5], out, rounded),
                PostTranslate => nz_transform_post_translate(m, o[4], o[5], out, rounded),
                Invert => return nz_transform_invert(m, out, rounded),
            }
        }
        NZ_OK
    }
}
