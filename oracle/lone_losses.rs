// Inputs by hand for the list: a product or an inverse in which one narrowing alone is not exact, each in its turn. Inputs from a
// seed hardly ever have one that only the determinant loses.
use crate::calls::{Case, CALLS};
use crate::flags;
use crate::of_transforms::matrix;

const PRODUCT: &str = "transform: pre_concat and post_concat";
pub const INVERSE: &str = "transform: invert";

// The float above 1: its square is no float.
const W: f32 = f32::from_bits(0x3f80_0001);

pub const fn case(m: [f32; 6], b: [f32; 6]) -> Case {
    Case { f: [m[0], m[1], m[2], m[3], m[4], m[5], b[0], b[1], b[2], b[3], b[4], b[5]], x: 0.0, len: [0; 2], level: 0 }
}

const ACROSS: [f32; 6] = [W, 0.0, 0.0, 1.0, 0.0, 0.0];
const UP: [f32; 6] = [1.0, 0.0, 0.0, W, 0.0, 0.0];
pub const NOTHING: [f32; 6] = [0.0; 6];
pub const LARGE: f32 = f32::from_bits(0x7180_0000); // 2^100

const CASES: &[(&str, Case)] = &[
    (PRODUCT, case(ACROSS, [W, 0.0, 1.0, 1.0, 0.0, 0.0])),
    (PRODUCT, case(UP, [1.0, W, 0.0, 1.0, 0.0, 0.0])),
    (PRODUCT, case(ACROSS, [1.0, 0.0, W, 1.0, 0.0, 0.0])),
    (PRODUCT, case(UP, [1.0, 0.0, 1.0, W, 0.0, 0.0])),
    (PRODUCT, case(ACROSS, [1.0, 0.0, 1.0, 1.0, W, 0.0])),
    (PRODUCT, case(UP, [1.0, 0.0, 1.0, 1.0, 0.0, W])),
    // the determinant alone: gone to infinity, and rounded
    (INVERSE, case([0.0, LARGE, LARGE, 0.0, 0.0, 0.0], NOTHING)),
    (INVERSE, case([4595666432.0, 6564369.0, -2071349.0, 439022080.0, 0.0, 0.0], NOTHING)),
];

pub const TITLE: &str = "one narrowing alone is not exact";

// Which of the numbers of the first call are lost.
fn places(name: &str, c: &Case) -> Vec<usize> {
    let (a, b) = (matrix(&c.f), matrix(&c.f[6..]));
    let lost = |list: &[f64]| (0..list.len()).filter(|k| flags::lost(list[*k])).collect();
    if name == INVERSE { lost(&flags::of_inverse(&a).unwrap()) } else { lost(&flags::of_product(&a, &b).unwrap()) }
}

// The inputs, with the calls' places in the table. Each has to show what it is for.
pub fn cases() -> Vec<(usize, Case)> {
    let named = |name: &str| CALLS.iter().position(|c| c.name == name).expect("a call of the table");
    for (k, (name, case)) in CASES.iter().enumerate() {
        let place = if *name == INVERSE { 0 } else { k };
        assert_eq!(places(name, case), [place], "{name} of {:?}", case.f);
    }
    CASES.iter().map(|(name, case)| (named(name), case.clone())).collect()
}
