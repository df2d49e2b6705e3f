// Calls on one to three numbers beside the same in Rust, on independent inputs, each through a pointer of its own, so that neither
// side is inlined.
use crate::*;
use std::array::from_fn;
use std::fmt::Debug;

const CALLS: usize = 1024;

// Normal, below the normal range, and of any bits, which come in no order.
type Sets<A> = [Vec<A>; 3];

fn singles() -> Sets<f32> {
    let mut next = bits();
    let normal = conics(Kind::Plain).iter().cycle().take(CALLS).map(|c| c.0[1] + 1.0).collect();
    let below = (0..CALLS).map(|_| f32::from_bits((next() >> 41) as u32 | 1)).collect();
    [normal, below, (0..CALLS).map(|_| f32::from_bits((next() >> 32) as u32)).collect()]
}

fn doubles() -> Sets<f64> {
    let mut next = bits();
    let normal = singles()[0].iter().map(|x| *x as f64 * 1.1).collect();
    let below = (0..CALLS).map(|_| f64::from_bits(next() >> 12 | 1)).collect();
    [normal, below, (0..CALLS).map(|_| f64::from_bits(next().wrapping_mul(0x2545_f491_4f6c_dd1d))).collect()]
}

// The same, but that floats below the normal range come of the second set.
fn to_narrow() -> Sets<f64> {
    let [normal, _, any] = doubles();
    [normal, singles()[1].iter().map(|x| *x as f64 * 1.1).collect(), any]
}

// So many numbers for each call: a set shifted against itself.
fn tuples<const N: usize>() -> Sets<[f32; N]> {
    singles().map(|set| (0..CALLS).map(|k| from_fn(|j| set[(k + 17 * j) % CALLS])).collect())
}

fn through<A, B>(f: unsafe extern "C" fn(A) -> B) -> impl Fn(A) -> B {
    let f = black_box(f);
    move |x| unsafe { f(x) }
}

fn rust<A, B>(f: fn(A) -> B) -> impl Fn(A) -> B {
    let f = black_box(f);
    move |x| f(x)
}

// A row: the times of normal inputs, and the ratios of all three sets. Answers are compared as they are printed, which tells all
// floats apart but for NaNs.
fn call<A: Copy, B: Debug>(table: &mut Table, name: &str, sets: &Sets<A>, ours: impl Fn(A) -> B, theirs: impl Fn(A) -> B) {
    let rounds = sets.each_ref().map(|set| {
        let same = set.iter().all(|x| format!("{:?}", ours(*x)) == format!("{:?}", theirs(*x)));
        assert!(same && set.len() == CALLS, "answers that differ are not timed");
        let theirs = || set.iter().for_each(|x| _ = black_box(theirs(*x)));
        pair(CALLS, theirs, || set.iter().for_each(|x| _ = black_box(ours(*x))))
    });
    let mut row = vec![format!("`{name}`"), ns(rounds[0].ns(1)), ns(rounds[0].ns(0))];
    row.extend(rounds.iter().map(|r| r.times(1, 0).to_string()));
    table.row(row);
}

// What the library's call tells, in plain Rust.
fn told(x: f64) -> (f32, u32) {
    let r = x as f32;
    let kept = x.is_nan() || r as f64 == x;
    (r, if kept { NZ_NARROW_EXACT } else if r.is_infinite() { NZ_NARROW_TO_INFINITY } else { NZ_NARROW_ROUNDED })
}

fn conversions(table: &mut Table) {
    let (singles, doubles, to_narrow) = (singles(), doubles(), to_narrow());
    call(table, "sqrt_f32", &singles, through(nz_sqrt_f32), rust(f32::sqrt));
    call(table, "sqrt_f64", &doubles, through(nz_sqrt_f64), rust(f64::sqrt));
    call(table, "narrow", &to_narrow, through(nz_narrow), rust(|x| x as f32));
    let narrow_told: unsafe extern "C" fn(f64, *mut u32) -> f32 = black_box(nz_narrow_told);
    let library_told = |x| {
        let mut loss = 0;
        (unsafe { narrow_told(x, &mut loss) }, loss)
    };
    call(table, "narrow_told", &to_narrow, library_told, rust(told));
    call(table, "widen", &singles, through(nz_widen), rust(|x| x as f64));
}

fn tests(table: &mut Table) {
    let (singles, doubles) = (singles(), doubles());
    call(table, "abs_f32", &singles, through(nz_abs_f32), rust(f32::abs));
    call(table, "is_finite_f32", &singles, through(nz_is_finite_f32), rust(f32::is_finite));
    call(table, "is_finite_f64", &doubles, through(nz_is_finite_f64), rust(f64::is_finite));
    let of_point: unsafe extern "C" fn(f32, f32) -> bool = black_box(nz_point_is_finite);
    let their_point: fn(&original::Point) -> bool = black_box(original::Point::is_finite);
    let their_point = |[x, y]: [f32; 2]| their_point(&original::Point::from_xy(x, y));
    call(table, "point_is_finite", &tuples(), |[x, y]| unsafe { of_point(x, y) }, their_point);
}

// The exact test is that of the judge of both axes.
fn between(table: &mut Table) {
    type Ours = unsafe extern "C" fn(f32, f32, f32) -> bool;
    type Theirs = fn(f32, f32, f32) -> bool;
    let of_judges: [Theirs; 2] = [original::path_geometry::between, both::path_geometry::between];
    let (ours, theirs): ([Ours; 2], _) = black_box(([nz_between_product, nz_between_exact], of_judges));
    for (name, (ours, theirs)) in ["between_product", "between_exact"].iter().zip(ours.into_iter().zip(theirs)) {
        call(table, name, &tuples(), |[a, b, c]| unsafe { ours(a, b, c) }, |[a, b, c]| theirs(a, b, c));
    }
}

pub fn all() {
    say(&format!(
        "Small calls, {CALLS} a batch, {ROUNDS} batches a side, in turns, the loop and the call in the time of both sides: in
        nanoseconds on normal numbers, and times the Rust on these, on subnormals (of `narrow` and `narrow_told`: doubles whose
        floats are subnormal) and on any bits, in no order."
    ));
    let mut table = Table::new(&["call", "library, ns", "Rust, ns", "times the Rust", "subnormals", "any bits"]);
    conversions(&mut table);
    tests(&mut table);
    between(&mut table);
    table.print();
}
