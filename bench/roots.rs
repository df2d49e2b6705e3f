// The time of one square root by its input: each of 300,000 is called alone, 64 times in a batch, and the best of nine batches
// counts: three rounds over all inputs, so that what else the machine does for a while is not taken for an input's own. The loop,
// the call through a pointer and the reading of the clock are in it.
use crate::table::{Table, ns, say};
use crate::{nz_sqrt_f32, nz_sqrt_f64};
use std::hint::black_box;
use std::time::Instant;

const INPUTS: usize = 300_000;
const CALLS: u32 = 64;

fn random() -> impl FnMut() -> u64 {
    let mut s = 88172645463325252u64;
    move || {
        s ^= s << 13;
        s ^= s >> 7;
        s ^= s << 17;
        s.wrapping_mul(0x2545_f491_4f6c_dd1d)
    }
}

// A pattern without a sign, of so many digits behind the point: any, below the normal range, a square, about the square of a number
// halfway between two neighbours, or zero and infinity.
fn pattern(k: usize, digits: u32, infinity: u64, of: fn(f64) -> u64, next: &mut impl FnMut() -> u64) -> u64 {
    let (a, b) = (next(), next());
    let first = 1 << (a % digits as u64);
    let (part, half) = (b >> (64 - digits / 2), 1u128 << (digits + 1) | (b >> (63 - digits)) as u128 | 1);
    match k % 5 {
        0 => a % infinity,
        1 => first | (b & (first - 1)),
        2 => of((part * part) as f64),
        3 => of((half * half) as f64),
        _ => [0, infinity][a as usize / 2 % 2],
    }
}

// The best of three batches, in nanoseconds a call. The input is only read, so that no call waits for what the last one stored.
fn best<A: Copy, B>(call: unsafe extern "C" fn(A) -> B, x: A) -> f64 {
    let (x, mut least) = (black_box(&x), f64::INFINITY);
    for _ in 0..3 {
        let start = Instant::now();
        for _ in 0..CALLS {
            black_box(unsafe { call(*x) });
        }
        least = least.min(start.elapsed().as_nanos() as f64 / CALLS as f64);
    }
    least
}

fn spread(table: &mut Table, name: &str, inputs: Vec<u64>, time: impl Fn(u64) -> f64) {
    let mut times: Vec<(f64, u64)> = inputs.iter().map(|b| (f64::INFINITY, *b)).collect();
    for _ in 0..3 {
        times.iter_mut().for_each(|(least, b)| *least = least.min(time(*b)));
    }
    times.sort_by(|a, b| a.partial_cmp(b).unwrap());
    let at = |part: f64| ns(times[((INPUTS - 1) as f64 * part) as usize].0);
    table.row(vec![name.to_string(), at(0.0), at(0.5), at(0.999), at(1.0), format!("{:x}", times[INPUTS - 1].1)]);
}

pub fn all() {
    let mut next = random();
    let mut inputs = |digits, infinity, of| (0..INPUTS).map(|k| pattern(k, digits, infinity, of, &mut next)).collect();
    let singles = inputs(23, 0x7f80_0000, |x| (x as f32).to_bits() as u64);
    let doubles = inputs(52, 0x7ff0 << 48, f64::to_bits);
    say(&format!("Roots by their inputs: each of {INPUTS} alone, {CALLS} times in a batch, the best of nine batches."));
    let mut table = Table::new(&["call", "fastest, ns", "middle, ns", "99.9 of 100, ns or less", "slowest, ns", "its bits"]);
    spread(&mut table, "`sqrt_f32`", singles, |b| best(black_box(nz_sqrt_f32), f32::from_bits(b as u32)));
    spread(&mut table, "`sqrt_f64`", doubles, |b| best(black_box(nz_sqrt_f64), f64::from_bits(b)));
    table.print();
}
