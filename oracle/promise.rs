// The promise of order, tested on what the library wrote: no judge is asked. And of the call that puts both axes in order,
// what kinds of conics it was tested on.
use crate::calls::{nz_cut_in_order, Case, CALLS};
use crate::of_conics::{cut, room, HIGHEST};
use crate::outputs::Output;

const X: usize = 0;
const Y: usize = 1;

// The calls that promise it, and along which axis. Of the last two, which do not, it is asked as well: there it has to be
// broken, which shows that the test can fail.
const ASKED: [(&str, usize, bool); 5] = [
    ("cut_in_order", Y, true),
    ("cut_in_order_both", Y, true),
    ("cut_in_order_both", X, true),
    ("conic_chop_into_quads_pow2", Y, false),
    ("cut_in_order", X, false),
];

// With fewer inputs of its call, a promise that was not asked or not broken says nothing.
const FEW: u64 = 100_000;

pub struct Promise {
    pub call: usize,
    axis: usize,
    made: bool,
    inputs: u64,
    tested: u64,
    pub broken: u64,
}

fn place(name: &str) -> usize {
    CALLS.iter().position(|c| c.name == name).expect("a call of the table")
}

pub fn promises() -> Vec<Promise> {
    ASKED.iter().map(|&(name, axis, made)| Promise { call: place(name), axis, made, inputs: 0, tested: 0, broken: 0 }).collect()
}

fn is_cut(c: &Case) -> bool {
    c.level <= HIGHEST && c.len[0] >= 6 && c.len[1] >= room(c.level)
}

fn is_finite(c: &Case) -> bool {
    c.f[..6].iter().all(|x| x.is_finite())
}

// Whether the middle lies between the ends, by the exact test.
fn in_order(c: &Case, axis: usize) -> bool {
    let (start, middle, end) = (c.f[axis], c.f[axis + 2], c.f[axis + 4]);
    start <= middle && middle <= end || start >= middle && middle >= end
}

// Number k of those that a cut wrote.
fn written(out: &Output, k: usize) -> f32 {
    f32::from_bits(out.word(1 + k))
}

// Answered, all numbers finite, the ends the conic's own, and one direction along the axis.
fn kept(c: &Case, axis: usize, out: &Output) -> bool {
    let n = room(c.level);
    let at = |k: usize| written(out, k);
    let finite = (0..n).all(|k| at(k).is_finite());
    let own = |k: usize, of: usize| at(k).to_bits() == c.f[of].to_bits();
    let ends = own(0, 0) && own(1, 1) && own(n - 2, 4) && own(n - 1, 5);
    let rising = (axis..n - 2).step_by(2).all(|k| at(k) <= at(k + 2));
    let falling = (axis..n - 2).step_by(2).all(|k| at(k) >= at(k + 2));
    out.word(0) == 0 && finite && ends && (rising || falling)
}

impl Promise {
    // Whether this input meets its condition.
    fn holds_of(&self, c: &Case) -> bool {
        is_cut(c) && is_finite(c) && in_order(c, self.axis)
    }

    // Counts an input of the call and what the call wrote; whether that breaks a promise that the call makes.
    pub fn test(&mut self, c: &Case, out: &Output) -> bool {
        let holds = self.holds_of(c);
        let broken = holds && !kept(c, self.axis, out);
        self.inputs += 1;
        self.tested += holds as u64;
        self.broken += broken as u64;
        broken && self.made
    }

    // Whether the counts are as they must not be: broken, or never asked; or, where it is not made, never broken.
    pub fn failed(&self) -> bool {
        let many = self.inputs > FEW;
        if self.made { self.broken > 0 || many && self.tested == 0 } else { many && self.broken == 0 }
    }

    // Whether the call breaks the promise on this input.
    pub fn breaks(&self, c: &Case) -> bool {
        let mut out = Output::new();
        (CALLS[self.call].ours)(c, &mut out);
        self.holds_of(c) && !kept(c, self.axis, &out)
    }

    pub fn name(&self) -> String {
        let whose = if self.made { "the promise" } else { "which does not promise it" };
        format!("{}, {}: order along {}", CALLS[self.call].name, whose, ["x", "y"][self.axis])
    }

    pub fn print(&self) {
        println!("{:>11} tested, {} broken: {}", self.tested, self.broken, self.name());
    }
}

const KINDS: [&str; 6] = [
    "in order along both axes", "in order along x alone", "in order along y alone", "in order along no axis", "with a coordinate that is not finite",
    "refused",
];

// The inputs of the call that puts both axes in order, kind by kind: all, those pinned, and those on which the call that puts
// y alone in order writes something else.
pub struct Kinds {
    pub call: usize,
    counts: [[u64; 3]; 6],
}

fn kind(c: &Case) -> usize {
    match (in_order(c, X), in_order(c, Y)) {
        _ if !is_cut(c) => 5,
        _ if !is_finite(c) => 4,
        (true, true) => 0,
        (true, false) => 1,
        (false, true) => 2,
        (false, false) => 3,
    }
}

// Whether every written point between the ends is the conic's middle point.
fn is_pinned(c: &Case, out: &Output) -> bool {
    is_cut(c) && c.level > 0 && (2..room(c.level) - 2).all(|k| written(out, k).to_bits() == c.f[2 + k % 2].to_bits())
}

impl Kinds {
    pub fn new() -> Kinds {
        Kinds { call: place("cut_in_order_both"), counts: [[0; 3]; 6] }
    }

    pub fn count(&mut self, c: &Case, out: &Output) {
        let mut other = Output::new();
        cut(c, &mut other, nz_cut_in_order);
        let counts = &mut self.counts[kind(c)];
        counts[0] += 1;
        counts[1] += is_pinned(c, out) as u64;
        counts[2] += !out.words().eq(other.words()) as u64;
    }

    pub fn print(&self) {
        for (name, n) in KINDS.iter().zip(&self.counts) {
            println!("{:>11} inputs, {:>9} pinned, {:>9} not as by cut_in_order: {}, {}", n[0], n[1], n[2], CALLS[self.call].name, name);
        }
    }
}
