// Every exported call but those for dates and journals, which have judges of their own, beside the original, in one process, on
// inputs from a seed. See calls.rs for what is compared, flags.rs for what the original does not say of its rounding, inverse.rs
// for which inverses are refused, outputs.rs for what counts as the same, promise.rs for what is tested beside it, and levels.rs
// for what is counted. Some of the modules serve the list alone.
#![allow(dead_code)]

mod calls;
mod flags;
mod inputs;
mod inverse;
mod levels;
mod of_conics;
mod of_curves;
mod of_transforms;
mod outputs;
mod promise;

use calls::{Call, Case, CALLS};
use inputs::Inputs;
use levels::Levels;
use outputs::Output;
use promise::{Kinds, Promise};

const SHOWN: u64 = 5;

fn same(call: &Call, case: &Case, ours: &mut Output, theirs: &mut Output) -> bool {
    ours.clear();
    theirs.clear();
    (call.ours)(case, ours);
    (call.theirs)(case, theirs);
    ours.same(theirs)
}

// The simplest input that can be had from this one, number by number, that still is at fault.
fn smallest(case: &Case, mut at_fault: impl FnMut(&Case) -> bool) -> Case {
    let mut best = case.clone();
    let mut shorter = true;
    while shorter {
        shorter = false;
        for k in 0..best.f.len() {
            let x = best.f[k];
            for simple in [0.0, -0.0, 1.0, -1.0, 2.0, f32::from_bits(x.to_bits() & 0xff80_0000), f32::from_bits(x.to_bits() & 0xffff_0000)] {
                let cost = |v: f32| (v.to_bits() != 0) as u32 * (33 - v.to_bits().trailing_zeros().min(32));
                let mut next = best.clone();
                next.f[k] = simple;
                if cost(simple) < cost(best.f[k]) && at_fault(&next) {
                    best = next;
                    shorter = true;
                }
            }
        }
    }
    best
}

fn show(name: &str, case: &Case, what: &str) {
    println!("{}: numbers {:?}", name, case.f);
    println!("    bits {}", case.f.iter().map(|x| format!("{:08x}", x.to_bits())).collect::<Vec<_>>().join(" "));
    println!("    double {:?}, lengths {:?}, level {}", case.x, case.len, case.level);
    println!("    {}", what);
}

struct Tally {
    // of each call: inputs, those whose answer has a −0 that was computed, and differences
    done: Vec<[u64; 3]>,
    promises: Vec<Promise>,
    kinds: Kinds,
    levels: Levels,
    ours: Output,
    theirs: Output,
}

impl Tally {
    fn new() -> Tally {
        Tally { done: vec![[0; 3]; CALLS.len()], promises: promise::promises(), kinds: Kinds::new(), levels: Levels::default(), ours: Output::new(), theirs: Output::new() }
    }

    fn count(&mut self, k: usize, case: &Case) {
        let (call, ours, theirs) = (&CALLS[k], &mut self.ours, &mut self.theirs);
        let agree = same(call, case, ours, theirs);
        let done = &mut self.done[k];
        done[0] += 1;
        done[1] += theirs.minus_zero() as u64;
        done[2] += !agree as u64;
        self.levels.count(k, case, theirs);
        if k == self.kinds.call {
            self.kinds.count(case, ours);
        }
        for p in self.promises.iter_mut().filter(|p| p.call == k) {
            if p.test(case, ours) && p.broken <= SHOWN {
                show(&p.name(), &smallest(case, |c| p.breaks(c)), "broken");
            }
        }
        if !agree && done[2] <= SHOWN {
            let case = smallest(case, |c| !same(call, c, ours, theirs));
            same(call, &case, ours, theirs);
            show(call.name, &case, &ours.apart(theirs));
        }
    }

    // The table; whether there was a difference, a promise failed, or a level was hardly met or its refusal never.
    fn print(&self) -> bool {
        for (call, d) in CALLS.iter().zip(&self.done).filter(|(_, d)| d[0] > 0) {
            println!("{:>11} inputs, {:>9} answered with −0, {} differences: {}", d[0], d[1], d[2], call.name);
        }
        if self.done[self.kinds.call][0] > 0 {
            self.kinds.print();
        }
        self.levels.print();
        self.promises.iter().filter(|p| self.done[p.call][0] > 0).for_each(Promise::print);
        let sum = |of: usize| self.done.iter().map(|d| d[of]).sum::<u64>();
        println!("{} inputs, {} differences", sum(0), sum(2));
        sum(2) > 0 || self.promises.iter().any(Promise::failed) || self.levels.failed()
    }
}

fn main() {
    std::panic::set_hook(Box::new(|_| {}));
    let word = |k: usize, other: u64| std::env::args().nth(k).map_or(other, |s| s.parse().expect("a number"));
    let (count, seed) = (word(1, 1_000_000), word(2, 1));
    let only = std::env::args().nth(3);
    let named = |c: &Call| only.as_ref().is_none_or(|name| name == c.name);
    let order: Vec<usize> = CALLS.iter().enumerate().filter(|(_, c)| named(c)).flat_map(|(k, c)| vec![k; c.share]).collect();
    if order.is_empty() {
        eprintln!("compare: calls.rs has no call of that name");
        std::process::exit(2);
    }
    let mut inputs = Inputs::new(seed);
    let mut case = Case { f: [0.0; 12], x: 0.0, len: [0; 2], level: 0 };
    let mut tally = Tally::new();
    for n in 0..count {
        let k = order[n as usize % order.len()];
        (CALLS[k].make)(&mut inputs, &mut case);
        tally.count(k, &case);
        if (n + 1) % 5_000_000 == 0 {
            eprintln!("{} of {} inputs", n + 1, count);
        }
    }
    std::process::exit(tally.print() as i32);
}
