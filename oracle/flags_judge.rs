// The flags of products and inverses beside the original and flags.rs, in one process, on inputs from a seed that are made for
// them: see flags_classes.rs. With the word `spoiled` what the library left is spoiled in one way after the other, and each has
// to be seen; and classes that miss what they are made for have to be told.
// Some of the inputs and of the declarations serve other judges alone.
#![allow(dead_code)]

mod flags;
mod flags_calls;
mod flags_classes;
mod flags_inverses;
mod flags_products;
mod flags_spoils;
mod inputs;
mod inverse;

use flags_calls::{Call, Given, To, CALLS};
use flags_classes::{Beside, Outcome, CLASSES, OUTCOMES};
use flags_spoils::{floats_rounded, Spoil, SPOILS};
use inputs::Inputs;

include!("../include/nyerdzumak.rs");

const SHOWN: u64 = 5;

// So many inputs are enough for every spoiled answer.
const TRIED: u64 = 100_000;

// Of fewer inputs, what a class never met says nothing.
const FEW: u64 = 10_000;

#[derive(Default)]
struct Tally {
    outcomes: [u64; OUTCOMES.len()],
    // those of which one number alone is lost, or that are rounded in float arithmetic, as the class asks
    beside: u64,
    differences: u64,
}

struct Judge {
    spoil: Spoil,
    shown: u64,
    inputs: u64,
    tallies: Vec<Tally>,
    // of each call, how often each of the numbers that it narrows was the only one lost
    alone: [[u64; 7]; CALLS.len()],
}

// Which of the numbers can be lost alone: no sum of a scale before is of the move, of a move before only these are, and by a move
// after none is lost.
fn can_be_alone(call: Call) -> std::ops::Range<usize> {
    match call {
        Call::PreConcat | Call::PostConcat | Call::PostScale => 0..6,
        Call::PreScale => 0..4,
        Call::PreTranslate => 4..6,
        Call::PostTranslate => 0..0,
        Call::Invert => 0..7,
    }
}

impl Judge {
    fn new(spoil: Spoil, shown: u64) -> Judge {
        let tallies = CLASSES.iter().map(|_| Tally::default()).collect();
        Judge { spoil, shown, inputs: 0, tallies, alone: Default::default() }
    }

    fn judge(&mut self, k: usize, g: &Given, over: To) {
        let (list, n) = g.narrowed();
        let flag = list[..n].iter().any(|x| flags::lost(*x));
        let theirs = g.theirs();
        let difference = g.difference(&theirs, flag, over, |to, stood, left| self.spoil.spoil(g, to, stood, left));
        if let Some(d) = difference.as_ref().filter(|_| self.shown > 0) {
            self.shown -= 1;
            d.show(CLASSES[k].name, g);
        }
        self.count(k, g, theirs.map(|_| flag), &list[..n]);
        self.tallies[k].differences += difference.is_some() as u64;
    }

    fn count(&mut self, k: usize, g: &Given, answer: Result<bool, u32>, list: &[f64]) {
        let outcome = match answer {
            Ok(true) => Outcome::Set,
            Ok(false) => Outcome::Clear,
            Err(NZ_NEARLY_SINGULAR) => Outcome::Refused6,
            Err(_) => Outcome::Refused7,
        };
        self.inputs += 1;
        self.tallies[k].outcomes[outcome as usize] += 1;
        let mut places = (0..list.len()).filter(|j| answer == Ok(true) && flags::lost(list[*j]));
        let alone = places.next().filter(|_| places.next().is_none());
        if let Some(j) = alone {
            self.alone[g.call as usize][j] += 1;
        }
        self.tallies[k].beside += match CLASSES[k].beside {
            Beside::Nothing => false,
            Beside::Alone => alone.is_some(),
            Beside::Floats => floats_rounded(g),
        } as u64;
    }

    // So many inputs, class after class; with `idle` all of them of what does nothing.
    fn run(&mut self, count: u64, seed: u64, idle: bool) {
        let mut i = Inputs::new(seed);
        let told = self.shown > 0;
        for n in 0..count {
            let k = n as usize % CLASSES.len();
            let g = if idle { flags_products::one_does_nothing(&mut i) } else { (CLASSES[k].make)(&mut i) };
            let over = if g.is_concat() && i.chance(2) { To::Second } else { To::First };
            self.judge(k, &g, over);
            if told && (n + 1) % 5_000_000 == 0 {
                eprintln!("{} of {count} inputs", n + 1);
            }
        }
    }

    // Whether a class was never met as it must be, or as it must not; or a number was never lost alone that can be.
    fn lacking(&self, told: bool) -> bool {
        let mut lacking = Vec::new();
        for (class, tally) in CLASSES.iter().zip(&self.tallies) {
            for ((outcome, name), n) in OUTCOMES.iter().zip(tally.outcomes) {
                match (class.must.contains(outcome), n) {
                    (true, 0) => lacking.push(format!("never {name}: {}", class.name)),
                    (false, 1..) => lacking.push(format!("{name} {n} times, as it must never be: {}", class.name)),
                    _ => {}
                }
            }
            let met: u64 = tally.outcomes.iter().sum();
            match class.beside {
                Beside::Alone if tally.beside < met => lacking.push(format!("not always by one number alone: {}", class.name)),
                Beside::Floats if tally.beside == 0 => lacking.push(format!("never rounded in float arithmetic: {}", class.name)),
                _ => {}
            }
        }
        for ((call, name), alone) in CALLS.iter().zip(&self.alone) {
            let never = can_be_alone(*call).filter(|j| alone[*j] == 0);
            lacking.extend(never.map(|j| format!("never lost alone: number {j} of {name}")));
        }
        lacking.iter().filter(|_| told).for_each(|what| println!("{what}"));
        !lacking.is_empty()
    }

    fn print(&self) {
        for (class, tally) in CLASSES.iter().zip(&self.tallies) {
            let [set, clear, six, seven] = tally.outcomes;
            let beside = match class.beside {
                Beside::Nothing => String::new(),
                Beside::Alone => format!(", {} by one number alone", tally.beside),
                Beside::Floats => format!(", {} rounded in float arithmetic", tally.beside),
            };
            print!("{set:>9} set, {clear:>9} clear, {six:>7} refused with 6, {seven:>7} with 7, ");
            println!("{} differences: {}{beside}", tally.differences, class.name);
        }
        for ((call, name), alone) in CALLS.iter().zip(&self.alone) {
            let numbers = if *call == Call::Invert { "the determinant, sx, ky, kx, sy, tx, ty" } else { "sx, ky, kx, sy, tx, ty" };
            println!("lost alone by {name}, of {numbers}: {:?}", &alone[..if *call == Call::Invert { 7 } else { 6 }]);
        }
    }

    fn differences(&self) -> u64 {
        self.tallies.iter().map(|t| t.differences).sum()
    }
}

// Whether there was a difference, or a class missed what it is made for.
fn compared(count: u64, seed: u64) -> bool {
    let mut judge = Judge::new(Spoil::Nothing, SHOWN);
    judge.run(count, seed, false);
    judge.print();
    let lacking = count >= FEW && judge.lacking(true);
    if count < FEW {
        println!("fewer than {FEW} inputs: what each class met is not judged");
    }
    println!("{} inputs, {} differences", judge.inputs, judge.differences());
    judge.differences() > 0 || lacking
}

// Answers spoiled in one way; whether that was not seen in a class where it must be.
fn missed(spoil: Spoil, must: &[&str], name: &str, seed: u64) -> bool {
    let mut judge = Judge::new(spoil, 0);
    judge.run(TRIED, seed, false);
    let seen = |class: &str| CLASSES.iter().zip(&judge.tallies).any(|(c, t)| c.name == class && t.differences > 0);
    let missed = must.is_empty() || !must.iter().all(|class| seen(class));
    let classes = judge.tallies.iter().filter(|t| t.differences > 0).count();
    println!("{name}: seen {} times, in {classes} classes{}", judge.differences(), if missed { ": NOT where it must be" } else { "" });
    missed
}

// One way after the other, and inputs that miss what the classes are made for. Whether one was not seen.
fn spoiled(seed: u64) -> bool {
    let unseen = SPOILS.iter().filter(|(spoil, must, name)| missed(*spoil, must, name, seed)).count();
    let mut judge = Judge::new(Spoil::Nothing, 0);
    judge.run(TRIED, seed, true);
    let untold = !judge.lacking(false) as usize;
    println!("{} spoiled answers, {unseen} not seen; 1 lack of inputs, {untold} not seen", SPOILS.len());
    unseen + untold > 0
}

fn main() {
    let words: Vec<String> = std::env::args().skip(1).collect();
    let number = |k: usize| words.get(k).expect("a number").parse::<u64>().expect("a number");
    let failed = if words[0] == "spoiled" { spoiled(number(1)) } else { compared(number(0), number(1)) };
    std::process::exit(failed as i32);
}
