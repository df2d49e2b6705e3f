// Inverses beside the rule of inverse.rs and the flags of flags.rs, in one process, on matrices from a seed that are made for
// them: see inverses_classes.rs. With the word `spoiled` what the library left is spoiled in one way after the other, and each has
// to be seen; and inputs that miss what they are made for have to be told.
// Some of the inputs and of the declarations serve other judges alone.
#![allow(dead_code)]

mod flags;
mod flags_calls;
mod flags_classes;
mod flags_inverses;
mod flags_products;
mod inputs;
mod inverse;
mod inverses_classes;
mod inverses_met;
mod inverses_mixed;
mod inverses_skewed;
mod inverses_spoils;
mod inverses_unskewed;

use flags_calls::{transform, Given, To};
use inputs::Inputs;
use inverses_classes::{way, Answer, Beside, Class, ANSWERS, CLASSES, WAYS};
use inverses_met::Met;
use inverses_spoils::{Spoil, SPOILS, UNSEEN};

include!("../include/nyerdzumak.rs");

const SHOWN: u64 = 5;

// So many inputs are enough for every spoiled answer.
const TRIED: u64 = 100_000;

// Of fewer inputs, what a class never met says nothing.
const FEW: u64 = 10_000;

// Of fewer inputs for each pattern of signs, one that was never met says nothing.
const FEW_SIGNS: u64 = 20;

#[derive(Default)]
struct Tally {
    // for each way, how many are given, refused with 6 and refused with 7
    answers: [[u64; ANSWERS.len()]; WAYS.len()],
    // those whose inverse is not finite as the class asks
    beside: u64,
    // the patterns of signs that were met, a bit for each
    signs: u64,
    differences: u64,
}

impl Tally {
    fn of(&self, answer: Answer) -> u64 {
        self.answers.iter().map(|n| n[answer as usize]).sum()
    }

    fn inputs(&self) -> u64 {
        self.answers.iter().flatten().sum()
    }

    // What the class missed: an answer, or what is asked beside it.
    fn lacking(&self, class: &Class) -> Vec<String> {
        let mut lacking = Vec::new();
        for (way, goes) in WAYS {
            for (answer, name) in ANSWERS {
                match (class.must.contains(&(way, answer)), self.answers[way as usize][answer as usize]) {
                    (true, 0) => lacking.push(format!("never {name}, {goes}")),
                    (false, n @ 1..) if !class.any => lacking.push(format!("{name} {n} times, {goes}, as it must never be")),
                    _ => {}
                }
            }
        }
        let (signs, all) = (self.signs.count_ones(), self.inputs());
        match class.beside {
            Beside::Alone if self.beside < all => lacking.push("not always one entry alone".into()),
            Beside::NotFinite if self.beside < all => lacking.push("not always an entry that is not finite".into()),
            Beside::Signs(n) if all >= FEW_SIGNS * n as u64 && signs != n => {
                lacking.push(format!("{signs} patterns of signs, not {n}"));
            }
            _ => {}
        }
        lacking.iter().map(|what| format!("{what}: {}", class.name)).collect()
    }

    fn print(&self, class: &Class) {
        let beside = match class.beside {
            Beside::Nothing => String::new(),
            Beside::Alone => format!(", {} by one entry alone", self.beside),
            Beside::NotFinite => format!(", {} that are not finite", self.beside),
            Beside::Signs(_) => format!(", {} patterns of signs", self.signs.count_ones()),
        };
        let [given, six, seven] = ANSWERS.map(|(answer, _)| self.of(answer));
        print!("{given:>9} given, {six:>8} refused with 6, {seven:>8} refused with 7, ");
        println!("{} differences: {}{beside}", self.differences, class.name);
    }
}

struct Judge {
    spoil: Spoil,
    shown: u64,
    tallies: Vec<Tally>,
    met: Met,
}

impl Judge {
    fn new(spoil: Spoil, shown: u64) -> Judge {
        Judge { spoil, shown, tallies: CLASSES.iter().map(|_| Tally::default()).collect(), met: Met::default() }
    }

    fn judge(&mut self, k: usize, g: &Given) {
        let (list, n) = g.narrowed();
        let flag = list[..n].iter().any(|x| flags::lost(*x));
        let theirs = g.theirs();
        let difference = g.difference(&theirs, flag, To::First, |to, stood, left| self.spoil.spoil(g, flag, to, stood, left));
        if let Some(d) = difference.as_ref().filter(|_| self.shown > 0) {
            self.shown -= 1;
            d.show(CLASSES[k].name, g);
        }
        let answer = match theirs {
            Ok(_) => Answer::Inverse,
            Err(inverse::NEARLY_SINGULAR) => Answer::Six,
            Err(_) => Answer::Seven,
        };
        self.tallies[k].differences += difference.is_some() as u64;
        self.count(k, &g.m, answer);
    }

    fn count(&mut self, k: usize, m: &[f32; 6], answer: Answer) {
        let (t, tally) = (transform(m), &mut self.tallies[k]);
        tally.answers[way(&t) as usize][answer as usize] += 1;
        tally.signs |= 1 << m.iter().fold(0, |bits, x| 2 * bits + x.is_sign_negative() as u32);
        tally.beside += match CLASSES[k].beside {
            Beside::Alone => inverse::not_finite(&t).len() == 1,
            Beside::NotFinite => !inverse::not_finite(&t).is_empty(),
            _ => false,
        } as u64;
        self.met.count(m, answer);
    }

    // So many inputs, class after class; with `idle` all of them of what does nothing.
    fn run(&mut self, count: u64, seed: u64, idle: bool) {
        let mut i = Inputs::new(seed);
        let told = self.shown > 0;
        for n in 0..count {
            let k = n as usize % CLASSES.len();
            let g = if idle { flags_inverses::nothing(&mut i) } else { (CLASSES[k].make)(&mut i) };
            self.judge(k, &g);
            if told && (n + 1) % 5_000_000 == 0 {
                eprintln!("{} of {count} inputs", n + 1);
            }
        }
    }

    // What the inputs missed: in a class, in a place, and by an entry alone; and where the original does not do as it must.
    fn lacking(&self) -> [Vec<String>; 4] {
        let classes = CLASSES.iter().zip(&self.tallies).flat_map(|(class, tally)| tally.lacking(class)).collect();
        [classes, self.met.never_there(), self.met.not_alone(), self.met.not_theirs()]
    }

    fn differences(&self) -> u64 {
        self.tallies.iter().map(|t| t.differences).sum()
    }
}

// Whether there was a difference, or the inputs missed what they are made for.
fn compared(count: u64, seed: u64) -> bool {
    let mut judge = Judge::new(Spoil::Nothing, SHOWN);
    judge.run(count, seed, false);
    CLASSES.iter().zip(&judge.tallies).for_each(|(class, tally)| tally.print(class));
    judge.met.print();
    let lacking = if count < FEW { Vec::new() } else { judge.lacking().concat() };
    lacking.iter().for_each(|what| println!("{what}"));
    if count < FEW {
        println!("fewer than {FEW} inputs: what each class met is not judged");
    }
    println!("{count} inputs, {} differences", judge.differences());
    judge.differences() > 0 || !lacking.is_empty()
}

// Answers spoiled in one way; whether that was not seen in a class where it must be.
fn missed(spoil: Spoil, must: &[&str], name: &str, seed: u64) -> bool {
    let mut judge = Judge::new(spoil, 0);
    judge.run(TRIED, seed, false);
    let seen = |class: &str| CLASSES.iter().zip(&judge.tallies).any(|(c, t)| c.name == class && t.differences > 0);
    let missed = must.is_empty() || !must.iter().all(|class| seen(class));
    let classes = judge.tallies.iter().filter(|t| t.differences > 0).count();
    let told = if missed { ": NOT where it must be" } else { "" };
    println!("{name}: seen {} times, in {classes} classes{told}", judge.differences());
    missed
}

// The same of what nothing can show; whether it was seen.
fn shown(spoil: Spoil, name: &str, seed: u64) -> bool {
    let mut judge = Judge::new(spoil, 0);
    judge.run(TRIED, seed, false);
    println!("{name}: seen {} times, as nothing can show it", judge.differences());
    judge.differences() > 0
}

// One way after the other, and inputs that miss what they are made for. Whether one was not seen, or what nothing can show was.
fn spoiled(seed: u64) -> bool {
    let unseen = SPOILS.iter().filter(|(spoil, must, name)| missed(*spoil, must, name, seed)).count();
    let wrongly = UNSEEN.iter().filter(|(spoil, name)| shown(*spoil, name, seed)).count();
    let mut judge = Judge::new(Spoil::Nothing, 0);
    judge.run(TRIED, seed, true);
    let untold = judge.lacking()[..3].iter().filter(|what| what.is_empty()).count();
    print!("{} spoiled answers, {unseen} not seen; {} that nothing can show, {wrongly} seen; ", SPOILS.len(), UNSEEN.len());
    println!("3 lacks of inputs, {untold} not seen");
    unseen + wrongly + untold > 0
}

fn main() {
    let words: Vec<String> = std::env::args().skip(1).collect();
    let number = |k: usize| words.get(k).expect("a number").parse::<u64>().expect("a number");
    let failed = if words[0] == "spoiled" { spoiled(number(1)) } else { compared(number(0), number(1)) };
    std::process::exit(failed as i32);
}
