// Writes the list that the program `replay` reads: for each call of the table in calls.rs, inputs from a seed and what
// the original gives on them; and then the same of the inputs of minus_zeros.rs, of lone_losses.rs and of not_finite.rs.
// A record is 20 words of 32 bits, the lowest byte first: the place of the call in the table, the twelve floats, the
// double, the two lengths and the level or ceiling of its input, and the two sums over its output. Before the records of
// a call, or of a group of inputs by hand, stands one that names them: 2^32 - 1, the name, and where that ends in word 19.
// Writes to standard error what the program must then write.
// Some of the modules serve the comparison alone.
#![allow(dead_code)]

mod calls;
mod flags;
mod inputs;
mod inverse;
mod lone_losses;
mod minus_zeros;
mod not_finite;
mod of_conics;
mod of_curves;
mod of_transforms;
mod outputs;

use calls::{Case, CALLS};
use inputs::Inputs;
use minus_zeros::{Through, THROUGH};
use outputs::Output;
use std::io::Write;

// Two sums over an output's words, each with a multiplier of its own.
fn sums(out: &Output) -> [u32; 2] {
    let add = |s: u64, by: u64, w: u32, limit: u64| (s * by + w as u64) % limit;
    let (a, b) = out.words().fold((1, 1), |(a, b), w| (add(a, 69621, w, 2147483647), add(b, 40692, w, 2147483629)));
    [a as u32, b as u32]
}

fn record(call: usize, case: &Case, out: &Output) -> Vec<u32> {
    let x = case.x.to_bits();
    let mut words = vec![call as u32];
    words.extend(case.f.iter().map(|f| f.to_bits()));
    words.extend([x as u32, (x >> 32) as u32, case.len[0] as u32, case.len[1] as u32, case.level]);
    words.extend(sums(out));
    words
}

fn title(name: &str) -> [u8; 80] {
    let mut bytes = [0; 80];
    let end = 4 + name.len();
    bytes[..4].fill(0xff);
    bytes[4..end].copy_from_slice(name.as_bytes());
    bytes[76..].copy_from_slice(&(end as u32).to_le_bytes());
    bytes
}

// What the original gives.
fn answer(call: usize, case: &Case) -> Output {
    let mut out = Output::new();
    (CALLS[call].theirs)(case, &mut out);
    out
}

// Writes the records of some inputs under a name, and the line that the program must then write.
fn write(list: &mut impl Write, name: &str, cases: &[(usize, Case)]) {
    list.write_all(&title(name)).unwrap();
    for (call, case) in cases {
        for w in record(*call, case, &answer(*call, case)) {
            list.write_all(&w.to_le_bytes()).unwrap();
        }
    }
    eprintln!("{} {} of {}", name, cases.len(), cases.len());
}

// The inputs of minus_zeros.rs, with the calls' places in the table. Each has to show what it is for.
fn by_hand(through: &Through) -> Vec<(usize, Case)> {
    let named = |name: &str| CALLS.iter().position(|c| c.name == name).expect("a call of the table");
    let cases: Vec<_> = through.cases.iter().map(|(name, case)| (named(name), case.clone())).collect();
    for (call, case) in &cases {
        assert!(answer(*call, case).minus_zero(), "{}: no −0 from {}, {:?}", through.title, CALLS[*call].name, case.f);
    }
    cases
}

fn main() {
    let groups: Vec<_> = THROUGH.iter().map(|t| (t.title, by_hand(t))).collect();
    std::panic::set_hook(Box::new(|_| {}));
    let seed = std::env::args().nth(1).map_or(1, |s| s.parse().expect("a seed"));
    let mut inputs = Inputs::new(seed);
    let mut list = std::io::BufWriter::new(std::io::stdout());
    for (k, call) in CALLS.iter().enumerate() {
        let made = (0..call.listed).map(|_| {
            let mut case = Case { f: [0.0; 12], x: 0.0, len: [0; 2], level: 0 };
            (call.make)(&mut inputs, &mut case);
            (k, case)
        });
        write(&mut list, call.name, &made.collect::<Vec<_>>());
    }
    for (title, cases) in groups {
        write(&mut list, title, &cases);
    }
    write(&mut list, lone_losses::TITLE, &lone_losses::cases());
    write(&mut list, not_finite::TITLE, &not_finite::cases());
}
