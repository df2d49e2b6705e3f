// Date tables and lookups beside a model of them, in one process, on inputs from a seed; the original has no such calls. See
// date_model.rs for what they have to give, date_inputs.rs for the inputs, and date_promise.rs for the promise that is tested
// beside it. With the word `wrong` the model is made wrong, in one way after the other, and then a call changes what it only
// reads: each has to be found, and in the calls that it is of.
// Some of the inputs serve the comparison with the original alone.
#![allow(dead_code)]

mod date_calls;
mod date_classes;
mod date_inputs;
mod date_lookups;
mod date_model;
mod date_promise;
mod date_tables;
mod inputs;

use date_calls::{Calls, Places, CHANGING, LIBRARY};
use date_inputs::Bridge;
use date_lookups::Lookups;
use date_model::{Model, Wrong, WRONG};
use date_tables::Tables;
use inputs::Inputs;
use std::hint::black_box;

include!("../include/nyerdzumak.rs");

const SHOWN: u64 = 5;

// So many tables and lookups are enough for every wrong model.
const TRIED: [u64; 2] = [200_000, 500_000];

fn run(wrong: Wrong, calls: Calls, tables: u64, lookups: u64, seed: u64, shown: u64) -> (Tables, Lookups) {
    let model = Model { wrong };
    let mut i = Inputs::new(seed);
    let (mut made, mut asked) = (Tables::default(), Lookups::default());
    (made.shown, asked.shown) = (shown, shown);
    // hidden, so that nothing is known of what they do
    (made.calls, asked.calls) = black_box((calls, calls));
    let mut bridge = Bridge::new();
    while made.inputs < tables || asked.inputs < lookups {
        if made.inputs < tables {
            bridge.make(&mut i);
            made.compare(&model, &mut bridge, &mut i);
        }
        // in step with the tables
        while asked.inputs < lookups && asked.inputs as u128 * tables as u128 <= lookups as u128 * made.inputs as u128 {
            asked.session(&model, &mut i);
        }
        if shown > 0 && made.inputs % 2_000_000 == 0 {
            eprintln!("{} of {} tables, {} of {} lookups", made.inputs, tables, asked.inputs, lookups);
        }
    }
    (made, asked)
}

// Prints what was found in tables, in lookups and in calls for many times; whether that is not where it must be.
fn missed(found: [u64; 3], what: &str, must: Places, name: &str) -> bool {
    let missed = found.map(|n| n > 0) != must;
    let [tables, lookups, many] = found;
    let told = if missed { ": NOT where it must be found" } else { "" };
    println!("{tables:>7} {what} in tables, {lookups:>7} in lookups, {many:>7} in calls for many times: {name}{told}");
    missed
}

// One wrong model after the other, and one call after the other that changes what it reads; whether one was not found.
fn wrong(seed: u64) -> bool {
    let [mut models, mut changes] = [0; 2];
    for (wrong, must, name) in WRONG {
        let (made, asked) = run(wrong, LIBRARY, TRIED[0], TRIED[1], seed, 0);
        models += missed([made.differences, asked.differences[0], asked.differences[1]], "differences", must, name) as usize;
    }
    for (calls, must, name) in CHANGING {
        let (made, asked) = run(Wrong::Nothing, calls, TRIED[0], TRIED[1], seed, 0);
        changes += missed([made.changes, asked.changes[0], asked.changes[1]], "changes", must, name) as usize;
    }
    println!("{} wrong models, {models} not found; {} calls that change what they read, {changes} not found", WRONG.len(), CHANGING.len());
    models + changes > 0
}

// Whether there was a difference, the promise failed, or a class was hardly met.
fn compared(tables: u64, lookups: u64, seed: u64) -> bool {
    let (made, asked) = run(Wrong::Nothing, LIBRARY, tables, lookups, seed, SHOWN);
    made.print();
    asked.print();
    let hardly = made.failed() | asked.failed();
    let differences = made.differences + asked.differences.iter().sum::<u64>();
    println!("{} tables, {} lookups, {} calls for many times, {} differences", made.inputs, asked.inputs, asked.of_many, differences);
    differences > 0 || hardly
}

fn main() {
    let words: Vec<String> = std::env::args().skip(1).collect();
    let word = |k: usize, other: u64| words.get(k).map_or(other, |s| s.parse().expect("a number"));
    let failed = if words.first().is_some_and(|w| w == "wrong") { wrong(word(1, 1)) } else { compared(word(0, 20_000_000), word(1, 100_000_000), word(2, 1)) };
    std::process::exit(failed as i32);
}
