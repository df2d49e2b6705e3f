// The journal beside a model of it, in one process, on journals from a seed; the original has no such calls. See journal_model.rs
// for what the calls have to give, journal_inputs.rs for the journals, and journal_promises.rs for the promises that are tested
// beside it. With the word `spoiled` the library's answers are spoiled in one way after the other, and each has to be seen; with
// the word `files` it is a program that is compared, by what it prints.
// Some of the inputs serve the comparison with the original alone.
#![allow(dead_code)]

mod inputs;
mod journal_calls;
mod journal_classes;
mod journal_files;
mod journal_inputs;
mod journal_judge;
mod journal_memory;
mod journal_model;
mod journal_promises;
mod journal_reads;
mod journal_spoils;
mod journal_writes;

use journal_judge::Judge;
use journal_model::Record;
use journal_spoils::{Spoil, FAULTS, PARTS, SPOILS};
use std::process::Command;

include!("../include/nyerdzumak.rs");

const SHOWN: u64 = 5;

// So many journals are enough for every spoiled answer.
const TRIED: u64 = 30_000;

// What the rules have, byte for byte: −250 milliseconds.
const EXAMPLE: [u8; 10] = [0x06, 0x00, 0x00, 0x00, 0x03, 0x00, 0x06, 0xff, 0xff, 0xff];

// Whether there was a difference, or a class was hardly met.
fn compared(journals: u64, seed: u64) -> bool {
    let example = Record { kind: 3, words: [-250i32 as u32, 0, 0, 0, 0, 0, 0] };
    assert!(example.bytes().eq(EXAMPLE), "the model has other bytes than the rules");
    let mut judge = Judge::new(Spoil::Nothing, SHOWN);
    judge.run(journals, seed, true);
    judge.print();
    let hardly = judge.hardly();
    let Judge { journals, cuts, reads, ends, writes, .. } = judge;
    let differences: u64 = judge.differences.iter().sum();
    println!("{journals} journals, {cuts} cuts, {reads} reads, {ends} ends, {writes} writes, {differences} differences");
    differences > 0 || hardly
}

// Answers spoiled in one way; whether that was not seen in a part where it must be.
fn missed(spoil: Spoil, must: &[usize], name: &str, seed: u64) -> bool {
    let mut judge = Judge::new(spoil, 0);
    judge.run(TRIED, seed, true);
    let missed = must.iter().any(|part| judge.differences[*part] == 0);
    let seen = PARTS.iter().zip(&judge.differences).filter(|(_, n)| **n > 0).map(|(part, n)| format!("{part} {n}"));
    println!("{name}: seen in {}{}", seen.collect::<Vec<_>>().join(", "), if missed { ": NOT where it must be" } else { "" });
    missed
}

// A call that touches what it was not lent, in a process of its own; whether that did not end by a fault.
fn not_a_fault(k: usize, seed: u64) -> bool {
    let own = std::env::current_exe().unwrap();
    let status = Command::new(own).args(["fault".to_string(), k.to_string(), seed.to_string()]).status().unwrap();
    println!("{}: {status}{}", FAULTS[k].1, if status.code().is_some() { ": NOT ended by a fault" } else { "" });
    status.code().is_some()
}

// One way after the other; and journals without any damage, of which it must be told that classes are hardly met. Whether one was
// not seen.
fn spoiled(seed: u64) -> bool {
    let unseen = SPOILS.iter().filter(|(spoil, must, name)| missed(*spoil, must, name, seed)).count();
    let no_faults = (0..FAULTS.len()).filter(|k| not_a_fault(*k, seed)).count();
    let mut judge = Judge::new(Spoil::Nothing, 0);
    judge.run(TRIED, seed, false);
    let untold = !judge.hardly() as usize;
    let [answers, faults] = [SPOILS.len(), FAULTS.len()];
    println!("{answers} spoiled answers, {unseen} not seen; {faults} faults, {no_faults} not seen; 1 lack of damaged journals, {untold} not seen");
    unseen + no_faults + untold > 0
}

fn main() {
    let words: Vec<String> = std::env::args().skip(1).collect();
    let number = |k: usize| words.get(k).expect("a number").parse::<u64>().expect("a number");
    let failed = match words[0].as_str() {
        "spoiled" => spoiled(number(1)),
        "fault" => {
            Judge::new(FAULTS[number(1) as usize].0, 0).run(TRIED, number(2), true);
            false
        }
        "files" => journal_files::compared(number(1), number(2), &words[3..]),
        _ => compared(number(0), number(1)),
    };
    std::process::exit(failed as i32);
}
