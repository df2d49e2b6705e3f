// Holds the library to the model, journal after journal, and counts what was met and what differed.
use crate::inputs::Inputs;
use crate::journal_calls::Library;
use crate::journal_classes::{Classes, FEW};
use crate::journal_inputs::{Journal, DAMAGES};
use crate::journal_memory::Memory;
use crate::journal_spoils::{Spoil, PARTS};

// One journal in so many is larger than 64 KiB.
const LARGE: u64 = 2048;

#[derive(Default)]
pub struct Judge {
    pub library: Library,
    // how many differences are shown
    pub shown: u64,
    // how many there are in each part
    pub differences: [u64; PARTS.len()],
    pub journals: u64,
    pub cuts: u64,
    pub reads: u64,
    pub ends: u64,
    pub writes: u64,
    pub memory: [Memory; 2],
    pub found: Classes,
    pub records: Classes,
    pub tails: Classes,
    pub refusals: Classes,
    pub ended: Classes,
    pub written: Classes,
    pub cut: Classes,
    pub written_on: Classes,
    pub restored: u64,
    damages: [u64; DAMAGES.len()],
}

// The first bytes, which of all but large journals are all.
pub fn hex(bytes: &[u8]) -> String {
    bytes.iter().take(1500).map(|b| format!("{b:02X}")).collect::<Vec<_>>().join(" ")
}

impl Judge {
    pub fn new(spoil: Spoil, shown: u64) -> Judge {
        Judge { library: Library { spoil }, shown, ..Judge::default() }
    }

    pub fn differ(&mut self, part: usize, bytes: &[u8], what: impl Fn() -> String) {
        self.differences[part] += 1;
        if self.shown > 0 {
            self.shown -= 1;
            println!("{}: {}\n    of {} bytes: {}", PARTS[part], what(), bytes.len(), hex(bytes));
        }
    }

    // One journal: cut and read, and written again where it is good; and two writes into other buffers.
    pub fn session(&mut self, journal: &mut Journal, cuts: &mut Vec<usize>, i: &mut Inputs, harmed: bool) {
        journal.draw(i, harmed, self.journals % LARGE == 0);
        journal.cuts(i, cuts);
        self.journals += 1;
        self.damages[journal.damage] += 1;
        for &at in cuts.iter() {
            self.cut_at(journal, at, i);
        }
        self.outside(journal, i);
        if journal.damage == 0 {
            self.restore(journal, i);
        }
        (0..2).for_each(|_| self.write_once(i));
    }

    // So many journals from a seed; with a word on the way where differences are shown.
    pub fn run(&mut self, journals: u64, seed: u64, harmed: bool) {
        let (mut i, mut journal, mut cuts) = (Inputs::new(seed), Journal::default(), Vec::new());
        let told = self.shown > 0;
        for k in 1..=journals {
            self.session(&mut journal, &mut cuts, &mut i, harmed);
            if told && k % 1_000_000 == 0 {
                eprintln!("{k} of {journals} journals");
            }
        }
    }

    fn classes(&self) -> [(&'static str, &Classes); 8] {
        [
            ("reads", &self.found),
            ("records", &self.records),
            ("reads without a record", &self.tails),
            ("refused reads", &self.refusals),
            ("ends", &self.ended),
            ("writes", &self.written),
            ("cuts of good journals", &self.cut),
            ("written on after a cut", &self.written_on),
        ]
    }

    // Whether a class, or a damage, was hardly met; of too few journals nothing is asked.
    pub fn hardly(&self) -> bool {
        if self.journals < FEW {
            println!("fewer than {FEW} journals: how often each class was met is not judged");
            return false;
        }
        let mut hardly = false;
        for (name, n) in DAMAGES.iter().zip(self.damages) {
            if 25 * n < self.journals {
                println!("hardly met: journals damaged in {name}, {n} of {}", self.journals);
                hardly = true;
            }
        }
        self.classes().iter().fold(hardly, |hardly, (name, classes)| hardly | classes.hardly(name))
    }

    pub fn print(&self) {
        let damages = DAMAGES.iter().zip(&self.damages).map(|(name, n)| format!("{name} {n}"));
        println!("journals damaged in: {}", damages.collect::<Vec<_>>().join(", "));
        self.classes().iter().for_each(|(name, classes)| println!("{name}: {}", classes.text()));
        println!("good journals read and written again: {}", self.restored);
        let parts = PARTS.iter().zip(&self.differences).map(|(part, n)| format!("{part} {n}"));
        println!("differences: {}", parts.collect::<Vec<_>>().join(", "));
    }
}
