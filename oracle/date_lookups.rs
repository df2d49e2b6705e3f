// Lookups beside the model: one time by one call, and many by one.
use crate::date_calls::Calls;
use crate::date_classes::{Answers, Class, Classes, FEW};
use crate::date_inputs::{times, Table, DAMAGES, LENT, STOOD};
use crate::date_model::{Model, Wrong, LARGEST};
use crate::inputs::Inputs;

// What stands in an output before a call.
const DATE: u32 = 0xdada_dada;
const PLACE: u64 = 0x1234_5678_0000_0077;

// By this the inputs are made, so that they are the same for every wrong model.
const RIGHT: Model = Model { wrong: Wrong::Nothing };

// How many words more a buffer of times has than are lent.
const BEHIND: usize = 4;

// Where the differences of calls for one time are counted, and where those of calls for many.
const ONE: usize = 0;
const MANY: usize = 1;

#[derive(Default)]
pub struct Lookups {
    pub calls: Calls,
    // how many differences are shown
    pub shown: u64,
    pub inputs: u64,
    pub of_many: u64,
    pub differences: [u64; 2],
    // those in which the table was changed
    pub changes: [u64; 2],
    answers: Answers,
    by_times: Classes,
    by_tables: Classes,
    many_answers: Answers,
    many_classes: Classes,
    damages: [u64; DAMAGES.len()],
    times: Vec<u32>,
}

// The classes of a call for many times, by what the judge gave.
fn by_places(lent: &[u32], asked: &[u32], judged: u32, place: u64) -> [Class; 10] {
    let (n, outside, refused) = (asked.len(), judged == 11, judged != 0 && judged != 11);
    let is_bad = |r: &&u32| **r < lent[0] || **r > lent[lent.len() - 2];
    [
        ("no times", judged == 0 && n == 0),
        ("no times and a refused table", refused && n == 0),
        ("one time dated", judged == 0 && n == 1),
        ("many times dated", judged == 0 && n > 1),
        ("many times and a refused table", refused && n > 1),
        ("the one time outside", outside && n == 1),
        ("the first of many outside", outside && n > 1 && place == 0),
        ("one between outside", outside && place > 0 && place + 1 < n as u64),
        ("the last alone outside", outside && n > 1 && place + 1 == n as u64),
        ("several outside", outside && asked.iter().filter(is_bad).count() > 1),
    ]
}

// The classes of a lookup, by its time and what the judge gave.
fn by_time(table: &Table, r: u32, judged: u32) -> [Class; 14] {
    let lent = table.lent();
    let xs = || lent.iter().step_by(2);
    let (dated, outside) = (judged == 0, judged == 11);
    let (first, last) = (lent.first().copied().unwrap_or(0), lent.iter().rev().nth(1).copied().unwrap_or(0));
    let at = if dated { xs().filter(|x| **x == r).count() } else { 0 };
    let part = dated && r < last && {
        let k = 2 * xs().rposition(|x| *x <= r).unwrap();
        let [x, y, next_x, next_y] = [0, 1, 2, 3].map(|j| lent[k + j] as u64);
        (r as u64 - x) * (next_y - y) % (next_x - x) != 0
    };
    [
        ("dated between entries, with a remainder", part),
        ("at an entry", at > 0),
        ("one before an entry", dated && xs().any(|x| r + 1 == *x)),
        ("one after an entry", dated && xs().any(|x| r == *x + 1)),
        ("at several entries of one x", at > 1),
        ("at several entries of the first x", at > 1 && r == first && r < last),
        ("at several entries of the last x", at > 1 && r == last && first < r),
        ("at a single entry", dated && lent.len() == 2),
        ("all entries of one x", dated && lent.len() > 2 && first == last),
        ("time 0 dated", dated && r == 0),
        ("time 16,777,216 dated", dated && r == LARGEST),
        ("time 2^32 − 1 outside", outside && r == u32::MAX),
        ("one before the first x", outside && r.wrapping_add(1) == first),
        ("one after the last x", outside && r.wrapping_sub(1) == last),
    ]
}

// The classes by its table. One that dates a time rises, so that its least numbers stand first and its largest last.
fn by_table(table: &Table, judged: u32) -> [Class; 13] {
    let (lent, dated) = (table.lent(), judged == 0);
    let falls = |axis: usize| !lent.iter().skip(axis).step_by(2).is_sorted();
    let begins = |axis: usize| dated && lent[axis] == 0;
    let ends = |axis: usize| dated && lent[lent.len() - 2 + axis] == LARGEST;
    [
        ("dated by a table of the call", dated && table.made),
        ("dated by a table by hand", dated && !table.made),
        ("dated by a table with an entry 0 in it, in x", begins(0)),
        ("dated by a table with an entry 0 in it, in y", begins(1)),
        ("dated by a table with an entry 16,777,216 in it, in x", ends(0)),
        ("dated by a table with an entry 16,777,216 in it, in y", ends(1)),
        ("one above 16,777,216 in it", judged == 10 && lent.contains(&(LARGEST + 1))),
        ("2^32 − 1 in it", judged == 10 && lent.contains(&u32::MAX)),
        ("10 and a fall", judged == 10 && (falls(0) || falls(1))),
        ("12 with x alone falling", judged == 12 && falls(0) && !falls(1)),
        ("12 with y alone falling", judged == 12 && !falls(0) && falls(1)),
        ("a table of one number", judged == 9 && lent.len() == 1),
        ("a table with a tail that rises", dated && table.damage == 8),
    ]
}

impl Lookups {
    // One table, and what is looked up in it: few times where the table is refused.
    pub fn session(&mut self, model: &Model, i: &mut Inputs) {
        let mut table = Table::draw(i);
        let before = table.words;
        let mut asked = std::mem::take(&mut self.times);
        times(i, table.lent(), &mut asked);
        let passed = RIGHT.test(table.lent()) == 0;
        self.damages[table.damage] += 1;
        for k in 0..if passed { asked.len() } else { 6 } {
            let k = if passed { k } else { i.below(asked.len() as u64) as usize };
            self.one(model, &mut table, asked[k]);
        }
        self.hold(ONE, &mut table, &before);
        self.many(model, &mut table, &[]);
        self.many(model, &mut table, &[asked[i.below(asked.len() as u64) as usize]]);
        self.many(model, &mut table, &asked);
        if passed {
            self.with_bad(model, &mut table, &asked, i);
        }
        self.hold(MANY, &mut table, &before);
        self.times = asked;
    }

    // Whether the lent table is as it was; else it is put back.
    fn hold(&mut self, of: usize, table: &mut Table, before: &[u32; LENT]) {
        if table.words != *before {
            self.changes[of] += 1;
            self.differ(of, table, "the lent table was changed into this");
            table.words = *before;
        }
    }

    fn differ(&mut self, of: usize, table: &Table, what: &str) {
        self.differences[of] += 1;
        if self.shown > 0 {
            self.shown -= 1;
            println!("lookup in {:?}: {what}", table.lent());
        }
    }

    fn one(&mut self, model: &Model, table: &mut Table, r: u32) {
        let (mut ours, mut theirs) = (DATE, DATE);
        let answer = unsafe { (self.calls.at)(table.lend(), table.len as u64, r, &mut ours) };
        let judged = model.at(table.lent(), r, &mut theirs);
        self.inputs += 1;
        self.answers.count(judged);
        self.by_times.count(&by_time(table, r, judged));
        self.by_tables.count(&by_table(table, judged));
        if (answer, ours) != (judged, theirs) {
            self.differ(ONE, table, &format!("of {r}: answer {answer}, date {ours}, not answer {judged}, date {theirs}"));
        }
    }

    // Each time stands in the buffer, and some words behind them.
    fn many(&mut self, model: &Model, table: &mut Table, asked: &[u32]) {
        let n = asked.len();
        let mut ours = asked.to_vec();
        ours.extend_from_slice(&STOOD[..BEHIND]);
        let mut theirs = ours.clone();
        let (mut our_place, mut their_place) = (PLACE, PLACE);
        let answer = unsafe { (self.calls.all)(table.lend(), table.len as u64, ours.as_mut_ptr(), n as u64, &mut our_place) };
        let judged = model.all(table.lent(), &mut theirs[..n], &mut their_place);
        self.of_many += 1;
        self.many_answers.count(judged);
        self.many_classes.count(&by_places(table.lent(), asked, judged, their_place));
        if (answer, &ours, our_place) != (judged, &theirs, their_place) {
            let what = format!("of {asked:?}: answer {answer}, place {our_place}, {ours:?}, not answer {judged}, place {their_place}, {theirs:?}");
            self.differ(MANY, table, &what);
        }
    }

    // Times that all have a date; some of them; and these with a bad one at each place in turn, and maybe others behind it.
    fn with_bad(&mut self, model: &Model, table: &mut Table, asked: &[u32], i: &mut Inputs) {
        let (first, last) = (table.words[0], table.words[table.len - 2]);
        let good: Vec<u32> = asked.iter().copied().filter(|r| (first..=last).contains(r)).collect();
        self.many(model, table, &good);
        let mut some: Vec<u32> = (0..1 + i.below(8)).map(|_| good[i.below(good.len() as u64) as usize]).collect();
        self.many(model, table, &some);
        for k in 0..some.len() {
            let kept = some.clone();
            some[k] = if i.chance(2) && first > 0 { first - 1 } else { last + 1 + i.below((u32::MAX - last) as u64) as u32 };
            if i.chance(2) {
                some[k + 1..].fill_with(|| asked[i.below(asked.len() as u64) as usize]);
            }
            self.many(model, table, &some);
            some = kept;
        }
    }

    // Whether an answer or a class was hardly met, or a damage never.
    pub fn failed(&self) -> bool {
        let refusals = [0, 2, 9, 10, 11, 12];
        let never = self.inputs > FEW && self.damages.contains(&0);
        let answers = self.answers.hardly(&refusals) | self.many_answers.hardly(&refusals);
        never | answers | self.by_times.hardly() | self.by_tables.hardly() | self.many_classes.hardly()
    }

    pub fn print(&self) {
        println!("lookups: {}; {}; {}", self.answers.text(), self.by_times.text(), self.by_tables.text());
        let damages = DAMAGES.iter().zip(&self.damages).map(|(name, n)| format!("{name} {n}"));
        println!("tables that were lent: {}", damages.collect::<Vec<_>>().join(", "));
        println!("many times by one call: {}; {}", self.many_answers.text(), self.many_classes.text());
    }
}
