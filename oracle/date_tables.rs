// The call that makes a table beside the model, and its promise.
use crate::date_calls::Calls;
use crate::date_classes::{Answers, Class, Classes, FEW};
use crate::date_inputs::{in_range, Bridge, LENT, STOOD};
use crate::date_model::{room, Model, HIGHEST, LARGEST};
use crate::date_promise::Promise;
use crate::inputs::Inputs;

#[derive(Default)]
pub struct Tables {
    pub calls: Calls,
    // how many differences are shown
    pub shown: u64,
    pub inputs: u64,
    pub differences: u64,
    // those in which the source was changed
    pub changes: u64,
    answers: Answers,
    levels: [u64; HIGHEST as usize + 1],
    conics: Classes,
    outcomes: Classes,
    promise: Promise,
}

// The classes by the numbers of a conic.
fn by_conic(b: &Bridge, judged: u32) -> [Class; 16] {
    let (s, w, cut, made) = (&b.src[..6], b.weight, b.is_cut(), judged == 0);
    let some = |f: fn(f32) -> bool| s.iter().any(|x| f(*x));
    let turns = |k: usize| s[k + 2] < s[k].min(s[k + 4]) || s[k + 2] > s[k].max(s[k + 4]);
    [
        ("forward", b.is_forward()),
        ("flat in x", made && s[0] == s[2] && s[2] == s[4]),
        ("flat in y", made && s[1] == s[3] && s[3] == s[5]),
        ("backward in x", cut && s[4] < s[0]),
        ("backward in y", cut && s[5] < s[1]),
        ("turning", cut && (turns(0) || turns(1))),
        ("NaN in it", cut && some(f32::is_nan)),
        ("an infinity in it", cut && some(f32::is_infinite)),
        ("−0 in it and made", made && some(|x| x.to_bits() == 0x8000_0000)),
        ("a fraction in it and made", made && some(|x| x.fract() != 0.0)),
        ("an end above 16,777,216", judged == 10 && (s[4] > LARGEST as f32 || s[5] > LARGEST as f32)),
        ("the middle alone out of range and made", made && s[2..4].iter().any(|x| !in_range(*x))),
        ("NaN weight", cut && w.is_nan()),
        ("infinite weight", cut && w.is_infinite()),
        ("weight −0", cut && w.to_bits() == 0x8000_0000),
        ("weight below 0", cut && w < 0.0),
    ]
}

// The classes by what is taken of its cut, what is lent, and what comes of it.
fn by_outcome(b: &Bridge, judged: u32, taken: &[f32], table: &[u32]) -> [Class; 14] {
    let made = judged == 0;
    let steps = |axis: usize| taken[axis..].iter().step_by(2).zip(taken[axis..].iter().skip(2).step_by(2));
    let [fall_x, fall_y] = [0, 1].map(|axis| steps(axis).any(|(a, b)| a > b));
    let small = [0, 1].iter().all(|axis| steps(*axis).all(|(a, b)| a - b < 1.0));
    let one_x = table.windows(4).step_by(2).any(|w| w[0] == w[2] && w[1] < w[3]);
    let (short_source, short_room) = (b.len[0] < 6, b.level <= HIGHEST && b.len[1] < room(b.level));
    [
        ("below 0 and above −1", judged == 10 && taken.iter().any(|x| *x < 0.0 && *x > -1.0)),
        ("x alone falls", judged == 12 && !fall_y),
        ("y alone falls", judged == 12 && !fall_x),
        ("falls by less than 1", judged == 12 && small),
        ("a fall that rounding hides", made && (fall_x || fall_y)),
        ("10 and a fall", judged == 10 && (fall_x || fall_y)),
        ("entries of one x", made && one_x),
        ("an entry 0 in it", made && table.contains(&0)),
        ("an entry 16,777,216 in it", made && table.contains(&LARGEST)),
        ("level too high and a short source", judged == 1 && short_source),
        ("level too high with room", judged == 1 && !short_source && b.len[1] >= room(HIGHEST + 1)),
        ("short buffer", short_room && !short_source),
        ("short source", judged == 2 && !short_room),
        ("longer buffer", made && b.len[1] > room(b.level)),
    ]
}

impl Tables {
    pub fn compare(&mut self, model: &Model, b: &mut Bridge, i: &mut Inputs) {
        let (mut ours, mut theirs) = (STOOD, STOOD);
        let (before, lent) = (b.src, b.len.map(|n| n as u64));
        let answer = unsafe { (self.calls.table)(b.lend(), lent[0], b.weight, b.level, ours.as_mut_ptr(), lent[1]) };
        self.inputs += 1;
        // bit for bit, since a NaN is no other NaN
        if b.src.map(f32::to_bits) != before.map(f32::to_bits) {
            self.changes += 1;
            self.differ(b, "the lent source was changed into this");
            b.src = before;
        }
        let judged = model.make(b.lent(), b.weight, b.level, &mut theirs[..b.len[1]]);
        if answer != judged || ours != theirs {
            self.differ(b, &format!("answer {answer}, not {judged}; table {:?}, not {:?}", &ours[..b.len[1]], &theirs[..b.len[1]]));
        }
        self.answers.count(judged);
        if judged == 0 {
            self.levels[b.level as usize] += 1;
        }
        self.sort(model, b, judged, &theirs);
        if self.promise.ask(b, answer, &ours, i) {
            self.show(b, &format!("the promise is broken: answer {answer}, table {:?}", &ours[..b.len[1]]));
        }
    }

    fn differ(&mut self, b: &Bridge, what: &str) {
        self.differences += 1;
        self.show(b, what);
    }

    fn show(&mut self, b: &Bridge, what: &str) {
        if self.shown > 0 {
            self.shown -= 1;
            println!("table of {:?}, weight {:?}, level {}, lengths {:?}", b.lent(), b.weight, b.level, b.len);
            println!("    bits {}", b.src.iter().chain([&b.weight]).map(|x| format!("{:08x}", x.to_bits())).collect::<Vec<_>>().join(" "));
            println!("    {what}");
        }
    }

    // Which classes the input is of, and what the judge gave.
    fn sort(&mut self, model: &Model, b: &Bridge, judged: u32, table: &[u32; LENT]) {
        self.conics.count(&by_conic(b, judged));
        let taken = if b.is_cut() { model.taken(b.lent(), b.weight, b.level) } else { [0.0; room(HIGHEST)] };
        let n = if b.is_cut() { room(b.level) } else { 2 };
        self.outcomes.count(&by_outcome(b, judged, &taken[..n], &table[..n]));
    }

    // What must not be: a promise that was broken, or whose test could not fail; a class or a level that was hardly met.
    pub fn failed(&self) -> bool {
        let rare = self.inputs > FEW && self.levels.iter().any(|n| 100 * n < self.inputs);
        self.promise.failed(self.inputs) | rare | self.answers.hardly(&[0, 1, 2, 10, 12]) | self.conics.hardly() | self.outcomes.hardly()
    }

    pub fn print(&self) {
        println!("tables: {}; made at the levels 0 to {} {:?}", self.answers.text(), HIGHEST, self.levels);
        println!("tables: {}; {}", self.conics.text(), self.outcomes.text());
        self.promise.print();
    }
}
