// The promise of a forward bridge, tested on what the library wrote: of the model only the rounding is asked. Each part is
// counted by itself, and the test of each is shown able to fail: results that kept it are spoiled in it and tested again.
use crate::date_classes::FEW;
use crate::date_inputs::{Bridge, LENT};
use crate::date_model::{room, whole};
use crate::inputs::Inputs;
use crate::nz_date_all;

const PARTS: [&str; 6] = ["the answer", "the first entry", "the last entry", "a time not dated", "the date of an end", "dates that fall"];

type Counts = [u64; PARTS.len()];

#[derive(Default)]
pub struct Promise {
    tested: u64,
    // those of whose table times were dated
    swept: u64,
    broken: Counts,
    // the same asked of bridges in range that are not forward, which do not have the promise
    others: u64,
    broken_by_others: Counts,
    // results that were spoiled in one part, and those that were seen to be
    spoiled: Counts,
    seen: Counts,
}

// What came of a bridge: the answer, the table and, where times were swept, what the call for them answered and left there.
#[derive(Clone)]
struct Came {
    answer: u32,
    table: Vec<u32>,
    dated: Option<(u32, Vec<u32>)>,
}

// Times from the first x of a table to the last, in order: all of them where there are few, else some, both ends included.
fn sweep(i: &mut Inputs, first: u32, last: u32) -> Vec<u32> {
    const MANY: u32 = 256;
    let span = last.saturating_sub(first);
    if span < MANY {
        return (first..=first + span).collect();
    }
    let mut times: Vec<u32> = (0..MANY).map(|_| first + i.below(span as u64 + 1) as u32).collect();
    (times[0], times[1]) = (first, last);
    times.sort();
    times
}

fn dated(table: &[u32], mut times: Vec<u32>) -> (u32, Vec<u32>) {
    let mut place = 0;
    let answer = unsafe { nz_date_all(table.as_ptr(), table.len() as u64, times.as_mut_ptr(), times.len() as u64, &mut place) };
    (answer, times)
}

// Which parts are broken. The ends rounded down have to stand first and last; all times have to be dated, the first and the
// last of them by the entries there, and no date may be below the one before. Of a refusal there is no more to ask.
fn broken(b: &Bridge, came: &Came) -> [bool; PARTS.len()] {
    let (table, n) = (&came.table, came.table.len());
    if came.answer != 0 {
        return [true, false, false, false, false, false];
    }
    let is_other = |of: usize, at: usize| (0..2).any(|axis| whole(b.src[of + axis]) != Some(table[at + axis]));
    let (first, last) = (is_other(0, 0), is_other(4, n - 2));
    match &came.dated {
        None => [false, first, last, false, false, false],
        Some((0, dates)) => {
            // entries may share the first x, and the last of them dates it
            let start = 2 * table.iter().step_by(2).rposition(|x| *x == table[0]).unwrap();
            let ends = dates[0] != table[start + 1] || dates[dates.len() - 1] != table[n - 1];
            [false, first, last, false, ends, !dates.is_sorted()]
        }
        Some(_) => [false, first, last, true, false, false],
    }
}

// The same spoiled in one part; none where no date is below another.
fn spoiled(came: &Came, part: usize, i: &mut Inputs) -> Option<Came> {
    let mut came = came.clone();
    let (axis, n) = (i.below(2) as usize, came.table.len());
    let (_, dates) = came.dated.as_mut()?;
    match part {
        0 => came.answer = 12,
        1 => came.table[axis] ^= 1,
        2 => came.table[n - 2 + axis] ^= 1,
        3 => came.dated = Some(dated(&came.table, vec![came.table[0], came.table[n - 2] + 1])),
        4 => *(if axis == 0 { dates.first_mut() } else { dates.last_mut() })? ^= 1,
        _ => {
            let k = dates.windows(2).position(|w| w[0] < w[1])?;
            dates.swap(k, k + 1);
        }
    }
    Some(came)
}

fn add(counts: &mut Counts, broken: [bool; PARTS.len()]) {
    counts.iter_mut().zip(broken).for_each(|(n, b)| *n += b as u64);
}

fn text(counts: &Counts) -> String {
    PARTS.iter().zip(counts).map(|(part, n)| format!("{part} {n}")).collect::<Vec<_>>().join(", ")
}

impl Promise {
    // Asks it of a bridge that has it, or of one that lacks the rise alone; in every eighth times are dated. Whether it was
    // broken where it has to be kept.
    pub fn ask(&mut self, b: &Bridge, answer: u32, table: &[u32; LENT], i: &mut Inputs) -> bool {
        if !b.is_in_range() {
            return false;
        }
        let table = table[..room(b.level)].to_vec();
        let dated = (i.chance(8) && answer == 0).then(|| dated(&table, sweep(i, table[0], table[table.len() - 2])));
        let came = Came { answer, table, dated };
        let broken = broken(b, &came);
        if !b.is_forward() {
            self.others += 1;
            add(&mut self.broken_by_others, broken);
            return false;
        }
        self.tested += 1;
        self.swept += came.dated.is_some() as u64;
        add(&mut self.broken, broken);
        if !broken.contains(&true) && came.dated.is_some() {
            self.spoil(b, &came, i);
        }
        broken.contains(&true)
    }

    fn spoil(&mut self, b: &Bridge, came: &Came, i: &mut Inputs) {
        for part in 0..PARTS.len() {
            if let Some(came) = spoiled(came, part, i) {
                self.spoiled[part] += 1;
                self.seen[part] += broken(b, &came)[part] as u64;
            }
        }
    }

    // What must not be: that it was broken, that a spoiled result was not seen, or, of many inputs, that a part was never
    // spoiled or no bridge that is not forward was refused.
    pub fn failed(&self, inputs: u64) -> bool {
        let untested = inputs > FEW && (self.spoiled.contains(&0) || self.broken_by_others[0] == 0);
        if self.seen != self.spoiled || untested {
            println!("promise: a part of its test could not fail, or was not shown to");
        }
        self.broken != Counts::default() || self.seen != self.spoiled || untested
    }

    pub fn print(&self) {
        println!("promise: tested {} times, {} of them by dates, and broken: {}", self.tested, self.swept, text(&self.broken));
        println!("promise: asked of {} bridges in range that are not forward, and broken: {}", self.others, text(&self.broken_by_others));
        println!("promise: results spoiled in one part: {}", text(&self.spoiled));
        println!("promise: of these seen to be broken in it: {}", text(&self.seen));
    }
}
