// Sides that are timed in turns, what comes of their rounds, and tables in Markdown.
use std::fmt;
use std::hint::black_box;
use std::time::Instant;

pub const ROUNDS: usize = 401;
// In how many parts the rounds of a row are timed where there are several rows.
const PARTS: usize = 8;

pub type Side<'a> = Box<dyn FnMut() + 'a>;

// Of each round the time of one call of each side, in nanoseconds.
pub struct Rounds(Vec<Vec<f64>>);

// The time of one of the `calls` calls of a batch.
fn time(calls: usize, batch: &mut Side) -> f64 {
    let start = Instant::now();
    batch();
    start.elapsed().as_nanos() as f64 / calls as f64
}

// So many frames deeper in the stack.
#[inline(never)]
fn deeper(frames: usize, round: &mut dyn FnMut()) {
    let mut frame = [0u64; 4];
    black_box(&mut frame);
    if frames == 0 { round() } else { deeper(frames - 1, round) }
    black_box(&mut frame);
}

// A batch of every side of a row in each round, so that a slow while of the machine meets all of them, and the rounds of a row in
// parts, so that it meets all rows. Some calls take longer where the stack lies badly beside other memory, so it lies elsewhere in
// each round; a part begins with the deepest, so that none is slow for memory that is new.
pub fn turns(calls: usize, mut rows: Vec<Vec<Side>>) -> Vec<Rounds> {
    let mut rounds: Vec<Rounds> = rows.iter().map(|_| Rounds(Vec::new())).collect();
    for part in 0..PARTS {
        for (sides, rounds) in rows.iter_mut().zip(&mut rounds) {
            for frames in (part..ROUNDS).step_by(PARTS).rev() {
                deeper(frames, &mut || rounds.0.push(sides.iter_mut().map(|side| time(calls, side)).collect()));
            }
        }
    }
    rounds
}

// One row of two sides: side 0 is the Rust, side 1 the library.
pub fn pair<'a>(calls: usize, theirs: impl FnMut() + 'a, ours: impl FnMut() + 'a) -> Rounds {
    turns(calls, vec![vec![Box::new(theirs), Box::new(ours)]]).remove(0)
}

// The middle of a figure over the rounds, and what 5 and 95 of 100 rounds are not above.
pub struct Spread {
    pub middle: f64,
    low: f64,
    high: f64,
}

impl fmt::Display for Spread {
    fn fmt(&self, f: &mut fmt::Formatter) -> fmt::Result {
        write!(f, "{:.2} ({:.2} to {:.2})", self.middle, self.low, self.high)
    }
}

impl Rounds {
    // A figure is formed within each round, and only then is the middle taken.
    pub fn of(&self, figure: impl Fn(&[f64]) -> f64) -> Spread {
        let mut all: Vec<f64> = self.0.iter().map(|round| figure(round)).collect();
        all.sort_by(f64::total_cmp);
        let at = |part: usize| all[(all.len() - 1) * part / 100];
        Spread { middle: at(50), low: at(5), high: at(95) }
    }

    pub fn ns(&self, side: usize) -> f64 {
        self.of(|round| round[side]).middle
    }

    pub fn times(&self, side: usize, beside: usize) -> Spread {
        self.of(|round| round[side] / round[beside])
    }
}

// The first row is the head.
pub struct Table(Vec<Vec<String>>);

impl Table {
    pub fn new(head: &[&str]) -> Table {
        Table(vec![head.iter().map(|cell| cell.to_string()).collect()])
    }

    // The columns of most tables.
    pub fn of_calls(rust: &str) -> Table {
        Table::new(&["call", "library, ns", &format!("{rust}, ns"), "times"])
    }

    pub fn row(&mut self, cells: Vec<String>) {
        self.0.push(cells);
    }

    // A row of such a table, of a pair.
    pub fn call(&mut self, name: &str, pair: &Rounds) {
        self.row(vec![name.to_string(), ns(pair.ns(1)), ns(pair.ns(0)), pair.times(1, 0).to_string()]);
    }

    // Columns are filled up with blanks, so that it can be read as it is printed.
    pub fn print(&self) {
        println!();
        let width = |column: usize| self.0.iter().map(|row| row[column].len()).max().unwrap();
        for (k, row) in self.0.iter().enumerate() {
            let cells = row.iter().enumerate().map(|(column, cell)| format!(" {:<1$} |", cell, width(column)));
            println!("|{}", cells.collect::<String>());
            if k == 0 {
                println!("|{}", "---|".repeat(row.len()));
            }
        }
    }
}

pub fn ns(time: f64) -> String {
    format!("{time:.1}")
}

// A paragraph, in lines of at most 120 columns.
pub fn say(words: &str) {
    let mut line = String::new();
    println!();
    for word in words.split_whitespace() {
        if line.len() + word.len() >= 120 {
            println!("{line}");
            line.clear();
        }
        line += if line.is_empty() { "" } else { " " };
        line += word;
    }
    println!("{line}");
}
