// Cuts of all kinds of conics at level 4 and at level 6 by the three rules beside the original, with the buffer as the last call
// left it and cleared before each call; and plain ones at all levels.
use crate::*;
use original::Point;
use original::path_geometry::Conic;

// One of the library's cuts, as the C face has it.
type Cut = unsafe extern "C" fn(*const f32, u64, f32, u32, *mut f32, u64) -> u32;

// The product rule, which is the original's, the exact rule, and both axes.
const RULES: [Cut; 3] = [nz_conic_chop_into_quads_pow2, nz_cut_in_order, nz_cut_in_order_both];

pub const ROOM: usize = nz_cut_room(NZ_MAX_LEVEL) as usize;

// How many numbers a cut writes.
pub fn room(level: u32) -> usize {
    nz_cut_room(level) as usize
}

// A buffer begins with a line of the cache, another one in each batch: some calls take longer where it lies badly beside what they
// read, and no figure is to hang on one place.
struct Buffer<T> {
    room: Vec<T>,
    line: usize,
}

impl<T: Copy> Buffer<T> {
    const LINES: usize = 64;
    const LINE: usize = 64 / size_of::<T>();

    fn new(empty: T) -> Buffer<T> {
        Buffer { room: vec![empty; (Self::LINES + 1) * Self::LINE + ROOM], line: 0 }
    }

    fn next(&mut self, len: usize) -> &mut [T] {
        self.line = (self.line + 1) % Self::LINES;
        let start = self.room.as_ptr().align_offset(64) + self.line * Self::LINE;
        &mut self.room[start..start + len]
    }
}

fn conic((p, w): &([f32; 6], f32)) -> Conic {
    let at = |k: usize| Point::from_xy(p[2 * k], p[2 * k + 1]);
    Conic::new(at(0), at(1), at(2), *w)
}

// A batch of the original's cuts, and one of the library's by a rule.
fn theirs(inputs: &Inputs, level: u32, cleared: bool) -> Side<'_> {
    let conics: Vec<Conic> = inputs.iter().map(conic).collect();
    let mut buffer = Buffer::new(Point::zero());
    Box::new(move || {
        let out = buffer.next(room(level) / 2);
        for c in &conics {
            if cleared {
                black_box(&mut *out).fill(Point::zero());
            }
            black_box(black_box(c).chop_into_quads_pow2(level as u8, out));
        }
    })
}

fn ours(cut: Cut, inputs: &Inputs, level: u32, cleared: bool) -> Side<'_> {
    let mut buffer = Buffer::new(0.0f32);
    Box::new(move || {
        let out = buffer.next(room(level));
        for (p, w) in inputs {
            if cleared {
                black_box(&mut *out).fill(0.0);
            }
            black_box(unsafe { cut(black_box(p).as_ptr(), 6, *w, level, out.as_mut_ptr(), out.len() as u64) });
        }
    })
}

fn answer(cut: Cut, (p, w): &([f32; 6], f32), level: u32) -> Vec<f32> {
    let mut out = vec![0.0; room(level)];
    let answer = unsafe { cut(p.as_ptr(), 6, *w, level, out.as_mut_ptr(), room(level) as u64) };
    assert!(answer == NZ_OK, "a cut that is refused is not timed");
    out
}

// The product rule gives what the original gives, bit for bit but that any NaN is a NaN, and no rule refuses: so no row is of two
// different things.
fn judge(inputs: &Inputs, level: u32) {
    for input in inputs {
        let mut points = vec![Point::zero(); room(level) / 2];
        conic(input).chop_into_quads_pow2(level as u8, &mut points);
        let [product, ..] = RULES.map(|cut| answer(cut, input, level));
        let numbers = points.iter().flat_map(|p| [p.x, p.y]);
        let same = numbers.zip(product).all(|(a, b)| a.to_bits() == b.to_bits() || a.is_nan() && b.is_nan());
        assert!(same, "cuts that differ are not timed");
    }
}

// The original and the three rules.
pub fn sides(inputs: &Inputs, level: u32, cleared: bool) -> Vec<Side<'_>> {
    judge(inputs, level);
    let rules = RULES.map(|cut| ours(cut, inputs, level, cleared));
    [theirs(inputs, level, cleared)].into_iter().chain(rules).collect()
}

// The first sides of a row with the buffer not cleared, and with it cleared.
const KEPT: usize = 0;
const CLEARED: usize = 4;

// Each row with its kind's name and its level.
fn print<'a>(rows: impl Iterator<Item = (&'a str, u32, &'a Rounds)>) {
    let [conics, level, cleared] = ["conics", "level", "cleared"];
    let mut ratios = Table::new(&[conics, level, "product rule", cleared, "exact rule", cleared, "both axes", cleared]);
    let mut times = Table::new(&[conics, level, "Rust", "product", "exact", "both", "cleared: Rust", "product", "exact", "both"]);
    for (name, level, rounds) in rows {
        let head = [name.to_string(), level.to_string()];
        let cells = |rule: usize| {
            let cleared = rounds.times(CLEARED + rule, CLEARED).middle;
            [rounds.times(KEPT + rule, KEPT).to_string(), format!("{cleared:.2}")]
        };
        ratios.row(head.iter().cloned().chain((1..4).flat_map(cells)).collect());
        times.row(head.iter().cloned().chain((0..8).map(|side| ns(rounds.ns(side)))).collect());
    }
    say(&format!(
        "Cuts, times the Rust by its own rule on the same conics: {CONICS} conics a batch, {ROUNDS} batches a side, all sides of a row
        in turns; 33 points (66 numbers) are written at level 4, 129 (258) at level 6. The middle of the ratios, each formed within
        a round, and in brackets their 5th and 95th percentile; cleared: the buffer filled with zeros before each call, on both
        sides."
    ));
    ratios.print();
    say(LEGEND);
    say("The same cuts in nanoseconds a call, the middle of the batches; the clearing is in the time.");
    times.print();
}

// The levels of plain conics are timed as one row more, so that the same slow whiles meet them.
pub fn all() {
    let inputs = KINDS.map(|(_, kind)| conics(kind));
    let heads: Vec<(u32, usize)> = [4, 6].into_iter().flat_map(|level| (0..KINDS.len()).map(move |k| (level, k))).collect();
    let row = |&(level, k): &(u32, usize)| [false, true].into_iter().flat_map(|cleared| sides(&inputs[k], level, cleared)).collect();
    let plain = conics(Kind::Plain);
    let rows = heads.iter().map(row).chain([levels::sides(&plain)]).collect();
    let rounds = turns(CONICS, rows);
    print(heads.iter().zip(&rounds).map(|(&(level, k), rounds)| (KINDS[k].0, level, rounds)));
    levels::print(&rounds[heads.len()]);
}
