// Inputs for dates, from a seed: conics of milliseconds with a weight, a level and lengths; and tables, made by the call or by
// hand, some of them damaged, with times to look up.
use crate::date_model::{room, HIGHEST, LARGEST};
use crate::inputs::Inputs;
use crate::nz_date_table;

// The buffer of a table: room for the first level that is refused, and some places more.
pub const LENT: usize = room(HIGHEST + 1) + 6;

// What stands in a buffer before a call: a number of its own in each place, that no table may hold.
pub const STOOD: [u32; LENT] = {
    let mut words = [0; LENT];
    let mut k = 0;
    while k < LENT {
        words[k] = 0xa000_0000 + k as u32;
        k += 1;
    }
    words
};

// Within a table's range: its ends, and what is next to a whole number, up to the largest float that has a fraction.
const INSIDE: [f32; 12] = [
    0.0, -0.0, f32::from_bits(1), f32::from_bits(0x3f7f_ffff), 1.0, f32::from_bits(0x3f80_0001), 2.5, 8_388_607.5, 8_388_608.0, 16_777_214.0, 16_777_215.0,
    16_777_216.0,
];

// Outside of it.
const OUTSIDE: [f32; 14] = [
    f32::from_bits(0x8000_0001), -0.5, f32::from_bits(0xbf7f_ffff), -1.0, -1000.0, f32::MIN, f32::NEG_INFINITY, 16_777_218.0, 2_147_483_648.0,
    4_294_967_296.0, 1.0e20, f32::MAX, f32::INFINITY, f32::NAN,
];

#[derive(Clone)]
pub struct Bridge {
    pub src: [f32; 9],
    pub weight: f32,
    pub level: u32,
    // of the source and of the table
    pub len: [usize; 2],
}

// A coordinate within the range; all of a conic's are of one kind.
fn coordinate(i: &mut Inputs, kind: u64, base: f32) -> f32 {
    match kind {
        0 => i.below(LARGEST as u64 + 1) as f32,
        1 => i.below(5000) as f32,
        // many equal
        2 => i.below(5) as f32,
        // with fractions: over some seconds, and of few milliseconds
        3 => i.below(1 << 24) as f32 / 2048.0,
        4 => i.below(64) as f32 / 16.0,
        // about one whole number, by units in the last place
        5 => f32::from_bits(base.to_bits() - 3 + i.below(7) as u32),
        _ => INSIDE[i.below(12) as usize],
    }
}

pub fn in_range(x: f32) -> bool {
    x >= 0.0 && x <= LARGEST as f32
}

// One axis: mostly rising; flat, or with the middle at an end; falling; or as it comes.
fn along(i: &mut Inputs, mut p: [f32; 3]) -> [f32; 3] {
    let kind = i.below(10);
    if kind < 8 {
        p.sort_by(f32::total_cmp);
    }
    match kind {
        0 => [p[0]; 3],
        1 => [p[0], p[2 * i.below(2) as usize], p[2]],
        2 => [p[2], p[1], p[0]],
        _ => p,
    }
}

impl Bridge {
    pub fn new() -> Bridge {
        Bridge { src: [0.0; 9], weight: 0.0, level: 0, len: [0; 2] }
    }

    // All six within the range, rising along both axes, and room enough.
    pub fn is_forward(&self) -> bool {
        self.is_in_range() && (0..4).all(|k| self.src[k] <= self.src[k + 2])
    }

    // All six within the range, and room enough.
    pub fn is_in_range(&self) -> bool {
        self.is_cut() && self.src[..6].iter().all(|x| in_range(*x))
    }

    pub fn is_cut(&self) -> bool {
        self.level <= HIGHEST && self.len[0] >= 6 && self.len[1] >= room(self.level)
    }

    pub fn lent(&self) -> &[f32] {
        &self.src[..self.len[0]]
    }

    // For a call, which is only to read it. It is reached as what may be written, so that a change is seen.
    pub fn lend(&mut self) -> *const f32 {
        self.src.as_mut_ptr()
    }

    pub fn make(&mut self, i: &mut Inputs) {
        i.begin();
        let (kind, base) = (i.below(8), 1.0 + i.below(8000) as f32);
        for k in 0..2 {
            let p = std::array::from_fn(|_| coordinate(i, kind, base));
            [self.src[k], self.src[k + 2], self.src[k + 4]] = along(i, p);
        }
        match i.below(16) {
            // any floats
            0 => self.src[..6].copy_from_slice(&i.conic()),
            1 => self.src[i.below(6) as usize] = i.any(),
            2..=4 => self.src[i.below(6) as usize] = OUTSIDE[i.below(14) as usize],
            5 => self.src[i.below(6) as usize] = INSIDE[i.below(12) as usize],
            _ => {}
        }
        self.weight = if i.chance(12) { f32::INFINITY.copysign(i.zero()) } else { i.weight() };
        self.level = match i.below(60) {
            0 => HIGHEST + 1,
            1 => u32::MAX,
            2 => i.next() as u32 >> i.below(32),
            _ => i.below(HIGHEST as u64 + 1) as u32,
        };
        let needed = room(self.level.min(HIGHEST + 1));
        self.len = if i.chance(2) { [6, needed] } else { [i.length(6).min(9), i.length(needed)] };
    }
}

// A table that is lent to lookups: the first `len` words.
pub struct Table {
    pub words: [u32; LENT],
    pub len: usize,
    pub made: bool,
    pub damage: usize,
}

// What is done to a table before it is lent.
pub const DAMAGES: [&str; 9] = [
    "as it is", "an entry raised above 16,777,216", "an x made to fall", "a y made to fall", "raised and falling", "half an entry", "one number", "no entry",
    "with a tail",
];

impl Table {
    pub fn lent(&self) -> &[u32] {
        &self.words[..self.len]
    }

    // For a call, as a bridge's source is lent.
    pub fn lend(&mut self) -> *const u32 {
        self.words.as_mut_ptr()
    }

    // Made by the call, from the first bridge that it takes; by hand where it takes none of many.
    fn by_the_call(&mut self, i: &mut Inputs) {
        let mut bridge = Bridge::new();
        for _ in 0..1000 {
            bridge.make(i);
            self.words = STOOD;
            let table = self.words.as_mut_ptr();
            let answer = unsafe { nz_date_table(bridge.lend(), bridge.len[0] as u64, bridge.weight, bridge.level, table, bridge.len[1] as u64) };
            if answer == 0 {
                self.len = room(bridge.level);
                return;
            }
        }
        self.made = false;
        self.by_hand(i);
    }

    // By hand: from one entry to 65 of rising numbers, many of them equal where they are small. Some begin at 0 or end at
    // 16,777,216, in x, in y or in both; some have several entries of the first number or of the last.
    fn by_hand(&mut self, i: &mut Inputs) {
        let (most, span) = ([1, 3, 8, 65][i.below(4) as usize], [4, 12, 1000, LARGEST as u64][i.below(4) as usize]);
        let entries = 1 + i.below(most) as usize;
        let highest = LARGEST as u64 - span;
        let from = [0, highest, i.below(highest + 1), i.below(highest + 1)][i.below(4) as usize] as u32;
        self.words = STOOD;
        self.len = 2 * entries;
        for axis in 0..2 {
            let mut column: Vec<u32> = (0..entries).map(|_| from + i.below(span + 1) as u32).collect();
            column.sort();
            if i.chance(4) {
                column[0] = 0;
            }
            if i.chance(4) {
                column[entries - 1] = LARGEST;
            }
            let (tied, first, last) = (i.below(entries as u64) as usize, column[0], column[entries - 1]);
            match i.below(6) {
                0 => column[..tied].fill(first),
                1 => column[tied..].fill(last),
                _ => {}
            }
            (0..entries).for_each(|k| self.words[2 * k + axis] = column[k]);
        }
    }

    fn raise(&mut self, i: &mut Inputs) {
        let place = i.below(self.len as u64) as usize;
        self.words[place] = match i.below(4) {
            0 => LARGEST + 1,
            1 => u32::MAX,
            n => (LARGEST + 1).max(i.next() as u32 >> (4 * (n - 2))),
        };
    }

    // Along an axis one entry is put below the one before, by 1 or by more; whether there is one with room below.
    fn fall(&mut self, i: &mut Inputs, axis: usize) -> bool {
        let places: Vec<usize> = (0..self.len - 2).step_by(2).filter(|k| self.words[k + axis] > 0).collect();
        if places.is_empty() {
            return false;
        }
        let k = places[i.below(places.len() as u64) as usize] + axis;
        self.words[k + 2] = if i.chance(2) { self.words[k] - 1 } else { i.below(self.words[k] as u64) as u32 };
        true
    }

    pub fn draw(i: &mut Inputs) -> Table {
        let mut table = Table { words: STOOD, len: 0, made: i.chance(2), damage: 0 };
        if table.made { table.by_the_call(i) } else { table.by_hand(i) }
        if i.chance(2) {
            table.damage = 1 + i.below(DAMAGES.len() as u64 - 1) as usize;
        }
        // where nothing can fall, it is not counted as falling
        match table.damage {
            1 => table.raise(i),
            2 | 3 => table.damage = if table.fall(i, table.damage - 2) { table.damage } else { 0 },
            4 => {
                let axis = i.below(2) as usize;
                table.damage = if table.fall(i, axis) { 4 } else { 1 };
                table.raise(i);
            }
            5 => table.len = table.len + 1 - 2 * i.below(2) as usize,
            6 => table.len = 1,
            7 => table.len = 0,
            8 => table.tail(i),
            _ => {}
        }
        table
    }

    // What stood behind a table that is lent with it: an older table, zeros, or what no table may hold.
    fn tail(&mut self, i: &mut Inputs) {
        let end = self.len + 2 * (1 + i.below(4) as usize);
        let (x, y) = (self.words[self.len - 2], self.words[self.len - 1]);
        for k in (self.len..end).step_by(2) {
            match i.below(4) {
                0 => self.words[k..k + 2].fill(0),
                1 => {}
                _ => self.words[k..k + 2].copy_from_slice(&[x.max(i.below(LARGEST as u64 + 1) as u32), y]),
            }
        }
        self.len = end;
    }
}

// Times for a lookup: at every entry, one before it and one after it; 0 and the largest u32; some within, and any.
pub fn times(i: &mut Inputs, table: &[u32], into: &mut Vec<u32>) {
    into.clear();
    into.extend(table.iter().step_by(2).flat_map(|x| [x.wrapping_sub(1), *x, x.wrapping_add(1)]));
    into.extend([0, u32::MAX]);
    let (first, last) = (table.first().copied().unwrap_or(0), table.iter().rev().nth(1).copied().unwrap_or(0));
    for _ in 0..4 + table.len() / 2 {
        into.push(first.wrapping_add(i.below(last.saturating_sub(first) as u64 + 1) as u32));
    }
    into.extend([i.next() as u32, i.below(LARGEST as u64 + 1) as u32]);
}
