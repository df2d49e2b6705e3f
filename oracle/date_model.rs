// Date tables and lookups as docs/RULES.md, "Dates", has them, apart from the library: a float is rounded down by its bits, a
// table is searched entry by entry, and a date is computed in 128 bits. The cut is that of the judge of both axes. So that it
// is seen that a wrong library would be found, the model can be made wrong in one way.
use crate::date_calls::{Places, ALL, DATING, MAKING, MANY};

// The highest level, and the largest number of a table.
pub const HIGHEST: u32 = 6;
pub const LARGEST: u32 = 16_777_216;

pub const fn room(level: u32) -> usize {
    2 * ((1 << level) + 1)
}

#[derive(Clone, Copy, PartialEq)]
pub enum Wrong {
    Nothing,
    // of tables
    RoundedToNearest,
    EveryPoint,
    ExactRule,
    FallBeforeRange,
    FallOfFloats,
    TiesFall,
    XMayFall,
    MinusZeroOutside,
    LargestOutside,
    SmallNegativesTaken,
    ShortBeforeLevel,
    StoredThoughItFalls,
    TailCleared,
    // of lookups
    FirstOfOneX,
    DividedFirst,
    DateToNearest,
    LastXOutside,
    OneNumberShort,
    // of many times
    NotTestedForNoTimes,
    DatedUpToTheBad,
    LastBadPlace,
    PlaceForEveryRefusal,
}

// Each with the calls in which it must be found, and in no others.
pub const WRONG: [(Wrong, Places, &str); 22] = [
    (Wrong::RoundedToNearest, MAKING, "rounded to the nearest"),
    (Wrong::EveryPoint, MAKING, "every point taken, not every second"),
    (Wrong::ExactRule, MAKING, "cut by the exact rule"),
    (Wrong::FallBeforeRange, ALL, "12 before 10"),
    (Wrong::FallOfFloats, MAKING, "a fall tested before rounding"),
    (Wrong::TiesFall, ALL, "equal neighbours refused as falling"),
    (Wrong::XMayFall, ALL, "falling xs let through"),
    (Wrong::MinusZeroOutside, MAKING, "−0 taken as below 0"),
    (Wrong::LargestOutside, ALL, "16,777,216 refused"),
    (Wrong::SmallNegativesTaken, MAKING, "what is below 0 and above −1 taken as 0"),
    (Wrong::ShortBeforeLevel, MAKING, "2 before 1"),
    (Wrong::StoredThoughItFalls, MAKING, "a table that falls stored and then refused"),
    (Wrong::TailCleared, MAKING, "the tail of a longer buffer cleared"),
    (Wrong::FirstOfOneX, DATING, "the first entry of an x, not the last"),
    (Wrong::DividedFirst, DATING, "divided before it is multiplied"),
    (Wrong::DateToNearest, DATING, "a date rounded to the nearest"),
    (Wrong::LastXOutside, DATING, "the last x refused"),
    (Wrong::OneNumberShort, DATING, "2 for one number, not 9"),
    (Wrong::NotTestedForNoTimes, MANY, "a table not tested where there are no times"),
    (Wrong::DatedUpToTheBad, MANY, "times dated up to the first bad one"),
    (Wrong::LastBadPlace, MANY, "the last bad place told, not the first"),
    (Wrong::PlaceForEveryRefusal, MANY, "a bad place told for every refusal"),
];

// Every point of a cut by one judge. The judges are crates of their own, whose points are types of their own.
macro_rules! cut {
    ($judge:ident, $src:ident, $weight:ident, $level:ident) => {{
        let at = |k: usize| $judge::Point::from_xy($src[2 * k], $src[2 * k + 1]);
        let mut made = [$judge::Point::zero(); 2 * (1 << HIGHEST) + 1];
        $judge::path_geometry::Conic::new(at(0), at(1), at(2), $weight).chop_into_quads_pow2($level as u8, &mut made);
        made.map(|p| [p.x, p.y])
    }};
}

// The largest whole number that is not above x, for x from 0 to LARGEST; none for any other.
pub fn whole(x: f32) -> Option<u32> {
    const ABOVE: u32 = 0x4b80_0000; // the bits of LARGEST: above it are larger ones, what is not finite, and what is below 0
    match x.to_bits() {
        0x8000_0000 => Some(0),
        bits if bits > ABOVE => None,
        bits if bits >> 23 < 127 => Some(0),
        bits => Some((((bits & 0x7f_ffff) | 0x80_0000) << 1) >> (151 - (bits >> 23))),
    }
}

pub struct Model {
    pub wrong: Wrong,
}

impl Model {
    fn is(&self, wrong: Wrong) -> bool {
        self.wrong == wrong
    }

    fn rounded(&self, x: f32) -> Option<u32> {
        match self.wrong {
            Wrong::RoundedToNearest => whole(x).and(whole(x + 0.5)),
            Wrong::MinusZeroOutside if x.to_bits() == 0x8000_0000 => None,
            Wrong::LargestOutside if x == LARGEST as f32 => None,
            Wrong::SmallNegativesTaken if x < 0.0 && x > -1.0 => Some(0),
            _ => whole(x),
        }
    }

    // The coordinates that a table takes, x then y for each point.
    pub fn taken(&self, src: &[f32], weight: f32, level: u32) -> [f32; room(HIGHEST)] {
        let points = if self.is(Wrong::ExactRule) { cut!(exact, src, weight, level) } else { cut!(both, src, weight, level) };
        let step = if self.is(Wrong::EveryPoint) { 1 } else { 2 };
        std::array::from_fn(|k| points[step * (k / 2)][k % 2])
    }

    // Whether an x or a y is below that of the entry before.
    fn falls(&self, table: &[u32]) -> bool {
        table.iter().zip(table.iter().skip(2)).enumerate().any(|(k, (a, b))| match self.wrong {
            Wrong::TiesFall => a >= b,
            Wrong::XMayFall => k % 2 == 1 && a > b,
            _ => a > b,
        })
    }

    // What the call that makes a table answers, which leaves the buffer as it has to be.
    pub fn make(&self, src: &[f32], weight: f32, level: u32, table: &mut [u32]) -> u32 {
        let short = src.len() < 6 || level <= HIGHEST && table.len() < room(level);
        if level > HIGHEST && !(short && self.is(Wrong::ShortBeforeLevel)) {
            return 1;
        }
        if short {
            return 2;
        }
        let taken = self.taken(src, weight, level);
        let taken = &taken[..room(level)];
        let mut rounded = [0; room(HIGHEST)];
        let mut outside = false;
        for (to, x) in rounded.iter_mut().zip(taken) {
            let whole = self.rounded(*x);
            outside |= whole.is_none();
            *to = whole.unwrap_or(u32::MAX);
        }
        let rounded = &rounded[..room(level)];
        let fall = if self.is(Wrong::FallOfFloats) { taken.windows(3).any(|w| w[0] > w[2]) } else { self.falls(rounded) };
        if outside && !(fall && self.is(Wrong::FallBeforeRange)) {
            return 10;
        }
        if !fall || self.is(Wrong::StoredThoughItFalls) {
            table[..room(level)].copy_from_slice(rounded);
        }
        if self.is(Wrong::TailCleared) {
            table[room(level)..].fill(0);
        }
        if fall { 12 } else { 0 }
    }

    // What the test of a lent table answers.
    pub fn test(&self, table: &[u32]) -> u32 {
        let beyond = |v: &u32| *v > LARGEST || *v == LARGEST && self.is(Wrong::LargestOutside);
        let (outside, fall) = (table.iter().any(beyond), self.falls(table));
        match table.len() {
            0 => 2,
            1 if self.is(Wrong::OneNumberShort) => 2,
            n if n % 2 == 1 => 9,
            _ if fall && self.is(Wrong::FallBeforeRange) => 12,
            _ if outside => 10,
            _ if fall => 12,
            _ => 0,
        }
    }

    // The date of a time by a table that passed the test, or none.
    fn date(&self, table: &[u32], r: u32) -> Option<u32> {
        let (x, y) = (|k: usize| table[2 * k] as u128, |k: usize| table[2 * k + 1] as u128);
        let (r, last) = (r as u128, table.len() / 2 - 1);
        if r < x(0) || r > x(last) || r == x(last) && self.is(Wrong::LastXOutside) {
            return None;
        }
        let k = (0..=last).rev().find(|&k| x(k) <= r).unwrap();
        let of = if self.is(Wrong::FirstOfOneX) { (0..=k).find(|&j| x(j) == x(k)).unwrap() } else { k };
        if k == last {
            return Some(y(of) as u32);
        }
        let (run, rise, wide) = (r - x(k), y(k + 1) - y(of), x(k + 1) - x(k));
        let part = match self.wrong {
            Wrong::DividedFirst => rise / wide * run,
            Wrong::DateToNearest => (2 * run * rise + wide) / (2 * wide),
            _ => run * rise / wide,
        };
        Some((y(of) + part) as u32)
    }

    // What a lookup answers, and what it leaves in `date`.
    pub fn at(&self, table: &[u32], r: u32, date: &mut u32) -> u32 {
        match self.test(table) {
            0 => self.date(table, r).map_or(11, |d| {
                *date = d;
                0
            }),
            refused => refused,
        }
    }

    // What dating many times answers, and what it leaves in them and in `first_bad`.
    pub fn all(&self, table: &[u32], times: &mut [u32], first_bad: &mut u64) -> u32 {
        let refused = self.test(table);
        if times.is_empty() && self.is(Wrong::NotTestedForNoTimes) {
            return 0;
        }
        if refused != 0 {
            if self.is(Wrong::PlaceForEveryRefusal) {
                *first_bad = 0;
            }
            return refused;
        }
        let bad = |r: &u32| self.date(table, *r).is_none();
        let place = if self.is(Wrong::LastBadPlace) { times.iter().rposition(bad) } else { times.iter().position(bad) };
        let dated = match place {
            None => times.len(),
            Some(k) if self.is(Wrong::DatedUpToTheBad) => k,
            Some(_) => 0,
        };
        for r in times[..dated].iter_mut() {
            *r = self.date(table, *r).unwrap();
        }
        place.map_or(0, |k| {
            *first_bad = k as u64;
            11
        })
    }
}
