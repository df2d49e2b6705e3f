// Dates beside the same in plain Rust, which tests and refuses as the library does; its cut is that of the judge of both axes.
// Both sides of a row are timed in turns.
use crate::*;
use both::Point;
use both::path_geometry::Conic;
use cuts::{ROOM, room};

const LEVEL: u32 = NZ_MAX_LEVEL;
const TABLE: usize = nz_table_room(LEVEL) as usize;
const STROKES: usize = 1000;

mod plain {
    use super::*;

    // In one pass: a number out of range refuses at once, and a fall is remembered up to the end.
    pub fn test(table: &[u32]) -> Result<(), u32> {
        let (entries, half) = table.as_chunks::<2>();
        if table.is_empty() {
            return Err(NZ_BUFFER_TOO_SHORT);
        } else if !half.is_empty() {
            return Err(NZ_ODD_LENGTH);
        }
        let (mut before, mut falls) = ([0; 2], false);
        for &[x, y] in entries {
            if x > NZ_MAX_ENTRY || y > NZ_MAX_ENTRY {
                return Err(NZ_ENTRY_OUT_OF_RANGE);
            }
            falls |= x < before[0] || y < before[1];
            before = [x, y];
        }
        if falls { Err(NZ_TABLE_FALLS) } else { Ok(()) }
    }

    // By a table that passed the test.
    fn date(table: &[u32], recorded: u32) -> Result<u32, u32> {
        let (entries, _) = table.as_chunks::<2>();
        let (before, after) = entries.split_at(entries.partition_point(|e| e[0] <= recorded));
        match (before.last(), after.first()) {
            (Some([x, y]), Some([next_x, next_y])) => Ok(y + ((recorded - x) as u64 * (next_y - y) as u64 / (next_x - x) as u64) as u32),
            (Some([x, y]), None) if *x == recorded => Ok(*y),
            _ => Err(NZ_TIME_OUTSIDE),
        }
    }

    pub fn at(table: &[u32], recorded: u32) -> Result<u32, u32> {
        test(table)?;
        date(table, recorded)
    }

    // The place of the first time outside is given beside the refusal.
    pub fn all(table: &[u32], times: &mut [u32]) -> Result<(), (u32, Option<usize>)> {
        test(table).map_err(|refused| (refused, None))?;
        let range = table[0]..=table[table.len() - 2];
        if let Some(k) = times.iter().position(|r| !range.contains(r)) {
            return Err((NZ_TIME_OUTSIDE, Some(k)));
        }
        for r in times {
            *r = date(table, *r).map_err(|refused| (refused, None))?;
        }
        Ok(())
    }

    pub fn make(src: &[f32], weight: f32, level: u32, table: &mut [u32]) -> Result<(), u32> {
        if level > NZ_MAX_LEVEL {
            return Err(NZ_LEVEL_TOO_HIGH);
        }
        let (Some(table), Some(src)) = (table.get_mut(..nz_table_room(level) as usize), src.get(..6)) else {
            return Err(NZ_BUFFER_TOO_SHORT);
        };
        let at = |k: usize| Point::from_xy(src[2 * k], src[2 * k + 1]);
        let mut points = [Point::zero(); ROOM / 2];
        Conic::new(at(0), at(1), at(2), weight).chop_into_quads_pow2(level as u8, &mut points[..room(level) / 2]);
        let mut rounded = [0; TABLE];
        let rounded = &mut rounded[..table.len()];
        for (entry, p) in rounded.chunks_exact_mut(2).zip(points.iter().step_by(2)) {
            if ![p.x, p.y].iter().all(|v| (0.0..=NZ_MAX_ENTRY as f32).contains(v)) {
                return Err(NZ_ENTRY_OUT_OF_RANGE);
            }
            entry.copy_from_slice(&[p.x as u32, p.y as u32]);
        }
        test(rounded)?;
        table.copy_from_slice(rounded);
        Ok(())
    }
}

// Forward bridges within the range of a table.
fn bridges() -> Inputs {
    conics(Kind::Plain).into_iter().map(|(p, w)| (p.map(|v| 0.5 * v), w)).collect()
}

fn make(p: &[f32], weight: f32, table: &mut [u32]) -> u32 {
    unsafe { nz_date_table(p.as_ptr(), p.len() as u64, weight, LEVEL, table.as_mut_ptr(), table.len() as u64) }
}

fn making(table: &mut Table) {
    let bridges = bridges();
    let (mut ours, mut theirs) = ([0; TABLE], [0; TABLE]);
    for (p, w) in &bridges {
        assert!(make(p, *w, &mut ours) == NZ_OK && plain::make(p, *w, LEVEL, &mut theirs) == Ok(()) && ours == theirs, "tables that differ are not timed");
    }
    let library = || {
        for (p, w) in &bridges {
            black_box(make(black_box(p), *w, &mut ours));
        }
    };
    let rust = || {
        for (p, w) in &bridges {
            let _ = black_box(plain::make(black_box(p), *w, LEVEL, &mut theirs));
        }
    };
    table.call("`nz_date_table`", &pair(CONICS, rust, library));
}

// A table, and times from its first x to its last.
fn strokes() -> ([u32; TABLE], [u32; STROKES]) {
    let (p, w) = bridges()[0];
    let mut table = [0; TABLE];
    assert!(make(&p, w, &mut table) == NZ_OK);
    let span = table[TABLE - 2] as usize - table[0] as usize;
    // a step that is coprime to the count, so that they come in no order
    (table, std::array::from_fn(|k| table[0] + (span * (k * 617 % STROKES) / STROKES) as u32))
}

fn lookups(of_times: &mut Table) {
    let (table, recorded) = strokes();
    let at = |r: u32| {
        let mut date = 0;
        (unsafe { nz_date_at(table.as_ptr(), TABLE as u64, r, &mut date) } == NZ_OK).then_some(date)
    };
    assert!(recorded.iter().all(|r| at(*r).is_some() && at(*r) == plain::at(&table, *r).ok()), "dates that differ are not timed");
    let rust = black_box(plain::at as fn(&[u32], u32) -> Result<u32, u32>);
    let library = || {
        for r in &recorded {
            black_box(at(*r));
        }
    };
    let rust = || {
        for r in &recorded {
            let _ = black_box(rust(&table, *r));
        }
    };
    of_times.call("`nz_date_at`", &pair(STROKES, rust, library));
}

// The times are put in place before each call, since dates are stored over them.
fn many(of_times: &mut Table) {
    let (table, recorded) = strokes();
    let (mut ours, mut theirs, mut bad) = (recorded, recorded, 0);
    let library = || {
        ours = recorded;
        black_box(unsafe { nz_date_all(table.as_ptr(), TABLE as u64, black_box(&mut ours).as_mut_ptr(), STROKES as u64, &mut bad) });
    };
    let rust = || {
        theirs = recorded;
        let _ = black_box(plain::all(black_box(&table), black_box(&mut theirs)));
    };
    let rounds = pair(1, rust, library);
    assert!(ours == theirs && ours != recorded, "dates that differ are not timed");
    of_times.call("`nz_date_all`, 1,000 times", &rounds);
}

pub fn all() {
    say(&format!(
        "Dates by a table of level {LEVEL}, {} entries, beside plain Rust, {ROUNDS} batches a side, in turns: tables of {CONICS}
        conics a batch, {STROKES} lookups a batch, or one call for {STROKES} times, which are put in place before each call, in the
        time of both sides.",
        TABLE / 2
    ));
    let mut table = Table::of_calls("plain Rust");
    making(&mut table);
    lookups(&mut table);
    many(&mut table);
    table.print();
}
