// The same as strokes.c, from Rust.
include!("../include/nyerdzumak.rs");

// The session's start. Both clocks are counted from it, in whole numbers and before they become floats, since a float has
// every millisecond up to NZ_MAX_ENTRY only; it is added back to the dates.
const START: u64 = 1_900_000_000_000;

// Milliseconds since then. What is before it, or does not fit, becomes a number outside of every table, and is refused.
fn since(reading: u64) -> u32 {
    reading.checked_sub(START).and_then(|t| t.try_into().ok()).unwrap_or(u32::MAX)
}

// The three calls for dates, with slices; the library never reads or writes past the lengths that it is given.
fn date_table(bridge: &[f32], weight: f32, level: u32, table: &mut [u32]) -> u32 {
    unsafe { nz_date_table(bridge.as_ptr(), bridge.len() as u64, weight, level, table.as_mut_ptr(), table.len() as u64) }
}

fn date_at(table: &[u32], recorded: u32) -> Result<u32, u32> {
    let mut date = 0;
    let answer = unsafe { nz_date_at(table.as_ptr(), table.len() as u64, recorded, &mut date) };
    if answer == NZ_OK { Ok(date) } else { Err(answer) }
}

fn date_all(table: &[u32], times: &mut [u32], first_bad: &mut u64) -> u32 {
    unsafe { nz_date_all(table.as_ptr(), table.len() as u64, times.as_mut_ptr(), times.len() as u64, first_bad) }
}

// The numbers of a table of a level.
fn room(level: u32) -> usize {
    nz_table_room(level) as usize
}

// Dates one stroke by the table of a bridge at a level.
fn one(bridge: &[f32], weight: f32, level: u32, recorded: u64) {
    let mut table = [0; nz_table_room(NZ_MAX_LEVEL) as usize];
    assert!(date_table(bridge, weight, level, &mut table) == NZ_OK);
    // lent as long as the table is, and not as its buffer
    let date = date_at(&table[..room(level)], since(recorded)).unwrap();
    println!("stroke recorded at {recorded}, level {level}: {}", START + date as u64);
}

// Dates many strokes by one call, and tries one that was recorded before the session.
fn many(table: &[u32]) {
    let recorded = [1000, 1250, 1500, 1750, 2000].map(|t| START + t);
    let (mut times, mut first_bad) = (recorded.map(since), 0);
    assert!(date_all(table, &mut times, &mut first_bad) == NZ_OK);
    for (r, date) in recorded.iter().zip(times) {
        println!("stroke recorded at {r}: {}", START + date as u64);
    }

    let mut two = [START + 1000, START - 1].map(since);
    let answer = date_all(table, &mut two, &mut first_bad);
    println!("a stroke from before the session: answer {answer}, at place {first_bad}; the other is as it was, {}", two[0]);
}

// What makes no table, and what is none.
fn refusals(bridge: &[f32]) {
    let (back, long_after) = ([1000.0, 2400.0, 1500.0, 1100.0, 2000.0, 1000.0], [0.0, 0.0, 1000.0, 1000.0, 16777218.0, 2000.0]);
    let mut table = [0; nz_table_room(NZ_MAX_LEVEL) as usize];
    println!("a clock set back: answer {}", date_table(&back, 0.75, 2, &mut table));
    println!("past 16,777,216 milliseconds: answer {}", date_table(&long_after, 0.75, 2, &mut table));
    println!("nine numbers of room at level 2: answer {}", date_table(bridge, 0.75, 2, &mut table[..9]));
    println!("level {}: answer {}", NZ_MAX_LEVEL + 1, date_table(bridge, 0.75, NZ_MAX_LEVEL + 1, &mut table));
    assert!(date_table(bridge, 0.75, 2, &mut table) == NZ_OK);
    println!("a lookup that is lent the zeros behind a table: answer {}", date_at(&table, 1750).unwrap_err());
}

// Whether the cut of a bridge is promised to run forward along x and to keep one direction along y. A table needs no test.
fn promised(b: &[f32; 6]) -> bool {
    let between = |k: usize| unsafe { nz_between_exact(b[k], b[k + 2], b[k + 4]) };
    b.iter().all(|&x| unsafe { nz_is_finite_f32(x) }) && b[0] <= b[4] && between(0) && between(1)
}

// What undoes a pad's matrix, and whether it was rounded, for the log that support reads. Where it was, a number lost digits as
// it became a float, and a stroke that is mapped back can miss its place a little: rounding, and no fault of the pad.
fn undo(pad: &str, m: [f32; 6]) {
    let (mut u, mut rounded) = ([0.0; 6], false);
    assert!(unsafe { nz_transform_invert(&m, &mut u, &mut rounded) } == NZ_OK); // else neither has a value
    let [a, b, c, d, e, f] = u;
    println!("{pad} is undone by {a:.3}, {b:.3}, {c:.3}, {d:.3}, {e:.3}, {f:.3}, rounded {}", rounded as u8);
}

fn main() {
    // three readings, each as it was recorded and as it is corrected: the start of the gap, a point on the way, and its end
    let bridge = [1000, 1000, 1500, 1100, 2000, 2400].map(|t| since(START + t) as f32);
    let mut table = [0; nz_table_room(2) as usize];
    let answer = date_table(&bridge, 0.75, 2, &mut table);
    println!("date table at level 2: answer {answer}");
    assert!(answer == NZ_OK);
    table.chunks(2).for_each(|e| println!("  {} {}", e[0], e[1]));
    many(&table);

    // the level for a twentieth of a millisecond, up to the highest that there is, and by the ceiling of the Rust
    let mut level = 0;
    let mut choose = |ceiling: u32| (unsafe { nz_conic_compute_quad_pow2(bridge.as_ptr(), 6, 0.75, 0.05, ceiling, &mut level) }, level);
    let (answer, fine) = choose(NZ_MAX_LEVEL);
    println!("level for a twentieth of a millisecond: {fine}, answer {answer}");
    assert!(answer == NZ_OK);
    one(&bridge, 0.75, fine, START + 1750);
    let (answer, low) = choose(NZ_MAX_CONIC_TO_QUAD_POW2);
    println!("level by the ceiling of the Rust: {low}, answer {answer}");
    println!("by the ceiling 5: answer {}", choose(5).0);
    refusals(&bridge);

    let mut points = [0.0; nz_cut_room(1) as usize];
    assert!(promised(&bridge) && unsafe { nz_cut_in_order_both(bridge.as_ptr(), 6, 0.75, 1, points.as_mut_ptr(), nz_cut_room(1)) } == NZ_OK);
    println!("cut at level 1:");
    points.chunks(2).for_each(|p| println!("  {:.3} {:.3}", p[0], p[1]));

    let (mut m, mut p) = ([2.0, 0.0, 0.0, 4.0, 6.0, 8.0], [1.0, 1.0]);
    unsafe { nz_transform_map_point(&m, &mut p) };
    println!("(1, 1) maps to ({}, {})", p[0], p[1]);
    let (matrix, mut rounded): (*mut [f32; 6], bool) = (&mut m, true);
    let answer = unsafe { nz_transform_invert(matrix, matrix, &mut rounded) }; // in place
    let [a, b, c, d, e, f] = m;
    println!("which is undone by {a}, {b}, {c}, {d}, {e}, {f}, answer {answer}, rounded {}", rounded as u8);
    // halves fit a float, and thirds do not
    undo("a skewed pad", [2.0, 1.0, 2.0, 2.0, 10.0, 30.0]);
    undo("another", [2.0, 1.0, 1.0, 2.0, 10.0, 30.0]);
}
