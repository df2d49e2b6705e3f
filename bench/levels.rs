// What a level, a point and a chop of a cut cost, and how far a cut's time is told from that.
use crate::*;
use cuts::room;

// The sides of a level: the original and the three rules.
const SIDES: usize = 4;

fn side(level: usize, k: usize) -> usize {
    level * SIDES + k
}

// All levels are in one round, so that differences of levels are formed within a round too.
pub fn sides(inputs: &Inputs) -> Vec<Side<'_>> {
    (0..=NZ_MAX_LEVEL).flat_map(|level| cuts::sides(inputs, level, false)).collect()
}

fn by_level(rounds: &Rounds) {
    let head = ["level", "points", "Rust, ns", "product, ns", "times the Rust"];
    let a_point = ["a point: Rust, ns", "product", "exact", "both axes"];
    let mut table = Table::new(&[&head[..], &a_point].concat());
    for level in 0..=NZ_MAX_LEVEL as usize {
        let points = room(level as u32) / 2;
        let mut row = vec![level.to_string(), points.to_string()];
        row.extend([0, 1].map(|k| ns(rounds.ns(side(level, k)))));
        row.push(rounds.times(side(level, 1), side(level, 0)).to_string());
        row.extend((0..SIDES).map(|k| format!("{:.2}", rounds.ns(side(level, k)) / points as f64)));
        table.row(row);
    }
    say(&format!(
        "Plain conics by level: {CONICS} a batch, {ROUNDS} batches a side, all levels and sides in turns, buffers not cleared; times
        the Rust by the product rule, and what a written point costs by all three."
    ));
    table.print();
}

// A chop of side k: of the two highest levels the higher has 32 chops more.
fn chop(round: &[f64], k: usize) -> f64 {
    (round[side(6, k)] - round[side(5, k)]) / 32.0
}

// The Rust's figure, the product rule's, and how much more this is.
fn split(table: &mut Table, name: &str, rounds: &Rounds, figure: impl Fn(&[f64], usize) -> f64) {
    let middles = [rounds.of(|r| figure(r, 0)), rounds.of(|r| figure(r, 1)), rounds.of(|r| figure(r, 1) - figure(r, 0))];
    table.row([name.to_string()].into_iter().chain(middles.map(|s| ns(s.middle))).collect());
}

fn account(rounds: &Rounds) {
    let mut table = Table::new(&["where the time goes", "Rust, ns", "product rule, ns", "more, ns"]);
    split(&mut table, "a chop: level 6 less level 5, by 32", rounds, chop);
    for level in [4, 6] {
        let chops = (1 << level) - 1;
        split(&mut table, &format!("a cut at level {level}"), rounds, |r, k| r[side(level, k)]);
        split(&mut table, "of it what level 0 takes, with no chop", rounds, |r, k| r[side(0, k)]);
        split(&mut table, &format!("of it {chops} such chops"), rounds, |r, k| chops as f64 * chop(r, k));
        split(&mut table, "of it what is left", rounds, |r, k| r[side(level, k)] - r[side(0, k)] - chops as f64 * chop(r, k));
    }
    say(
        "From these, each figure formed within a round, and the middle taken. A chop has its share of the stores and of the scan for
        points that are not finite, two points', and in the library a 32nd of the division and the root of one depth more. What is
        left is neither in level 0 nor in such chops: in the library most divisions and roots are there, a division for each depth
        and a root for each but the last, which the Rust takes in each chop.",
    );
    table.print();
}

pub fn print(rounds: &Rounds) {
    by_level(rounds);
    account(rounds);
}
