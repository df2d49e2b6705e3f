// The clock: cutting, mapping, products, inverses, roots, narrowing and the float tests beside the original, and dates and journals
// beside plain Rust, in one process, as tables in Markdown. All sides of a row are timed in turns, and a ratio is formed within
// each round, since the pace of a machine changes.
mod cuts;
mod dates;
mod ground;
mod inputs;
mod journal;
mod levels;
mod matrices;
mod roots;
mod table;

use inputs::*;
use std::hint::black_box;
use table::*;

include!("../include/nyerdzumak.rs");

fn main() {
    cuts::all();
    matrices::all();
    ground::all();
    roots::all();
    dates::all();
    journal::all();
}
