// Points mapped in place by a skewed matrix, and skewed products and inverses, beside the original.
use crate::*;
use original::{Point, Transform};

const POINTS: usize = 1000;
// One call is too short to be timed by itself.
const MAPS: usize = 16;

fn transform(m: &[f32; 6]) -> Transform {
    Transform::from_row(m[0], m[1], m[2], m[3], m[4], m[5])
}

// The same numbers at eight places, each of which begins elsewhere in a line of the cache. A batch takes one after the other: where
// they lie has a small part in the time, and no figure is to hang on one place.
struct Places<T> {
    rooms: Vec<Vec<T>>,
    last: usize,
}

impl<T: Copy> Places<T> {
    const LINE: usize = 128;
    const STEP: usize = 16 / size_of::<T>();

    fn new(of: &[T]) -> Places<T> {
        let room = vec![of[0]; of.len() + 2 * Self::LINE / size_of::<T>()];
        let mut places = Places { rooms: vec![room; 8], last: 0 };
        (0..8).for_each(|_| places.next(of.len()).copy_from_slice(of));
        places
    }

    fn next(&mut self, len: usize) -> &mut [T] {
        self.last = (self.last + 1) % self.rooms.len();
        let room = &mut self.rooms[self.last];
        let start = room.as_ptr().align_offset(Self::LINE) + self.last * Self::STEP;
        &mut room[start..start + len]
    }
}

// Mapping stores over what it reads, so the points are those of the last call, or they are put in place before each call.
fn mapping(anew: bool) -> Rounds {
    let m = [0.5f32, 0.25, -0.125, 0.75, 3.0, -2.0];
    let t = transform(&m);
    let points: Vec<Point> = (0..POINTS).map(|k| Point::from_xy(k as f32, (POINTS - k) as f32)).collect();
    let numbers: Vec<f32> = points.iter().flat_map(|p| [p.x, p.y]).collect();
    let map = |n: &mut [f32]| unsafe { nz_transform_map_numbers(&m, black_box(n.as_mut_ptr()), n.len() as u64) };
    let (mut mapped, mut answered) = (points.clone(), numbers.clone());
    t.map_points(&mut mapped);
    assert!(map(&mut answered) == NZ_OK, "a call that is refused is not timed");
    let same = mapped.iter().flat_map(|p| [p.x, p.y]).zip(&answered).all(|(a, b)| a.to_bits() == b.to_bits());
    assert!(same, "points that differ are not timed");
    let (mut theirs, mut ours) = (Places::new(&points), Places::new(&numbers));
    let rust = || {
        let place = theirs.next(POINTS);
        for _ in 0..MAPS {
            if anew {
                place.copy_from_slice(black_box(&points));
            }
            t.map_points(black_box(&mut *place));
        }
    };
    let library = || {
        let place = ours.next(2 * POINTS);
        for _ in 0..MAPS {
            if anew {
                place.copy_from_slice(black_box(&numbers));
            }
            _ = map(place);
        }
    };
    pair(MAPS, rust, library)
}

// Two matrices for each call, of numbers from -8 to 8, which all skew.
fn matrices() -> Vec<[[f32; 6]; 2]> {
    let mut next = random();
    let mut matrix = || std::array::from_fn(|_| (next() - 8388608.0) / 1048576.0);
    (0..CONICS).map(|_| [matrix(), matrix()]).collect()
}

// The library gives what the original gives, bit for bit.
fn judge(given: &[[[f32; 6]; 2]], pairs: &[[Transform; 2]]) {
    let numbers = |t: Transform| [t.sx, t.ky, t.kx, t.sy, t.tx, t.ty].map(f32::to_bits);
    for ([a, b], [s, t]) in given.iter().zip(pairs) {
        let (mut product, mut inverse, mut rounded) = ([0.0f32; 6], [0.0f32; 6], false);
        unsafe { nz_transform_pre_concat(a, b, &mut product, &mut rounded) };
        assert!(unsafe { nz_transform_invert(a, &mut inverse, &mut rounded) } == NZ_OK, "an inverse that is refused is not timed");
        let same = product.map(f32::to_bits) == numbers(s.pre_concat(*t)) && inverse.map(f32::to_bits) == numbers(s.invert().unwrap());
        assert!(same, "matrices that differ are not timed");
    }
}

// Each through a pointer of its own, so that neither side is inlined. The original has no flag.
fn products(table: &mut Table) {
    let given = matrices();
    let pairs: Vec<[Transform; 2]> = given.iter().map(|[a, b]| [transform(a), transform(b)]).collect();
    assert!(pairs.iter().flatten().all(|t| t.has_skew() && t.invert().is_some()), "only what skews and has an inverse is timed");
    judge(&given, &pairs);
    let (mut out, mut rounded) = ([0.0f32; 6], false);
    let concat: unsafe extern "C" fn(_, _, _, _) = black_box(nz_transform_pre_concat);
    let their_concat: fn(&Transform, Transform) -> Transform = black_box(Transform::pre_concat);
    let rounds = pair(
        CONICS,
        || pairs.iter().for_each(|[a, b]| _ = black_box(their_concat(a, *b))),
        || given.iter().for_each(|[a, b]| unsafe { concat(a, b, black_box(&mut out), black_box(&mut rounded)) }),
    );
    table.call("`pre_concat`, skewed, and its flag", &rounds);
    let invert: unsafe extern "C" fn(_, _, _) -> u32 = black_box(nz_transform_invert);
    let their_invert: fn(&Transform) -> Option<Transform> = black_box(Transform::invert);
    let rounds = pair(
        CONICS,
        || pairs.iter().for_each(|[a, _]| _ = black_box(their_invert(a))),
        || given.iter().for_each(|[a, _]| _ = black_box(unsafe { invert(a, black_box(&mut out), black_box(&mut rounded)) })),
    );
    table.call("`invert`, skewed, and its flag", &rounds);
}

pub fn all() {
    say(&format!(
        "Skewed matrices, {ROUNDS} batches a side, in turns: {POINTS} points ({} numbers) mapped in place by one call, {MAPS} calls a
        batch, where filling anew is in the time of both sides; and a product or an inverse a call, {CONICS} calls a batch.",
        2 * POINTS
    ));
    let mut table = Table::of_calls("the Rust");
    table.call("map, points as the last call left them", &mapping(false));
    table.call("map, points filled anew before each call", &mapping(true));
    products(&mut table);
    table.print();
}
