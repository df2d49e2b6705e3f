// What the inputs of the judge of inverses met, over all classes: which kinds of numbers in which places, which entries of an
// inverse were alone not finite, and what the original gives where the library has to refuse.
use crate::flags_calls::transform;
use crate::inverse::not_finite;
use crate::inverses_classes::{way, Answer, Way, WAYS};

const PLACES: [&str; 6] = ["sx", "ky", "kx", "sy", "tx", "ty"];
const KINDS: [&str; 6] = ["zero", "−0", "subnormal", "infinity", "−infinity", "NaN"];

fn kind(x: f32) -> Option<usize> {
    if x.is_subnormal() {
        return Some(2);
    }
    match (x.is_sign_negative(), x) {
        (_, x) if x.is_nan() => Some(5),
        (false, 0.0) => Some(0),
        (true, 0.0) => Some(1),
        (false, f32::INFINITY) => Some(3),
        (true, f32::NEG_INFINITY) => Some(4),
        _ => None,
    }
}

// Which entries can alone be not finite. Where a scale has no finite inverse, the move over it is not finite either. Without skew
// the inverse has none, and a move's has scales of 1.
fn can_be_alone(way: Way) -> &'static [usize] {
    match way {
        Way::Nothing => &[],
        Way::Move | Way::Scale => &[4, 5],
        Way::Skew => &[0, 1, 2, 3, 4, 5],
    }
}

#[derive(Default)]
pub struct Met {
    // for each place of the matrix that is given, how often a number of each kind was in it
    places: [[u64; 6]; 6],
    // for each way, how often each entry was alone not finite in an inverse that is refused with 7
    alone: [[u64; 6]; 4],
    // for each way, how many are given, refused with 6, refused with 7 where the original gives a matrix, and where it gives none
    answers: [[u64; 4]; 4],
}

impl Met {
    pub fn count(&mut self, m: &[f32; 6], answer: Answer) {
        let t = transform(m);
        let way = way(&t) as usize;
        for (place, x) in self.places.iter_mut().zip(m) {
            kind(*x).iter().for_each(|k| place[*k] += 1);
        }
        self.answers[way][if answer == Answer::Seven && t.invert().is_none() { 3 } else { answer as usize }] += 1;
        if answer == Answer::Seven && let [k] = not_finite(&t)[..] {
            self.alone[way][k] += 1;
        }
    }

    // The kinds of numbers that were never in a place.
    pub fn never_there(&self) -> Vec<String> {
        let each = (0..6).flat_map(|p| (0..6).map(move |k| (p, k)));
        each.filter(|(p, k)| self.places[*p][*k] == 0).map(|(p, k)| format!("never in {}: {}", PLACES[p], KINDS[k])).collect()
    }

    // The entries that were never alone and can be, and those that were and cannot.
    pub fn not_alone(&self) -> Vec<String> {
        let each = WAYS.iter().flat_map(|way| (0..6).map(move |k| (way, k)));
        let told = each.filter_map(|((way, name), k)| match (can_be_alone(*way).contains(&k), self.alone[*way as usize][k]) {
            (true, 0) => Some(format!("never alone not finite: {} of {name}", PLACES[k])),
            (false, n @ 1..) => Some(format!("alone not finite {n} times, as it can never be: {} of {name}", PLACES[k])),
            _ => None,
        });
        told.collect()
    }

    // A refusal with 7 where the original does not do as it must: it tests only what skews.
    pub fn not_theirs(&self) -> Vec<String> {
        let wrong = |way: Way| self.answers[way as usize][if way == Way::Skew { 2 } else { 3 }];
        let each = WAYS.iter().filter(|(way, _)| wrong(*way) > 0);
        each.map(|(way, name)| format!("refused with 7 {} times, where the original does otherwise: {name}", wrong(*way))).collect()
    }

    pub fn print(&self) {
        for ((_, name), [given, six, matrix, none]) in WAYS.iter().zip(self.answers) {
            print!("{given:>9} given, {six:>8} refused with 6, {matrix:>8} with 7 where the original gives a matrix, ");
            println!("{none:>8} with 7 where it gives none: {name}");
        }
        for (place, met) in PLACES.iter().zip(&self.places) {
            println!("in {place}: {}", KINDS.iter().zip(met).map(|(kind, n)| format!("{n} {kind}")).collect::<Vec<_>>().join(", "));
        }
        for ((_, name), alone) in WAYS.iter().zip(&self.alone).skip(1) {
            println!("alone not finite, of {}: {alone:?}: {name}", PLACES.join(", "));
        }
    }
}
