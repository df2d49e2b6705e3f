// At which levels cuts were compared, how many levels were refused, and which levels were chosen by which ceiling, all as the
// judge has it.
use crate::calls::{Case, CALLS};
use crate::of_conics::{room, CEILINGS, HIGHEST};
use crate::outputs::Output;

const CUTS: [&str; 3] = ["conic_chop_into_quads_pow2", "cut_in_order", "cut_in_order_both"];
const CHOICE: &str = "conic_compute_quad_pow2";

// With fewer inputs of its call, a level that was hardly met says nothing.
const FEW: u64 = 100_000;

#[derive(Default)]
struct Cuts {
    inputs: u64,
    made: [u64; HIGHEST as usize + 1],
    refused: u64,
    // those refused that have room for the first level that is too high
    with_room: u64,
}

#[derive(Default)]
pub struct Levels {
    cuts: [Cuts; 3],
    choices: u64,
    // for each ceiling, how often each level was chosen
    chosen: [[u64; HIGHEST as usize + 1]; 2],
    no_ceiling: u64,
}

impl Cuts {
    fn count(&mut self, c: &Case, out: &Output) {
        self.inputs += 1;
        match out.word(0) {
            0 => self.made[c.level as usize] += 1,
            1 => {
                self.refused += 1;
                self.with_room += (c.len[0] >= 6 && c.len[1] >= room(HIGHEST + 1)) as u64;
            }
            _ => {}
        }
    }

    // Whether fewer than one input in a hundred was cut at some level, or none refused that had room.
    fn failed(&self) -> bool {
        self.inputs > FEW && (self.made.iter().any(|n| 100 * n < self.inputs) || self.with_room == 0)
    }
}

impl Levels {
    // Counts an input of call k, and what the judge gave.
    pub fn count(&mut self, k: usize, c: &Case, out: &Output) {
        let name = CALLS[k].name;
        if let Some(j) = CUTS.iter().position(|n| *n == name) {
            self.cuts[j].count(c, out);
        }
        if name == CHOICE {
            self.choices += 1;
            self.no_ceiling += (out.word(0) == 1) as u64;
            if let (0, Some(j)) = (out.word(0), CEILINGS.iter().position(|n| *n == c.level)) {
                self.chosen[j][out.word(1) as usize] += 1;
            }
        }
    }

    // Whether, of many inputs of a call, a level was hardly met or a refusal never given.
    pub fn failed(&self) -> bool {
        let never = |j: usize| self.chosen[j][1..=CEILINGS[j] as usize].contains(&0);
        self.cuts.iter().any(Cuts::failed) || self.choices > FEW && (never(0) || never(1) || self.no_ceiling == 0)
    }

    pub fn print(&self) {
        for (name, cuts) in CUTS.iter().zip(&self.cuts).filter(|(_, c)| c.inputs > 0) {
            println!("{}: cuts at the levels 0 to {} {:?}; refused as too high {}, with room {}", name, HIGHEST, cuts.made, cuts.refused, cuts.with_room);
        }
        if self.choices > 0 {
            for (ceiling, n) in CEILINGS.iter().zip(&self.chosen) {
                println!("{}: levels 1 to {} by ceiling {} {:?}", CHOICE, ceiling, ceiling, &n[1..=*ceiling as usize]);
            }
            println!("{}: other ceilings refused {}", CHOICE, self.no_ceiling);
        }
    }
}
