// How often each answer and each class of inputs was met, as the judge has it.

// Of fewer inputs, a class that was hardly met says nothing.
pub const FEW: u64 = 100_000;

// Fewer than one input in so many is hardly any.
const SHARE: u64 = 2_000;

#[derive(Default)]
pub struct Answers {
    counts: [u64; 13],
}

impl Answers {
    pub fn count(&mut self, answer: u32) {
        self.counts[answer as usize] += 1;
    }

    // Whether one of these was hardly met.
    pub fn hardly(&self, answers: &[usize]) -> bool {
        let of = self.counts.iter().sum::<u64>();
        of > FEW && answers.iter().any(|a| SHARE * self.counts[*a] < of)
    }

    pub fn text(&self) -> String {
        let met = self.counts.iter().enumerate().filter(|(_, n)| **n > 0);
        format!("answered {}", met.map(|(a, n)| format!("{a} {n} times")).collect::<Vec<_>>().join(", "))
    }
}

// A class, and whether an input is of it.
pub type Class = (&'static str, bool);

#[derive(Default)]
pub struct Classes {
    of: u64,
    met: Vec<(&'static str, u64)>,
}

impl Classes {
    // Counts an input; the classes stand in the same order each time.
    pub fn count(&mut self, classes: &[Class]) {
        if self.met.is_empty() {
            self.met = classes.iter().map(|c| (c.0, 0)).collect();
        }
        self.of += 1;
        for (met, class) in self.met.iter_mut().zip(classes) {
            met.1 += class.1 as u64;
        }
    }

    // Whether one was hardly met; it is named.
    pub fn hardly(&self) -> bool {
        let rare: Vec<_> = self.met.iter().filter(|m| self.of > FEW && SHARE * m.1 < self.of).collect();
        rare.iter().for_each(|m| println!("hardly met: {}, {} of {}", m.0, m.1, self.of));
        !rare.is_empty()
    }

    pub fn text(&self) -> String {
        self.met.iter().map(|m| format!("{} {}", m.0, m.1)).collect::<Vec<_>>().join(", ")
    }
}
