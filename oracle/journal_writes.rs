// Writes beside the model.
use crate::inputs::Inputs;
use crate::journal_calls::Lent;
use crate::journal_classes::by_write;
use crate::journal_inputs::{kind_to_write, room, word};
use crate::journal_judge::{hex, Judge};
use crate::journal_memory::Side;
use crate::journal_model::{words_of, write, Record};
use crate::journal_spoils::WRITES;

// How many bytes stand beside a buffer, where no page does that nothing may touch.
const BESIDE: usize = 12;

impl Judge {
    // One write at an offset of a buffer with any bytes in it, all of which are compared, those beside it too.
    pub fn write_once(&mut self, i: &mut Inputs) {
        let kind = kind_to_write(i);
        let (len, at) = room(i, kind);
        let words: [u32; 7] = std::array::from_fn(|_| word(i));
        let side = if i.chance(4) { Side::Before } else { Side::Behind };
        let before = if side == Side::Before { 0 } else { BESIDE };
        let mut theirs: Vec<u8> = (0..len + BESIDE).map(|_| (i.next() >> 40) as u8).collect();
        let all = Lent::of(self.memory[0].put(side, &theirs));
        let lent = Lent { from: unsafe { all.from.add(before) }, len };
        let stood = i.next();
        let (mut our_words, mut our_next) = (words, stood);
        let answer = self.library.write(lent, at, kind, &mut our_words, &mut our_next);
        let (judged, their_next) = match write(&mut theirs[before..before + len], at, kind, &words) {
            Ok(next) => (0, next),
            Err(refused) => (refused, stood),
        };
        self.writes += 1;
        self.written.count(by_write(len, at, kind, judged));
        if (answer, our_next, our_words) != (judged, their_next, words) || all.bytes() != theirs {
            self.differ(WRITES, all.bytes(), || {
                let input = format!("kind {kind} at {at} of {len}, {words:x?}");
                format!("{input}: answer {answer}, next {our_next}, not answer {judged}, next {their_next}, {}", hex(&theirs))
            });
        }
        if answer == 0 && words_of(kind).is_some() {
            self.round_trip(lent, at, Record { kind, words }, our_next, i);
        }
    }
}
