// The promises, tested on the library's own answers and what the journals were made of, with no word from the model.
use crate::inputs::Inputs;
use crate::journal_calls::Lent;
use crate::journal_classes::Class;
use crate::journal_inputs::{record, Journal};
use crate::journal_judge::Judge;
use crate::journal_memory::{Outputs, Side};
use crate::journal_model::Record;
use crate::journal_reads::{is_same, Walk};
use crate::journal_spoils::{CUTS, RESTORED, ROUND_TRIPS, WRITTEN_ON};
use crate::{NZ_JOURNAL_END, NZ_JOURNAL_RECORD, NZ_JOURNAL_SHORT, NZ_OK};

// The classes of a cut, by the bytes of a torn record that are there.
fn by_torn(torn: usize, whole: usize) -> [Class; 5] {
    [
        ("at a boundary", 50, torn == 0 && whole > 0),
        ("before the first record", 90, torn == 0 && whole == 0),
        ("in a length", 20, (1..4).contains(&torn)),
        ("in a kind or before it", 30, torn == 4 || torn == 5),
        ("in a payload or before it", 3, torn >= 6),
    ]
}

// The classes of a record that is written over a torn one.
fn by_tail(torn: usize, size: usize) -> [Class; 4] {
    [
        ("with no torn tail", 30, torn == 0),
        ("with a shorter tail", 3, torn > 0 && torn < size),
        ("with one as long", 150, torn == size),
        ("with a longer one", 12, torn > size),
    ]
}

impl Judge {
    // A good journal that is cut gives exactly the records before the cut, and then end or short. In every fourth cut it is
    // written on.
    pub fn cut_promise(&mut self, journal: &Journal, at: usize, walk: Walk, i: &mut Inputs) {
        let whole = journal.bounds.partition_point(|b| *b <= at) - 1;
        let torn = at - journal.bounds[whole];
        let last = (NZ_OK, if torn == 0 { NZ_JOURNAL_END } else { NZ_JOURNAL_SHORT });
        self.cut.count(by_torn(torn, whole));
        if !walk.as_made || walk.records != whole || walk.last != last {
            let Walk { records, as_made, last } = walk;
            let told = if as_made { "as made" } else { "not as made" };
            self.differ(CUTS, &journal.bytes[..at], || format!("{records} records, {told}, of {whole}, and then answer and what {last:?}"));
        }
        if i.chance(4) {
            let (added, spare) = (record(i), i.below(60) as usize);
            self.written_on.count(by_tail(torn, added.size()));
            if let Err(what) = self.write_on(journal, at, whole, added, spare, i) {
                self.differ(WRITTEN_ON, &journal.bytes[..at], || format!("{added:x?} written on: {what}"));
            }
        }
    }

    // Writes a record at the end that the library gives of a cut journal, and reads what is then as long as it says. Behind the
    // cut the buffer has what stood there, or erased flash, up to the room of the record or more.
    fn write_on(&mut self, journal: &Journal, at: usize, whole: usize, added: Record, spare: usize, i: &mut Inputs) -> Result<(), String> {
        let mut bytes = journal.bytes[..at + i.below((journal.bytes.len() - at) as u64 + 1) as usize].to_vec();
        bytes.resize(bytes.len().max(journal.bounds[whole] + added.size() + spare * i.below(2) as usize), 0xff);
        let room = Lent::of(self.memory[0].put(Side::Behind, &bytes));
        let (mut end, mut next, mut words) = (u64::MAX, u64::MAX, added.words);
        let answers = [self.library.end(room.cut(at), &mut end), self.library.write(room, end, added.kind, &mut words, &mut next)];
        if answers != [NZ_OK; 2] || next > room.len as u64 {
            return Err(format!("answers {answers:?}, end {end}, next {next}"));
        }
        let journal_now = room.cut(next as usize);
        let kept = journal.bounds[whole];
        if journal_now.bytes().get(..kept) != Some(&journal.bytes[..kept]) {
            return Err(format!("records before it changed: {:x?}", journal_now.bytes()));
        }
        let made: Vec<Record> = journal.records[..whole].iter().chain([&added]).copied().collect();
        self.is_all(journal_now, &made, i)
    }

    // Whether a journal reads as these records and then ends.
    fn is_all(&self, journal: Lent, made: &[Record], i: &mut Inputs) -> Result<(), String> {
        let (mut at, mut out) = (0, Outputs::filled(i));
        for (k, r) in made.iter().enumerate() {
            let answer = self.library.read(journal, at, &mut out);
            if answer != NZ_OK || out.what != NZ_JOURNAL_RECORD || !is_same(&out, r) {
                return Err(format!("record {k}: answer {answer}, {out:x?}"));
            }
            at = out.next;
        }
        let answer = self.library.read(journal, at, &mut out);
        let ended = answer == NZ_OK && out.what == NZ_JOURNAL_END;
        if ended { Ok(()) } else { Err(format!("no end at {at}: answer {answer}, what {}", out.what)) }
    }

    // What is read from an uncut journal and written again has the same bytes.
    pub fn restore(&mut self, journal: &Journal, i: &mut Inputs) {
        let from = Lent::of(self.memory[0].put(Side::Behind, &journal.bytes));
        let other: Vec<u8> = journal.bytes.iter().map(|b| !b).collect();
        let to = Lent::of(self.memory[1].put(Side::Behind, &other));
        let (mut at, mut out, mut next) = (0, Outputs::filled(i), 0);
        self.restored += 1;
        let mut told = "no end after so many records as were made";
        for _ in 0..=journal.records.len() {
            if self.library.read(from, at, &mut out) != NZ_OK || out.what != NZ_JOURNAL_RECORD {
                let ended = out.what == NZ_JOURNAL_END && next == journal.bytes.len() as u64;
                told = if ended { "" } else { "no end at the last byte" };
                break;
            }
            at = out.next;
            let (kind, mut words) = (out.kind, out.words);
            if self.library.write(to, next, kind, &mut words, &mut next) != NZ_OK {
                told = "a record that was read is not written";
                break;
            }
        }
        if told.is_empty() && to.bytes() != journal.bytes {
            told = "other bytes";
        }
        if !told.is_empty() {
            self.differ(RESTORED, &journal.bytes, || format!("{told}: {:x?}", to.bytes()));
        }
    }

    // What was written at an offset is read there.
    pub fn round_trip(&mut self, lent: Lent, at: u64, written: Record, next: u64, i: &mut Inputs) {
        let mut out = Outputs::filled(i);
        let answer = self.library.read(lent, at, &mut out);
        if answer != NZ_OK || out.what != NZ_JOURNAL_RECORD || !is_same(&out, &written) || out.next != next {
            self.differ(ROUND_TRIPS, lent.bytes(), || format!("at {at}: {written:x?} and then {next} written, answer {answer}, {out:x?} read"));
        }
    }
}
