// Reads, and calls for the end, beside the model.
use crate::inputs::Inputs;
use crate::journal_calls::Lent;
use crate::journal_classes::{by_end, by_found, by_record, by_refusal, by_tail};
use crate::journal_inputs::{offset, Journal};
use crate::journal_judge::{hex, Judge};
use crate::journal_memory::{Outputs, Side};
use crate::journal_model::{end, read, Found, Record};
use crate::journal_spoils::{CHANGED, ENDS, READS};
use crate::{NZ_JOURNAL_END, NZ_JOURNAL_RECORD, NZ_JOURNAL_SHORT};

// What came of reading a journal from its first byte on: how many records, whether each is the one that was made, and the last
// answer with what it found.
pub struct Walk {
    pub records: usize,
    pub as_made: bool,
    pub last: (u32, u32),
}

pub fn is_same(out: &Outputs, record: &Record) -> bool {
    let payload = record.payload();
    out.kind == record.kind && out.words[..payload.len()] == *payload
}

// What a read has to leave in outputs that were so before, and its answer.
fn expected(found: &Found, at: u64, before: &Outputs) -> (u32, Outputs) {
    let mut out = *before;
    out.next = at;
    let mut answer = 0;
    match found {
        Found::Record(r) => {
            (out.what, out.kind) = (NZ_JOURNAL_RECORD, r.kind);
            out.words[..r.payload().len()].copy_from_slice(r.payload());
            out.next += r.size() as u64;
        }
        Found::End => out.what = NZ_JOURNAL_END,
        Found::Short => out.what = NZ_JOURNAL_SHORT,
        Found::Refused(number) => answer = *number,
    }
    (answer, out)
}

impl Judge {
    // One read. The model is given the bytes as they were put, so that a change of what is lent cannot lead it astray; `bounded`
    // is false where it is known that they were made with no record there.
    fn read_beside(&mut self, lent: Lent, put: &[u8], at: u64, bounded: bool, i: &mut Inputs) -> (u32, Outputs) {
        let before = Outputs::filled(i);
        let mut out = before;
        let answer = self.library.read(lent, at, &mut out);
        let found = read(put, at);
        let (judged, theirs) = expected(&found, at, &before);
        self.reads += 1;
        self.found.count(by_found(&found));
        match &found {
            Found::Record(r) => self.records.count(by_record(r, at, put.len() - at as usize - r.size(), bounded)),
            Found::Refused(number) => self.refusals.count(by_refusal(&put[at as usize..], *number)),
            _ => self.tails.count(by_tail(put, at)),
        }
        if answer != judged || out != theirs {
            let there = put.get(at as usize..).map_or(&[][..], |left| &left[..left.len().min(40)]);
            self.differ(READS, put, || format!("at {at}, {}: answer {answer}, {out:x?}, not answer {judged}, {theirs:x?}", hex(there)));
        }
        (answer, out)
    }

    fn end_beside(&mut self, lent: Lent, put: &[u8], i: &mut Inputs) {
        let before = [i.next(), i.next(), i.next()];
        let mut ours = before;
        let answer = self.library.end(lent, &mut ours[1]);
        let (judged, theirs) = end(put);
        self.ends += 1;
        self.ended.count(by_end(judged, theirs, put.len() as u64 - theirs));
        if answer != judged || ours != [before[0], theirs, before[2]] {
            self.differ(ENDS, put, || format!("the end: answer {answer}, {ours:x?}, not answer {judged}, {theirs:x}"));
        }
    }

    // Reads on at the library's own offsets, as long as it finds records, and no longer than there can be any.
    pub fn walk(&mut self, lent: Lent, put: &[u8], made: &[Record], i: &mut Inputs) -> Walk {
        let mut walk = Walk { records: 0, as_made: true, last: (0, 0) };
        let mut at = 0;
        loop {
            let (answer, out) = self.read_beside(lent, put, at, true, i);
            if answer != 0 || out.what != NZ_JOURNAL_RECORD || walk.records > lent.len / 10 {
                walk.last = (answer, out.what);
                return walk;
            }
            walk.as_made &= made.get(walk.records).is_some_and(|r| is_same(&out, r));
            walk.records += 1;
            at = out.next;
        }
    }

    // A journal cut at a byte: what is behind the cut stands behind what is lent, or a page does that nothing may touch.
    pub fn cut_at(&mut self, journal: &Journal, at: usize, i: &mut Inputs) {
        let put = if i.chance(3) { &journal.bytes[..] } else { &journal.bytes[..at] };
        let side = if i.chance(4) { Side::Before } else { Side::Behind };
        let all = Lent::of(self.memory[0].put(side, put));
        let (lent, bytes) = (all.cut(at), &journal.bytes[..at]);
        self.cuts += 1;
        self.end_beside(lent, bytes, i);
        self.hold(all, put);
        let walk = self.walk(lent, bytes, &journal.records, i);
        self.hold(all, put);
        if journal.damage == 0 {
            self.cut_promise(journal, at, walk, i);
        }
    }

    // Reads at offsets within records and outside of the journal.
    pub fn outside(&mut self, journal: &Journal, i: &mut Inputs) {
        let all = Lent::of(self.memory[0].put(Side::Behind, &journal.bytes));
        for _ in 0..6 {
            let at = offset(i, journal.bytes.len());
            let bounded = journal.damage > 0 || journal.bounds.binary_search(&(at as usize)).is_ok();
            self.read_beside(all, &journal.bytes, at, bounded, i);
        }
        self.hold(all, &journal.bytes);
    }

    // Whether a journal that was read is as it was put; else it is put back.
    fn hold(&mut self, lent: Lent, put: &[u8]) {
        if lent.bytes() != put {
            self.differ(CHANGED, lent.bytes(), || "a journal that was read was changed into this".to_string());
            unsafe { std::slice::from_raw_parts_mut(lent.from, lent.len).copy_from_slice(put) };
        }
    }
}
