// A program that prints a journal, beside the model: each file is fed to it as a file, and through a pipe in pieces, the next of
// which comes when the last was taken.
use crate::inputs::Inputs;
use crate::journal_classes::{Class, Classes};
use crate::journal_inputs::Journal;
use crate::journal_judge::hex;
use crate::journal_model::{read, Found, BAD_LENGTH, UNKNOWN_KIND};
use std::ffi::{c_int, c_ulong};
use std::fs::File;
use std::io::{Read, Write};
use std::os::fd::AsRawFd;
use std::process::{Child, ChildStdin, Command, Stdio};
use std::time::Duration;

unsafe extern "C" {
    fn ioctl(file: c_int, request: c_ulong, ...) -> c_int;
}

// Asks how many bytes of a pipe were not taken yet.
const FIONREAD: c_ulong = 0x541b;

const PATH: &str = "target/oracle/journal.bytes";

// The first file of which something else is printed is kept.
const KEPT: &str = "target/oracle/journal.differs";

// Of fewer files, an ending that was hardly met says nothing.
const FEW: u64 = 500;

const SHOWN: u64 = 5;

// What the program has to print; where the last line is from, and what was found there.
fn text(journal: &[u8]) -> (Vec<u8>, u64, Found) {
    let (mut text, mut at) = (Vec::new(), 0);
    loop {
        let found = read(journal, at);
        let line = match found {
            Found::Record(r) => {
                let payload = &journal[at as usize + 6..at as usize + r.size()];
                at += r.size() as u64;
                format!("{} {}\n", r.kind, payload.iter().map(|b| format!("{b:02X}")).collect::<String>())
            }
            Found::End => "end\n".to_string(),
            Found::Short => "short\n".to_string(),
            Found::Refused(number) => format!("refused {number} {at}\n"),
        };
        text.extend(line.bytes());
        if !matches!(found, Found::Record(_)) {
            return (text, at, found);
        }
    }
}

// The classes of a file, by how it ends.
fn by_ending(journal: &[u8], at: u64, found: Found) -> [Class; 9] {
    let left = &journal[at as usize..];
    let small = found == Found::Refused(BAD_LENGTH) && left[1..4] == [0; 3] && left[0] < 2;
    let short = |range: std::ops::Range<usize>| found == Found::Short && range.contains(&left.len());
    [
        ("no byte", 200, journal.is_empty()),
        ("end", 20, found == Found::End),
        ("short in a length", 50, short(1..4)),
        ("in a kind", 50, short(4..6)),
        ("in a payload", 20, short(6..34)),
        ("17 for a length below 2", 50, small),
        ("for another length", 20, found == Found::Refused(BAD_LENGTH) && !small),
        ("18", 20, found == Found::Refused(UNKNOWN_KIND)),
        ("refused behind good records", 20, matches!(found, Found::Refused(_)) && at > 0),
    ]
}

// A file: the first is larger than 1 MiB and the next ones than 64 KiB, some of them cut where the program's buffer may end; the
// others are as those that the library reads.
fn draw(journal: &mut Journal, k: u64, i: &mut Inputs) {
    const LARGE: u64 = 16;
    let records = [45_000, 2_800 + i.below(3_000)][(k > 0) as usize];
    if k >= LARGE {
        journal.draw(i, true, false);
        let mut cuts = Vec::new();
        journal.cuts(i, &mut cuts);
        journal.bytes.truncate(cuts[i.below(cuts.len() as u64) as usize]);
        return;
    }
    loop {
        journal.make(i, records);
        journal.damage = [0, 0, 1, 2, 4, 7][k as usize % 6];
        journal.harm(i);
        if journal.damage == 0 || journal.damaged_at > 1 << 16 {
            break;
        }
    }
    if k % 6 == 1 {
        let buffers = (journal.bytes.len() >> 12) as u64;
        let at = (buffers << 12) as usize - 1 + i.below(3) as usize;
        journal.bytes.truncate(at);
    }
}

fn not_taken(pipe: &ChildStdin) -> bool {
    let mut bytes: c_int = 0;
    unsafe { ioctl(pipe.as_raw_fd(), FIONREAD, &mut bytes) == 0 && bytes > 0 }
}

// How long the next piece is: all of a file's pieces are of one sort, and those of a large file are not small.
fn piece(i: &mut Inputs, sort: u64, large: bool) -> usize {
    match (sort, large) {
        (0, false) => 1,
        (1, false) => [1, 3, 5, 7, 11, 13][i.below(6) as usize],
        (2, false) => 1 + i.below(40) as usize,
        (0, true) => 4093 + i.below(7) as usize,
        (1, true) => 65_533 + i.below(7) as usize,
        _ => 1 + i.below(9000) as usize,
    }
}

// Feeds it as long as it takes anything: one that refuses need not read on.
fn feed(child: &mut Child, mut left: &[u8], i: &mut Inputs) {
    let (mut pipe, sort, large) = (child.stdin.take().unwrap(), i.below(4), left.len() > 20_000);
    while !left.is_empty() {
        let (now, later) = left.split_at(piece(i, sort, large).min(left.len()));
        if pipe.write_all(now).is_err() {
            return;
        }
        left = later;
        while not_taken(&pipe) && child.try_wait().unwrap().is_none() {
            std::thread::sleep(Duration::from_micros(10));
        }
    }
}

// What the program prints; none where it did not end by itself.
fn printed(program: &[String], journal: &[u8], by_pipe: bool, i: &mut Inputs) -> Option<Vec<u8>> {
    let stdin = if by_pipe { Stdio::piped() } else { Stdio::from(File::open(PATH).unwrap()) };
    let mut child = Command::new(&program[0]).args(&program[1..]).stdin(stdin).stdout(Stdio::piped()).spawn().expect("the program");
    let mut out = child.stdout.take().unwrap();
    let reader = std::thread::spawn(move || {
        let mut all = Vec::new();
        out.read_to_end(&mut all).map(|_| all)
    });
    if by_pipe {
        feed(&mut child, journal, i);
    }
    let ended = child.wait().unwrap().code().is_some();
    reader.join().unwrap().ok().filter(|_| ended)
}

// Where two texts begin to differ, and some bytes from there.
fn shown(journal: &[u8], ours: &[u8], theirs: &[u8], how: &str) {
    let at = ours.iter().zip(theirs).position(|(a, b)| a != b).unwrap_or(ours.len().min(theirs.len()));
    let piece = |text: &[u8]| String::from_utf8_lossy(&text[at..text.len().min(at + 100)]).into_owned();
    println!("{how}, {} bytes: printed from byte {at} on {:?}, not {:?}", journal.len(), piece(ours), piece(theirs));
    println!("    it begins with {}", hex(&journal[..journal.len().min(200)]));
}

// So many files; whether there was a difference, or an ending was hardly met.
pub fn compared(files: u64, seed: u64, program: &[String]) -> bool {
    let (mut i, mut journal, mut endings) = (Inputs::new(seed), Journal::default(), Classes::default());
    let [mut runs, mut differences, mut large] = [0u64; 3];
    for k in 0..files {
        draw(&mut journal, k, &mut i);
        let (theirs, at, found) = text(&journal.bytes);
        endings.count(by_ending(&journal.bytes, at, found));
        large += (journal.bytes.len() > 1 << 16) as u64;
        std::fs::write(PATH, &journal.bytes).unwrap();
        for (by_pipe, how) in [(false, "from a file"), (true, "through a pipe")] {
            // with inputs of its own, since how many pieces are taken can hang on the clock
            let ours = printed(program, &journal.bytes, by_pipe, &mut Inputs::new(seed ^ k << 32));
            runs += 1;
            if ours.as_ref() != Some(&theirs) {
                differences += 1;
                if differences == 1 {
                    std::fs::copy(PATH, KEPT).unwrap();
                    println!("{KEPT} is the first file that differs");
                }
                if differences <= SHOWN {
                    shown(&journal.bytes, &ours.unwrap_or(b"nothing: it did not end by itself".to_vec()), &theirs, how);
                }
            }
        }
    }
    println!("files: {}; larger than 64 KiB {large}", endings.text());
    let hardly = files >= FEW && (endings.hardly("files") | (large < 10));
    println!("{files} files, {runs} runs of the program, {differences} differences");
    differences > 0 || hardly
}
