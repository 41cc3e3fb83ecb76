//! What the compared chunks had in them, so that a run which missed something says so.

use seatboard::exact::Answer;
use seatboard::Reason;
use second::reader::{Command, Step};

use crate::compare::Comparison;
use crate::count_tally::CountTally;
use crate::generate::Case;

/// How many calls got each number.
#[derive(Default)]
pub struct Numbers([usize; 1 + Reason::BadCount.number() as usize]);

impl Numbers {
    pub fn add(&mut self, number: u8) {
        self.0[usize::from(number)] += 1;
    }

    /// For the numbers that such a call can have.
    pub fn counts(&self, calls: &str, possible: impl IntoIterator<Item = u8>) -> Counts {
        let count = |number: u8| {
            let meaning = match number {
                0 => "accepted".into(),
                refused => Reason::numbered(refused).to_string(),
            };
            let times = self.0[usize::from(number)];
            (format!("{calls} {number}: {meaning}"), times)
        };
        possible.into_iter().map(count).collect()
    }
}

const TABLES: [&str; 3] = ["pair", "quad", "octet"];

/// The opcodes that count in a byte of their own, with the most blocks each can take.
const LONGEST_RUNS: [(u8, usize); 4] = [(0x1, 256), (0x3, 256), (0x5, 512), (0x7, 256)];

/// The numbers that are found at an opcode, and where among the blocks of the picture.
const AT_OPCODES: [u8; 6] = [5, 6, 7, 8, 9, 10];
const STOPS: [&str; 3] = ["block 0", "a block between", "the last block"];

#[derive(Default)]
pub struct Tally {
    numbers: Numbers,
    /// In the order of `AT_OPCODES`, then of `STOPS`.
    stops: [[usize; 3]; 6],
    /// Of these, at a block that 8 bits cannot tell.
    far_stops: usize,
    /// Accepted chunks that used each opcode, 0 to E.
    opcodes: [usize; 15],
    /// Accepted chunks that stored past entry 255 of each table.
    wrapped: [usize; 3],
    /// Accepted chunks that, after that, named an entry stored before it.
    old_entry_named: [usize; 3],
    /// Runs of the greatest length in accepted chunks, as in `LONGEST_RUNS`.
    longest_runs: [usize; 4],
    /// Copying opcodes in accepted chunks: those that reached across a line's end, and those that
    /// took a block skipped in the same chunk.
    copies_across_lines: usize,
    copies_of_skipped: usize,
    padding: Things<4>,
    following: Things<6>,
    pub counts: CountTally,
}

impl Tally {
    /// A refused chunk has no steps and so adds to nothing but the numbers, stops, counts and what
    /// follows the last block.
    pub fn add(&mut self, Case { board, chunk }: &Case, compared: &Comparison) {
        let Comparison {
            answer, reading, ..
        } = compared;
        self.numbers.add(answer.number);
        self.add_stop(board.map.len(), *answer);
        self.counts.add(board, answer.number, reading);
        let (steps, followed) = match reading {
            Ok(reading) => (&reading.steps[..], reading.padding),
            Err(_) => (&[][..], 0),
        };
        self.add_opcodes(chunk, steps);
        self.add_tables(chunk, steps);
        self.add_copies(board.size.width / 4, steps);
        self.padding.add(padding(chunk, followed));
        if answer.number == 11 {
            self.following.add(following(&chunk[answer.place..]));
        }
    }

    fn add_stop(&mut self, blocks: usize, Answer { number, block, .. }: Answer) {
        let Some(which) = AT_OPCODES.iter().position(|refused| *refused == number) else {
            return;
        };
        let stop = match block {
            0 => 0,
            _ if block + 1 < blocks => 1,
            _ => 2,
        };
        self.stops[which][stop] += 1;
        self.far_stops += usize::from(block > 255);
    }

    fn add_opcodes(&mut self, chunk: &[u8], steps: &[Step]) {
        let mut used = [false; 15];
        for step in steps {
            let upper = chunk[step.place] >> 4;
            used[usize::from(upper)] = true;
            let run = (upper, step.command.blocks());
            if let Some(which) = LONGEST_RUNS.iter().position(|longest| *longest == run) {
                self.longest_runs[which] += 1;
            }
        }
        for (opcode, used) in self.opcodes.iter_mut().zip(used) {
            *opcode += usize::from(used);
        }
    }

    fn add_tables(&mut self, chunk: &[u8], steps: &[Step]) {
        for (table, (storing, naming)) in [(0x8, 0x9), (0xA, 0xB), (0xC, 0xD)].iter().enumerate() {
            let mut stored = 0;
            let mut old_named = false;
            for step in steps {
                let upper = chunk[step.place] >> 4;
                if upper == *storing {
                    stored += 1;
                } else if upper == *naming {
                    let entry = usize::from(chunk[step.place + 1]);
                    old_named |= stored > 256 && entry >= stored % 256;
                }
            }
            self.wrapped[table] += usize::from(stored > 256);
            self.old_entry_named[table] += usize::from(old_named);
        }
    }

    fn add_copies(&mut self, blocks_a_line: usize, steps: &[Step]) {
        let mut skipped = Vec::new();
        for step in steps {
            let blocks = step.command.blocks();
            let back = match step.command {
                Command::CopyOneBefore(_) => Some(1),
                Command::CopyTwoBefore(_) => Some(2),
                _ => None,
            };
            if let Some(back) = back {
                let line = |block: usize| block / blocks_a_line;
                let mut turns = step.first..step.first + blocks;
                let across = turns.any(|block| line(block - back) != line(block));
                self.copies_across_lines += usize::from(across);
                self.copies_of_skipped += usize::from(skipped[step.first - back..].contains(&true));
            }
            let keeps = matches!(step.command, Command::Keep(_));
            skipped.resize(step.first + blocks, keeps);
        }
    }

    pub fn number_counts(&self) -> Counts {
        self.numbers.counts("number", (0..=11).chain([21]))
    }

    pub fn stop_counts(&self) -> Counts {
        let of_number = |(number, stops)| {
            let name = move |stop: usize| format!("number {number} at {}", STOPS[stop]);
            named(stops, name)
        };
        let numbers = AT_OPCODES.into_iter().zip(self.stops);
        let mut counts: Counts = numbers.flat_map(of_number).collect();
        counts.push(("of these, at a block past 255".into(), self.far_stops));
        counts
    }

    pub fn opcode_counts(&self) -> Counts {
        let name = |upper| format!("accepted chunks with opcode {upper:X}");
        named(self.opcodes, name)
    }

    pub fn wrap_counts(&self) -> Counts {
        let wrapped = |table: usize| {
            format!(
                "accepted chunks storing past entry 255 of the {} table",
                TABLES[table]
            )
        };
        let old = |table: usize| {
            format!(
                "of these, naming an old entry of the {} table after that",
                TABLES[table]
            )
        };
        [
            named(self.wrapped, wrapped),
            named(self.old_entry_named, old),
        ]
        .concat()
    }

    pub fn longest_run_counts(&self) -> Counts {
        named(self.longest_runs, |which: usize| {
            let (upper, blocks) = LONGEST_RUNS[which];
            format!("runs of {blocks} blocks under opcode {upper:X}")
        })
    }

    pub fn copy_counts(&self) -> Counts {
        vec![
            (
                "copies across a line's end".into(),
                self.copies_across_lines,
            ),
            ("copies from a skipped block".into(), self.copies_of_skipped),
        ]
    }

    pub fn following_counts(&self) -> Counts {
        [self.padding.counts(), self.following.counts()].concat()
    }
}

fn padding(chunk: &[u8], padding: usize) -> [Thing; 4] {
    let no_fours = padding > 0 && !chunk.len().is_multiple_of(4);
    [
        ("accepted chunks with one byte of padding", padding == 1),
        ("accepted chunks with two bytes of padding", padding == 2),
        ("accepted chunks with three bytes of padding", padding == 3),
        (
            "of these, with a length that is no multiple of four",
            no_fours,
        ),
    ]
}

/// How 11 came about: the bytes after the last block.
fn following(bytes: &[u8]) -> [Thing; 6] {
    let zero = |byte: &u8| *byte == 0;
    let few = bytes.len() <= 3;
    let bits: u32 = bytes.iter().map(|byte| byte.count_ones()).sum();
    let (last, before) = bytes.split_last().expect("11 is given at a byte");
    let last_alone = !before.is_empty() && before.iter().all(zero) && !zero(last);
    [
        ("11 by four zeros", bytes.len() == 4 && bits == 0),
        ("11 by more zeros", bytes.len() > 4 && bits == 0),
        ("11 by four bytes or more, not all zero", !few && bits > 0),
        (
            "11 by one to three bytes, the first not zero",
            few && !zero(&bytes[0]),
        ),
        (
            "11 by two or three bytes, the last alone not zero",
            few && last_alone,
        ),
        ("11 by a single bit of one to three bytes", few && bits == 1),
    ]
}

/// Things that occurred, and how often.
pub type Counts = Vec<(String, usize)>;

pub fn named<const N: usize>(times: [usize; N], name: impl Fn(usize) -> String) -> Counts {
    times
        .into_iter()
        .enumerate()
        .map(|(which, times)| (name(which), times))
        .collect()
}

/// Something that a case has or has not.
pub type Thing = (&'static str, bool);

/// How many cases had each of `N` things.
pub struct Things<const N: usize>([(&'static str, usize); N]);

impl<const N: usize> Default for Things<N> {
    fn default() -> Self {
        Things([("", 0); N])
    }
}

impl<const N: usize> Things<N> {
    pub fn add(&mut self, things: [Thing; N]) {
        for ((name, times), (thing, has)) in self.0.iter_mut().zip(things) {
            *name = thing;
            *times += usize::from(has);
        }
    }

    pub fn counts(&self) -> Counts {
        named(self.0.map(|(_, times)| times), |which: usize| {
            self.0[which].0.into()
        })
    }
}
