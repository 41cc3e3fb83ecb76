//! Demand 3 by brute force, through the wrapper: one sequence of calls on two boards whose starting
//! pictures differ in every block.
//!
//! That they differ in every block makes two pictures enough for both directions of "settled
//! exactly when": a block that shows one and the same block of either start shows different pixels
//! on the two boards, and one that shows the same pixels on both comes from neither start.

use seatboard::{Accepted, Reason, Record, Refused, Size, SETTLED};
use second::reader::{self, pixel_blocks};
use second::walk;

use crate::sequences::{Call, Sequence};
use crate::tally::{Counts, Thing, Things};

/// What a call told.
#[derive(Debug, PartialEq)]
struct Answered {
    end: Result<Accepted, Refused>,
    /// The number accepted, of a run.
    accepted: Option<usize>,
}

impl Answered {
    fn number(&self) -> u8 {
        self.end
            .map_or_else(|refused| refused.reason.number(), |_| 0)
    }
}

/// What a sequence left and told.
struct Ran {
    answers: Vec<Answered>,
    picture: Vec<u8>,
    map: Vec<u16>,
    /// The count and the record, at first and after each call.
    counts: Vec<usize>,
    records: Vec<Record>,
}

/// What the sequences had, so that a comparison which missed something says so.
#[derive(Default)]
pub struct Tally {
    sequences: Things<9>,
    chunks: Things<4>,
    runs: Things<6>,
}

impl Tally {
    pub fn counts(&self) -> Counts {
        [
            self.sequences.counts(),
            self.chunks.counts(),
            self.runs.counts(),
        ]
        .concat()
    }
}

/// What contradicts the claim.
pub fn check(sequence: &Sequence, tally: &mut Tally) -> Vec<String> {
    let ran = [0, 1].map(|board| run(sequence, board));
    let [first, second] = match ran {
        [Ok(first), Ok(second)] => [first, second],
        [Err(refused), _] | [_, Err(refused)] => {
            return vec![format!("{refused}")];
        }
    };
    tally.sequences.add(things(sequence, &first));
    tally.chunks.add(chunks(sequence, &first));
    tally.runs.add(runs(sequence, &first));
    let mut wrong = unequal(&first, &second);
    wrong.extend(wrong_records(sequence.size, &first));
    wrong.extend(wrong_blocks(sequence, &first, &second));
    wrong
}

/// Fails only where a fresh map or a count does, at a size that is allowed.
fn run(sequence: &Sequence, board: usize) -> Result<Ran, Refused> {
    let size = sequence.size;
    let mut picture = sequence.starts[board].clone();
    let mut map = sequence.maps[board].clone();
    let mut record = seatboard::fresh_map(size, &mut map)?;
    let mut counts = vec![seatboard::count_unsettled(size, &map)?];
    let mut records = vec![record];
    let mut answers = Vec::new();
    for call in &sequence.calls {
        answers.push(answered(&mut record, call, &mut picture, &mut map));
        counts.push(seatboard::count_unsettled(size, &map)?);
        records.push(record);
    }
    Ok(Ran {
        answers,
        picture,
        map,
        counts,
        records,
    })
}

fn answered(record: &mut Record, call: &Call, picture: &mut [u8], map: &mut [u16]) -> Answered {
    let (end, accepted) = match call {
        Call::Read(chunk) => (seatboard::read_chunk(record, chunk, picture, map), None),
        Call::Walk(feed) => (seatboard::walk_feed(record, feed, picture, map), None),
        Call::Run(run) => {
            let tally = seatboard::walk_run(record, run, picture, map);
            (tally.end, Some(tally.accepted))
        }
    };
    Answered { end, accepted }
}

fn unequal(first: &Ran, second: &Ran) -> Vec<String> {
    let mut wrong = Vec::new();
    for (call, (one, other)) in first.answers.iter().zip(&second.answers).enumerate() {
        if one != other {
            wrong.push(format!("call {call}: {one:?} and {other:?}"));
        }
    }
    if first.map != second.map {
        wrong.push(format!("maps {:?} and {:?}", first.map, second.map));
    }
    if first.counts != second.counts {
        wrong.push(format!("counts {:?} and {:?}", first.counts, second.counts));
    }
    if first.records != second.records {
        wrong.push(format!("{:?} and {:?}", first.records, second.records));
    }
    let unsettled = first.map.iter().filter(|entry| **entry != SETTLED).count();
    if first.counts.last() != Some(&unsettled) {
        wrong.push(format!("{:?} counted, {unsettled} there", first.counts));
    }
    wrong
}

/// 02: from a fresh start the record always has the count, and 21 is never given.
fn wrong_records(size: Size, ran: &Ran) -> Vec<String> {
    let mut wrong = Vec::new();
    for (calls, (record, count)) in ran.records.iter().zip(&ran.counts).enumerate() {
        let unsettled = *count;
        if *record != (Record { size, unsettled }) {
            wrong.push(format!("after {calls} calls: {record:?}, {count} counted"));
        }
    }
    let bad_count = Reason::BadCount.number();
    if ran.answers.iter().any(|call| call.number() == bad_count) {
        wrong.push("21 from a fresh start".into());
    }
    wrong
}

fn wrong_blocks(sequence: &Sequence, first: &Ran, second: &Ran) -> Vec<String> {
    let blocks = |picture: &[u8]| pixel_blocks(sequence.size.width, picture);
    let [starts, other_starts] = [0, 1].map(|board| blocks(&sequence.starts[board]));
    let [shown, other_shown] = [first, second].map(|ran| blocks(&ran.picture));
    let named = |entry: u16| {
        let entry = usize::from(entry);
        Some((*starts.get(entry)?, *other_starts.get(entry)?))
    };
    let wrong = |(block, entry): (usize, u16)| {
        let shows = (shown[block], other_shown[block]);
        let same = shows.0 == shows.1;
        match (entry, same) {
            (SETTLED, true) => None,
            (SETTLED, false) => Some(format!("block {block}: settled, and not the same")),
            (_, true) => Some(format!("block {block}: the same, and not settled")),
            (_, false) if named(entry) == Some(shows) => None,
            (_, false) => Some(format!(
                "block {block} does not show starting block {entry}"
            )),
        }
    };
    let entries = first.map.iter().copied().enumerate();
    entries.filter_map(wrong).collect()
}

fn things(sequence: &Sequence, ran: &Ran) -> [Thing; 9] {
    let Size { width, height } = sequence.size;
    let calls = || sequence.calls.iter().zip(&ran.answers);
    let walked = |numbers: &'static [u8]| {
        move |(call, answered): (&Call, &Answered)| {
            matches!(call, Call::Walk(_)) && numbers.contains(&answered.number())
        }
    };
    let moved = |(block, entry): (usize, &u16)| *entry != SETTLED && usize::from(*entry) != block;
    let left = *ran.counts.last().unwrap_or(&0);
    [
        ("sequences without a call", sequence.calls.is_empty()),
        ("with a walk that got 0", calls().any(walked(&[0]))),
        ("with a walk that got 1 or 2", calls().any(walked(&[1, 2]))),
        ("with a walk that got 12", calls().any(walked(&[12]))),
        ("with a walk that got 13", calls().any(walked(&[13]))),
        (
            "with a count that rises",
            ran.counts.windows(2).any(|two| two[0] < two[1]),
        ),
        (
            "with a block moved, at the end",
            ran.map.iter().enumerate().any(moved),
        ),
        ("with all blocks settled at the end", left == 0),
        (
            "with some settled and some not",
            left > 0 && left < width * height / 16,
        ),
    ]
}

/// Which chunks it had by themselves.
fn chunks(sequence: &Sequence, ran: &Ran) -> [Thing; 4] {
    let calls = || sequence.calls.iter().zip(&ran.answers);
    let read = |accepted| {
        move |(call, answered): (&Call, &Answered)| {
            matches!(call, Call::Read(_)) && answered.end.is_ok() == accepted
        }
    };
    let padded = |call: &Call| matches!(call, Call::Read(chunk) if padded(sequence.size, chunk));
    [
        ("sequences with an accepted chunk", calls().any(read(true))),
        (
            "sequences with a padded chunk",
            sequence.calls.iter().any(padded),
        ),
        ("sequences with a refused chunk", calls().any(read(false))),
        ("with a chunk refused behind block 0", calls().any(behind)),
    ]
}

fn behind((_, answered): (&Call, &Answered)) -> bool {
    let at_opcode = |refused: Refused| refused.reason != Reason::BytesFollow && refused.block > 0;
    answered.end.is_err_and(at_opcode)
}

/// What its runs did.
fn runs(sequence: &Sequence, ran: &Ran) -> [Thing; 6] {
    let calls = sequence.calls.iter().zip(&ran.answers);
    let done = |(call, answered): (&Call, &Answered)| match (call, answered.accepted) {
        (Call::Run(run), Some(accepted)) => {
            let chunks = chunks_in(sequence.size, run);
            Some((accepted, chunks, answered.number()))
        }
        _ => None,
    };
    let runs: Vec<_> = calls.filter_map(done).collect();
    let any = |is: fn(&(usize, usize, u8)) -> bool| runs.iter().any(is);
    [
        (
            "with a run that accepted some",
            any(|(accepted, ..)| *accepted > 0),
        ),
        (
            "with a run that refused some",
            any(|(accepted, chunks, _)| accepted < chunks),
        ),
        (
            "with a run that did both",
            any(|(accepted, chunks, _)| *accepted > 0 && accepted < chunks),
        ),
        ("with a run that got 0", any(|(.., number)| *number == 0)),
        ("with a run that got 12", any(|(.., number)| *number == 12)),
        ("with a run that got 13", any(|(.., number)| *number == 13)),
    ]
}

/// As the second walk finds them, on a board of its own.
fn chunks_in(size: Size, run: &[u8]) -> usize {
    let (mut record, mut picture, mut map) = own_board(size);
    let walk = walk::walk_run(&mut record, run, &mut picture, &mut map);
    walk.chunks.len()
}

/// Whether the second reader accepts it, with padding, on a board of its own.
fn padded(size: Size, chunk: &[u8]) -> bool {
    let (mut record, mut picture, mut map) = own_board(size);
    let read = reader::read_chunk(&mut record, chunk, &mut picture, &mut map);
    read.is_ok_and(|reading| reading.padding > 0)
}

/// Its record, picture and map.
pub fn own_board(size: Size) -> (reader::Record, Vec<u8>, Vec<u16>) {
    let map = vec![0; size.blocks()];
    let record = reader::Record {
        size: (size.width, size.height),
        unsettled: map.len(),
    };
    (record, vec![0; size.pixels()], map)
}
