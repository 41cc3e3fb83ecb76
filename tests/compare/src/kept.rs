//! Sequences of calls in which the record goes from call to call, as 02 has it: by the library and by
//! the second reader, from a fresh start and from a map and a count of any kind; and by a `Board`, which
//! starts fresh and keeps its record to itself, and walks feeds step by step too.

use seatboard::exact::{Answer, Recorded};
use seatboard::{Accepted, Record, Refused, Size};

use crate::compare::{Codec, LIBRARY, SECOND};
use crate::generate::{unsettled, Board};
use crate::sequences::{Call, Sequence};
use crate::tally::{Counts, Thing, Things};

/// What a call said, and how many entries of the map were unsettled after it.
#[derive(Debug, PartialEq)]
struct Said {
    answer: Answer,
    /// The number accepted, of a run.
    accepted: Option<usize>,
    record: Record,
    counted: usize,
}

/// What the sequences had, so that a comparison which missed something says so.
#[derive(Default)]
pub struct Tally {
    fresh: Things<3>,
    lent: Things<4>,
}

impl Tally {
    pub fn counts(&self) -> Counts {
        [self.fresh.counts(), self.lent.counts()].concat()
    }
}

/// All that a sequence said, and what it left.
struct Ran {
    said: Vec<Said>,
    left: Board,
}

/// What differs, and where a record that was started fresh does not say what its map has.
pub fn check(sequence: &Sequence, tally: &mut Tally) -> Vec<String> {
    let mut wrong = from_any_start(sequence, &mut tally.lent);
    wrong.extend(from_fresh_start(sequence, &mut tally.fresh));
    wrong
}

fn from_any_start(sequence: &Sequence, things: &mut Things<4>) -> Vec<String> {
    let [ours, theirs] = [LIBRARY, SECOND].map(|codec| {
        let lent = Board {
            size: sequence.size,
            unsettled: sequence.count,
            picture: sequence.starts[0].clone(),
            map: sequence.maps[0].clone(),
        };
        run(&codec, lent, &sequence.calls)
    });
    things.add(lent_things(sequence, &ours.said));
    differences(&ours, &theirs)
}

fn from_fresh_start(sequence: &Sequence, things: &mut Things<3>) -> Vec<String> {
    let Sequence { size, calls, .. } = sequence;
    let [ours, theirs] =
        [LIBRARY, SECOND].map(|codec| run(&codec, started_fresh(&codec, *size), calls));
    things.add(fresh_things(*size, &ours.said));
    let mut wrong = differences(&ours, &theirs);
    for (call, said) in ours.said.iter().enumerate() {
        if said.record.unsettled != said.counted || said.answer.number == 21 {
            wrong.push(format!("call {call} from a fresh start: {said:?}"));
        }
    }
    wrong.extend(board_differences(*size, calls, &ours));
    wrong
}

/// An all-zero picture, as a `Board` has it.
fn started_fresh(codec: &Codec, size: Size) -> Board {
    let mut map = vec![0; size.blocks()];
    let Recorded { record, .. } = (codec.fresh_map)(size, &mut map);
    Board {
        size: record.size,
        unsettled: record.unsettled,
        picture: vec![0; size.pixels()],
        map,
    }
}

/// Each call is lent the record that the one before handed back.
fn run(codec: &Codec, lent: Board, calls: &[Call]) -> Ran {
    let mut left = lent;
    let mut each = |call| {
        let said = one_call(codec, call, &mut left);
        left.size = said.record.size;
        left.unsettled = said.record.unsettled;
        said
    };
    Ran {
        said: calls.iter().map(&mut each).collect(),
        left,
    }
}

fn one_call(codec: &Codec, call: &Call, board: &mut Board) -> Said {
    let record = board.record();
    let Board { picture, map, .. } = board;
    let (said, accepted) = match call {
        Call::Read(chunk) => ((codec.read_chunk)(record, chunk, picture, map), None),
        Call::Walk(feed) => ((codec.walk_feed)(record, feed, picture, map), None),
        Call::Run(run) => {
            let tally = (codec.walk_run)(record, run, picture, map);
            let (answer, record) = (tally.answer, tally.record);
            (Recorded { answer, record }, Some(tally.accepted))
        }
    };
    Said {
        answer: said.answer,
        accepted,
        record: said.record,
        counted: unsettled(map),
    }
}

fn differences(ours: &Ran, theirs: &Ran) -> Vec<String> {
    let mut wrong = Vec::new();
    for (call, (ours, theirs)) in ours.said.iter().zip(&theirs.said).enumerate() {
        if ours != theirs {
            wrong.push(format!("call {call}: ours {ours:?}, second {theirs:?}"));
        }
    }
    if (&ours.left.picture, &ours.left.map) != (&theirs.left.picture, &theirs.left.map) {
        wrong.push("other pictures or maps".into());
    }
    wrong
}

/// The same calls on a `Board`.
fn board_differences(size: Size, calls: &[Call], ran: &Ran) -> Vec<String> {
    let mut board = match seatboard::Board::new(size) {
        Ok(board) => board,
        Err(refused) => return vec![format!("no Board: {refused}")],
    };
    let mut wrong = Vec::new();
    for (number, (call, said)) in calls.iter().zip(&ran.said).enumerate() {
        let stepped = match call {
            Call::Walk(feed) => Some(by_steps(board.clone(), feed)),
            Call::Read(_) | Call::Run(_) => None,
        };
        let of_board = call_board(&mut board, call);
        if let Some((left, end)) = stepped {
            if left != board || end != Some(of_board.answer) {
                wrong.push(format!(
                    "call {number}: a Board {of_board:?}, by steps {end:?}"
                ));
            }
        }
        if of_board != *said {
            wrong.push(format!(
                "call {number}: a Board {of_board:?}, slices {said:?}"
            ));
        }
    }
    if (board.picture(), board.map()) != (&ran.left.picture[..], &ran.left.map[..]) {
        wrong.push("a Board of another picture or map".into());
    }
    wrong
}

fn call_board(board: &mut seatboard::Board, call: &Call) -> Said {
    let (end, accepted) = match call {
        Call::Read(chunk) => (board.read_chunk(chunk), None),
        Call::Walk(feed) => (board.walk_feed(feed), None),
        Call::Run(run) => {
            let tally = board.walk_run(run);
            (tally.end, Some(tally.accepted))
        }
    };
    Said {
        answer: exact(end),
        accepted,
        record: Record {
            size: board.size(),
            unsettled: board.unsettled(),
        },
        counted: unsettled(board.map()),
    }
}

/// What a feed leaves and how it ends when it is gone through step by step.
fn by_steps(mut board: seatboard::Board, feed: &[u8]) -> (seatboard::Board, Option<Answer>) {
    let end = match board.steps(feed) {
        Ok(mut steps) => {
            // Each chunk takes a byte: there is no step beyond these.
            steps.by_ref().take(feed.len() + 1).for_each(drop);
            steps.end()
        }
        Err(refused) => Some(Err(refused)),
    };
    (board, end.map(exact))
}

fn exact(end: Result<Accepted, Refused>) -> Answer {
    match end {
        Ok(Accepted { length, block, .. }) => Answer {
            number: 0,
            place: length,
            block,
        },
        Err(Refused {
            reason,
            place,
            block,
            ..
        }) => Answer {
            number: reason.number(),
            place,
            block,
        },
    }
}

/// Of a sequence from a fresh start.
fn fresh_things(size: Size, said: &[Said]) -> [Thing; 3] {
    let before = said.iter().map(|said| said.record.unsettled);
    let before: Vec<usize> = [size.blocks()].into_iter().chain(before).collect();
    let any = |is: fn(usize, &Said) -> bool| {
        let mut calls = before.iter().zip(said);
        calls.any(|(before, said)| is(*before, said))
    };
    [
        (
            "fresh starts with a record that falls",
            any(|before, said| said.record.unsettled < before),
        ),
        (
            "fresh starts with a record that rises",
            any(|before, said| said.record.unsettled > before),
        ),
        (
            "fresh starts with a record moved by a call that got 12 or 13",
            any(|before, said| {
                matches!(said.answer.number, 12 | 13) && said.record.unsettled != before
            }),
        ),
    ]
}

/// Of one with a map and a count of any kind.
fn lent_things(sequence: &Sequence, said: &[Said]) -> [Thing; 4] {
    let untrue = sequence.count != unsettled(&sequence.maps[0]);
    let bad_count = |said: &Said| said.answer.number == 21;
    let accepted = |said: &Said| said.answer.number == 0;
    let after = said.iter().skip_while(|said| !bad_count(said));
    let still_untrue = |last: &Said| last.record.unsettled != last.counted;
    [
        ("untrue starts", untrue),
        (
            "untrue starts with a chunk that got 21",
            said.iter().any(bad_count),
        ),
        (
            "untrue starts with a call that got 0 after that",
            after.skip(1).any(accepted),
        ),
        (
            "untrue starts with all calls accepted, the record untrue at the end",
            said.iter().all(accepted) && said.last().is_some_and(still_untrue),
        ),
    ]
}
