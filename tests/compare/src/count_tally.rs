//! What became of the lent counts, so that a comparison which missed something says so.

use second::reader::{Reading, Refusal, Turned};
use second::walk::{ChunkRead, Walk};

use crate::generate::{unsettled, Board};
use crate::tally::{named, Counts, Numbers, Thing, Things};

/// The counts that are lent, and how often each was accepted and got 21.
const LENT: [&str; 7] = [
    "a true record",
    "0",
    "one less than true",
    "one more than true",
    "the number of blocks",
    "one above the number of blocks",
    "2^64 - 1",
];

#[derive(Default)]
pub struct CountTally {
    /// In the order of `LENT`.
    accepted: [usize; 7],
    refused: [usize; 7],
    sides: Things<2>,
    bounds: Things<8>,
    turned: Things<6>,
    /// What was given in the place of 21, where no chunk could have made the count a right one.
    before: Numbers,
}

/// A chunk that has no fault but perhaps this one.
struct Counted {
    lent: usize,
    /// What a true record would say.
    right: usize,
    blocks: usize,
    turned: Turned,
    count: i128,
    accepted: bool,
}

impl Counted {
    fn of(board: &Board, reading: &Result<Reading, Refusal>) -> Option<Self> {
        let (turned, accepted) = match reading {
            Ok(reading) => (reading.turned, true),
            Err(Refusal::NoSuchCount(_, turned)) => (*turned, false),
            Err(_) => return None,
        };
        let lent = board.unsettled;
        Some(Counted {
            lent,
            right: unsettled(&board.map),
            blocks: board.map.len(),
            count: lent as i128 + turned.unsettled as i128 - turned.settled as i128,
            turned,
            accepted,
        })
    }

    /// In the order of `LENT`; an untrue one may be several of them.
    fn is_lent(&self) -> [bool; 7] {
        let untrue = [
            0,
            self.right.wrapping_sub(1),
            self.right + 1,
            self.blocks,
            self.blocks + 1,
            usize::MAX,
        ];
        let mut lent = [false; 7];
        lent[0] = self.lent == self.right;
        for (is_lent, count) in lent[1..].iter_mut().zip(untrue) {
            *is_lent = self.lent == count && count != self.right;
        }
        lent
    }
}

impl CountTally {
    pub fn add(&mut self, board: &Board, number: u8, reading: &Result<Reading, Refusal>) {
        let Some(counted) = Counted::of(board, reading) else {
            if board.unsettled > 2 * board.map.len() {
                self.before.add(number);
            }
            return;
        };
        let times = if counted.accepted {
            &mut self.accepted
        } else {
            &mut self.refused
        };
        for (times, lent) in times.iter_mut().zip(counted.is_lent()) {
            *times += usize::from(lent);
        }
        self.sides.add(sides(&counted));
        self.bounds.add(bounds(&counted));
        self.turned.add(turned(&counted));
    }

    /// A true record never gets 21, and 2^64 - 1 always.
    pub fn record_counts(&self) -> Counts {
        let by = |what: &'static str| move |which: usize| format!("{what} {}", LENT[which]);
        let accepted = named(self.accepted, by("accepted by"));
        let refused = named(self.refused, by("21 by"));
        [&accepted[..6], &refused[1..]].concat()
    }

    pub fn side_counts(&self) -> Counts {
        self.sides.counts()
    }

    pub fn bound_counts(&self) -> Counts {
        [self.bounds.counts(), self.turned.counts()].concat()
    }

    pub fn before_counts(&self) -> Counts {
        self.before.counts("the count impossible, and", 1..=11)
    }

    /// 21 where the record was true: there is none.
    pub fn true_refused(&self) -> usize {
        self.refused[0]
    }
}

fn sides(counted: &Counted) -> [Thing; 2] {
    [
        ("21: it would fall below 0", counted.count < 0),
        (
            "21: it would be above the number of blocks",
            counted.count > counted.blocks as i128,
        ),
    ]
}

/// Where the count is at a bound, and what another order of adding and looking would have made of it.
fn bounds(counted: &Counted) -> [Thing; 8] {
    let Counted {
        lent,
        blocks,
        turned,
        count,
        accepted,
        ..
    } = *counted;
    let untrue = lent != counted.right;
    let most = blocks as i128;
    let added = lent as i128 + turned.unsettled as i128;
    [
        ("21 by one below 0", count == -1),
        ("21 by one above the number of blocks", count == most + 1),
        ("0 left of an untrue count", untrue && count == 0),
        (
            "the number of blocks left of an untrue count",
            untrue && count == most,
        ),
        (
            "accepted although the lent count is above the number of blocks",
            accepted && lent > blocks,
        ),
        (
            "accepted although more is taken away than was lent",
            accepted && lent < turned.settled,
        ),
        (
            "accepted although it is above the number of blocks before some are taken away",
            accepted && added > most,
        ),
        (
            "21 although 64 bits would begin at 0 again",
            added > u64::MAX.into(),
        ),
    ]
}

/// What the chunks did to the map.
fn turned(counted: &Counted) -> [Thing; 6] {
    let Turned { unsettled, settled } = counted.turned;
    let accepted = counted.accepted;
    let both = unsettled > 0 && settled > 0;
    [
        (
            "accepted chunks that unsettle some and settle none",
            accepted && unsettled > 0 && settled == 0,
        ),
        (
            "accepted chunks that settle some and unsettle none",
            accepted && unsettled == 0 && settled > 0,
        ),
        ("accepted chunks that do both", accepted && both),
        (
            "of these, as many one way as the other",
            accepted && both && unsettled == settled,
        ),
        ("21 of a chunk that would do both", !accepted && both),
        (
            "21 of a chunk that would do neither",
            !accepted && unsettled == 0 && settled == 0,
        ),
    ]
}

/// The chunks of a feed or run, each lent the record that the one before it left.
pub fn walked(board: &Board, walk: &Walk) -> [Thing; 7] {
    let chunks = &walk.chunks;
    let untrue = board.unsettled != unsettled(&board.map);
    let bad_count = |chunk: &ChunkRead| chunk.number == 21;
    let moved = chunks
        .last()
        .is_some_and(|last| last.kept != board.unsettled);
    let accepted = |chunk: &ChunkRead| chunk.number == 0;
    let first = chunks.iter().position(accepted).unwrap_or(chunks.len());
    let last = chunks.iter().rposition(accepted).unwrap_or(first);
    let (number, _) = walk.number_and_at();
    [
        ("with a chunk that got 21", chunks.iter().any(bad_count)),
        (
            "with one that got 21 between accepted ones",
            chunks[first..last.max(first)].iter().any(bad_count),
        ),
        (
            "with one that got 21 before all accepted ones",
            chunks[..first].iter().any(bad_count) && first < chunks.len(),
        ),
        (
            "with an untrue record and chunks, all accepted",
            untrue && !chunks.is_empty() && chunks.iter().all(accepted),
        ),
        ("that moved the record and got 0", moved && number == 0),
        ("that moved the record and got 12", moved && number == 12),
        ("that moved the record and got 13", moved && number == 13),
    ]
}
