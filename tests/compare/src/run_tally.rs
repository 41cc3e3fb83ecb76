//! What the compared runs had in them, so that a comparison which missed something says so.

use seatboard::Size;
use second::reader::At;
use second::walk::{ChunkRead, Fault, Stop, Walk};

use crate::compare::RunComparison;
use crate::count_tally::walked;
use crate::feed_tally::{accepted_after_padded, refused_between};
use crate::runs::{RunCase, BACKLOG};
use crate::tally::{Counts, Numbers, Thing, Things};

#[derive(Default)]
pub struct RunTally {
    ends: Numbers,
    boards: Things<6>,
    stops: Things<8>,
    refused: Things<6>,
    chunks: Things<5>,
    counts: Things<7>,
}

impl RunTally {
    pub fn add(&mut self, case: &RunCase, compared: &RunComparison) {
        let (number, _) = compared.walk.number_and_at();
        self.ends.add(number);
        self.boards.add(boards(case, number));
        self.stops.add(stops(case, &compared.walk));
        self.refused.add(refused(&compared.walk));
        self.chunks.add(chunks(&compared.walk));
        self.counts.add(walked(&case.board, &compared.walk));
    }

    pub fn end_counts(&self) -> Counts {
        self.ends.counts("runs that got", [0, 1, 2, 12, 13])
    }

    pub fn board_counts(&self) -> Counts {
        self.boards.counts()
    }

    pub fn stop_counts(&self) -> Counts {
        self.stops.counts()
    }

    pub fn chunk_counts(&self) -> Counts {
        [self.refused.counts(), self.chunks.counts()].concat()
    }

    pub fn record_counts(&self) -> Counts {
        self.counts.counts()
    }
}

/// One number where another could be given too, or where the run would be accepted.
fn boards(RunCase { board, run }: &RunCase, number: u8) -> [Thing; 6] {
    let Size { width, height } = board.size;
    let pixels = width.wrapping_mul(height);
    let fits = [
        board.picture.len() == pixels,
        board.map.len() == pixels / 16,
    ];
    [
        (
            "1 although both buffers would fit",
            number == 1 && fits == [true, true],
        ),
        (
            "1 although a buffer would not fit",
            number == 1 && fits != [true, true],
        ),
        (
            "2 by the picture alone",
            number == 2 && fits == [false, true],
        ),
        ("2 by the map alone", number == 2 && fits == [true, false]),
        ("1 of an empty run", number == 1 && run.is_empty()),
        ("2 of an empty run", number == 2 && run.is_empty()),
    ]
}

/// How 12 and 13 came about.
fn stops(RunCase { run, .. }: &RunCase, walk: &Walk) -> [Thing; 8] {
    let bad = |which| matches!(walk.end, Err(Stop::BadNumber(_, fault, _)) if fault == which);
    let cut_at = match walk.end {
        Err(Stop::CutChunk(first)) => Some(first),
        _ => None,
    };
    let after_accepted = |which| walk.number_and_at().0 == which && walk.accepted() > 0;
    [
        (
            "12: fourth group with its top bit",
            bad(Fault::FourthGoesOn),
        ),
        ("12: last of several groups zero", bad(Fault::LastIsZero)),
        ("12: above 16,777,215", bad(Fault::TooGreat)),
        (
            "13 inside a number",
            matches!(walk.end, Err(Stop::CutNumber(..))),
        ),
        (
            "13 inside a chunk that begins",
            cut_at.is_some_and(|first| first < run.len()),
        ),
        ("13 where a chunk should begin", cut_at == Some(run.len())),
        ("12 after an accepted chunk", after_accepted(12)),
        ("13 after an accepted chunk", after_accepted(13)),
    ]
}

/// Which of the chunks were refused.
fn refused(walk: &Walk) -> [Thing; 6] {
    let (chunks, accepted) = (&walk.chunks, walk.accepted());
    let refused = |chunk: Option<&ChunkRead>| chunk.is_some_and(|chunk| chunk.number != 0);
    [
        (
            "runs of forty chunks or more, refused ones among them",
            chunks.len() >= BACKLOG && refused_between(chunks),
        ),
        (
            "runs with the first chunk refused, another accepted",
            accepted > 0 && refused(chunks.first()),
        ),
        (
            "runs with a refused chunk between accepted ones",
            refused_between(chunks),
        ),
        (
            "runs with the last chunk refused, another accepted",
            accepted > 0 && refused(chunks.last()),
        ),
        (
            "runs with chunks, none accepted",
            !chunks.is_empty() && accepted == 0,
        ),
        (
            "runs with several chunks, all accepted",
            accepted > 1 && accepted == chunks.len(),
        ),
    ]
}

fn chunks(walk: &Walk) -> [Thing; 5] {
    let chunks = &walk.chunks;
    let two_groups = |chunk: &ChunkRead| chunk.number == 0 && chunk.length >= 1 << 7;
    let rises = |two: &[ChunkRead]| two[0].unsettled < two[1].unsettled;
    [
        (
            "empty runs that got 0",
            matches!(walk.end, Ok(At { place: 0, .. })),
        ),
        (
            "runs with a chunk of length 0",
            chunks.iter().any(|chunk| chunk.length == 0),
        ),
        (
            "runs with an accepted chunk whose length has several groups",
            chunks.iter().any(two_groups),
        ),
        (
            "runs with an accepted chunk after a padded one",
            accepted_after_padded(chunks),
        ),
        (
            "runs in which the unsettled count rises",
            chunks.windows(2).any(rises),
        ),
    ]
}
