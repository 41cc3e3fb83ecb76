//! What the compared steps had in them, so that a comparison which missed something says so.

use second::walk::{self, ChunkRead, Step, Stop};

use crate::compare::StepComparison;
use crate::generate::unsettled;
use crate::steps::StepCase;
use crate::tally::{Counts, Numbers, Thing, Things};

#[derive(Default)]
pub struct StepTally {
    /// What chunks got, and what got a step that found none.
    chunks: Numbers,
    ends: Numbers,
    places: Things<6>,
    orders: Things<5>,
    read: Things<6>,
}

impl StepTally {
    pub fn add(&mut self, case: &StepCase, compared: &StepComparison) {
        let step = &compared.step;
        let (number, _) = step.number_and_at();
        match step {
            Step::Chunk(..) => self.chunks.add(number),
            Step::End(_) => self.ends.add(number),
        }
        self.places.add(places(case, step));
        self.orders.add(orders(case, number));
        self.read.add(read(case, step));
    }

    pub fn number_counts(&self) -> Counts {
        let with_chunk = [0, 3, 4, 5, 6, 7, 8, 9, 10, 11, 21];
        let chunks = self.chunks.counts("steps whose chunk got", with_chunk);
        let ends = self
            .ends
            .counts("steps without a chunk that got", [0, 1, 2, 12, 13]);
        [chunks, ends].concat()
    }

    pub fn place_counts(&self) -> Counts {
        [self.places.counts(), self.orders.counts()].concat()
    }

    pub fn chunk_counts(&self) -> Counts {
        self.read.counts()
    }
}

fn places(StepCase { bytes, at, .. }: &StepCase, step: &Step) -> [Thing; 6] {
    let (at, length) = (*at, bytes.len());
    let (number, _) = step.number_and_at();
    let ended = matches!(step, Step::End(Ok(_)));
    let cut_at = match step {
        Step::End(Err(Stop::CutChunk(first))) => Some(*first),
        _ => None,
    };
    [
        ("0 at the end", ended && at == length),
        (
            "0 a few bytes past the end",
            ended && at > length && at - length <= 8,
        ),
        (
            "0 far past the end, in the bytes by the lower 32 bits",
            ended && at >= 1 << 32 && (at as u32 as usize) < length,
        ),
        ("0 at 2^64 - 1", ended && at == usize::MAX),
        (
            "12 or 13 behind another chunk",
            matches!(number, 12 | 13) && at > 4,
        ),
        ("13 at the chunk's first byte", cut_at.is_some()),
    ]
}

/// 1 and 2 where something else could be given too.
fn orders(case: &StepCase, number: u8) -> [Thing; 5] {
    let StepCase { bytes, at, .. } = case;
    let past = *at >= bytes.len();
    let length = |at| walk::number(bytes, at, walk::Number::ChunkLength);
    let fails = !past && length(*at).is_err();
    [
        ("1 where a length stands", number == 1 && !past && !fails),
        ("2 where a length stands", number == 2 && !past && !fails),
        (
            "1 or 2 where a number fails",
            matches!(number, 1 | 2) && fails,
        ),
        ("1 past the end", number == 1 && past),
        ("2 past the end", number == 2 && past),
    ]
}

/// Which chunks were read, and with which records.
fn read(case: &StepCase, step: &Step) -> [Thing; 6] {
    let StepCase { board, bytes, at } = case;
    let is = |which: &dyn Fn(&ChunkRead, usize) -> bool| match step {
        Step::Chunk(read, next) => which(read, *next),
        Step::End(_) => false,
    };
    let size = (board.size.width, board.size.height);
    let of_another_size =
        matches!(walk::size(bytes), Ok((stated, first)) if stated != size && first == *at);
    let untrue = board.unsettled != unsettled(&board.map);
    [
        (
            "accepted chunks with others on both sides",
            is(&|read, next| read.number == 0 && *at > 4 && next < bytes.len()),
        ),
        (
            "accepted chunks that end with the bytes",
            is(&|read, next| read.number == 0 && next == bytes.len()),
        ),
        (
            "accepted chunks whose length has several groups",
            is(&|read, _| read.number == 0 && read.first - at > 1),
        ),
        (
            "accepted chunks with an untrue record",
            is(&|read, _| read.number == 0 && untrue),
        ),
        (
            "accepted chunks that move the record",
            is(&|read, _| read.number == 0 && read.kept != board.unsettled),
        ),
        (
            "chunks read although the feed's size is not the record's",
            is(&|_, _| of_another_size),
        ),
    ]
}
