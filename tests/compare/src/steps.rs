//! Single steps of walks: a feed or run, whole or damaged, a place in it or past its end, and the board
//! that is lent for it. The second walk alone says what is right.

use seatboard::Size;
use second::walk::{self, Number};

use crate::feeds::{self, FeedCase, Parts};
use crate::generate::{self, Board};
use crate::random::Random;
use crate::runs::{self, RunCase};

pub struct StepCase {
    pub board: Board,
    pub bytes: Vec<u8>,
    pub at: usize,
}

/// Numbered apart from the other cases.
const STEPS: u64 = 1 << 58;

pub fn case(seed: u64, number: u64) -> StepCase {
    let random = &mut Random::for_case(seed ^ STEPS, number);
    let size = generate::allowed_size(random);
    let (board, bytes, first) = match random.below(4) {
        0 => {
            let FeedCase { board, feed } = feeds::any_case(random, size);
            // Where the size numbers fail it is taken for a run.
            let first = walk::size(&feed).map_or(0, |(_, first)| first);
            (board, feed, first)
        }
        1 => {
            let RunCase { board, run } = runs::any_case(random, size);
            (board, run, 0)
        }
        2 => (generate::fitting_board(random, size), few(random, size), 0),
        _ => {
            // A step does not look at the feed's own size.
            let (stated, run) = (any_size_numbers(random), few(random, size));
            let feed = [&stated[..], &run].concat();
            (generate::fitting_board(random, size), feed, stated.len())
        }
    };
    let at = any_place(random, &bytes, first);
    StepCase { board, bytes, at }
}

fn any_size_numbers(random: &mut Random) -> [u8; 2] {
    [random.between(1, 80) as u8, random.between(1, 50) as u8]
}

/// A run of a few chunks of any kind, each behind its true length.
fn few(random: &mut Random, size: Size) -> Vec<u8> {
    let chunks = random.between(1, 3);
    let chunks = (0..chunks).map(|_| generate::any_chunk(random, size));
    Parts::run(chunks.collect()).bytes()
}

/// Mostly where a length stands; otherwise anywhere, at the end and past it.
fn any_place(random: &mut Random, bytes: &[u8], first: usize) -> usize {
    let length = bytes.len();
    match random.below(16) {
        0 => random.between(0, length),
        1 => length,
        2 => length + random.between(1, 8),
        3 => random.pick(&[1 << 32, 1 << 62, 1 << 63, usize::MAX - 1, usize::MAX]),
        // In the bytes, if only the lower bits were looked at.
        4 => random.between(0, length) + random.pick(&[1 << 16, 1 << 32, 1 << 63]),
        _ => random.pick(&lengths_from(bytes, first)),
    }
}

/// Where the lengths of the chunks stand, also one that fails; at least one place.
fn lengths_from(bytes: &[u8], first: usize) -> Vec<usize> {
    let mut places = vec![first];
    let mut at = first;
    while let Ok((length, chunk)) = walk::number(bytes, at, Number::ChunkLength) {
        at = chunk + length;
        if at >= bytes.len() {
            break;
        }
        places.push(at);
    }
    places
}
