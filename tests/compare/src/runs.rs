//! The runs: lengths and chunks without size numbers, whole and damaged, with the board that they
//! are lent for. The second walk alone says what is right.

use seatboard::Size;

use crate::feeds::{self, FeedCase, Parts};
use crate::generate::{self, Board};
use crate::random::Random;

pub struct RunCase {
    pub board: Board,
    pub run: Vec<u8>,
}

/// Numbered apart from the other cases.
const RUNS: u64 = 1 << 59;

/// So many chunks has 02's backlog.
pub const BACKLOG: usize = 40;

pub fn case(seed: u64, number: u64) -> RunCase {
    let random = &mut Random::for_case(seed ^ RUNS, number);
    let size = generate::allowed_size(random);
    any_case(random, size)
}

/// Chunks for that size; the board need not be right.
pub fn any_case(random: &mut Random, size: Size) -> RunCase {
    let board = match random.below(16) {
        0 | 1 => generate::board_of_wrong_size(random, size),
        2 | 3 => generate::board_of_wrong_lengths(random, size),
        _ => generate::fitting_board(random, size),
    };
    RunCase {
        board,
        run: any_run(random, size),
    }
}

/// Runs too long to be made often: those of the long feeds.
pub fn long_cases(seed: u64) -> Vec<RunCase> {
    let without_numbers = |FeedCase { board, feed }: FeedCase| {
        let numbers = feeds::size_numbers(board.size).expect("it was stated");
        RunCase {
            board,
            run: feed[numbers.len()..].to_vec(),
        }
    };
    let feeds = feeds::long_cases(seed).into_iter();
    feeds.map(without_numbers).collect()
}

/// Chunks for that size.
pub fn any_run(random: &mut Random, size: Size) -> Vec<u8> {
    let chunks = match random.below(32) {
        0 => return noise(random),
        1..=4 => backlog(random, size),
        _ => feeds::any_chunks(random, size),
    };
    Parts::run(chunks).perhaps_damaged(random)
}

/// Few enough that most begin a chunk or two of their own.
fn noise(random: &mut Random) -> Vec<u8> {
    let length = random.between(1, 12);
    let mut run = random.bytes(length);
    run[0] %= 8;
    run
}

/// Most of them accepted, some refused among these.
fn backlog(random: &mut Random, size: Size) -> Vec<Vec<u8>> {
    let chunks = random.between(BACKLOG, BACKLOG + 5);
    let mut any = || match random.below(4) {
        0 => generate::any_chunk(random, size),
        _ => generate::sparse_chunk(random, size),
    };
    (0..chunks).map(|_| any()).collect()
}
