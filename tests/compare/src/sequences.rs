//! Sequences of calls for two boards of one size, and the two pictures that these start from.

use seatboard::Size;
use second::reader::pixel_blocks;

use crate::feeds;
use crate::generate;
use crate::random::Random;
use crate::runs;

pub enum Call {
    /// A chunk, at the boards' size.
    Read(Vec<u8>),
    /// A feed, for that size in 01's sense: one of another size ends with 2, by the record.
    Walk(Vec<u8>),
    /// A run, at the boards' size.
    Run(Vec<u8>),
}

pub struct Sequence {
    pub size: Size,
    /// No block of the first is that block of the second.
    pub starts: [Vec<u8>; 2],
    /// Any numbers: the maps before they are made fresh.
    pub maps: [Vec<u16>; 2],
    /// A count for the first of them, untrue or not.
    pub count: usize,
    pub calls: Vec<Call>,
}

/// Numbered apart from the other cases.
const SEQUENCES: u64 = 1 << 61;

pub fn case(seed: u64, number: u64) -> Sequence {
    let random = &mut Random::for_case(seed ^ SEQUENCES, number);
    let size = generate::allowed_size(random);
    let calls = match random.below(8) {
        0 => 0,
        1..=5 => random.between(1, 4),
        _ => random.between(5, 12),
    };
    let maps = [(); 2].map(|()| generate::any_map(random, size.blocks()));
    Sequence {
        size,
        starts: starting_pictures(random, size),
        count: generate::any_count(random, &maps[0]),
        maps,
        calls: (0..calls).map(|_| any_call(random, size)).collect(),
    }
}

/// The second is random too, or has one pixel of each block changed, in one bit.
fn starting_pictures(random: &mut Random, size: Size) -> [Vec<u8>; 2] {
    let first = random.bytes(size.pixels());
    let mut second = first.clone();
    for block in 0..size.blocks() {
        let (line, column) = (block / (size.width / 4), block % (size.width / 4));
        let (x, y) = (4 * column + random.below(4), 4 * line + random.below(4));
        second[y * size.width + x] ^= 1 << random.below(8);
    }
    let other = random.bytes(size.pixels());
    let blocks = |picture: &[u8]| pixel_blocks(size.width, picture);
    let mut both = blocks(&first).into_iter().zip(blocks(&other));
    if random.one_in(2) && both.all(|(first, other)| first != other) {
        second = other;
    }
    [first, second]
}

fn any_call(random: &mut Random, size: Size) -> Call {
    match random.below(10) {
        0..=2 => Call::Read(generate::sparse_chunk(random, size)),
        3..=5 => Call::Read(generate::any_chunk(random, size)),
        6 | 7 => Call::Walk(feeds::any_case(random, size).feed),
        _ => Call::Run(runs::any_run(random, size)),
    }
}
