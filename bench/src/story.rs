//! Pictures one after the other, so many blocks changed from each to the next: out and back again,
//! so that the last pair leads to where the first one started.

use crate::contest::{Contest, Contestant};
use crate::hall::{Hall, SIZE};
use crate::random::Random;
use crate::SEED;

/// How many pairs of old and new picture there are: enough that no branch is learnt by heart.
pub const PAIRS: usize = 64;

pub struct Story(Vec<Vec<u8>>);

impl Story {
    pub fn new(changed: usize) -> Self {
        let random = &mut Random::for_case(SEED, changed as u64);
        let mut hall = Hall::new(random);
        let mut pictures = vec![hall.picture()];
        for _ in 0..PAIRS / 2 {
            hall.change(random, changed);
            pictures.push(hall.picture());
        }
        Story(pictures)
    }

    pub fn before(&self, pair: usize) -> &[u8] {
        &self.0[turn(pair)]
    }

    pub fn after(&self, pair: usize) -> &[u8] {
        self.before(pair + 1)
    }
}

/// Which picture is the old one of a pair, and the new one of the pair before it.
pub fn turn(pair: usize) -> usize {
    pair.min(PAIRS - pair)
}

/// The chunk that makes the new picture out of the old one, as our writer packs it.
pub fn packed(old: &[u8], new: &[u8]) -> Vec<u8> {
    let mut chunk = vec![0; SIZE.longest_chunk()];
    let written = seatboard::write_chunk(SIZE, old, new, &mut chunk);
    chunk.truncate(written.expect("there is room").length);
    chunk
}

/// A chunk that draws every block, whatever was there.
pub fn drawn_whole(picture: &[u8]) -> Vec<u8> {
    let other: Vec<u8> = picture.iter().map(|pixel| !pixel).collect();
    packed(&other, picture)
}

/// A contest over as many chunks as there are pairs, a piece of work each.
pub fn contest(
    title: &str,
    aim: f64,
    strict: bool,
    contestants: Vec<Box<dyn Contestant>>,
) -> Contest {
    Contest {
        title: title.to_string(),
        pieces: PAIRS,
        chunks: PAIRS,
        bytes: PAIRS * SIZE.pixels(),
        aim: Some(aim),
        strict,
        contestants,
    }
}
