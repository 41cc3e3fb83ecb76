//! Reading chunks at 320x200, in order as a board does: ours, the second reader, FFmpeg's decoder.

use std::fmt::Debug;
use std::rc::Rc;

use seatboard::{Record, Refused};
use second::reader::{self, Refusal};

use crate::beside;
use crate::contest::{Contest, Contestant, Made};
use crate::dense::{self, Weights};
use crate::hall::{SIZE, WIDTH_AND_HEIGHT};
use crate::random::Random;
use crate::story::{self, packed, Story, PAIRS};
use crate::SEED;

pub struct Reading {
    pub start: Vec<u8>,
    pub chunks: Vec<Vec<u8>>,
}

/// The chunks that lead from picture to picture, as our writer packs them.
pub fn changes(title: &str, changed: usize, aim: f64) -> Contest {
    let story = Story::new(changed);
    let chunks = (0..PAIRS).map(|pair| packed(story.before(pair), story.after(pair)));
    let reading = Reading {
        start: story.before(0).to_vec(),
        chunks: chunks.collect(),
    };
    contest(title, reading, aim, true)
}

pub fn dense(title: &str, weights: &Weights, aim: f64) -> Contest {
    let random = &mut Random::for_case(SEED, u64::MAX);
    let reading = Reading {
        start: random.bytes(SIZE.pixels()),
        chunks: (0..PAIRS).map(|_| dense::chunk(random, weights)).collect(),
    };
    contest(title, reading, aim, false)
}

fn contest(title: &str, reading: Reading, aim: f64, strict: bool) -> Contest {
    let reading = Rc::new(reading);
    let mut contestants: Vec<Box<dyn Contestant>> = vec![
        Box::new(Reader::new("ours", OURS, &reading)),
        Box::new(Reader::new("second", SECOND, &reading)),
    ];
    contestants.extend(beside::reader(&reading));
    story::contest(title, aim, strict, contestants)
}

/// A fresh start and the reading of a chunk, by a record of its own.
struct Calls<R, E> {
    fresh_map: fn(&mut [u16]) -> Result<R, E>,
    read: fn(&mut R, &[u8], &mut [u8], &mut [u16]),
}

/// Keeps picture, map and record together.
struct Reader<R, E> {
    name: &'static str,
    calls: Calls<R, E>,
    reading: Rc<Reading>,
    picture: Vec<u8>,
    map: Vec<u16>,
    record: R,
}

impl<R, E: Debug> Reader<R, E> {
    fn new(name: &'static str, calls: Calls<R, E>, reading: &Rc<Reading>) -> Self {
        let mut map = vec![0; SIZE.blocks()];
        let record = (calls.fresh_map)(&mut map).expect("the map fits");
        Reader {
            name,
            calls,
            reading: Rc::clone(reading),
            picture: reading.start.clone(),
            map,
            record,
        }
    }
}

impl<R, E> Contestant for Reader<R, E> {
    fn name(&self) -> &'static str {
        self.name
    }

    fn work(&mut self, piece: usize) {
        let chunk = &self.reading.chunks[piece];
        (self.calls.read)(&mut self.record, chunk, &mut self.picture, &mut self.map);
    }

    fn made(&self, piece: usize) -> Made {
        Made {
            picture: self.picture.clone(),
            bytes: self.reading.chunks[piece].len(),
        }
    }
}

const OURS: Calls<Record, Refused> = Calls {
    fresh_map: |map| seatboard::fresh_map(SIZE, map),
    read: |record, chunk, picture, map| {
        seatboard::read_chunk(record, chunk, picture, map).expect("the chunk is accepted");
    },
};

const SECOND: Calls<reader::Record, Refusal> = Calls {
    fresh_map: |map| reader::fresh_map(WIDTH_AND_HEIGHT, map),
    read: |record, chunk, picture, map| {
        reader::read_chunk(record, chunk, picture, map).expect("the chunk is accepted");
    },
};
