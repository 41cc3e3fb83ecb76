//! Walking the feed of a whole day at 320x200: ours and the second walk, which besides counts the
//! unsettled blocks of the map after each chunk. FFmpeg knows no such feed.

use std::rc::Rc;

use seatboard::Board;
use second::reader::{self, Record};
use second::walk::{self, Walk};

use crate::contest::{Contest, Contestant, Made};
use crate::hall::{Hall, SIZE, WIDTH_AND_HEIGHT};
use crate::random::Random;
use crate::story::{drawn_whole, packed};
use crate::SEED;

/// The house is open from 10:00 to 22:00, and sends a chunk every ten seconds.
const CHUNKS: usize = 12 * 60 * 6;
/// From one chunk to the next this many blocks change at most, but for the rest of a seat.
const MOST_CHANGED: usize = 8;
/// One chunk in so many arrives damaged, and comes again.
const DAMAGED: usize = 360;

struct Day {
    feed: Vec<u8>,
    chunks: usize,
}

impl Day {
    /// The first chunk draws the hall whole.
    fn new(random: &mut Random) -> Self {
        let mut day = Day {
            feed: vec![(SIZE.width / 4) as u8, (SIZE.height / 4) as u8],
            chunks: 0,
        };
        let mut hall = Hall::new(random);
        let mut old = hall.picture();
        day.push(&drawn_whole(&old));
        for _ in 1..CHUNKS {
            let blocks = random.between(1, MOST_CHANGED);
            hall.change(random, blocks);
            let new = hall.picture();
            let chunk = packed(&old, &new);
            if random.one_in(DAMAGED) {
                day.push(&damaged(random, &chunk));
            }
            day.push(&chunk);
            old = new;
        }
        day
    }

    /// The chunk behind its length, whose lowest seven bits come first.
    fn push(&mut self, chunk: &[u8]) {
        let mut length = chunk.len();
        while length >= 128 {
            self.feed.push((length % 128) as u8 | 128);
            length /= 128;
        }
        self.feed.push(length as u8);
        self.feed.extend(chunk);
        self.chunks += 1;
    }
}

/// The last byte lost, with the stated length as it was or mended, or an opcode that is unknown.
fn damaged(random: &mut Random, chunk: &[u8]) -> Vec<u8> {
    let mut damaged = chunk.to_vec();
    let kind = random.below(3);
    if kind == 0 {
        damaged[4] = 0xFF;
        return damaged;
    }
    damaged.pop();
    if kind == 1 {
        let length = damaged.len() as u32;
        damaged[1..4].copy_from_slice(&length.to_be_bytes()[1..]);
    }
    damaged
}

pub fn contest(name: &'static str) -> Contest {
    let day = Rc::new(Day::new(&mut Random::for_case(SEED, u64::MAX - 1)));
    let walk = Second::new(&day).walk();
    let refused = walk.chunks.iter().filter(|chunk| chunk.number != 0);
    Contest {
        title: format!("{name}: a day's feed, {} chunks refused", refused.count()),
        pieces: 1,
        chunks: day.chunks,
        bytes: day.feed.len(),
        aim: None,
        strict: true,
        contestants: vec![Box::new(Ours::new(&day)), Box::new(Second::new(&day))],
    }
}

struct Ours {
    day: Rc<Day>,
    board: Board,
}

impl Ours {
    fn new(day: &Rc<Day>) -> Self {
        Ours {
            day: Rc::clone(day),
            board: Board::new(SIZE).expect("an allowed size"),
        }
    }
}

impl Contestant for Ours {
    fn name(&self) -> &'static str {
        "ours"
    }

    fn work(&mut self, _: usize) {
        let walked = self.board.walk_feed(&self.day.feed);
        walked.expect("the feed is whole");
    }

    fn made(&self, _: usize) -> Made {
        Made {
            picture: self.board.picture().to_vec(),
            bytes: self.day.feed.len(),
        }
    }
}

/// Keeps picture, map and record together, as a board does.
struct Second {
    day: Rc<Day>,
    picture: Vec<u8>,
    map: Vec<u16>,
    record: Record,
}

impl Second {
    fn new(day: &Rc<Day>) -> Self {
        let mut map = vec![0; SIZE.blocks()];
        let record = reader::fresh_map(WIDTH_AND_HEIGHT, &mut map).expect("the map fits");
        Second {
            day: Rc::clone(day),
            picture: vec![0; SIZE.pixels()],
            map,
            record,
        }
    }

    fn walk(&mut self) -> Walk {
        let (picture, map) = (&mut self.picture, &mut self.map);
        walk::walk(&mut self.record, &self.day.feed, picture, map)
    }
}

impl Contestant for Second {
    fn name(&self) -> &'static str {
        "second"
    }

    fn work(&mut self, _: usize) {
        self.walk().end.expect("the feed is whole");
    }

    fn made(&self, _: usize) -> Made {
        Made {
            picture: self.picture.clone(),
            bytes: self.day.feed.len(),
        }
    }
}
