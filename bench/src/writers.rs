//! Writing the chunk that leads from picture to picture at 320x200: ours, with an output for any
//! chunk and with one that just fits, the second writer, FFmpeg's encoder.

use std::rc::Rc;

use seatboard::Record;
use second::writer;

use crate::beside;
use crate::contest::{Contest, Contestant, Made};
use crate::hall::{SIZE, WIDTH_AND_HEIGHT};
use crate::story::{self, Story, PAIRS};

pub fn contest(title: &str, changed: usize, aim: f64) -> Contest {
    let story = Rc::new(Story::new(changed));
    let longest = vec![SIZE.longest_chunk(); PAIRS];
    let fitting = (0..PAIRS).map(|pair| chunk_length(&story, pair)).collect();
    let mut contestants: Vec<Box<dyn Contestant>> = vec![
        Box::new(Ours::new("ours", &story, longest)),
        Box::new(Ours::new("ours, just fits", &story, fitting)),
        Box::new(Second::new(&story)),
    ];
    contestants.extend(beside::writer(&story));
    story::contest(title, aim, false, contestants)
}

/// Asked of the second writer, so that who counts the calls of ours finds those of the work alone.
fn chunk_length(story: &Story, pair: usize) -> usize {
    let chunk = writer::chunk(WIDTH_AND_HEIGHT, story.before(pair), story.after(pair));
    chunk.expect("the pictures fit").bytes.len()
}

/// The chunk as what it makes of the old picture.
pub fn read_back(story: &Story, pair: usize, chunk: &[u8]) -> Made {
    let mut picture = story.before(pair).to_vec();
    let mut map = vec![0; SIZE.blocks()];
    let mut record = Record {
        size: SIZE,
        unsettled: map.len(),
    };
    // The old picture is left by a chunk that is refused, and that shows as not agreeing.
    let _ = seatboard::read_chunk(&mut record, chunk, &mut picture, &mut map);
    Made {
        picture,
        bytes: chunk.len(),
    }
}

struct Ours {
    name: &'static str,
    story: Rc<Story>,
    output: Vec<u8>,
    /// How much of the output is lent for each pair, and how much of that was used last.
    lent: Vec<usize>,
    used: usize,
}

impl Ours {
    fn new(name: &'static str, story: &Rc<Story>, lent: Vec<usize>) -> Self {
        Ours {
            name,
            story: Rc::clone(story),
            output: vec![0; SIZE.longest_chunk()],
            lent,
            used: 0,
        }
    }
}

impl Contestant for Ours {
    fn name(&self) -> &'static str {
        self.name
    }

    fn work(&mut self, pair: usize) {
        let [old, new] = [self.story.before(pair), self.story.after(pair)];
        let output = &mut self.output[..self.lent[pair]];
        let written = seatboard::write_chunk(SIZE, old, new, output);
        self.used = written.expect("there is room").length;
    }

    fn made(&self, pair: usize) -> Made {
        read_back(&self.story, pair, &self.output[..self.used])
    }
}

struct Second {
    story: Rc<Story>,
    output: Vec<u8>,
    used: usize,
}

impl Second {
    fn new(story: &Rc<Story>) -> Self {
        Second {
            story: Rc::clone(story),
            output: vec![0; SIZE.longest_chunk()],
            used: 0,
        }
    }
}

impl Contestant for Second {
    fn name(&self) -> &'static str {
        "second"
    }

    fn work(&mut self, pair: usize) {
        let [old, new] = [self.story.before(pair), self.story.after(pair)];
        let written = writer::write_chunk(WIDTH_AND_HEIGHT, old, new, &mut self.output);
        self.used = written.expect("there is room").bytes.len();
    }

    fn made(&self, pair: usize) -> Made {
        read_back(&self.story, pair, &self.output[..self.used])
    }
}
