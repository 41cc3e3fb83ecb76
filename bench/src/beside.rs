//! FFmpeg's SMC decoder and encoder as contestants. All that is timed are the calls of
//! [`Decoder::decode`] and [`Encoder::encode`]: packets and frames are made before.

use std::rc::Rc;

use crate::contest::{Contestant, Made, FFMPEG};
use crate::ffmpeg::{self, Decoder, Encoder, Frame, Packet};
use crate::hall::SIZE;
use crate::readers::Reading;
use crate::story::{drawn_whole, turn, Story, PAIRS};
use crate::writers::read_back;

pub fn version() -> Option<String> {
    Some(ffmpeg::version())
}

/// None where this FFmpeg has no SMC decoder.
pub fn reader(reading: &Rc<Reading>) -> Option<Box<dyn Contestant>> {
    let mut decoder = Decoder::open(SIZE)?;
    // It cannot be lent a picture to start from.
    decoder.decode(&decoder.packet(&drawn_whole(&reading.start)));
    let packets = reading.chunks.iter().map(|chunk| decoder.packet(chunk));
    Some(Box::new(Reader {
        packets: packets.collect(),
        reading: Rc::clone(reading),
        decoder,
    }))
}

/// None where this FFmpeg has no SMC encoder.
pub fn writer(story: &Rc<Story>) -> Option<Box<dyn Contestant>> {
    let mut encoder = Encoder::open(SIZE)?;
    // Out, and back again over the same frames.
    let frames = (0..=PAIRS / 2).map(|pair| encoder.frame(story.before(pair)));
    let mut frames: Vec<_> = frames.collect();
    // It cannot be lent an old picture: it is the one encoded before.
    encoder.encode(&mut frames[0]);
    Some(Box::new(Writer {
        story: Rc::clone(story),
        encoder,
        frames,
    }))
}

struct Reader {
    reading: Rc<Reading>,
    decoder: Decoder,
    packets: Vec<Packet>,
}

impl Contestant for Reader {
    fn name(&self) -> &'static str {
        FFMPEG
    }

    fn work(&mut self, piece: usize) {
        self.decoder.decode(&self.packets[piece]);
    }

    fn made(&self, piece: usize) -> Made {
        Made {
            picture: self.decoder.picture(),
            bytes: self.reading.chunks[piece].len(),
        }
    }
}

struct Writer {
    story: Rc<Story>,
    encoder: Encoder,
    frames: Vec<Frame>,
}

impl Contestant for Writer {
    fn name(&self) -> &'static str {
        FFMPEG
    }

    fn work(&mut self, pair: usize) {
        self.encoder.encode(&mut self.frames[turn(pair + 1)]);
    }

    fn made(&self, pair: usize) -> Made {
        read_back(&self.story, pair, self.encoder.chunk())
    }
}
