//! The independent second walk of the house feed, written from paper 01, "The house feed and the
//! board program", and of a run of chunks (02, Ask 2), from nothing of ours; a feed's size by itself,
//! and one step of a walk. Each chunk goes to the second reader, with the record that the one before it
//! left (02, Ask 5).
//!
//! What each chunk answered is kept, for the second listing (listing.rs) and the tally.

use crate::reader::{self, At, Record, Refusal};

/// 01: a number above this is badly formed.
const GREATEST: usize = 16_777_215;
const MOST_GROUPS: usize = 4;

/// The three kinds of number that a feed has; a run has the last alone.
#[derive(Clone, Copy, Debug, PartialEq, Eq)]
pub enum Number {
    Width,
    Height,
    ChunkLength,
}

/// What makes a number badly formed, in 01's order.
#[derive(Clone, Copy, Debug, PartialEq, Eq)]
pub enum Fault {
    FourthGoesOn,
    LastIsZero,
    TooGreat,
}

/// What ends a walk before the feed's or run's end; all but 1 and 2 carry their place. None is found
/// at an opcode.
#[derive(Clone, Copy, Debug)]
pub enum Stop {
    /// 1 or 2.
    Board(Refusal),
    BadNumber(Number, Fault, usize),
    CutNumber(Number, usize),
    CutChunk(usize),
}

impl Stop {
    pub fn number_and_at(self) -> (u8, At) {
        match self {
            Stop::Board(refusal) => refusal.number_and_at(),
            Stop::BadNumber(_, _, place) => (12, At::no_block(place)),
            Stop::CutNumber(_, place) | Stop::CutChunk(place) => (13, At::no_block(place)),
        }
    }
}

/// What one chunk of the feed or run answered, and what is unsettled then: by the map, counted afresh,
/// and by the record, which was lent and may be untrue (02).
#[derive(Debug)]
pub struct ChunkRead {
    /// Where its first byte stands.
    pub first: usize,
    pub length: usize,
    pub number: u8,
    pub at: At,
    /// How many bytes follow its last block, if it was accepted (02).
    pub padding: usize,
    pub unsettled: usize,
    pub kept: usize,
}

pub struct Walk {
    /// The length used with the number of blocks, or what ended it.
    pub end: Result<At, Stop>,
    pub chunks: Vec<ChunkRead>,
}

impl Walk {
    /// What was read is kept, whatever ends the walk.
    fn of(walk: impl FnOnce(&mut Vec<ChunkRead>) -> Result<At, Stop>) -> Self {
        let mut chunks = Vec::new();
        let end = walk(&mut chunks);
        Walk { end, chunks }
    }

    pub fn number_and_at(&self) -> (u8, At) {
        match self.end {
            Ok(used) => (0, used),
            Err(stop) => stop.number_and_at(),
        }
    }

    /// What a run tells besides (02).
    pub fn accepted(&self) -> usize {
        self.chunks.iter().filter(|chunk| chunk.number == 0).count()
    }
}

/// What stood at one place of a feed or run.
pub enum Step {
    /// A chunk, which was read, and the place after it.
    Chunk(ChunkRead, usize),
    /// None; how a walk ends that has come so far.
    End(Result<At, Stop>),
}

impl Step {
    pub fn number_and_at(&self) -> (u8, At) {
        match self {
            Step::Chunk(read, _) => (read.number, read.at),
            Step::End(Ok(used)) => (0, *used),
            Step::End(Err(stop)) => stop.number_and_at(),
        }
    }
}

/// 02: 2 where the feed's size is not the record's, once it has been found allowed.
pub fn walk(record: &mut Record, feed: &[u8], picture: &mut [u8], map: &mut [u16]) -> Walk {
    let lent = Lent {
        record,
        picture,
        map,
    };
    Walk::of(|chunks| {
        let (size, first) = size(feed)?;
        if size != lent.record.size {
            return Err(Stop::Board(Refusal::LentLength));
        }
        walk_chunks(feed, first, lent, chunks)
    })
}

/// A run has no size numbers (02); its places count from its own first byte (01).
pub fn walk_run(record: &mut Record, run: &[u8], picture: &mut [u8], map: &mut [u16]) -> Walk {
    let lent = Lent {
        record,
        picture,
        map,
    };
    Walk::of(|chunks| walk_chunks(run, 0, lent, chunks))
}

/// One step of either walk: the chunk whose length stands at this place. There need not be one, nor
/// such a place.
pub fn step(
    record: &mut Record,
    bytes: &[u8],
    place: usize,
    picture: &mut [u8],
    map: &mut [u16],
) -> Step {
    let mut lent = Lent {
        record,
        picture,
        map,
    };
    lent.step(bytes, place)
        .unwrap_or_else(|stop| Step::End(Err(stop)))
}

/// The size in pixels and the place after its two numbers. 01: it is checked after both are read.
pub fn size(feed: &[u8]) -> Result<((usize, usize), usize), Stop> {
    let (across, after) = number(feed, 0, Number::Width)?;
    let (down, after) = number(feed, after, Number::Height)?;
    let (width, height) = (4 * across, 4 * down);
    reader::check_size(width, height).map_err(Stop::Board)?;
    Ok(((width, height), after))
}

struct Lent<'a> {
    record: &'a mut Record,
    picture: &'a mut [u8],
    map: &'a mut [u16],
}

/// The lengths and chunks that stand from a place on.
fn walk_chunks(
    bytes: &[u8],
    mut at: usize,
    mut lent: Lent,
    chunks: &mut Vec<ChunkRead>,
) -> Result<At, Stop> {
    lent.check()?;
    while let Some((first, chunk)) = chunk_behind(bytes, at)? {
        chunks.push(lent.read(first, chunk)?);
        at = first + chunk.len();
    }
    Ok(At::end(bytes.len(), lent.map))
}

/// The chunk whose length stands at a place, and where it begins; none where the bytes are used up.
fn chunk_behind(bytes: &[u8], place: usize) -> Result<Option<(usize, &[u8])>, Stop> {
    if place >= bytes.len() {
        return Ok(None);
    }
    let (length, first) = number(bytes, place, Number::ChunkLength)?;
    let chunk = bytes[first..].get(..length);
    chunk
        .map(|chunk| Some((first, chunk)))
        .ok_or(Stop::CutChunk(first))
}

impl Lent<'_> {
    /// 1 and 2.
    fn check(&self) -> Result<(), Stop> {
        reader::check_lent(self.record.size, self.picture, self.map).map_err(Stop::Board)
    }

    fn step(&mut self, bytes: &[u8], place: usize) -> Result<Step, Stop> {
        self.check()?;
        match chunk_behind(bytes, place)? {
            Some((first, chunk)) => {
                let read = self.read(first, chunk)?;
                Ok(Step::Chunk(read, first + chunk.len()))
            }
            None => Ok(Step::End(Ok(At::end(bytes.len(), self.map)))),
        }
    }

    /// 01: read just as that chunk is read by itself; a refusal is kept and does not end the walk.
    fn read(&mut self, first: usize, chunk: &[u8]) -> Result<ChunkRead, Stop> {
        let reading = reader::read_chunk(self.record, chunk, self.picture, self.map);
        let (number, at) = reader::number_and_at(&reading, At::end(chunk.len(), self.map));
        let (width, height) = self.record.size;
        let unsettled = reader::count(width, height, self.map).map_err(Stop::Board)?;
        Ok(ChunkRead {
            first,
            length: chunk.len(),
            number,
            at,
            padding: reading.map_or(0, |reading| reading.padding),
            unsettled,
            kept: self.record.unsettled,
        })
    }
}

/// The number that stands at a place, and the place after it. 01's order: bytes end first (13),
/// then the three faults (12).
pub fn number(feed: &[u8], place: usize, which: Number) -> Result<(usize, usize), Stop> {
    let bad = |fault| Err(Stop::BadNumber(which, fault, place));
    let rest = &feed[place..];
    let seen = &rest[..rest.len().min(MOST_GROUPS)];
    let Some(last) = seen.iter().position(|group| *group < 0x80) else {
        if seen.len() < MOST_GROUPS {
            return Err(Stop::CutNumber(which, place));
        }
        return bad(Fault::FourthGoesOn);
    };
    if last > 0 && seen[last] == 0 {
        return bad(Fault::LastIsZero);
    }
    let groups = seen[..=last].iter().rev();
    let number = groups.fold(0, |number, group| number * 128 + usize::from(group % 128));
    if number > GREATEST {
        return bad(Fault::TooGreat);
    }
    Ok((number, place + last + 1))
}
