//! The proved picture codec of the seat boards, for Rust programs: SMC chunks read and written, the
//! map that says which blocks of a picture can be trusted and the record that keeps how many cannot,
//! the walk of the house feed and of a run of chunks, at once or step by step, and seat symbols painted
//! on a shown picture.
//!
//! Slices in, a [`Result`] out (of a run a [`Tally`] and of a step a [`Step`] with one), nothing
//! `unsafe` for the caller, no panic, and no allocation but for a [`Board`]. Any bytes, lengths and
//! records may be lent. A refused call leaves all that it was lent as it was, but for a walk, of a feed
//! or of a run, that ends in [`Reason::BadVarint`] or [`Reason::FeedCut`]: it leaves what the chunks
//! accepted before that made.
//!
//! A [`Board`] keeps picture, map and record together:
//!
//! ```
//! # fn main() -> Result<(), seatboard::Refused> {
//! use seatboard::{Board, Size};
//!
//! let mut board = Board::new(Size { width: 8, height: 4 })?;
//! board.read_chunk(&[0xE1, 0, 0, 6, 0x61, 5])?; // two blocks of colour 5
//! assert_eq!(board.picture(), [5; 32]);
//! assert_eq!(board.unsettled(), 0);
//! # Ok(())
//! # }
//! ```
//!
//! Over buffers of one's own the same is:
//!
//! ```
//! # fn main() -> Result<(), seatboard::Refused> {
//! use seatboard::Size;
//!
//! let size = Size { width: 8, height: 4 };
//! let mut picture = vec![0; size.pixels()];
//! let mut map = vec![0; size.blocks()];
//! let mut record = seatboard::fresh_map(size, &mut map)?;
//!
//! let chunk = [0xE1, 0, 0, 6, 0x61, 5];
//! seatboard::read_chunk(&mut record, &chunk, &mut picture, &mut map)?;
//! assert_eq!(picture, [5; 32]);
//! assert_eq!(record.unsettled, 0);
//! # Ok(())
//! # }
//! ```

use std::error::Error;
use std::fmt::{self, Display, Formatter};

pub use board::{Board, Steps};

mod board;
pub mod exact;

/// The README's lines, so that they are tested too.
#[cfg(doctest)]
#[doc = include_str!("../../../README.md")]
struct Readme;

/// The map's entry of a settled block: its pixels do not depend on the starting picture. Any other
/// entry is the number of a block of the starting picture, whose pixels the block shows.
pub const SETTLED: u16 = 65_535;

/// A picture's width and height in pixels: multiples of 4, at most 320 and 200. Other sizes may be
/// given; every call refuses them.
#[repr(C)]
#[derive(Clone, Copy, Debug, PartialEq, Eq)]
pub struct Size {
    pub width: usize,
    pub height: usize,
}

impl Size {
    /// A picture's length in bytes, one a pixel, row after row; of an allowed size.
    pub const fn pixels(self) -> usize {
        self.width.saturating_mul(self.height)
    }

    /// A map's length in entries, one for each block of 4 by 4 pixels; of an allowed size.
    pub const fn blocks(self) -> usize {
        self.pixels() / 16
    }

    /// An output of this length holds whatever chunk the writer writes; of an allowed size.
    pub const fn longest_chunk(self) -> usize {
        self.blocks().saturating_mul(17).saturating_add(4)
    }
}

/// What is kept beside a picture and its map, and lent with them: the size, and how many entries of
/// the map are unsettled. [`fresh_map`] gives it, and what reads chunks brings it up to date.
///
/// It stays true to its map where nothing else writes either. A record that is untrue to it may be
/// lent: each accepted chunk adds the blocks that it unsettles and takes away those that it settles,
/// and one after which the count would be below 0 or above the number of blocks is refused with
/// [`Reason::BadCount`].
#[repr(C)]
#[derive(Clone, Copy, Debug, PartialEq, Eq)]
pub struct Record {
    pub size: Size,
    pub unsettled: usize,
}

/// What an accepted chunk, feed, run or write tells.
#[derive(Clone, Copy, Debug, PartialEq, Eq)]
#[non_exhaustive]
pub struct Accepted {
    /// The length of the chunk, feed or run that was read, padding included, or of the chunk that
    /// was written.
    pub length: usize,
    /// The number of blocks. In a chunk that was read or written each of them has had its turn.
    pub block: usize,
}

/// What a run tells. It is no [`Result`]: what was accepted before the end counts, whatever the end
/// is.
#[derive(Clone, Copy, Debug, PartialEq, Eq)]
#[must_use]
#[non_exhaustive]
pub struct Tally {
    /// How many chunks were accepted; 0 where size or lengths were refused.
    pub accepted: usize,
    /// The walk's own end. A chunk that was refused does not show here.
    pub end: Result<Accepted, Refused>,
}

/// What a feed says of itself before its first chunk.
#[derive(Clone, Copy, Debug, PartialEq, Eq)]
#[non_exhaustive]
pub struct FeedSize {
    pub size: Size,
    /// The place behind the size numbers: there the first step of a walk begins.
    pub first: usize,
}

/// What one step of a walk tells.
#[derive(Clone, Copy, Debug, PartialEq, Eq)]
#[must_use]
pub enum Step {
    /// A chunk was read: what it answered, and the place behind it, where the next step begins. One
    /// that was refused changed nothing and does not end the walk.
    Chunk {
        said: Result<Accepted, Refused>,
        next: usize,
    },
    /// No chunk stands at the place: the walk's own end. Nothing was changed.
    End(Result<Accepted, Refused>),
}

/// Why a call was refused, and where.
#[derive(Clone, Copy, Debug, PartialEq, Eq)]
#[non_exhaustive]
pub struct Refused {
    pub reason: Reason,
    /// The byte of the chunk, or for 12 and 13 of the feed or run, at which it was found; 0 for the
    /// reasons that have no place.
    pub place: usize,
    /// The first block still waiting there, for 5 to 10; the number of blocks for 11; 0 for the
    /// others.
    pub block: usize,
}

/// The numbered refusals.
#[derive(Clone, Copy, Debug, PartialEq, Eq)]
#[non_exhaustive]
#[repr(u8)]
pub enum Reason {
    /// Width or height is not allowed.
    BadSize = 1,
    /// A lent picture or map is not of the exact length, or a feed's size is not the record's.
    BadLength = 2,
    /// The chunk has fewer than 4 bytes.
    ChunkShort = 3,
    /// The length that the chunk states differs from the bytes given.
    LengthDiffers = 4,
    /// The bytes end before an opcode, and blocks remain.
    BlocksRemain = 5,
    /// The bytes end inside an opcode.
    OpcodeCut = 6,
    /// Opcode F.
    OpcodeUnknown = 7,
    /// A copy with no such block before.
    NoneBefore = 8,
    /// An opcode runs past the last block.
    PastLastBlock = 9,
    /// A table's entry that was not filled in this chunk.
    EntryEmpty = 10,
    /// Bytes follow the last block that are not padding: four or more, or one that is not zero. The
    /// place is that of the first byte after the last block.
    BytesFollow = 11,
    /// A number of the feed or run is badly formed.
    BadVarint = 12,
    /// The feed or run ends inside a number or a chunk.
    FeedCut = 13,
    /// The output is shorter than the chunk.
    OutputShort = 14,
    /// The symbol file's head or offset table is cut short, or it is of another version.
    BadSprite = 15,
    /// The frame number is not below the file's count.
    NoSuchFrame = 16,
    /// Fewer than 10 bytes from the frame's offset, or one of its first two words not zero.
    BadFrame = 17,
    /// A row head cut short, of another code, counting under 4, past the height or past the bytes.
    BadRow = 18,
    /// A segment of another code, past its row's count or past the width, or a byte of the row left
    /// over.
    BadSegment = 19,
    /// The rows are done, and the next two bytes are not 05 00.
    NoEndMarker = 20,
    /// The record's count would fall below 0 or above the number of blocks: it was untrue to the map.
    BadCount = 21,
}

impl Reason {
    /// The reason that has this number. There are none but 1 to 21: any other is taken for the last,
    /// so that whatever is not 0 is a refusal.
    pub const fn numbered(number: u8) -> Self {
        match number {
            1 => Reason::BadSize,
            2 => Reason::BadLength,
            3 => Reason::ChunkShort,
            4 => Reason::LengthDiffers,
            5 => Reason::BlocksRemain,
            6 => Reason::OpcodeCut,
            7 => Reason::OpcodeUnknown,
            8 => Reason::NoneBefore,
            9 => Reason::PastLastBlock,
            10 => Reason::EntryEmpty,
            11 => Reason::BytesFollow,
            12 => Reason::BadVarint,
            13 => Reason::FeedCut,
            14 => Reason::OutputShort,
            15 => Reason::BadSprite,
            16 => Reason::NoSuchFrame,
            17 => Reason::BadFrame,
            18 => Reason::BadRow,
            19 => Reason::BadSegment,
            20 => Reason::NoEndMarker,
            _ => Reason::BadCount,
        }
    }

    pub const fn number(self) -> u8 {
        self as u8
    }
}

impl Display for Reason {
    fn fmt(&self, out: &mut Formatter) -> fmt::Result {
        out.write_str(match self {
            Reason::BadSize => "width or height not allowed",
            Reason::BadLength => {
                "a lent picture or map is not of the exact length, or a feed of another size"
            }
            Reason::ChunkShort => "chunk under 4 bytes",
            Reason::LengthDiffers => "stated length differs from the bytes given",
            Reason::BlocksRemain => "bytes end before an opcode, blocks remain",
            Reason::OpcodeCut => "bytes end inside an opcode",
            Reason::OpcodeUnknown => "opcode F",
            Reason::NoneBefore => "copy with no such block before",
            Reason::PastLastBlock => "opcode runs past the last block",
            Reason::EntryEmpty => "entry not filled in this chunk",
            Reason::BytesFollow => "bytes follow the last block that are not padding",
            Reason::BadVarint => "feed number badly formed",
            Reason::FeedCut => "feed ends inside a number or a chunk",
            Reason::OutputShort => "output too short",
            Reason::BadSprite => "head or offset table cut short, or another version",
            Reason::NoSuchFrame => "frame number not below the count",
            Reason::BadFrame => "frame head cut short, or its first two words not zero",
            Reason::BadRow => "bad row head, or a row past the height or past the bytes",
            Reason::BadSegment => "segment of another code, past its row or past the width",
            Reason::NoEndMarker => "rows done, and no end marker follows",
            Reason::BadCount => "the record's count would leave 0 to the number of blocks",
        })
    }
}

impl Display for Refused {
    fn fmt(&self, out: &mut Formatter) -> fmt::Result {
        let Refused {
            reason,
            place,
            block,
        } = self;
        write!(
            out,
            "{} at {place}, block {block}: {reason}",
            reason.number()
        )
    }
}

impl Error for Refused {}

/// Makes a fresh map: entry k is k; and gives its record: the size and the number of blocks.
pub fn fresh_map(size: Size, map: &mut [u16]) -> Result<Record, Refused> {
    let exact::Recorded { answer, record } = exact::fresh_map(size, map);
    accepted(answer).map(|_| record)
}

/// How many entries of a map are not settled, counted one by one. The record of a map that was started
/// fresh has that number already.
pub fn count_unsettled(size: Size, map: &[u16]) -> Result<usize, Refused> {
    let count = exact::count(size, map);
    accepted(count.answer).map(|_| count.unsettled)
}

/// Reads a chunk over a picture and its map, and brings their record up to date: checked whole before
/// anything is painted. One to three bytes after its last block are padding, and accepted, if all are
/// zero.
pub fn read_chunk(
    record: &mut Record,
    chunk: &[u8],
    picture: &mut [u8],
    map: &mut [u16],
) -> Result<Accepted, Refused> {
    keep(record, exact::read_chunk(*record, chunk, picture, map))
}

/// Writes the chunk that makes the new picture out of the old one to the start of the output. The
/// output after it is untouched. [`Size::longest_chunk`] bytes always suffice, and with them the
/// write is quickest.
pub fn write_chunk(
    size: Size,
    old: &[u8],
    new: &[u8],
    output: &mut [u8],
) -> Result<Accepted, Refused> {
    accepted(exact::write_chunk(size, old, new, output))
}

/// The size that a feed states, so that a picture and a map can be made for it, and where its first
/// chunk's length stands: [`Reason::BadVarint`] or [`Reason::FeedCut`] at a size number that fails,
/// [`Reason::BadSize`] for a size that is not allowed.
///
/// ```
/// # fn main() -> Result<(), seatboard::Refused> {
/// let stated = seatboard::feed_size(&[2, 1, 6, 0xE1, 0, 0, 6, 0x61, 5])?;
/// assert_eq!((stated.size.width, stated.size.height, stated.first), (8, 4, 2));
/// # Ok(())
/// # }
/// ```
pub fn feed_size(feed: &[u8]) -> Result<FeedSize, Refused> {
    let exact::FeedSize {
        answer,
        size,
        first,
    } = exact::feed_size(feed);
    accepted(answer).map(|_| FeedSize { size, first })
}

/// Walks a feed, whose size must be the record's, over a picture and its map, and brings their record
/// up to date, where the end is refused too. A refused chunk changes nothing and does not end the
/// walk.
pub fn walk_feed(
    record: &mut Record,
    feed: &[u8],
    picture: &mut [u8],
    map: &mut [u16],
) -> Result<Accepted, Refused> {
    keep(record, exact::walk_feed(*record, feed, picture, map))
}

/// Walks a run over a picture and its map, and brings their record up to date: what a feed has behind
/// its size numbers, for each chunk its length and the chunk. The same as reading its chunks singly: a
/// refused one changes nothing, is not counted, and does not end the walk.
pub fn walk_run(record: &mut Record, run: &[u8], picture: &mut [u8], map: &mut [u16]) -> Tally {
    let tally = exact::walk_run(*record, run, picture, map);
    *record = tally.record;
    Tally {
        accepted: tally.accepted,
        end: accepted(tally.answer),
    }
}

/// One step of a walk: reads the chunk whose length stands at a place of a feed or run, and brings the
/// record up to date. Step by step, from [`FeedSize::first`] on in a feed and from 0 on in a run, it is
/// the walk. A step reads no size numbers; [`Board::steps`] does.
///
/// ```
/// # fn main() -> Result<(), seatboard::Refused> {
/// use seatboard::{Size, Step};
///
/// let size = Size { width: 4, height: 4 };
/// let (mut picture, mut map) = ([0; 16], [0]);
/// let mut record = seatboard::fresh_map(size, &mut map)?;
///
/// // a chunk of length 0, which is refused, and a block of colour 5
/// let run = [0, 6, 0xE1, 0, 0, 6, 0x60, 5];
/// let (mut at, mut accepted) = (0, Vec::new());
/// let end = loop {
///     match seatboard::walk_step(&mut record, &run, at, &mut picture, &mut map) {
///         Step::Chunk { said, next } => {
///             accepted.push(said.is_ok());
///             at = next;
///         }
///         Step::End(end) => break end,
///     }
/// };
/// assert_eq!((accepted, end?.length, record.unsettled), (vec![false, true], 8, 0));
/// # Ok(())
/// # }
/// ```
pub fn walk_step(
    record: &mut Record,
    feed: &[u8],
    at: usize,
    picture: &mut [u8],
    map: &mut [u16],
) -> Step {
    let step = exact::walk_step(*record, feed, at, picture, map);
    *record = step.record;
    let said = accepted(step.answer);
    if step.chunk {
        Step::Chunk {
            said,
            next: step.next,
        }
    } else {
        Step::End(said)
    }
}

/// Paints a frame of an SPR# file on a shown picture, its upper left pixel at column `left`, row
/// `top`: checked whole before anything is painted. Pixels off the picture are dropped, and
/// background leaves the picture's pixel.
///
/// The map does not learn of it, and chunks copy from the picture that they are read over. So copy
/// the held picture first and paint on the copy.
pub fn paint_symbol(
    size: Size,
    picture: &mut [u8],
    file: &[u8],
    frame: usize,
    left: i16,
    top: i16,
) -> Result<(), Refused> {
    accepted(exact::paint_symbol(size, picture, file, frame, left, top)).map(|_| ())
}

/// The record as the call left it, whatever it answered.
fn keep(record: &mut Record, said: exact::Recorded) -> Result<Accepted, Refused> {
    *record = said.record;
    accepted(said.answer)
}

fn accepted(answer: exact::Answer) -> Result<Accepted, Refused> {
    let exact::Answer {
        number,
        place,
        block,
    } = answer;
    match number {
        0 => Ok(Accepted {
            length: place,
            block,
        }),
        refused => Err(Refused {
            reason: Reason::numbered(refused),
            place,
            block,
        }),
    }
}
