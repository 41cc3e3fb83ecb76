//! Chunks made by hand with bytes after the last block, zero and not, at every place: 02 accepts one
//! to three of them if all are zero. Each is read, and walked alone and before another chunk, in a
//! feed and in a run.

use seatboard::Size;

use crate::block_examples::{self, keep, refused, Example, LEADS};
use crate::compare::Codec;
use crate::examples::{check_read, chunk_of, left_board, lent_board, size, HALF_BYTES, LOWER_LEFT};
use crate::feed_examples;
use crate::feeds::{self, Parts};
use crate::generate::{Board, FULL};
use crate::run_examples;

const LONE: Size = size(4, 4);

/// Opcodes for a single block that need nothing before them. Some end with zeros of their own.
#[rustfmt::skip]
const FOR_ONE_BLOCK: [&[u8]; 10] = [
    &[0x00],
    &[0x1F, 0],
    &[0x60, 5],
    &[0x60, 0],
    &[0x7F, 0, 0],
    LOWER_LEFT.split_at(4).1,
    &[0xA0, 1, 2, 3, 4, 0x1B, 0x1B, 0, 0],
    HALF_BYTES.split_at(4).1,
    &[0xE0, 1, 2, 3, 4, 5, 6, 7, 8, 9, 10, 11, 12, 13, 14, 15, 16],
    &[0xE0, 0, 0, 0, 0, 0, 0, 0, 0, 0, 0, 0, 0, 0, 0, 0, 0],
];

/// An entry in each table, for three blocks, and behind that opcodes with the zeros that each takes.
#[rustfmt::skip]
const FILLED: &[u8] = &[
    0x80, 1, 2, 0x12, 0x34,
    0xA0, 1, 2, 3, 4, 0x12, 0x34, 0x56, 0x78,
    0xC0, 1, 2, 3, 4, 5, 6, 7, 8, 0x12, 0x34, 0x56, 0x78, 0x9A, 0xBC,
];
const TAKES: [(u8, usize); 15] = [
    (0x00, 0),
    (0x10, 1),
    (0x20, 0),
    (0x30, 1),
    (0x40, 0),
    (0x50, 1),
    (0x60, 1),
    (0x70, 2),
    (0x80, 4),
    (0x90, 3),
    (0xA0, 8),
    (0xB0, 5),
    (0xC0, 14),
    (0xD0, 7),
    (0xE0, 16),
];

/// One line of so many blocks.
fn line(blocks: usize) -> Size {
    size(4 * blocks, 4)
}

/// Behind the filled tables, with so many zeros after it: for one block more, or two.
fn taking(opcode: u8, zeros: usize) -> (Size, Vec<u8>) {
    let blocks = if matches!(opcode, 0x40 | 0x50) { 2 } else { 1 };
    (
        line(3 + blocks),
        [FILLED, &[opcode], &vec![0; zeros]].concat(),
    )
}

/// Chunks that end with their last block: sizes and opcodes.
fn whole_chunks() -> Vec<(Size, Vec<u8>)> {
    let lone = FOR_ONE_BLOCK.map(|opcodes| (LONE, opcodes.to_vec()));
    // Zeros where blocks remain are skips.
    let skipped = |(opcodes, blocks): (&[u8], usize)| {
        [0, 1, 4].map(|skips| (line(blocks + skips), [opcodes, &vec![0; skips]].concat()))
    };
    let taken = TAKES.map(|(opcode, zeros)| taking(opcode, zeros));
    let filled = [&[0x70, 255, 0].repeat(15)[..], &[0x70, 159, 0]].concat();
    lone.into_iter()
        .chain(LEADS.into_iter().flat_map(skipped))
        .chain(taken)
        .chain([(FULL, keep(4_000)), (FULL, filled)])
        .collect()
}

/// Lengths from which on one to three bytes more take another byte to state, or another group before
/// the chunk; and by how many blocks of sixteen colours and of one colour they come about.
const LENGTHS: [(usize, usize, usize); 4] = [
    (126, 4, 11),
    (254, 12, 7),
    (16_382, 960, 17),
    (65_534, 3_854, 5),
];

/// Chunks of these lengths, the other blocks kept.
fn long_chunks() -> [Vec<u8>; 4] {
    LENGTHS.map(|(length, plain, fills)| {
        let opcodes = [
            [0xE0; 17].repeat(plain),
            [0x60, 5].repeat(fills),
            keep(4_000 - plain - fills),
        ];
        let opcodes = opcodes.concat();
        assert_eq!(4 + opcodes.len(), length);
        opcodes
    })
}

/// So many bytes, those not zero whose bits are set in `places`.
fn tail(length: usize, places: u8, not_zero: u8) -> Vec<u8> {
    let byte = |place| not_zero * (places >> place & 1);
    (0..length).map(byte).collect()
}

/// Up to five bytes, zero and not in every way.
fn tails() -> Vec<Vec<u8>> {
    let mut tails = Vec::new();
    for length in 0..=5 {
        for places in 0..1 << length {
            tails.extend([1, 0x10, 0x80, 0xFF].map(|byte| tail(length, places, byte)));
        }
    }
    // Zeros alone come four times in a row.
    tails.dedup();
    tails
}

/// Zeros, more than fit in 8 and 16 bits among them.
const MORE_ZEROS: [usize; 9] = [6, 8, 16, 255, 256, 257, 259, 65_536, 65_539];

/// One to three bytes, of which one has any value but 0; and many zeros.
fn other_tails() -> Vec<Vec<u8>> {
    let mut tails = Vec::from(MORE_ZEROS.map(|zeros| vec![0; zeros]));
    for length in 1..=3 {
        for place in 0..length {
            tails.extend((1..=255).map(|byte| tail(length, 1 << place, byte)));
        }
    }
    tails
}

/// A chunk that ends with its last block, the board that it is lent, and what comes of that.
struct Whole {
    opcodes: Vec<u8>,
    lent: Board,
    /// Another chunk, to walk on to.
    next: Vec<u8>,
    /// What the chunk leaves, by itself and with the other behind it.
    accepted: [Board; 2],
    /// The same where the chunk is refused.
    refused: [Board; 2],
}

impl Whole {
    fn new(codec: &Codec, size: Size, opcodes: Vec<u8>) -> Self {
        let read = |chunk: &[u8], board: &Board| {
            let mut left = left_board(board, &None);
            let read = (codec.read_chunk)(board.record(), chunk, &mut left.picture, &mut left.map);
            left.unsettled = read.record.unsettled;
            left
        };
        let next = chunk_of(&[&[0x60, 7], &keep(size.blocks() - 1)[..]].concat());
        let then = |board: Board| {
            let after_next = read(&next, &board);
            [board, after_next]
        };
        let lent = lent_board(size);
        Whole {
            accepted: then(read(&chunk_of(&opcodes), &lent)),
            refused: then(lent_board(size)),
            opcodes,
            lent,
            next,
        }
    }

    /// With these bytes after the last block.
    fn check(&self, codec: &Codec, tail: &[u8]) -> Result<(), String> {
        let padded = tail.len() <= 3 && tail.iter().all(|byte| *byte == 0);
        let chunk = chunk_of(&[&self.opcodes, tail].concat());
        let blocks = self.lent.size.blocks();
        let (says, [left, after_next]) = if padded {
            ((0, chunk.len(), blocks), &self.accepted)
        } else {
            ((11, 4 + self.opcodes.len(), blocks), &self.refused)
        };
        check_read(codec, [&self.lent, left], &chunk, says)?;
        let accepted = usize::from(padded);
        self.check_walks(codec, vec![chunk.clone()], accepted, left)?;
        self.check_walks(
            codec,
            vec![chunk, self.next.clone()],
            accepted + 1,
            after_next,
        )
    }

    /// All bytes used and so many chunks accepted, in a run and in a feed.
    fn check_walks(
        &self,
        codec: &Codec,
        chunks: Vec<Vec<u8>>,
        accepted: usize,
        left: &Board,
    ) -> Result<(), String> {
        let (size, boards) = (self.lent.size, [&self.lent, left]);
        let run = Parts::run(chunks).bytes();
        let says = (0, run.len(), size.blocks());
        run_examples::check_walk(codec, boards, &run, says, accepted)?;
        let numbers = feeds::size_numbers(size).expect("an allowed size");
        let feed = [numbers, run].concat();
        feed_examples::check_walk(codec, boards, &feed, (0, feed.len(), size.blocks()))
    }
}

/// Zeros where blocks remain are opcodes or belong to one.
fn zeros_before_the_end() -> Vec<Example> {
    let skips = |(opcodes, blocks): (&[u8], usize)| {
        [0, 1, 2, 3].map(|zeros| {
            let skipped = [opcodes, &vec![0; zeros]].concat();
            let says = (5, 4 + skipped.len(), blocks + zeros);
            refused(line(blocks + 4), &skipped, says)
        })
    };
    let cut = |(opcode, takes)| {
        (0..takes).map(move |zeros| {
            let (size, opcodes) = taking(opcode, zeros);
            refused(size, &opcodes, (6, 4 + FILLED.len(), 3))
        })
    };
    let skipped = LEADS.into_iter().flat_map(skips);
    skipped.chain(TAKES.into_iter().flat_map(cut)).collect()
}

/// What an opcode is refused for is not put right by zeros at the end.
fn zeros_after_refused() -> Vec<Example> {
    let at_opcode = |example: &Example| (7..=10).contains(&example.says.0);
    let followed = |example: Example| {
        (1..=3).map(move |zeros| Example {
            opcodes: [&example.opcodes[..], &vec![0; zeros]].concat(),
            ..example
        })
    };
    let examples = block_examples::all().into_iter().filter(at_opcode);
    examples.flat_map(followed).collect()
}

/// Padding is part of the length that a chunk states.
fn check_stated(codec: &Codec) -> Result<(), String> {
    let lent = lent_board(LONE);
    for (stated, padding) in [
        (5, 1),
        (5, 3),
        (6, 0),
        (8, 0),
        (8, 2),
        (7, 3),
        (9, 3),
        (8, 4),
    ] {
        let chunk = [&[0xE1, 0, 0, stated, 0x00], &vec![0; padding][..]].concat();
        check_read(codec, [&lent; 2], &chunk, (4, 0, 0))?;
    }
    Ok(())
}

pub fn check(codec: &Codec) -> Result<(), String> {
    let tails = tails();
    for (size, opcodes) in whole_chunks() {
        let whole = Whole::new(codec, size, opcodes);
        tails.iter().try_for_each(|tail| whole.check(codec, tail))?;
    }
    for opcodes in long_chunks() {
        let whole = Whole::new(codec, FULL, opcodes);
        (0..=5).try_for_each(|zeros| whole.check(codec, &vec![0; zeros]))?;
    }
    let kept = Whole::new(codec, LONE, vec![0x00]);
    let mut other_tails = other_tails().into_iter();
    other_tails.try_for_each(|tail| kept.check(codec, &tail))?;
    let refused = [zeros_before_the_end(), zeros_after_refused()];
    refused
        .iter()
        .flatten()
        .try_for_each(|example| block_examples::check_chunk(codec, example))?;
    check_stated(codec)
}
