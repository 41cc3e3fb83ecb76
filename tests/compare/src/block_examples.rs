//! Chunks made by hand, with the block at which 02 says that they stop: opcodes that give some
//! blocks their turn, and behind them what is refused there. None of them paints.

use seatboard::Size;

use crate::compare::Codec;
use crate::examples::{check_read, chunk_of, fresh, lent_board, lent_picture, size, Said};
use crate::generate::{Board, FULL, SETTLED};

pub struct Example {
    pub size: Size,
    pub opcodes: Vec<u8>,
    pub says: Said,
}

pub fn refused(size: Size, opcodes: &[u8], says: Said) -> Example {
    Example {
        size,
        opcodes: opcodes.to_vec(),
        says,
    }
}

/// 24 blocks.
const LENT: Size = size(24, 16);

/// Opcodes, and how many blocks have had their turn after them.
#[rustfmt::skip]
pub const LEADS: [(&[u8], usize); 16] = [
    (&[0x02], 3),
    (&[0x1F, 3], 4),
    (&[0x00, 0x22], 4),
    (&[0x00, 0x3F, 4], 6),
    // Pairs: each counts two.
    (&[0x01, 0x42], 8),
    (&[0x01, 0x5F, 2], 8),
    (&[0x67, 9], 8),
    (&[0x7F, 10, 9], 11),
    (&[0x81, 1, 2, 0, 0, 0, 0], 2),
    (&[0x80, 1, 2, 0, 0, 0x92, 0, 0, 0, 0, 0, 0, 0], 4),
    (&[0xA1, 1, 2, 3, 4, 0, 0, 0, 0, 0, 0, 0, 0], 2),
    (&[0xA0, 1, 2, 3, 4, 0, 0, 0, 0, 0xB1, 0, 0, 0, 0, 0, 0, 0, 0, 0], 3),
    (&[0xC1, 1, 2, 3, 4, 5, 6, 7, 8, 0, 0, 0, 0, 0, 0, 0, 0, 0, 0, 0, 0], 2),
    (&[0xC0, 1, 2, 3, 4, 5, 6, 7, 8, 0, 0, 0, 0, 0, 0, 0xD0, 0, 0, 0, 0, 0, 0, 0], 2),
    (&[0xE1, 0, 0, 0, 0, 0, 0, 0, 0, 0, 0, 0, 0, 0, 0, 0, 0, 0, 0, 0, 0, 0, 0, 0, 0, 0, 0, 0, 0, 0, 0, 0, 0], 2),
    (&[0x01, 0x60, 5, 0x41, 0x10, 2, 0x20, 0x80, 1, 2, 0, 0], 12),
];

/// Numbers, and what gets them behind each of these.
#[rustfmt::skip]
const REFUSED: [(u8, &[u8]); 31] = [
    (5, &[]),
    // The count byte.
    (6, &[0x1F]),
    (6, &[0x3F]),
    (6, &[0x5F]),
    (6, &[0x7F]),
    // The colour or colours, where the blocks are counted already.
    (6, &[0x62]),
    (6, &[0x70, 4]),
    (6, &[0x81, 1]),
    (6, &[0xA1, 1, 2, 3]),
    (6, &[0xC1, 1, 2, 3, 4, 5, 6, 7]),
    // The entry.
    (6, &[0x91]),
    (6, &[0xB1]),
    (6, &[0xD1]),
    // The flags or pixels of the first block, and of the second.
    (6, &[0x81, 1, 2, 0]),
    (6, &[0x81, 1, 2, 0, 0, 0]),
    (6, &[0xA1, 1, 2, 3, 4, 0, 0, 0]),
    (6, &[0xA1, 1, 2, 3, 4, 0, 0, 0, 0]),
    (6, &[0xC1, 1, 2, 3, 4, 5, 6, 7, 8, 0, 0, 0, 0, 0]),
    (6, &[0xC1, 1, 2, 3, 4, 5, 6, 7, 8, 0, 0, 0, 0, 0, 0]),
    (6, &[0xE1, 0, 0, 0, 0, 0, 0, 0, 0, 0, 0, 0, 0, 0, 0, 0]),
    (6, &[0xE1, 0, 0, 0, 0, 0, 0, 0, 0, 0, 0, 0, 0, 0, 0, 0, 0, 0]),
    (7, &[0xF0]),
    (7, &[0xFF, 0x00]),
    // Past the last block by as many as went before, and by more.
    (9, &[0x10, 23]),
    (9, &[0x30, 23]),
    (9, &[0x50, 11]),
    (9, &[0x70, 23, 5]),
    (9, &[0x5F, 255]),
    (10, &[0x91, 1]),
    (10, &[0xB1, 1]),
    (10, &[0xD1, 1, 0, 0, 0, 0, 0, 0, 0, 0, 0, 0, 0, 0]),
];

fn behind_leads() -> Vec<Example> {
    let behind = |(opcodes, blocks): (&[u8], usize)| {
        let place = 4 + opcodes.len();
        let at = |rest: &[u8], says| refused(LENT, &[opcodes, rest].concat(), says);
        let mut examples: Vec<Example> = REFUSED
            .into_iter()
            .map(|(number, rest)| at(rest, (number, place, blocks)))
            .collect();
        // All the others kept, and a byte after them.
        let kept = (LENT.blocks() - blocks - 1) as u8;
        examples.push(at(&[0x10, kept, 1], (11, place + 2, 24)));
        examples
    };
    LEADS.into_iter().flat_map(behind).collect()
}

/// 8 is for block 0 and 1 alone, whatever follows.
fn none_before() -> Vec<Example> {
    vec![
        refused(LENT, &[0x20], (8, 4, 0)),
        refused(LENT, &[0x3F, 255], (8, 4, 0)),
        refused(LENT, &[0x4F], (8, 4, 0)),
        refused(LENT, &[0x50, 0], (8, 4, 0)),
        refused(LENT, &[0x00, 0x40], (8, 5, 1)),
        refused(LENT, &[0x60, 5, 0x5F, 255], (8, 6, 1)),
        refused(LENT, &[0x80, 1, 2, 0, 0, 0x4F], (8, 9, 1)),
        refused(size(8, 4), &[0x00, 0x40], (8, 5, 1)),
    ]
}

/// About the last block, and where a pair counted once would end otherwise.
fn last_blocks() -> Vec<Example> {
    let four = size(16, 4);
    vec![
        refused(four, &[0x02], (5, 5, 3)),
        refused(four, &[0x02, 0x60], (6, 5, 3)),
        refused(four, &[0x02, 0xF0], (7, 5, 3)),
        refused(four, &[0x02, 0x01], (9, 5, 3)),
        refused(four, &[0x02, 0x40], (9, 5, 3)),
        refused(four, &[0x02, 0x90, 0], (10, 5, 3)),
        refused(four, &[0x00, 0x60, 5, 0x23], (9, 7, 2)),
        refused(four, &[0x01, 0x41], (9, 5, 2)),
        refused(four, &[0x01, 0x40, 0x10, 0], (11, 6, 4)),
        refused(four, &[0x80, 1, 2, 0, 0, 0x91, 0, 0, 0, 0], (6, 9, 1)),
    ]
}

/// Bytes after the last block, at several sizes.
fn sizes() -> Vec<Example> {
    let all = [&keep(4_000)[..], &[0xAA]].concat();
    vec![
        refused(size(4, 4), &[0x00, 0xAA], (11, 5, 1)),
        refused(size(8, 4), &[0x01, 0x01], (11, 5, 2)),
        refused(size(4, 8), &[0x00, 0x00, 0xAA], (11, 6, 2)),
        refused(size(320, 4), &[0x10, 79, 0xF0], (11, 6, 80)),
        refused(size(4, 200), &[0x10, 49, 0xF0], (11, 6, 50)),
        refused(FULL, &all, (11, 36, 4_000)),
    ]
}

/// So many blocks kept, in the longest runs.
pub fn keep(blocks: usize) -> Vec<u8> {
    let mut opcodes = [0x10, 255].repeat(blocks / 256);
    if let Some(rest) = (blocks % 256).checked_sub(1) {
        opcodes.extend([0x10, rest as u8]);
    }
    opcodes
}

/// Blocks that 8 bits cannot tell, up to the last of all.
fn far_blocks() -> Vec<Example> {
    let last = |rest: &[u8], number| {
        let opcodes = [&keep(3_999), rest].concat();
        refused(FULL, &opcodes, (number, 36, 3_999))
    };
    vec![
        refused(FULL, &[0x10, 255], (5, 6, 256)),
        refused(FULL, &[0x70, 255, 5, 0x10], (6, 7, 256)),
        refused(FULL, &[0x01, 0x5F, 255, 0xF0], (7, 7, 514)),
        last(&[], 5),
        last(&[0x60], 6),
        last(&[0xF0], 7),
        last(&[0x01], 9),
        last(&[0x90, 0], 10),
    ]
}

pub fn all() -> Vec<Example> {
    [
        behind_leads(),
        none_before(),
        last_blocks(),
        sizes(),
        far_blocks(),
    ]
    .into_iter()
    .flatten()
    .collect()
}

pub fn check(codec: &Codec) -> Result<(), String> {
    all()
        .iter()
        .try_for_each(|example| check_chunk(codec, example))?;
    check_lengths(codec)
}

/// Over two boards: neither picture nor map has a say in it.
pub fn check_chunk(codec: &Codec, example: &Example) -> Result<(), String> {
    let Example {
        size,
        opcodes,
        says,
    } = example;
    let chunk = &chunk_of(opcodes);
    let lent = lent_board(*size);
    let inverse = lent.picture.iter().map(|pixel| !pixel).collect();
    let settled = Board::with_true_record(*size, inverse, vec![SETTLED; size.blocks()]);
    check_read(codec, [&lent; 2], chunk, *says)?;
    check_read(codec, [&settled; 2], chunk, *says)
}

/// Lengths that do not fit, whatever the chunk: it would be accepted, or stop at block 1.
fn check_lengths(codec: &Codec) -> Result<(), String> {
    for (pixels, entries) in [(31, 2), (33, 2), (32, 1), (32, 3), (0, 0)] {
        let board = Board::with_true_record(size(8, 4), lent_picture(pixels), fresh(entries));
        check_read(codec, [&board; 2], &[0xE1, 0, 0, 5, 0x01], (2, 0, 0))?;
        check_read(codec, [&board; 2], &[0xE1, 0, 0, 5, 0x00], (2, 0, 0))?;
    }
    Ok(())
}
