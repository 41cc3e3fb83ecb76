//! Chunks written out by hand, as 01 says that they are written; its own examples come first. Each
//! is tried with outputs that have room for it and with such as are too short.

use seatboard::Size;

use crate::compare::{Codec, Writing};
use crate::examples::{
    answer, lent_picture, without, FOUND_AND_SAID, HALF_BYTES, HALF_BYTES_PIXELS, LOWER_LEFT,
    LOWER_LEFT_PIXELS,
};
use crate::generate::{Board, FULL};
use crate::pictures::{greatest_length, WriteCase};

struct Example {
    size: (usize, usize),
    old: Vec<u8>,
    new: Vec<u8>,
    /// The chunk, or the number that it is refused with whatever the output.
    says: Result<Vec<u8>, u8>,
}

fn written(size: (usize, usize), old: &[u8], new: &[u8], chunk: &[u8]) -> Example {
    Example {
        size,
        old: old.to_vec(),
        new: new.to_vec(),
        says: Ok(chunk.to_vec()),
    }
}

fn refused(size: (usize, usize), old: usize, new: usize, number: u8) -> Example {
    Example {
        size,
        old: vec![0; old],
        new: vec![0; new],
        says: Err(number),
    }
}

const BLOCK: (usize, usize) = (4, 4);

fn examples_of_01() -> Vec<Example> {
    let zeros = [0; 16];
    vec![
        written(BLOCK, &zeros, &[5; 16], &[0xE1, 0, 0, 6, 0x60, 5]),
        written(BLOCK, &[5; 16], &[5; 16], &[0xE1, 0, 0, 5, 0x00]),
        written(BLOCK, &zeros, &LOWER_LEFT_PIXELS, LOWER_LEFT),
        written(BLOCK, &[9; 16], &HALF_BYTES_PIXELS, HALF_BYTES),
    ]
}

#[rustfmt::skip]
fn drawn_blocks() -> Vec<Example> {
    let drawn = |new: [u8; 16], chunk: &[u8]| written(BLOCK, &[77; 16], &new, chunk);
    vec![
        // 0 before 255, whichever comes first in the block.
        drawn(
            [255, 0, 0, 0, 0, 0, 0, 0, 0, 0, 0, 0, 0, 0, 0, 255],
            &[0xE1, 0, 0, 9, 0x80, 0, 255, 0x80, 0x01],
        ),
        // Only the last pixel is another.
        drawn(
            [77, 77, 77, 77, 77, 77, 77, 77, 77, 77, 77, 77, 77, 77, 77, 76],
            &[0xE1, 0, 0, 9, 0x80, 76, 77, 0xFF, 0xFE],
        ),
        // Three colours: the greatest is stored twice and the lower of its entries named.
        drawn(
            [9, 5, 5, 5, 1, 1, 1, 1, 5, 5, 5, 5, 9, 9, 9, 9],
            &[0xE1, 0, 0, 13, 0xA0, 1, 5, 9, 9, 0x95, 0x00, 0x55, 0xAA],
        ),
        // Four: each row from the left 3, 2, 1, 0.
        drawn(
            [8, 6, 4, 2, 8, 6, 4, 2, 8, 6, 4, 2, 8, 6, 4, 2],
            &[0xE1, 0, 0, 13, 0xA0, 2, 4, 6, 8, 0xE4, 0xE4, 0xE4, 0xE4],
        ),
        // Five: entries 0 1 2 3 4 4 4 4 and 0 0 0 0 4 3 2 1, which are 053924 and 0008D1 (hex).
        drawn(
            [10, 20, 30, 40, 50, 50, 50, 50, 10, 10, 10, 10, 50, 40, 30, 20],
            &[
                0xE1, 0, 0, 19, 0xC0, 10, 20, 30, 40, 50, 50, 50, 50,
                0x05, 0x38, 0x92, 0x4D, 0x00, 0x01,
            ],
        ),
        // Nine, row by row.
        drawn(
            [9, 8, 7, 6, 5, 4, 3, 2, 1, 1, 1, 1, 1, 1, 1, 1],
            &[
                0xE1, 0, 0, 21, 0xE0, 9, 8, 7, 6, 5, 4, 3, 2, 1, 1, 1, 1, 1, 1, 1, 1,
            ],
        ),
    ]
}

/// One block a colour, all in one line.
fn line(colours: &[u8]) -> Vec<u8> {
    let row: Vec<u8> = colours.iter().flat_map(|colour| [*colour; 4]).collect();
    row.repeat(4)
}

#[rustfmt::skip]
fn lines() -> Vec<Example> {
    let in_line = |old: &[u8], new: &[u8], chunk: &[u8]| {
        written((4 * new.len(), 4), &line(old), &line(new), chunk)
    };
    // Two blocks, the same two colours in both: each by itself, with its colours again.
    let left_columns = [1, 2, 2, 2, 1, 2, 2, 2].repeat(4);
    let two_lines = [line(&[1, 2]), line(&[3, 4])].concat();
    vec![
        in_line(&[0; 16], &[5; 16], &[0xE1, 0, 0, 6, 0x6F, 5]),
        in_line(&[0; 17], &[5; 17], &[0xE1, 0, 0, 7, 0x70, 16, 5]),
        in_line(&[0; 16], &[0; 16], &[0xE1, 0, 0, 5, 0x0F]),
        in_line(&[0; 17], &[0; 17], &[0xE1, 0, 0, 6, 0x10, 16]),
        in_line(&[0, 0, 0], &[1, 1, 2], &[0xE1, 0, 0, 8, 0x61, 1, 0x60, 2]),
        in_line(&[4, 0, 5], &[4, 5, 5], &[0xE1, 0, 0, 8, 0x00, 0x60, 5, 0x00]),
        // The block in the middle has the run's colour already.
        in_line(&[0, 5, 0], &[5, 5, 5], &[0xE1, 0, 0, 9, 0x60, 5, 0x00, 0x60, 5]),
        written(
            (8, 4), &line(&[0, 0]), &left_columns,
            &[0xE1, 0, 0, 14, 0x80, 1, 2, 0x77, 0x77, 0x80, 1, 2, 0x77, 0x77],
        ),
        // Left to right, then down.
        written(
            (8, 8), &[0; 64], &two_lines,
            &[0xE1, 0, 0, 12, 0x60, 1, 0x60, 2, 0x60, 3, 0x60, 4],
        ),
    ]
}

/// 43 blocks across and 6 down.
const BLOCKS_258: (usize, usize) = (172, 24);

fn long_runs() -> Vec<Example> {
    let (width, height) = BLOCKS_258;
    let zeros = vec![0; width * height];
    let fives = vec![5; width * height];
    let last_is = |colour: u8, picture: &[u8]| {
        let mut picture = picture.to_vec();
        for row in picture.chunks_exact_mut(width).rev().take(4) {
            row[width - 4..].fill(colour);
        }
        picture
    };
    let skipped = &[0xE1, 0, 0, 9, 0x10, 255, 0x00, 0x60, 5];
    let filled = &[0xE1, 0, 0, 10, 0x70, 255, 5, 0x60, 5, 0x00];
    let full = (FULL.width, FULL.height);
    let any = lent_picture(FULL.width * FULL.height);
    let fours = vec![4; any.len()];
    // Fifteen runs of 256 blocks and one of 160.
    let full_skipped = [&[0xE1, 0, 0, 36], &[0x10, 255].repeat(15)[..], &[0x10, 159]];
    let full_filled = [
        &[0xE1, 0, 0, 52],
        &[0x70, 255, 4].repeat(15)[..],
        &[0x70, 159, 4],
    ];
    vec![
        written(BLOCKS_258, &zeros, &last_is(5, &zeros), skipped),
        written(BLOCKS_258, &zeros, &last_is(0, &fives), filled),
        written(full, &any, &any, &full_skipped.concat()),
        written(full, &any, &fours, &full_filled.concat()),
    ]
}

/// 01's order: 1, then 2 for either picture.
fn refusals() -> Vec<Example> {
    vec![
        refused((324, 4), 1_296, 1_296, 1),
        refused((4, 204), 816, 816, 1),
        refused((6, 4), 24, 24, 1),
        refused((4, 6), 24, 24, 1),
        refused((0, 4), 0, 0, 1),
        refused((0, 0), 0, 0, 1),
        refused((6, 4), 16, 7, 1),
        refused((4 + (1 << 32), 4), 16, 16, 1),
        refused((8, 4), 31, 32, 2),
        refused((8, 4), 33, 32, 2),
        refused((8, 4), 32, 31, 2),
        refused((8, 4), 32, 33, 2),
        refused((8, 4), 16, 16, 2),
        refused((8, 4), 24, 40, 2),
        refused((8, 4), 0, 32, 2),
        refused((8, 4), 32, 0, 2),
        refused((8, 4), 0, 0, 2),
    ]
}

pub fn check(codec: &Codec) -> Result<(), String> {
    let groups = [
        examples_of_01(),
        drawn_blocks(),
        lines(),
        long_runs(),
        refusals(),
    ];
    groups
        .iter()
        .flatten()
        .try_for_each(|example| check_outputs(codec, example))
}

fn check_outputs(codec: &Codec, example: &Example) -> Result<(), String> {
    let enough = greatest_length(example.new.len() / 16);
    let around = example.says.as_ref().map_or(4, |chunk| chunk.len());
    [0, 3, around - 1, around, around + 1, enough, enough + 100]
        .into_iter()
        .try_for_each(|length| check_write(codec, example, length))
}

fn check_write(codec: &Codec, example: &Example, length: usize) -> Result<(), String> {
    let lent = case(example, length);
    let mut left = case(example, length);
    let says = match &example.says {
        Err(number) => (*number, 0, 0),
        Ok(chunk) if chunk.len() > length => (14, 0, 0),
        Ok(chunk) => {
            left.output[..chunk.len()].copy_from_slice(chunk);
            (0, chunk.len(), example.new.len() / 16)
        }
    };
    let size = lent.board.size;
    let found = Writing::of(&lent, |old, new, output| {
        (codec.write_chunk)(size, old, new, output)
    });
    let expected = Writing::of(&left, |_, _, _| answer(says));
    without(found.differences(&expected, FOUND_AND_SAID), || {
        format!("{size:?}, {:02X?}, output of {length} bytes", example.says)
    })
}

/// With an output in which no two neighbours are alike. Nothing is read back, so there is no map.
fn case(example: &Example, output: usize) -> WriteCase {
    let (width, height) = example.size;
    WriteCase {
        board: Board::with_true_record(Size { width, height }, example.old.clone(), Vec::new()),
        new: example.new.clone(),
        output: lent_picture(output),
    }
}
