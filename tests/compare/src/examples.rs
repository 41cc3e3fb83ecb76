//! Paper 01's numbered examples that concern reading, with fresh map and count, and the one that 02
//! adds. All that is lent a record here is lent a true one.

use std::fmt::Debug;

use seatboard::exact::{Answer, Count, Recorded};
use seatboard::{Record, Size};

use crate::compare::{Codec, Outcome};
use crate::generate::{self, Board, SETTLED};
use crate::replay::bytes_in_short;

pub const fn size(width: usize, height: usize) -> Size {
    Size { width, height }
}

/// Number, place and block.
pub type Said = (u8, usize, usize);

pub fn answer((number, place, block): Said) -> Answer {
    Answer {
        number,
        place,
        block,
    }
}

/// Of what has neither place nor block.
pub fn number_alone(number: u8) -> Answer {
    answer((number, 0, 0))
}

struct Example {
    number: usize,
    size: (usize, usize),
    chunk: &'static [u8],
    says: Said,
    /// What an accepted chunk leaves; a refused one leaves what was lent.
    leaves: Option<(Vec<u8>, Vec<u16>)>,
}

fn accepted(
    number: usize,
    size: (usize, usize),
    chunk: &'static [u8],
    picture: &[u8],
    map: &[u16],
) -> Example {
    let leaves = Some((picture.to_vec(), map.to_vec()));
    Example {
        number,
        size,
        chunk,
        says: (0, chunk.len(), map.len()),
        leaves,
    }
}

fn refused(number: usize, size: (usize, usize), chunk: &'static [u8], says: Said) -> Example {
    Example {
        number,
        size,
        chunk,
        says,
        leaves: None,
    }
}

/// Neighbouring pixels differ, so that nothing is right by chance.
pub fn lent_picture(pixels: usize) -> Vec<u8> {
    (0..pixels).map(|pixel| 100 + (pixel % 100) as u8).collect()
}

/// 01's example 1 as a chunk, and what its flags say: 012456 and 89A37B (hex), three bits a pixel.
#[rustfmt::skip]
pub const HALF_BYTES: &[u8] = &[
    0xE1, 0, 0, 0x13, 0xC0, 0, 1, 2, 3, 4, 5, 6, 7, 0x01, 0x23, 0x45, 0x67, 0x89, 0xAB,
];
pub const HALF_BYTES_PIXELS: [u8; 16] = [0, 0, 2, 2, 2, 1, 2, 6, 4, 2, 3, 2, 1, 5, 7, 3];
const TWO_FILLED: &[u8] = &[0xE1, 0, 0, 6, 0x61, 5];
/// 01's example 6.
pub const LOWER_LEFT: &[u8] = &[0xE1, 0, 0, 9, 0x80, 3, 7, 0, 8];
pub const LOWER_LEFT_PIXELS: [u8; 16] = [3, 3, 3, 3, 3, 3, 3, 3, 3, 3, 3, 3, 7, 3, 3, 3];
const SKIPPED_COPIED: &[u8] = &[0xE1, 0, 0, 6, 0x00, 0x20];
/// 02's, beside example 7.
const PADDED: &[u8] = &[0xE1, 0, 0, 8, 0x00, 0, 0, 0];
const TWO_REPEATED: &[u8] = &[0xE1, 0, 0, 9, 0x60, 1, 0x60, 2, 0x40];

fn accepted_examples() -> Vec<Example> {
    let left_half_twice: Vec<u8> = (0..32)
        .map(|pixel| 100 + pixel / 8 * 8 + pixel % 4)
        .collect();
    let one_two_one_two = [1, 1, 1, 1, 2, 2, 2, 2].repeat(8);
    let settled = [SETTLED; 4];
    vec![
        accepted(1, (4, 4), HALF_BYTES, &HALF_BYTES_PIXELS, &settled[..1]),
        accepted(2, (8, 4), TWO_FILLED, &[5; 32], &settled[..2]),
        accepted(6, (4, 4), LOWER_LEFT, &LOWER_LEFT_PIXELS, &settled[..1]),
        accepted(7, (4, 4), PADDED, &lent_picture(16), &[0]),
        accepted(11, (8, 4), SKIPPED_COPIED, &left_half_twice, &[0, 0]),
        accepted(15, (16, 4), TWO_REPEATED, &one_two_one_two, &settled),
    ]
}

fn refused_examples() -> Vec<Example> {
    let fill = &[0xE1, 0, 0, 6, 0x60, 5];
    vec![
        refused(3, (4, 4), &[0xE1, 0, 0, 5, 0x20], (8, 4, 0)),
        refused(4, (4, 4), &[0xE1, 0, 0, 5, 0x01], (9, 4, 0)),
        refused(5, (4, 4), &[0xE1, 0, 0, 6, 0x90, 0], (10, 4, 0)),
        refused(7, (4, 4), &[0xE1, 0, 0, 6, 0x00, 0xAA], (11, 5, 1)),
        refused(8, (4, 4), &[0xE1, 0, 0, 4], (5, 4, 0)),
        refused(9, (4, 4), &[0xE1, 0, 0, 5, 0x10], (6, 4, 0)),
        refused(10, (4, 4), &[0xE1, 0, 0, 5, 0xF0], (7, 4, 0)),
        refused(12, (4, 4), &[], (3, 0, 0)),
        refused(12, (4, 4), &[0xE1, 0, 0, 7, 0x60, 5], (4, 0, 0)),
        refused(12, (324, 4), fill, (1, 0, 0)),
        refused(12, (4, 204), fill, (1, 0, 0)),
        refused(12, (6, 4), fill, (1, 0, 0)),
        refused(12, (0, 4), fill, (1, 0, 0)),
    ]
}

pub fn check(codec: &Codec) -> Result<(), String> {
    for example in accepted_examples().iter().chain(&refused_examples()) {
        check_chunk(codec, example)?;
    }
    check_maps(codec, (320, 200), 4_000, 0)?;
    for (width, height) in [(324, 4), (4, 204), (6, 4), (0, 4)] {
        check_maps(codec, (width, height), width * height / 16, 1)?;
    }
    check_maps(codec, (8, 4), 3, 2)?;
    check_count(
        codec,
        &map_board((16, 4), vec![SETTLED, 0, 7, SETTLED]),
        0,
        2,
    )
}

/// The board that an example is tried on: a picture in which no two neighbours are alike, and a
/// fresh map.
pub fn lent_board(size: Size) -> Board {
    let pixels = size.width * size.height;
    Board::with_true_record(size, lent_picture(pixels), fresh(pixels / 16))
}

/// The board that it leaves: the picture and map given, or else what was lent; with a true record.
pub fn left_board(lent: &Board, leaves: &Option<(Vec<u8>, Vec<u16>)>) -> Board {
    let (picture, map) = leaves
        .clone()
        .unwrap_or((lent.picture.clone(), lent.map.clone()));
    Board::with_true_record(lent.size, picture, map)
}

fn check_chunk(codec: &Codec, example: &Example) -> Result<(), String> {
    let (width, height) = example.size;
    let lent = lent_board(size(width, height));
    let left = left_board(&lent, &example.leaves);
    check_read(codec, [&lent, &left], example.chunk, example.says)
        .map_err(|why| format!("example {}, {why}", example.number))
}

/// A chunk of these opcodes, stated as long as it is.
pub fn chunk_of(opcodes: &[u8]) -> Vec<u8> {
    let mut chunk = [&[0xE1, 0, 0, 0], opcodes].concat();
    generate::state_length(&mut chunk);
    chunk
}

/// What a chunk should answer over the first board, and leave of it.
pub fn check_read(
    codec: &Codec,
    boards: [&Board; 2],
    chunk: &[u8],
    says: Said,
) -> Result<(), String> {
    let lent = boards[0].record();
    let read = |picture: &mut [u8], map: &mut [u16]| (codec.read_chunk)(lent, chunk, picture, map);
    check_call(boards, read, recorded(says, boards[1]), || {
        format!("chunk {} with {lent:?}", bytes_in_short(chunk))
    })
}

/// What a call should say that leaves this board.
pub fn recorded(says: Said, left: &Board) -> Recorded {
    Recorded {
        answer: answer(says),
        record: left.record(),
    }
}

/// The same of any call.
pub fn check_call<A: Debug + PartialEq>(
    [lent, left]: [&Board; 2],
    call: impl FnOnce(&mut [u8], &mut [u16]) -> A,
    says: A,
    name: impl FnOnce() -> String,
) -> Result<(), String> {
    let found = Outcome::of(lent, call);
    let expected = Outcome::of(left, |_, _| says);
    without(found.differences(&expected, FOUND_AND_SAID), name)
}

/// A fresh map of that size and its count, each with the given number.
fn check_maps(
    codec: &Codec,
    size: (usize, usize),
    entries: usize,
    number: u8,
) -> Result<(), String> {
    let lent = map_board(size, vec![SETTLED; entries]);
    let left = if number == 0 {
        map_board(size, fresh(entries))
    } else {
        map_board(size, vec![SETTLED; entries])
    };
    let unsettled = if number == 0 { entries } else { 0 };
    let made = Recorded {
        answer: number_alone(number),
        record: Record {
            size: lent.size,
            unsettled,
        },
    };
    let make = |_: &mut [u8], map: &mut [u16]| (codec.fresh_map)(lent.size, map);
    check_call([&lent, &left], make, made, || {
        format!("fresh map of {size:?}")
    })?;
    check_count(codec, &left, number, unsettled)
}

fn check_count(codec: &Codec, board: &Board, number: u8, unsettled: usize) -> Result<(), String> {
    let count = |_: &mut [u8], map: &mut [u16]| (codec.count)(board.size, map);
    let answer = number_alone(number);
    check_call([board; 2], count, Count { answer, unsettled }, || {
        format!("count of {:?}", board.size)
    })
}

pub const FOUND_AND_SAID: [&str; 2] = ["it has", "should have"];

pub fn without(differences: Vec<String>, name: impl FnOnce() -> String) -> Result<(), String> {
    if differences.is_empty() {
        return Ok(());
    }
    Err(format!("{}: {}", name(), differences.join("; ")))
}

fn map_board((width, height): (usize, usize), map: Vec<u16>) -> Board {
    Board::with_true_record(size(width, height), Vec::new(), map)
}

pub fn fresh(entries: usize) -> Vec<u16> {
    (0..entries as u16).collect()
}
