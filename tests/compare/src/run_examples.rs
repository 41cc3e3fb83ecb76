//! Runs made by hand, with what 02 and 01 say of them, over a fresh map.

use std::iter;

use seatboard::exact::Tally;
use seatboard::Size;

use crate::compare::Codec;
use crate::examples::{
    answer, check_call, fresh, left_board, lent_board, lent_picture, size, Said,
};
use crate::feed_examples::{COPIED, FAILING, FIVES, HALF, LISTING, NINE};
use crate::generate::{Board, SETTLED};
use crate::replay::bytes_in_short;
use crate::runs::{RunCase, BACKLOG};

const LENT: Size = size(8, 4);

/// Accepted, and changes nothing; refused with 3; refused with 8. With their lengths in front.
pub const KEPT: [u8; 6] = [5, 0xE1, 0, 0, 5, 0x01];
pub const EMPTY: [u8; 1] = [0];
pub const REFUSED: [u8; 6] = [5, 0xE1, 0, 0, 5, 0x21];

struct Example {
    case: RunCase,
    says: Said,
    accepted: usize,
    /// What the run leaves; none where it leaves what was lent.
    leaves: Option<(Vec<u8>, Vec<u16>)>,
}

/// On 8x4, as all that do not say otherwise.
fn unchanged(run: &[u8], says: Said, accepted: usize) -> Example {
    Example {
        case: RunCase {
            board: lent_board(LENT),
            run: run.to_vec(),
        },
        says,
        accepted,
        leaves: None,
    }
}

fn changed(run: &[u8], says: Said, accepted: usize, (picture, map): (&[u8], [u16; 2])) -> Example {
    Example {
        leaves: Some((picture.to_vec(), map.to_vec())),
        ..unchanged(run, says, accepted)
    }
}

/// What `FIVES` leaves, or `NINE` and `COPIED` one after the other.
const ALL_FIVE: (&[u8], [u16; 2]) = (&[5; 32], [SETTLED; 2]);
const ALL_NINE: (&[u8], [u16; 2]) = (&[9; 32], [SETTLED; 2]);

fn whole_runs() -> Vec<Example> {
    let join = |chunks: &[&[u8]]| chunks.concat();
    let block_1 = [7, 0xE1, 0, 0, 7, 0x00, 0x60, 9];
    let left_half_twice: Vec<u8> = (0..32)
        .map(|pixel| 100 + pixel / 8 * 8 + pixel % 4)
        .collect();
    let upper_half = [&[9; 16], &lent_picture(32)[16..]].concat();
    let mut upright = changed(&NINE, (0, 8, 2), 1, (&upper_half, [SETTLED, 1]));
    upright.case.board.size = size(4, 8);
    vec![
        unchanged(&[], (0, 0, 2), 0),
        changed(&FIVES, (0, 7, 2), 1, ALL_FIVE),
        changed(&LISTING[2..], (0, 19, 2), 2, ALL_FIVE),
        // The second chunk sees what the first one left; a refused one makes no difference.
        changed(&join(&[&NINE, &COPIED]), (0, 15, 2), 2, ALL_NINE),
        changed(&join(&[&REFUSED, &NINE, &COPIED]), (0, 21, 2), 2, ALL_NINE),
        changed(&join(&[&NINE, &REFUSED, &COPIED]), (0, 21, 2), 2, ALL_NINE),
        changed(&join(&[&NINE, &COPIED, &REFUSED]), (0, 21, 2), 2, ALL_NINE),
        changed(&join(&[&NINE, &EMPTY, &COPIED]), (0, 16, 2), 2, ALL_NINE),
        changed(&join(&[&EMPTY, &FIVES, &EMPTY]), (0, 9, 2), 1, ALL_FIVE),
        // Block 1 is settled by the first chunk and unsettled by the second.
        changed(
            &join(&[&block_1, &COPIED]),
            (0, 15, 2),
            2,
            (&left_half_twice, [0, 0]),
        ),
        unchanged(&EMPTY, (0, 1, 2), 0),
        unchanged(&[0, 0, 0], (0, 3, 2), 0),
        unchanged(&REFUSED, (0, 6, 2), 0),
        // Accepted without a change, it counts all the same.
        unchanged(&KEPT, (0, 6, 2), 1),
        unchanged(&join(&[&KEPT, &REFUSED, &KEPT]), (0, 18, 2), 2),
        // 4x8 has buffers of the same lengths.
        upright,
    ]
}

/// The chunk's bytes are those of the run's own length, whatever the chunk states.
fn other_lengths() -> Vec<Example> {
    vec![
        unchanged(&[7, 0xE1, 0, 0, 6, 0x61, 5, 0], (0, 8, 2), 0),
        unchanged(&[6, 0xE1, 0, 0, 9, 0x61, 5, 0, 0, 0], (0, 10, 2), 0),
    ]
}

/// That the last chunk was refused at another block does not show.
fn refused_behind() -> Vec<Example> {
    let mut eight = unchanged(&HALF, (0, 6, 8), 0);
    eight.case.board = lent_board(size(16, 8));
    vec![
        unchanged(&HALF, (0, 6, 2), 0),
        changed(&[&FIVES[..], &HALF].concat(), (0, 13, 2), 1, ALL_FIVE),
        eight,
    ]
}

/// Forty chunks on 16x8. Chunk k fills block k % 8 with colour k, but for every fifth, which is
/// refused, each in another way.
fn backlog() -> Example {
    let refusals: [&[u8]; 8] = [
        &[],
        &[0xE1, 0, 0, 4, 0x07],
        &[0xE1, 0, 0, 5, 0x06],
        &[0xE1, 0, 0, 6, 0x06, 0x60],
        &[0xE1, 0, 0, 7, 0x60, 1, 0xF6],
        &[0xE1, 0, 0, 7, 0x60, 1, 0x07],
        &[0xE1, 0, 0, 8, 0x60, 1, 0x90, 0],
        &[0xE1, 0, 0, 7, 0x67, 1, 0x01],
    ];
    let mut example = unchanged(&[], (0, 0, 2), 0);
    let mut painted = [0; 8];
    for chunk in 0..BACKLOG {
        let (block, refused) = (chunk % 8, chunk % 5 == 2);
        let bytes = if refused {
            refusals[chunk / 5].to_vec()
        } else {
            painted[block] = chunk as u8;
            example.accepted += 1;
            fill_one_of_eight(block, chunk as u8)
        };
        example.case.run.push(bytes.len() as u8);
        example.case.run.extend(bytes);
    }
    let pixels = (0..128).map(|pixel| painted[pixel / 64 * 4 + pixel % 16 / 4]);
    example.case.board = lent_board(size(16, 8));
    example.says = (0, example.case.run.len(), 8);
    example.leaves = Some((pixels.collect(), vec![SETTLED; 8]));
    example
}

/// Keeps the blocks before it and those after it.
fn fill_one_of_eight(block: usize, colour: u8) -> Vec<u8> {
    let keep = |blocks: usize| (blocks > 0).then(|| blocks as u8 - 1);
    let head = [0xE1, 0, 0, 0];
    let mut chunk: Vec<u8> = head.into_iter().chain(keep(block)).collect();
    chunk.extend([0x60, colour]);
    chunk.extend(keep(7 - block));
    chunk[3] = chunk.len() as u8;
    chunk
}

/// More than 8 and 16 bits can count, refused ones among them.
fn many_chunks() -> Vec<Example> {
    let refused_between = [&KEPT[..], &REFUSED, &FIVES].concat();
    let times = |times| refused_between.repeat(times);
    vec![
        changed(&times(128), (0, 128 * 19, 2), 256, ALL_FIVE),
        changed(&times(150), (0, 150 * 19, 2), 300, ALL_FIVE),
        changed(&times(35_000), (0, 35_000 * 19, 2), 70_000, ALL_FIVE),
    ]
}

/// At the start, after a refused chunk, after an accepted one, and after several.
fn failing_numbers() -> Vec<Example> {
    let all_places = |(number, fails): (&[u8], u8)| {
        let after = |chunks: &[&[u8]]| [&chunks.concat(), number].concat();
        [
            unchanged(number, (fails, 0, 0), 0),
            unchanged(&after(&[&REFUSED]), (fails, 6, 0), 0),
            unchanged(&after(&[&HALF]), (fails, 6, 0), 0),
            changed(&after(&[&FIVES]), (fails, 7, 0), 1, ALL_FIVE),
            changed(
                &after(&[&NINE, &REFUSED, &COPIED]),
                (fails, 21, 0),
                2,
                ALL_NINE,
            ),
        ]
    };
    FAILING.into_iter().flat_map(all_places).collect()
}

fn cut_chunks() -> Vec<Example> {
    let after_fives = |rest: &[u8]| [&FIVES, rest].concat();
    vec![
        unchanged(&[1], (13, 1, 0), 0),
        unchanged(&[0, 1], (13, 2, 0), 0),
        // What is there of it would be accepted, and so would the next one with less padding.
        unchanged(&[7, 0xE1, 0, 0, 6, 0x61, 5], (13, 1, 0), 0),
        unchanged(&[9, 0xE1, 0, 0, 9, 0x61, 5, 0, 0], (13, 1, 0), 0),
        unchanged(&[0xFF, 0xFF, 0xFF, 7], (13, 4, 0), 0),
        // In 16 bits the length would be 5.
        unchanged(&[0x85, 0x80, 4, 0xE1, 0, 0, 5, 0x01], (13, 3, 0), 0),
        changed(&after_fives(&[6, 0xE1, 0]), (13, 8, 0), 1, ALL_FIVE),
        changed(&after_fives(&[0xAC, 2, 0xE1]), (13, 9, 0), 1, ALL_FIVE),
        changed(&after_fives(&NINE[..7]), (13, 8, 0), 1, ALL_FIVE),
    ]
}

/// An accepted chunk, a refused one whose length is a number of two bytes, and an accepted one, cut
/// at every place.
fn cut_everywhere() -> Vec<Example> {
    let refused = [&[0x82, 1], &[0; 130][..]].concat();
    let run = [&NINE, &refused[..], &COPIED].concat();
    let left_half: Vec<u8> = iter::zip(0.., lent_picture(32))
        .map(|(pixel, lent)| if pixel % 8 < 4 { 9 } else { lent })
        .collect();
    let lent = (lent_picture(32), [0, 1]);
    let first = (left_half, [SETTLED, 1]);
    let example = |cut: usize| {
        let (says, accepted, left) = match cut {
            0 => ((0, 0, 2), 0, &lent),
            1..8 => ((13, 1, 0), 0, &lent),
            8 => ((0, 8, 2), 1, &first),
            9 => ((13, 8, 0), 1, &first),
            10..140 => ((13, 10, 0), 1, &first),
            140 => ((0, 140, 2), 1, &first),
            141..147 => ((13, 141, 0), 1, &first),
            _ => return changed(&run, (0, 147, 2), 2, ALL_NINE),
        };
        changed(&run[..cut], says, accepted, (&left.0, left.1))
    };
    (0..=run.len()).map(example).collect()
}

/// Number, size, and the lengths of picture and map.
pub const REFUSED_BOARDS: [(u8, Size, usize, usize); 20] = [
    (1, size(6, 4), 32, 2),
    (1, size(8, 3), 32, 2),
    (1, size(0, 4), 0, 0),
    (1, size(8, 0), 0, 0),
    (1, size(324, 4), 1_296, 81),
    (1, size(4, 204), 816, 51),
    // In 64 bits its picture would have 32 pixels.
    (1, size(8 + (1 << 62), 4), 32, 2),
    (1, size(8, usize::MAX - 3), 32, 2),
    // 1 is looked for before 2.
    (1, size(6, 4), 24, 0),
    (1, size(8, 8 + (1 << 32)), 0, 0),
    (1, size(324, 4), 32, 2),
    (2, LENT, 31, 2),
    (2, LENT, 33, 2),
    (2, LENT, 0, 2),
    (2, LENT, 32, 1),
    (2, LENT, 32, 3),
    (2, LENT, 32, 0),
    (2, LENT, 0, 0),
    (2, LENT, 16, 1),
    (2, LENT, 64, 4),
];

/// Whatever the run: one that would be accepted, none, and such as fail.
fn refused_boards() -> Vec<Example> {
    let runs: [&[u8]; 5] = [&FIVES, &[], &EMPTY, &[0x80, 0], &[9]];
    let refused = |run: &[u8], (number, size, pixels, entries)| {
        let mut example = unchanged(run, (number, 0, 0), 0);
        example.case.board = Board::with_true_record(size, lent_picture(pixels), fresh(entries));
        example
    };
    let by_each = |run: &&[u8]| REFUSED_BOARDS.map(|board| refused(run, board));
    runs.iter().flat_map(by_each).collect()
}

pub fn check(codec: &Codec) -> Result<(), String> {
    let groups = [
        whole_runs(),
        other_lengths(),
        refused_behind(),
        vec![backlog()],
        many_chunks(),
        failing_numbers(),
        cut_chunks(),
        cut_everywhere(),
        refused_boards(),
    ];
    groups
        .iter()
        .flatten()
        .try_for_each(|example| check_run(codec, example))
}

fn check_run(codec: &Codec, example: &Example) -> Result<(), String> {
    let RunCase { board, run } = &example.case;
    let left = left_board(board, &example.leaves);
    check_walk(codec, [board, &left], run, example.says, example.accepted)
}

/// What a run should tell over the first board, and leave of it.
pub fn check_walk(
    codec: &Codec,
    boards: [&Board; 2],
    run: &[u8],
    says: Said,
    accepted: usize,
) -> Result<(), String> {
    let lent = boards[0].record();
    let walk = |picture: &mut [u8], map: &mut [u16]| (codec.walk_run)(lent, run, picture, map);
    let tally = Tally {
        answer: answer(says),
        accepted,
        record: boards[1].record(),
    };
    check_call(boards, walk, tally, || {
        format!("run {} with {lent:?}", bytes_in_short(run))
    })
}
