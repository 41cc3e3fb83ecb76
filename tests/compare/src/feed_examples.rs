//! Feeds made by hand, with what 01 says of them; the first is the one whose listing 01 gives.
//! All are walked over a fresh map and its record, and all but three over an 8x4 board.

use seatboard::Size;

use crate::compare::Codec;
use crate::examples::{check_call, left_board, lent_board, lent_picture, recorded, Said};
use crate::generate::{Board, FULL, SETTLED};
use crate::replay::bytes_in_short;

const LENT: Size = Size {
    width: 8,
    height: 4,
};
const EIGHT: Size = Size {
    width: 16,
    height: 8,
};
/// With buffers of the same lengths as on 8x4.
const UPRIGHT: Size = Size {
    width: 4,
    height: 8,
};

struct Example {
    size: Size,
    feed: Vec<u8>,
    says: Said,
    /// What the walk leaves; none where it leaves what was lent.
    leaves: Option<(Vec<u8>, Vec<u16>)>,
}

fn unchanged(feed: &[u8], says: Said) -> Example {
    Example {
        size: LENT,
        feed: feed.to_vec(),
        says,
        leaves: None,
    }
}

fn changed(feed: &[u8], says: Said, picture: &[u8], map: [u16; 2]) -> Example {
    Example {
        size: LENT,
        feed: feed.to_vec(),
        says,
        leaves: Some((picture.to_vec(), map.to_vec())),
    }
}

#[rustfmt::skip]
pub const LISTING: &[u8] = &[
    2, 1,
    6, 0xE1, 0, 0, 6, 0x00, 0x20,
    4, 0xE1, 0, 0, 4,
    6, 0xE1, 0, 0, 6, 0x61, 5,
];

/// Both blocks of colour 5, with the length in front.
pub const FIVES: [u8; 7] = [6, 0xE1, 0, 0, 6, 0x61, 5];
/// Block 0 filled with 9, and block 0 copied to block 1, with their lengths in front.
pub const NINE: [u8; 8] = [7, 0xE1, 0, 0, 7, 0x60, 9, 0x00];
pub const COPIED: [u8; 7] = [6, 0xE1, 0, 0, 6, 0x00, 0x20];
/// Refused with 5 at block 1, with its length in front.
pub const HALF: [u8; 6] = [5, 0xE1, 0, 0, 5, 0x00];

fn whole_feeds() -> Vec<Example> {
    let full = Example {
        size: FULL,
        ..unchanged(&[80, 50], (0, 2, 4_000))
    };
    let eight = Example {
        size: EIGHT,
        ..unchanged(&[&[4, 2], &HALF[..]].concat(), (0, 8, 8))
    };
    let then_refused = [&[2, 1], &FIVES[..], &HALF].concat();
    // The second chunk sees what the first one left.
    let one_after_other = [&[2, 1], &NINE[..], &COPIED].concat();
    // A length of 300, AC 02, whose chunk states 0 and is refused.
    let three_hundred = [&[2, 1, 0xAC, 2], &[0; 300][..], &FIVES].concat();
    // On 4x8 block 0 is the first sixteen pixels.
    let upper_half = [&[5; 16], &lent_picture(32)[16..]].concat();
    let upright = [1, 2, 7, 0xE1, 0, 0, 7, 0x60, 5, 0x00];
    let upright = Example {
        size: UPRIGHT,
        ..changed(&upright, (0, 10, 2), &upper_half, [SETTLED, 1])
    };
    let settled = [SETTLED; 2];
    vec![
        changed(LISTING, (0, 21, 2), &[5; 32], settled),
        full,
        unchanged(&[2, 1], (0, 2, 2)),
        unchanged(&[2, 1, 0], (0, 3, 2)),
        unchanged(&[2, 1, 0, 0], (0, 4, 2)),
        // The chunk's bytes are those of the feed's own length, whatever the chunk states.
        unchanged(&[2, 1, 7, 0xE1, 0, 0, 6, 0x61, 5, 0], (0, 10, 2)),
        unchanged(&[2, 1, 6, 0xE1, 0, 0, 9, 0x61, 5, 0, 0, 0], (0, 12, 2)),
        changed(&one_after_other, (0, 17, 2), &[9; 32], settled),
        changed(&three_hundred, (0, 311, 2), &[5; 32], settled),
        upright,
        // That the last chunk was refused at another block does not show.
        unchanged(&[&[2, 1], &HALF[..]].concat(), (0, 8, 2)),
        changed(&then_refused, (0, 15, 2), &[5; 32], settled),
        eight,
    ]
}

/// Numbers at the end of a feed or run, and how they fail.
pub const FAILING: [(&[u8], u8); 11] = [
    (&[0x80, 0x80, 0x80, 0x80], 12),
    (&[0x80, 0x80, 0x80, 0x80, 0], 12),
    (&[0x81, 0x80, 0x80, 0x80, 0x80, 0], 12),
    (&[0x80, 0x80, 0x80], 13),
    (&[0x80, 0x80], 13),
    (&[0xFF], 13),
    (&[0x80, 0], 12),
    (&[0x81, 0x80, 0], 12),
    (&[0x81, 0x80, 0x80, 0], 12),
    (&[0x80, 0x80, 0x80, 8], 12),
    (&[0xFF, 0xFF, 0xFF, 0x7F], 12),
];

/// The same number at each of the three places, where it fails in the same way, and after a chunk.
fn failing_numbers() -> Vec<Example> {
    let all_places = |(number, fails): (&[u8], u8)| {
        let after_chunk = [&[2, 1], &FIVES[..], number].concat();
        let after_refused = [&[2, 1], &HALF[..], number].concat();
        [
            unchanged(number, (fails, 0, 0)),
            unchanged(&[&[2], number].concat(), (fails, 1, 0)),
            unchanged(&[&[2, 1], number].concat(), (fails, 2, 0)),
            changed(&after_chunk, (fails, 9, 0), &[5; 32], [SETTLED; 2]),
            unchanged(&after_refused, (fails, 8, 0)),
        ]
    };
    let mut examples: Vec<Example> = FAILING.into_iter().flat_map(all_places).collect();
    examples.push(unchanged(&[], (13, 0, 0)));
    examples.push(unchanged(&[2], (13, 1, 0)));
    examples
}

fn sizes_and_orders() -> Vec<Example> {
    let upright = [&[1, 2], &FIVES[..]].concat();
    vec![
        unchanged(&[0, 1], (1, 0, 0)),
        unchanged(&[2, 0], (1, 0, 0)),
        unchanged(&[81, 1], (1, 0, 0)),
        unchanged(&[1, 51], (1, 0, 0)),
        unchanged(&[0xFF, 0xFF, 0xFF, 7, 1], (1, 0, 0)),
        unchanged(&[2, 0xFF, 0xFF, 0xFF, 7], (1, 0, 0)),
        unchanged(&[2, 2], (2, 0, 0)),
        unchanged(&[1, 1], (2, 0, 0)),
        // 02: not the record's, although the buffers would fit.
        unchanged(&upright, (2, 0, 0)),
        unchanged(&[1, 2], (2, 0, 0)),
        unchanged(&[1, 2, 0x80, 0], (2, 0, 0)),
        // Both size numbers are read before the size is checked.
        unchanged(&[0, 0x80], (13, 1, 0)),
        unchanged(&[0x80, 1, 0x80], (13, 2, 0)),
        unchanged(&[0x80, 1, 0x80, 0], (12, 2, 0)),
        // 1 and 2 end the walk before a length is looked at.
        unchanged(&[81, 1, 0x80, 0], (1, 0, 0)),
        unchanged(&[2, 2, 0x80, 0], (2, 0, 0)),
        unchanged(&[2, 2, 9], (2, 0, 0)),
    ]
}

fn cut_chunks() -> Vec<Example> {
    let after_chunk = [&[2, 1], &FIVES[..], &[6, 0xE1, 0]].concat();
    vec![
        unchanged(&[2, 1, 5], (13, 3, 0)),
        unchanged(&[2, 1, 5, 0xE1, 0, 0, 5], (13, 3, 0)),
        unchanged(&[2, 1, 9, 0xE1, 0, 0, 9, 0x61, 5, 0, 0], (13, 3, 0)),
        unchanged(&[2, 1, 0xAC, 2, 0xE1], (13, 4, 0)),
        unchanged(&[2, 1, 0xFF, 0xFF, 0xFF, 7], (13, 6, 0)),
        unchanged(&[2, 1, 0, 5], (13, 4, 0)),
        changed(&after_chunk, (13, 10, 0), &[5; 32], [SETTLED; 2]),
    ]
}

pub fn check(codec: &Codec) -> Result<(), String> {
    let groups = [
        whole_feeds(),
        failing_numbers(),
        sizes_and_orders(),
        cut_chunks(),
    ];
    groups
        .iter()
        .flatten()
        .try_for_each(|example| check_feed(codec, example))
}

fn check_feed(codec: &Codec, example: &Example) -> Result<(), String> {
    let lent = lent_board(example.size);
    let left = left_board(&lent, &example.leaves);
    check_walk(codec, [&lent, &left], &example.feed, example.says)
}

/// What a feed should answer over the first board, and leave of it.
pub fn check_walk(
    codec: &Codec,
    boards: [&Board; 2],
    feed: &[u8],
    says: Said,
) -> Result<(), String> {
    let lent = boards[0].record();
    let walk = |picture: &mut [u8], map: &mut [u16]| (codec.walk_feed)(lent, feed, picture, map);
    check_call(boards, walk, recorded(says, boards[1]), || {
        format!("feed {} with {lent:?}", bytes_in_short(feed))
    })
}
