//! Feed sizes and single steps made by hand, with what 01 says of them; steps are taken over a fresh map.

use seatboard::exact::{FeedSize, Step};
use seatboard::Size;

use crate::compare::Codec;
use crate::examples::{
    answer, check_call, fresh, left_board, lent_board, lent_picture, number_alone, size, Said,
};
use crate::feed_examples::{COPIED, FAILING, FIVES, HALF, LISTING, NINE};
use crate::generate::{Board, SETTLED};
use crate::replay::bytes_in_short;
use crate::run_examples::{EMPTY, KEPT, REFUSED, REFUSED_BOARDS};

const LENT: Size = size(8, 4);

/// Past every feed here; 32 bits would take the last two for the first byte.
const FAR: [usize; 4] = [usize::MAX, usize::MAX - 1, 1 << 32, 1 << 63];

pub fn check(codec: &Codec) -> Result<(), String> {
    check_sizes(codec)?;
    check_failing_sizes(codec)?;
    let groups = [
        listed(),
        read_chunks(),
        failing_numbers(),
        ends(),
        refused_boards(),
    ];
    groups
        .iter()
        .flatten()
        .try_for_each(|example| check_step(codec, example))
}

/// Every size of up to 255 by 255 blocks, in shortest form, whatever follows.
fn check_sizes(codec: &Codec) -> Result<(), String> {
    let number = |blocks: usize| match blocks {
        0..128 => vec![blocks as u8],
        _ => vec![blocks as u8 | 0x80, 1],
    };
    for (across, down) in (0..256).flat_map(|across| (0..256).map(move |down| (across, down))) {
        let more = [&[][..], &[0], &[0x80, 0], &[9]][down % 4];
        let feed = [&number(across), &number(down), more].concat();
        let says = match (across, down) {
            (1..=80, 1..=50) => FeedSize {
                answer: number_alone(0),
                size: size(4 * across, 4 * down),
                first: 2,
            },
            _ => refused_size((1, 0, 0)),
        };
        check_size(codec, &feed, says)?;
    }
    Ok(())
}

/// Numbers that fail at either place, the first even where the second is not allowed, and sizes that
/// only the lower bits would allow.
fn check_failing_sizes(codec: &Codec) -> Result<(), String> {
    for (number, fails) in FAILING {
        check_size(codec, number, refused_size((fails, 0, 0)))?;
        for first in [&[0][..], &[2], &[81], &[0x80, 1]] {
            let place = first.len();
            let feed = [first, number].concat();
            check_size(codec, &feed, refused_size((fails, place, 0)))?;
        }
    }
    for (feed, says) in [
        (&[][..], (13, 0, 0)),
        (&[2], (13, 1, 0)),
        (&[81], (13, 1, 0)),
        (&[0x82, 2, 1], (1, 0, 0)),
        (&[0x82, 0x80, 2, 1], (1, 0, 0)),
        (&[2, 0x81, 0x80, 0x80, 2], (1, 0, 0)),
        (&[0xFF, 0xFF, 0xFF, 7, 0xFF, 0xFF, 0xFF, 7], (1, 0, 0)),
    ] {
        check_size(codec, feed, refused_size(says))?;
    }
    Ok(())
}

fn refused_size(says: Said) -> FeedSize {
    FeedSize {
        answer: answer(says),
        size: size(0, 0),
        first: 0,
    }
}

fn check_size(codec: &Codec, feed: &[u8], says: FeedSize) -> Result<(), String> {
    let found = (codec.feed_size)(feed);
    if found == says {
        return Ok(());
    }
    Err(format!(
        "feed {feed:02X?}: it has {found:?}, should have {says:?}"
    ))
}

struct Example {
    board: Board,
    bytes: Vec<u8>,
    at: usize,
    says: Said,
    /// Where to go on, if a chunk was read.
    next: Option<usize>,
    /// What the step leaves; none where it leaves what was lent.
    leaves: Option<(Vec<u8>, Vec<u16>)>,
}

/// On 8x4, as all that do not say otherwise.
fn no_chunk(bytes: &[u8], at: usize, says: Said) -> Example {
    Example {
        board: lent_board(LENT),
        bytes: bytes.to_vec(),
        at,
        says,
        next: None,
        leaves: None,
    }
}

fn refused(bytes: &[u8], at: usize, says: Said, next: usize) -> Example {
    Example {
        next: Some(next),
        ..no_chunk(bytes, at, says)
    }
}

fn accepted(
    bytes: &[u8],
    at: usize,
    says: Said,
    next: usize,
    (picture, map): (&[u8], [u16; 2]),
) -> Example {
    Example {
        leaves: Some((picture.to_vec(), map.to_vec())),
        ..refused(bytes, at, says, next)
    }
}

/// What `FIVES` leaves, and `COPIED`.
const ALL_FIVE: (&[u8], [u16; 2]) = (&[5; 32], [SETTLED; 2]);

fn left_half_twice() -> Vec<u8> {
    (0..32)
        .map(|pixel| 100 + pixel / 8 * 8 + pixel % 4)
        .collect()
}

/// The feed whose listing 01 gives, from each place where a length stands, and from its size numbers,
/// which a step takes for lengths.
fn listed() -> Vec<Example> {
    let copied = left_half_twice();
    vec![
        accepted(LISTING, 2, (0, 6, 2), 9, (&copied, [0, 0])),
        refused(LISTING, 9, (5, 4, 0), 14),
        accepted(LISTING, 14, (0, 6, 2), 21, ALL_FIVE),
        no_chunk(LISTING, 21, (0, 21, 2)),
        refused(LISTING, 0, (3, 0, 0), 3),
        refused(LISTING, 1, (3, 0, 0), 3),
        no_chunk(LISTING, 20, (13, 21, 0)),
    ]
}

/// One chunk is read and no other, by the length in front of it, whatever it states.
fn read_chunks() -> Vec<Example> {
    let join = |chunks: &[&[u8]]| chunks.concat();
    let lent = lent_picture(32);
    // 300 is AC 02; the chunk states 0.
    let three_hundred = join(&[&[0xAC, 2], &[0; 300], &FIVES]);
    let mut untrue = refused(&join(&[&KEPT, &FIVES]), 0, (21, 0, 0), 6);
    untrue.board.unsettled = 3;
    let mut eight = refused(&join(&[&EMPTY, &HALF]), 1, (5, 5, 1), 7);
    eight.board = lent_board(size(16, 8));
    // Eight blocks of sixteen colours each, which are all 9.
    let sixteens = [&[0x85, 1, 0xE1, 0, 0, 133, 0xE7], &[9; 128][..], &EMPTY].concat();
    let mut two_groups = refused(&sixteens, 0, (0, 133, 8), 135);
    two_groups.board = lent_board(size(16, 8));
    two_groups.leaves = Some((vec![9; 128], vec![SETTLED; 8]));
    // The feed's own size is not looked at.
    let mut upright = accepted(&join(&[&[2, 1], &FIVES]), 2, (0, 6, 2), 9, ALL_FIVE);
    upright.board.size = size(4, 8);
    vec![
        accepted(&FIVES, 0, (0, 6, 2), 7, ALL_FIVE),
        accepted(&join(&[&FIVES, &NINE]), 0, (0, 6, 2), 7, ALL_FIVE),
        accepted(
            &join(&[&NINE, &FIVES, &REFUSED]),
            8,
            (0, 6, 2),
            15,
            ALL_FIVE,
        ),
        accepted(&join(&[&FIVES, &[0x80, 0]]), 0, (0, 6, 2), 7, ALL_FIVE),
        accepted(&KEPT, 0, (0, 5, 2), 6, (&lent, [0, 1])),
        refused(&EMPTY, 0, (3, 0, 0), 1),
        refused(&[0, 0, 0], 1, (3, 0, 0), 2),
        refused(&join(&[&REFUSED, &FIVES]), 0, (8, 4, 0), 6),
        refused(&HALF, 0, (5, 5, 1), 6),
        refused(&[7, 0xE1, 0, 0, 6, 0x61, 5, 0], 0, (4, 0, 0), 8),
        refused(&[6, 0xE1, 0, 0, 9, 0x61, 5, 0, 0, 0], 0, (4, 0, 0), 7),
        refused(&three_hundred, 0, (4, 0, 0), 302),
        accepted(&three_hundred, 302, (0, 6, 2), 309, ALL_FIVE),
        untrue,
        eight,
        two_groups,
        upright,
    ]
}

/// At the start, and behind a chunk, which a step does not read again.
fn failing_numbers() -> Vec<Example> {
    let both_places = |(number, fails): (&[u8], u8)| {
        let behind = [&FIVES, number].concat();
        [
            no_chunk(number, 0, (fails, 0, 0)),
            no_chunk(&behind, 7, (fails, 7, 0)),
        ]
    };
    let mut examples: Vec<Example> = FAILING.into_iter().flat_map(both_places).collect();
    examples.extend([
        no_chunk(&[1], 0, (13, 1, 0)),
        no_chunk(&[0, 1], 1, (13, 2, 0)),
        no_chunk(&[0xFF, 0xFF, 0xFF, 7], 0, (13, 4, 0)),
        no_chunk(&[0xAC, 2, 0xE1], 0, (13, 2, 0)),
        no_chunk(&[7, 0xE1, 0, 0, 6, 0x61, 5], 0, (13, 1, 0)),
        // In 16 bits the length would be 5.
        no_chunk(&[0x85, 0x80, 4, 0xE1, 0, 0, 5, 0x01], 0, (13, 3, 0)),
    ]);
    examples
}

/// At the end and past it.
fn ends() -> Vec<Example> {
    let past = |bytes: &[u8]| {
        let length = bytes.len();
        let near = [length, length + 1, length + 7];
        let places = near.into_iter().chain(FAR);
        let example = |at| no_chunk(bytes, at, (0, length, 2));
        places.map(example).collect::<Vec<_>>()
    };
    let runs: [&[u8]; 6] = [&[], &EMPTY, &FIVES, &COPIED, &[0x80], LISTING];
    runs.into_iter().flat_map(past).collect()
}

/// Whatever stands there.
fn refused_boards() -> Vec<Example> {
    let places: [(&[u8], usize); 6] = [
        (&FIVES, 0),
        (&FIVES, 7),
        (&FIVES, usize::MAX),
        (&[], 0),
        (&[0x80, 0], 0),
        (&[9], 0),
    ];
    let refused = |(bytes, at), (number, size, pixels, entries)| Example {
        board: Board::with_true_record(size, lent_picture(pixels), fresh(entries)),
        ..no_chunk(bytes, at, (number, 0, 0))
    };
    let by_each = |place: (&'static [u8], usize)| REFUSED_BOARDS.map(|board| refused(place, board));
    places.into_iter().flat_map(by_each).collect()
}

fn check_step(codec: &Codec, example: &Example) -> Result<(), String> {
    let Example {
        board, bytes, at, ..
    } = example;
    let mut left = left_board(board, &example.leaves);
    // What changes nothing leaves the count that was lent, true or not.
    if example.leaves.is_none() {
        left.unsettled = board.unsettled;
    }
    let step = |picture: &mut [u8], map: &mut [u16]| {
        (codec.walk_step)(board.record(), bytes, *at, picture, map)
    };
    let says = Step {
        answer: answer(example.says),
        record: left.record(),
        chunk: example.next.is_some(),
        next: example.next.unwrap_or(*at),
    };
    check_call([board, &left], step, says, || {
        let lent = board.record();
        format!("step at {at} of {} with {lent:?}", bytes_in_short(bytes))
    })
}
