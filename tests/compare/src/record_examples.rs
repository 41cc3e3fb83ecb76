//! Records made by hand, with what 02 says of them: chunks of which it is known how many blocks they
//! settle and unsettle, by every count that is near a bound; 21 behind all other refusals; 21 inside a
//! feed or run; and feeds whose size is not the record's.

use seatboard::Size;

use crate::block_examples::{self, keep};
use crate::compare::Codec;
use crate::examples::{check_read, chunk_of, fresh, lent_picture, size, Said};
use crate::feed_examples::{self, COPIED, FAILING, FIVES, HALF, NINE};
use crate::feeds::{self, Parts};
use crate::generate::{Board, FULL, SETTLED};
use crate::run_examples::{self, KEPT};

/// Four blocks in a line.
const FOUR: Size = size(16, 4);
const S: u16 = SETTLED;

/// A map, opcodes, the map after them, and by how much the count moves.
struct Example {
    map: [u16; 4],
    opcodes: &'static [u8],
    leaves: [u16; 4],
    moves: i128,
}

const fn example(map: [u16; 4], opcodes: &'static [u8], leaves: [u16; 4], moves: i128) -> Example {
    Example {
        map,
        opcodes,
        leaves,
        moves,
    }
}

/// All fills are of colour 5.
const EXAMPLES: [Example; 17] = [
    example([0, 1, 2, 3], &[0x03], [0, 1, 2, 3], 0),
    example([0, 1, 2, 3], &[0x63, 5], [S; 4], -4),
    example([0, 1, 2, 3], &[0x02, 0x60, 5], [0, 1, 2, S], -1),
    example([0, 1, 2, 3], &[0x00, 0x22], [0; 4], 0),
    example([S; 4], &[0x03], [S; 4], 0),
    // Settled once more, or by a copy of what is settled: not newly.
    example([S; 4], &[0x63, 5], [S; 4], 0),
    example([S; 4], &[0x00, 0x22], [S; 4], 0),
    // A copy of an unsettled block unsettles; several of one.
    example([0, S, 2, S], &[0x00, 0x20, 0x01], [0, 0, 2, S], 1),
    example([0, S, S, S], &[0x00, 0x22], [0; 4], 3),
    example([7, 8, S, S], &[0x01, 0x40], [7, 8, 7, 8], 2),
    // A copy of a settled block settles.
    example([0, S, 2, S], &[0x01, 0x20, 0x00], [0, S, S, S], -1),
    example([S, 1, 2, 3], &[0x00, 0x22], [S; 4], -3),
    // Both ways in one chunk.
    example([0, S, 2, S], &[0x60, 5, 0x01, 0x20], [S, S, 2, 2], 0),
    example([S, 1, S, 3], &[0x01, 0x20, 0x60, 5], [S, 1, 1, S], 0),
    example([S, S, S, 9], &[0x60, 5, 0x01, 0x20], [S; 4], -1),
    // What a block was in between does not count.
    example([0, S, S, 3], &[0x60, 5, 0x22], [S; 4], -2),
    // Entries that name no block are unsettled as well.
    example(
        [65_534, S, S, 0],
        &[0x00, 0x21, 0x00],
        [65_534, 65_534, 65_534, 0],
        2,
    ),
];

/// About 0, about the number of blocks and twice that, those that fewer bits would take for small ones,
/// and the greatest.
const COUNTS: [usize; 21] = [
    0,
    1,
    2,
    3,
    4,
    5,
    6,
    7,
    8,
    9,
    256,
    260,
    65_535,
    65_536,
    65_540,
    1 << 32,
    1 << 63,
    usize::MAX - 4,
    usize::MAX - 2,
    usize::MAX - 1,
    usize::MAX,
];

/// The same for 4,000 blocks.
const LARGE_COUNTS: [usize; 11] = [
    0,
    1,
    3_999,
    4_000,
    4_001,
    7_999,
    8_000,
    8_001,
    69_536,
    usize::MAX - 1,
    usize::MAX,
];

fn board(size: Size, unsettled: usize, picture: Vec<u8>, map: &[u16]) -> Board {
    Board {
        size,
        unsettled,
        picture,
        map: map.to_vec(),
    }
}

/// What a chunk makes of a map, and by how much it moves the count.
struct Moves<'a> {
    size: Size,
    chunk: Vec<u8>,
    maps: [&'a [u16]; 2],
    moves: i128,
}

impl Moves<'_> {
    /// Read by this count, and walked alone in a run and in a feed. Where the chunk is accepted the
    /// picture is of colour 5, so that it leaves it; where it is not, no two neighbours are alike.
    fn check(&self, codec: &Codec, lent: usize) -> Result<(), String> {
        let Moves {
            size, ref chunk, ..
        } = *self;
        let left = usize::try_from(lent as i128 + self.moves);
        let left = left.ok().filter(|left| *left <= size.blocks());
        let (says, boards) = match left {
            Some(left) => {
                let of_fives = |count, map| board(size, count, vec![5; size.pixels()], map);
                let boards = [of_fives(lent, self.maps[0]), of_fives(left, self.maps[1])];
                ((0, chunk.len(), size.blocks()), boards)
            }
            None => {
                let lent = || board(size, lent, lent_picture(size.pixels()), self.maps[0]);
                ((21, 0, 0), [lent(), lent()])
            }
        };
        let boards = [&boards[0], &boards[1]];
        check_read(codec, boards, chunk, says)?;
        let accepted = usize::from(left.is_some());
        let run = Parts::run(vec![chunk.clone()]).bytes();
        check_walks(codec, boards, &run, (&[], 0), accepted)
    }
}

fn check_counts(codec: &Codec, example: &Example) -> Result<(), String> {
    let moves = Moves {
        size: FOUR,
        chunk: chunk_of(example.opcodes),
        maps: [&example.map, &example.leaves],
        moves: example.moves,
    };
    let mut counts = COUNTS.into_iter();
    counts.try_for_each(|lent| moves.check(codec, lent))
}

/// On the largest board: all blocks settled, and the last one alone unsettled.
fn check_largest(codec: &Codec) -> Result<(), String> {
    let (all, settled) = (fresh(4_000), vec![S; 4_000]);
    let [mut one, mut two] = [&settled, &settled].map(Clone::clone);
    one[3_998] = 7;
    two[3_998..].fill(7);
    let fill = [&[0x70, 255, 5].repeat(15)[..], &[0x70, 159, 5]].concat();
    let copy = [&keep(3_999)[..], &[0x20]].concat();
    let examples = [([&all, &settled], fill, -4_000), ([&one, &two], copy, 1)];
    for (maps, opcodes, moves) in examples {
        let moves = Moves {
            size: FULL,
            chunk: chunk_of(&opcodes),
            maps: maps.map(|map| &map[..]),
            moves,
        };
        let mut counts = LARGE_COUNTS.into_iter();
        counts.try_for_each(|lent| moves.check(codec, lent))?;
    }
    Ok(())
}

/// Chunks as a run, and as the feed that it makes behind its size numbers; then something that fails,
/// or nothing.
fn check_walks(
    codec: &Codec,
    boards: [&Board; 2],
    chunks: &[u8],
    (end, fails): (&[u8], u8),
    accepted: usize,
) -> Result<(), String> {
    let numbers = feeds::size_numbers(boards[0].size).expect("an allowed size");
    let block = if fails == 0 { boards[0].map.len() } else { 0 };
    let run = [chunks, end].concat();
    let feed = [&numbers, &run[..]].concat();
    let says = |length: usize| (fails, length - end.len(), block);
    run_examples::check_walk(codec, boards, &run, says(run.len()), accepted)?;
    feed_examples::check_walk(codec, boards, &feed, says(feed.len()))
}

/// 21 is the last of all checks: whatever the count, what else is refused is refused as ever.
fn check_order(codec: &Codec) -> Result<(), String> {
    let counts = [0, 1, usize::MAX];
    for example in block_examples::all() {
        let blocks = example.size.blocks();
        for count in counts.into_iter().chain([blocks + 1]) {
            let picture = lent_picture(example.size.pixels());
            let lent = board(example.size, count, picture, &fresh(blocks));
            check_read(codec, [&lent; 2], &chunk_of(&example.opcodes), example.says)?;
        }
    }
    let short: [(&[u8], u8); 3] = [(&[], 3), (&[0xE1, 0, 0], 3), (&[0xE1, 0, 0, 6, 0x03], 4)];
    let boards = [(1, size(6, 4), 24, 1), (2, FOUR, 63, 4), (2, FOUR, 64, 5)];
    for count in counts {
        let lent = board(FOUR, count, lent_picture(64), &fresh(4));
        for (chunk, number) in short {
            check_read(codec, [&lent; 2], chunk, (number, 0, 0))?;
        }
        for (number, size, pixels, entries) in boards {
            let lent = board(size, count, lent_picture(pixels), &fresh(entries));
            check_read(codec, [&lent; 2], &[0xE1, 0, 0, 5, 0x03], (number, 0, 0))?;
            run_examples::check_walk(codec, [&lent; 2], &FIVES, (number, 0, 0), 0)?;
        }
    }
    Ok(())
}

/// Chunks one after the other on 8x4, from a fresh map, by a count: how many are accepted, the colour of
/// the left and of the right half if they are painted, the map and the count at the end.
type Row = (
    usize,
    &'static [&'static [u8]],
    usize,
    [Option<u8>; 2],
    [u16; 2],
    usize,
);

#[rustfmt::skip]
const ROWS: [Row; 10] = [
    // 21 first, in the middle and last, and the walk goes on over what was there.
    (1, &[&FIVES, &NINE], 1, [Some(9), None], [S, 1], 0),
    (1, &[&KEPT, &FIVES, &KEPT], 2, [None, None], [0, 1], 1),
    (1, &[&NINE, &FIVES], 1, [Some(9), None], [S, 1], 0),
    (1, &[&FIVES, &NINE, &COPIED, &HALF, &KEPT, &FIVES], 2, [Some(9), None], [S, 1], 0),
    // Above the number of blocks until enough is settled.
    (3, &[&KEPT, &NINE, &KEPT, &FIVES], 3, [Some(5), Some(5)], [S, S], 1),
    (4, &[&NINE, &FIVES, &NINE], 2, [Some(9), Some(5)], [S, S], 2),
    (5, &[&NINE, &FIVES, &KEPT], 0, [None, None], [0, 1], 5),
    (usize::MAX, &[&FIVES, &NINE, &COPIED], 0, [None, None], [0, 1], usize::MAX),
    // Below 0 for all that settles.
    (0, &[&FIVES, &NINE, &KEPT, &FIVES], 1, [None, None], [0, 1], 0),
    // True.
    (2, &[&NINE, &COPIED, &FIVES], 3, [Some(5), Some(5)], [S, S], 0),
];

/// As they stand, and before each number that fails.
fn check_walked(codec: &Codec, row: Row) -> Result<(), String> {
    let (count, chunks, accepted, halves, map, left) = row;
    let lent_size = size(8, 4);
    let picture = lent_picture(32);
    let painted = picture.iter().enumerate();
    let painted = painted.map(|(pixel, lent)| halves[pixel % 8 / 4].unwrap_or(*lent));
    let left = board(lent_size, left, painted.collect(), &map);
    let lent = board(lent_size, count, picture, &[0, 1]);
    let mut ends = FAILING.into_iter().chain([(&[][..], 0)]);
    ends.try_for_each(|end| check_walks(codec, [&lent, &left], &chunks.concat(), end, accepted))
}

/// The record's size, the feed's numbers, and what is said where buffers are those of 8x4.
#[rustfmt::skip]
const SIZES: [(Size, &[u8], Said); 22] = [
    (size(8, 4), &[2, 1], (0, 9, 2)),
    // Another that is allowed, with buffers of the same lengths or not.
    (size(8, 4), &[1, 2], (2, 0, 0)),
    (size(4, 8), &[2, 1], (2, 0, 0)),
    (size(8, 4), &[2, 2], (2, 0, 0)),
    (size(8, 8), &[2, 1], (2, 0, 0)),
    (size(8, 8), &[2, 2], (2, 0, 0)),
    (size(4, 4), &[2, 1], (2, 0, 0)),
    // A record's that is not.
    (size(6, 4), &[2, 1], (2, 0, 0)),
    (size(8, 5), &[2, 1], (2, 0, 0)),
    (size(0, 0), &[2, 1], (2, 0, 0)),
    (size(8, 204), &[2, 1], (2, 0, 0)),
    (size(8 + (1 << 62), 4), &[2, 1], (2, 0, 0)),
    (size(8, 4 + (1 << 32)), &[2, 1], (2, 0, 0)),
    (size(usize::MAX, usize::MAX), &[2, 1], (2, 0, 0)),
    // A feed's that is not goes first, whatever the record's.
    (size(8, 4), &[0, 1], (1, 0, 0)),
    (size(8, 4), &[81, 1], (1, 0, 0)),
    (size(324, 4), &[81, 1], (1, 0, 0)),
    (size(0, 0), &[0, 0], (1, 0, 0)),
    (size(6, 4), &[1, 51], (1, 0, 0)),
    // And the numbers before both.
    (size(6, 4), &[0x80, 0], (12, 0, 0)),
    (size(6, 4), &[2, 0x80, 0], (12, 1, 0)),
    (size(0, 0), &[2, 0xFF, 0xFF, 0xFF, 0xFF], (12, 1, 0)),
];

fn check_sizes(codec: &Codec) -> Result<(), String> {
    for (size, numbers, says) in SIZES {
        let feed = [numbers, &FIVES].concat();
        for count in [2, 3, usize::MAX] {
            let lent = board(size, count, lent_picture(32), &[0, 1]);
            let accepted = says.0 == 0 && count < usize::MAX;
            let left = if accepted {
                board(size, count - 2, vec![5; 32], &[S, S])
            } else {
                board(size, count, lent_picture(32), &[0, 1])
            };
            feed_examples::check_walk(codec, [&lent, &left], &feed, says)?;
        }
        // Cut off in its numbers.
        let lent = board(size, 9, lent_picture(32), &[0, 1]);
        feed_examples::check_walk(codec, [&lent; 2], &[], (13, 0, 0))?;
        feed_examples::check_walk(codec, [&lent; 2], &[2], (13, 1, 0))?;
    }
    Ok(())
}

pub fn check(codec: &Codec) -> Result<(), String> {
    let mut examples = EXAMPLES.iter();
    examples.try_for_each(|example| check_counts(codec, example))?;
    check_largest(codec)?;
    check_order(codec)?;
    ROWS.into_iter()
        .try_for_each(|row| check_walked(codec, row))?;
    check_sizes(codec)
}
