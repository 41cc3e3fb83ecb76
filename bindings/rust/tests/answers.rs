//! Every refusal through the wrapper: its reason, number, place and block, and the buffers and the
//! record as they were.

use seatboard::{exact, Accepted, Board, Reason, Record, Refused, Size, Step};

const SIZE: Size = Size {
    width: 8,
    height: 4,
};
const LONE: Size = Size {
    width: 4,
    height: 4,
};
const WRONG: Size = Size {
    width: 6,
    height: 4,
};
const EIGHT: Size = Size {
    width: 16,
    height: 8,
};

const NOWHERE: exact::Answer = exact::Answer {
    number: 0,
    place: 0,
    block: 0,
};

const fn record(size: Size, unsettled: usize) -> Record {
    Record { size, unsettled }
}

/// That of a fresh map.
const fn fresh(size: Size) -> Record {
    record(size, size.blocks())
}

/// Reason, place and block.
fn refused<T>(answer: Result<T, Refused>) -> (Reason, usize, usize) {
    let refused = answer.err().expect("refused");
    (refused.reason, refused.place, refused.block)
}

/// Length and block, of what was accepted.
fn accepted(answer: Result<Accepted, Refused>) -> (usize, usize) {
    let accepted = answer.expect("accepted");
    (accepted.length, accepted.block)
}

/// Reads over a picture of zeros and a fresh map, which must stay so, with its record, or with one that
/// is untrue to it: 21 is looked for last.
fn read_refused(size: Size, chunk: &[u8]) -> (Reason, usize, usize) {
    let answers = [size.blocks(), usize::MAX].map(|unsettled| {
        let mut picture = vec![0; size.pixels()];
        let mut map: Vec<u16> = (0..size.blocks() as u16).collect();
        let mut record = record(size, unsettled);
        let before = (picture.clone(), map.clone(), record);
        let read = seatboard::read_chunk(&mut record, chunk, &mut picture, &mut map);
        assert_eq!((picture, map, record), before);
        refused(read)
    });
    assert_eq!(answers[0], answers[1]);
    answers[0]
}

#[test]
fn chunks_are_refused_by_their_numbers() {
    let cases: [(&[u8], Reason, usize, usize); 9] = [
        (&[], Reason::ChunkShort, 0, 0),
        (&[0xE1, 0, 0, 7, 0x60, 5], Reason::LengthDiffers, 0, 0),
        (&[0xE1, 0, 0, 4], Reason::BlocksRemain, 4, 0),
        (&[0xE1, 0, 0, 5, 0x10], Reason::OpcodeCut, 4, 0),
        (&[0xE1, 0, 0, 5, 0xF0], Reason::OpcodeUnknown, 4, 0),
        (&[0xE1, 0, 0, 5, 0x20], Reason::NoneBefore, 4, 0),
        (&[0xE1, 0, 0, 5, 0x01], Reason::PastLastBlock, 4, 0),
        (&[0xE1, 0, 0, 6, 0x90, 0], Reason::EntryEmpty, 4, 0),
        (&[0xE1, 0, 0, 6, 0x00, 0xAA], Reason::BytesFollow, 5, 1),
    ];
    for (chunk, reason, place, block) in cases {
        assert_eq!(read_refused(LONE, chunk), (reason, place, block));
    }
    assert_eq!(read_refused(WRONG, &[]), (Reason::BadSize, 0, 0));
    let short = seatboard::read_chunk(&mut fresh(SIZE), &[], &mut [0; 31], &mut [0; 2]);
    assert_eq!(refused(short), (Reason::BadLength, 0, 0));
}

#[test]
fn a_refused_chunk_says_which_block() {
    // three of eight blocks kept, or one where a copy of two before is tried
    let cases: [(&[u8], Reason, usize, usize); 7] = [
        (&[0xE1, 0, 0, 5, 0x02], Reason::BlocksRemain, 5, 3),
        (&[0xE1, 0, 0, 6, 0x02, 0x60], Reason::OpcodeCut, 5, 3),
        (&[0xE1, 0, 0, 6, 0x02, 0xF0], Reason::OpcodeUnknown, 5, 3),
        (&[0xE1, 0, 0, 6, 0x00, 0x40], Reason::NoneBefore, 5, 1),
        (&[0xE1, 0, 0, 6, 0x02, 0x05], Reason::PastLastBlock, 5, 3),
        (&[0xE1, 0, 0, 7, 0x02, 0xB0, 0], Reason::EntryEmpty, 5, 3),
        (&[0xE1, 0, 0, 7, 0x02, 0x04, 1], Reason::BytesFollow, 6, 8),
    ];
    for (chunk, reason, place, block) in cases {
        assert_eq!(read_refused(EIGHT, chunk), (reason, place, block));
    }
}

#[test]
fn what_is_accepted_says_how_many_blocks() {
    let (mut picture, mut map, mut record) = ([0; 128], [0; 8], fresh(EIGHT));
    let chunk = [0xE1, 0, 0, 5, 0x07];
    let read = seatboard::read_chunk(&mut record, &chunk, &mut picture, &mut map);
    assert_eq!(accepted(read), (5, 8));
    // the last chunk is refused at block 3; it does not show
    let feed = [4, 2, 5, 0xE1, 0, 0, 5, 0x07, 5, 0xE1, 0, 0, 5, 0x02];
    let walked = seatboard::walk_feed(&mut record, &feed, &mut picture, &mut map);
    assert_eq!(accepted(walked), (14, 8));
    let ran = seatboard::walk_run(&mut record, &feed[2..], &mut picture, &mut map);
    assert_eq!((accepted(ran.end), ran.accepted), ((12, 8), 1));
    let written = seatboard::write_chunk(EIGHT, &picture, &[9; 128], &mut [0; 6]);
    assert_eq!(accepted(written), (6, 8));
}

/// Two blocks of colour 5, and these bytes after the last one.
fn fives_then(more: &[u8]) -> Vec<u8> {
    let mut chunk = [&[0xE1, 0, 0, 0, 0x61, 5], more].concat();
    chunk[3] = chunk.len() as u8;
    chunk
}

#[test]
fn up_to_three_zeros_after_the_last_block_are_padding() {
    for padding in 0..=3 {
        let (mut picture, mut map, mut kept) = ([0; 32], [0, 1], fresh(SIZE));
        let chunk = fives_then(&vec![0; padding]);
        let read = seatboard::read_chunk(&mut kept, &chunk, &mut picture, &mut map);
        assert_eq!(accepted(read), (6 + padding, 2));
        assert_eq!((picture, map), ([5; 32], [65_535; 2]));
        assert_eq!(kept, record(SIZE, 0));
        let run = [&[chunk.len() as u8], &chunk[..]].concat();
        let length = run.len();
        assert_eq!(walk_run(SIZE, &run), ((0, length, 2), 1, 5, [65_535; 2]));
        let feed = [&[2, 1], &run[..]].concat();
        let walked = seatboard::walk_feed(&mut kept, &feed, &mut picture, &mut map);
        assert_eq!(accepted(walked), (2 + length, 2));
    }
}

#[test]
fn other_bytes_after_the_last_block_are_refused() {
    let others: [&[u8]; 8] = [
        &[0; 4],
        &[0; 5],
        &[1],
        &[0, 1],
        &[0, 0, 0x80],
        &[0x10, 0, 0],
        &[0, 1, 0],
        &[0, 0, 0, 1],
    ];
    for more in others {
        let chunk = fives_then(more);
        assert_eq!(read_refused(SIZE, &chunk), (Reason::BytesFollow, 6, 2));
        let run = [&[chunk.len() as u8], &chunk[..]].concat();
        assert_eq!(walk_run(SIZE, &run), ((0, run.len(), 2), 0, 0, [0, 1]));
    }
}

#[test]
fn what_reads_and_writes_no_chunk_says_block_0() {
    let (picture, map) = (&mut [0; 128], &mut [0; 8]);
    assert_eq!(exact::fresh_map(EIGHT, map).answer, NOWHERE);
    assert_eq!(exact::count(EIGHT, map).answer, NOWHERE);
    assert_eq!(exact::feed_size(&[4, 2, 0]).answer, NOWHERE);
    let file = dot_with(0, 0);
    assert_eq!(exact::paint_symbol(EIGHT, picture, &file, 0, 0, 0), NOWHERE);
}

#[test]
fn maps_are_refused_by_size_and_length() {
    let map = &mut [7; 2];
    assert_eq!(
        refused(seatboard::fresh_map(WRONG, map)),
        (Reason::BadSize, 0, 0)
    );
    assert_eq!(
        refused(seatboard::fresh_map(LONE, map)),
        (Reason::BadLength, 0, 0)
    );
    assert_eq!(
        refused(seatboard::count_unsettled(SIZE, &[])),
        (Reason::BadLength, 0, 0)
    );
    assert_eq!(*map, [7; 2]);
    // of what is refused the record has the lent size, and counts nothing
    assert_eq!(exact::fresh_map(WRONG, map).record, record(WRONG, 0));
    assert_eq!(exact::fresh_map(LONE, map).record, record(LONE, 0));
}

#[test]
fn a_fresh_map_has_a_record() {
    let map = &mut [7; 2];
    assert_eq!(seatboard::fresh_map(SIZE, map), Ok(record(SIZE, 2)));
    assert_eq!(*map, [0, 1]);
}

/// Walks a feed over a picture of zeros and a fresh map: the refusal, the last pixel, and map and count
/// afterwards.
fn walk_refused(mut kept: Record, feed: &[u8]) -> ((Reason, usize, usize), u8, [u16; 2], usize) {
    let (mut picture, mut map, size) = ([0; 32], [0, 1], kept.size);
    let answer = refused(seatboard::walk_feed(
        &mut kept,
        feed,
        &mut picture,
        &mut map,
    ));
    assert_eq!(kept.size, size);
    (answer, picture[31], map, kept.unsettled)
}

#[test]
fn feeds_are_refused_where_they_are_cut() {
    let walk = |feed: &[u8]| walk_refused(fresh(SIZE), feed);
    let bad = (Reason::BadVarint, 1, 0);
    assert_eq!(walk(&[2, 0x80, 0]), (bad, 0, [0, 1], 2));
    assert_eq!(walk(&[2]), ((Reason::FeedCut, 1, 0), 0, [0, 1], 2));
    // what was accepted before the end stays, and the record goes with it
    let cut = [2, 1, 6, 0xE1, 0, 0, 6, 0x61, 5, 1];
    assert_eq!(walk(&cut), ((Reason::FeedCut, 10, 0), 5, [65_535; 2], 0));
}

#[test]
fn a_feed_has_the_size_of_the_record() {
    let upright = Size {
        width: 4,
        height: 8,
    };
    let fives = [6, 0xE1, 0, 0, 6, 0x61, 5];
    let refused_with = |reason| ((reason, 0, 0), 0, [0, 1], 7);
    let walk = |size, numbers: [u8; 2]| {
        let feed = [&numbers[..], &fives].concat();
        walk_refused(record(size, 7), &feed)
    };
    // buffers of the same lengths; a record of a size that is not allowed; a feed of one, which goes first
    assert_eq!(walk(upright, [2, 1]), refused_with(Reason::BadLength));
    assert_eq!(walk(SIZE, [1, 2]), refused_with(Reason::BadLength));
    assert_eq!(walk(WRONG, [2, 1]), refused_with(Reason::BadLength));
    assert_eq!(walk(SIZE, [0, 1]), refused_with(Reason::BadSize));
    assert_eq!(walk(WRONG, [81, 1]), refused_with(Reason::BadSize));
}

/// The feed of paper 01's listing without its size numbers: block 0 is copied to block 1, the next
/// chunk is refused, and the last fills both with colour 5.
#[rustfmt::skip]
const RUN: [u8; 19] = [
    6, 0xE1, 0, 0, 6, 0x00, 0x20,
    4, 0xE1, 0, 0, 4,
    6, 0xE1, 0, 0, 6, 0x61, 5,
];

/// Walks a run over a picture of zeros and a fresh map: number, place, block and number accepted by
/// both ways of calling, the last pixel and the map.
fn walk_run(size: Size, run: &[u8]) -> ((u8, usize, usize), usize, u8, [u16; 2]) {
    let (mut picture, mut map) = ([0; 32], [0, 1]);
    let exact::Tally {
        answer,
        accepted,
        record,
    } = exact::walk_run(fresh(size), run, &mut picture, &mut map);
    let (mut same_picture, mut same_map, mut same_record) = ([0; 32], [0, 1], fresh(size));
    let tally = seatboard::walk_run(&mut same_record, run, &mut same_picture, &mut same_map);
    let end = tally.end.map_or_else(
        |refused| (refused.reason.number(), refused.place, refused.block),
        |accepted| (0, accepted.length, accepted.block),
    );
    assert_eq!((same_picture, same_map), (picture, map));
    assert_eq!(same_record, record);
    let unsettled = seatboard::count_unsettled(size, &map);
    assert_eq!(unsettled.unwrap_or(size.blocks()), record.unsettled);
    assert_eq!(
        (end, tally.accepted),
        ((answer.number, answer.place, answer.block), accepted)
    );
    (end, accepted, picture[31], map)
}

#[test]
fn a_run_counts_what_is_accepted() {
    let settled = [65_535; 2];
    assert_eq!(walk_run(SIZE, &RUN), ((0, 19, 2), 2, 5, settled));
    assert_eq!(walk_run(SIZE, &RUN[12..]), ((0, 7, 2), 1, 5, settled));
    assert_eq!(walk_run(SIZE, &RUN[..12]), ((0, 12, 2), 1, 0, [0, 0]));
    assert_eq!(walk_run(SIZE, &RUN[7..12]), ((0, 5, 2), 0, 0, [0, 1]));
    assert_eq!(walk_run(SIZE, &[]), ((0, 0, 2), 0, 0, [0, 1]));
    assert_eq!(walk_run(SIZE, &[0, 0]), ((0, 2, 2), 0, 0, [0, 1]));
}

#[test]
fn a_run_is_refused_by_size_and_lengths_first() {
    for run in [&RUN[..], &[0x80, 0], &[]] {
        assert_eq!(walk_run(WRONG, run), ((1, 0, 0), 0, 0, [0, 1]));
        assert_eq!(walk_run(LONE, run), ((2, 0, 0), 0, 0, [0, 1]));
    }
}

#[test]
fn what_a_run_accepted_before_its_end_stays_and_counts() {
    let after_run = |more: &[u8]| {
        let (mut picture, mut map, mut kept) = ([0; 32], [0, 1], fresh(SIZE));
        let run = [&RUN, more].concat();
        let tally = seatboard::walk_run(&mut kept, &run, &mut picture, &mut map);
        assert_eq!((picture, map), ([5; 32], [65_535; 2]));
        assert_eq!(kept, record(SIZE, 0));
        (tally.accepted, refused(tally.end))
    };
    assert_eq!(after_run(&[0x80, 0]), (2, (Reason::BadVarint, 19, 0)));
    assert_eq!(after_run(&[0x80]), (2, (Reason::FeedCut, 19, 0)));
    assert_eq!(after_run(&[0x80, 1, 0xE1]), (2, (Reason::FeedCut, 21, 0)));
    assert_eq!(after_run(&[6]), (2, (Reason::FeedCut, 20, 0)));
}

const NO_SIZE: Size = Size {
    width: 0,
    height: 0,
};

/// Number, place and block, the size, and where the first chunk's length stands.
fn exact_size(feed: &[u8]) -> ((u8, usize, usize), Size, usize) {
    let exact::FeedSize {
        answer,
        size,
        first,
    } = exact::feed_size(feed);
    ((answer.number, answer.place, answer.block), size, first)
}

#[test]
fn a_feed_says_its_size() {
    let cases = [(1, 1, 4, 4), (2, 1, 8, 4), (1, 2, 4, 8), (80, 50, 320, 200)];
    for (across, down, width, height) in cases {
        // whatever follows the size numbers
        for more in [&[][..], &[0], &[0x80, 0], &RUN] {
            let feed = [&[across, down], more].concat();
            let size = Size { width, height };
            let stated = seatboard::feed_size(&feed).expect("accepted");
            assert_eq!((stated.size, stated.first), (size, 2));
            assert_eq!(exact_size(&feed), ((0, 0, 0), size, 2));
            let board = Board::for_feed(&feed).expect("accepted");
            assert_eq!(board, Board::new(size).expect("an allowed size"));
        }
    }
}

#[test]
fn a_feed_without_a_size_is_refused() {
    let cases: [(&[u8], Reason, usize); 14] = [
        (&[], Reason::FeedCut, 0),
        (&[0x80], Reason::FeedCut, 0),
        (&[2], Reason::FeedCut, 1),
        (&[0, 0x80], Reason::FeedCut, 1),
        (&[0x80, 1, 0x80], Reason::FeedCut, 2),
        (&[0x82, 0], Reason::BadVarint, 0),
        (&[2, 0x81, 0, 0], Reason::BadVarint, 1),
        (&[0x80, 1, 0x80, 0x80, 0x80, 0x80], Reason::BadVarint, 2),
        (&[0, 1], Reason::BadSize, 0),
        (&[2, 0, 9], Reason::BadSize, 0),
        (&[81, 1], Reason::BadSize, 0),
        (&[80, 51], Reason::BadSize, 0),
        // in 8 bits 1 by 1
        (&[0x81, 2, 1], Reason::BadSize, 0),
        (&[0xFF, 0xFF, 0xFF, 7, 51, 0x80, 0], Reason::BadSize, 0),
    ];
    let mut board = Board::new(SIZE).expect("an allowed size");
    for (feed, reason, place) in cases {
        let says = (reason, place, 0);
        assert_eq!(refused(seatboard::feed_size(feed)), says);
        assert_eq!(refused(Board::for_feed(feed)), says);
        assert_eq!(refused(board.steps(feed)), says);
        assert_eq!(refused(board.walk_feed(feed)), says);
        assert_eq!(exact_size(feed), ((reason.number(), place, 0), NO_SIZE, 0));
    }
    assert_eq!(board, Board::new(SIZE).expect("an allowed size"));
}

/// Number, place and block, whether a chunk was read, and where to go on.
type Stepped = ((u8, usize, usize), bool, usize);

/// One step over this picture, map and record, by both ways of calling.
fn walk_step(
    kept: &mut Record,
    feed: &[u8],
    at: usize,
    picture: &mut [u8],
    map: &mut [u16],
) -> Stepped {
    let (mut same_picture, mut same_map) = (picture.to_vec(), map.to_vec());
    let step = exact::walk_step(*kept, feed, at, &mut same_picture, &mut same_map);
    let (said, chunk, next) = match seatboard::walk_step(kept, feed, at, picture, map) {
        Step::Chunk { said, next } => (said, true, next),
        Step::End(said) => (said, false, at),
    };
    let said = said.map_or_else(
        |refused| (refused.reason.number(), refused.place, refused.block),
        |accepted| (0, accepted.length, accepted.block),
    );
    let answer = step.answer;
    assert_eq!(said, (answer.number, answer.place, answer.block));
    assert_eq!((chunk, next), (step.chunk, step.next));
    assert_eq!((&*picture, &*map), (&same_picture[..], &same_map[..]));
    assert_eq!(*kept, step.record);
    (said, chunk, next)
}

/// The same over a picture of zeros and a fresh map, which must stay so: with the record of that size,
/// and with one that is untrue to it.
fn step_unchanged(size: Size, feed: &[u8], at: usize) -> Stepped {
    let steps = [size.blocks(), usize::MAX].map(|unsettled| {
        let (mut picture, mut map, mut kept) = ([0; 32], [0, 1], record(size, unsettled));
        let step = walk_step(&mut kept, feed, at, &mut picture, &mut map);
        assert_eq!((picture, map), ([0; 32], [0, 1]));
        assert_eq!(kept, record(size, unsettled));
        step
    });
    assert_eq!(steps[0], steps[1]);
    steps[0]
}

#[test]
fn a_step_reads_one_chunk() {
    let (mut picture, mut map, mut kept) = ([0; 32], [0, 1], fresh(SIZE));
    let mut step = |at| {
        let step = walk_step(&mut kept, &RUN, at, &mut picture, &mut map);
        (step, picture[31], map, kept.unsettled)
    };
    assert_eq!(step(0), (((0, 6, 2), true, 7), 0, [0, 0], 2));
    assert_eq!(step(7), (((5, 4, 0), true, 12), 0, [0, 0], 2));
    assert_eq!(step(12), (((0, 6, 2), true, 19), 5, [65_535; 2], 0));
    assert_eq!(step(19), (((0, 19, 2), false, 19), 5, [65_535; 2], 0));
    // at any other place a number is taken for a length too: here it is 4
    assert_eq!(step(11), (((4, 0, 0), true, 16), 5, [65_535; 2], 0));
}

#[test]
fn a_step_reads_no_size_numbers() {
    let upright = [&[1, 2], &RUN[..]].concat();
    let (mut picture, mut map, mut kept) = ([0; 32], [0, 1], fresh(SIZE));
    let step = walk_step(&mut kept, &upright, 2, &mut picture, &mut map);
    assert_eq!((step, map), (((0, 6, 2), true, 9), [0, 0]));
}

#[test]
fn a_step_goes_by_lengths_of_several_bytes() {
    // eight blocks of sixteen colours each, which are all 9
    let run = [&[0x85, 1, 0xE1, 0, 0, 133, 0xE7], &[9; 128][..], &[0]].concat();
    let (mut picture, mut map, mut kept) = ([0; 128], [0; 8], fresh(EIGHT));
    let step = walk_step(&mut kept, &run, 0, &mut picture, &mut map);
    assert_eq!((step, kept.unsettled), (((0, 133, 8), true, 135), 0));
    assert_eq!((picture, map), ([9; 128], [65_535; 8]));
}

#[test]
fn a_step_where_no_chunk_stands_is_the_end() {
    let end = |number, place, block, at| ((number, place, block), false, at);
    for at in [19, 20, 1 << 32, 1 << 63, usize::MAX - 1, usize::MAX] {
        assert_eq!(step_unchanged(SIZE, &RUN, at), end(0, 19, 2, at));
        assert_eq!(step_unchanged(SIZE, &[], at), end(0, 0, 2, at));
        // size and lengths go first
        assert_eq!(step_unchanged(WRONG, &RUN, at), end(1, 0, 0, at));
        assert_eq!(step_unchanged(LONE, &RUN, at), end(2, 0, 0, at));
    }
    assert_eq!(step_unchanged(WRONG, &RUN, 0), end(1, 0, 0, 0));
    assert_eq!(step_unchanged(LONE, &RUN, 7), end(2, 0, 0, 7));
    let failing = [0, 0x80, 0];
    assert_eq!(step_unchanged(SIZE, &failing, 1), end(12, 1, 0, 1));
    assert_eq!(step_unchanged(SIZE, &failing[..2], 1), end(13, 1, 0, 1));
    assert_eq!(step_unchanged(SIZE, &RUN[..18], 12), end(13, 13, 0, 12));
    assert_eq!(step_unchanged(SIZE, &[0, 1], 1), end(13, 2, 0, 1));
}

#[test]
fn a_refused_step_goes_on_behind_its_chunk() {
    let chunk = |says| (says, true, 5);
    assert_eq!(step_unchanged(SIZE, &RUN[7..], 0), chunk((5, 4, 0)));
    assert_eq!(step_unchanged(SIZE, &[0], 0), ((3, 0, 0), true, 1));
    let (mut picture, mut map, mut untrue) = ([0; 32], [0, 1], record(SIZE, 3));
    let run = [&[5], &KEPT[..]].concat();
    let step = walk_step(&mut untrue, &run, 0, &mut picture, &mut map);
    assert_eq!((step, untrue.unsettled), (((21, 0, 0), true, 6), 3));
}

#[test]
fn a_board_goes_through_a_feed_step_by_step() {
    let feed = [&[2, 1], &RUN[..], &[0x80]].concat();
    let mut walked = Board::for_feed(&feed).expect("an allowed size");
    let mut board = walked.clone();
    let end = walked.walk_feed(&feed);
    let mut steps = board.steps(&feed).expect("its own size");
    for (accepted, unsettled) in [(true, 2), (false, 2), (true, 0)] {
        assert_eq!(steps.end(), None);
        let said = steps.next().expect("a chunk");
        assert_eq!(
            (said.is_ok(), steps.board().unsettled()),
            (accepted, unsettled)
        );
        assert!(count_is_true(steps.board()));
    }
    // asked again it stays at the end
    for _ in 0..2 {
        assert_eq!((steps.next(), steps.end()), (None, Some(end)));
    }
    assert_eq!(refused(end), (Reason::FeedCut, 21, 0));
    assert_eq!(board, walked);
}

#[test]
fn a_board_reads_no_chunk_that_is_not_asked_for() {
    let feed = [&[2, 1], &RUN[..]].concat();
    let mut board = Board::new(SIZE).expect("an allowed size");
    let mut steps = board.steps(&feed).expect("its own size");
    assert_eq!(steps.next().map(accepted), Some((6, 2)));
    assert_eq!((board.picture(), board.map()), (&[0; 32][..], &[0, 0][..]));
    // a feed of another size, with buffers of the same lengths
    let before = board.clone();
    let upright = [&[1, 2], &RUN[..]].concat();
    let refusal = (Reason::BadLength, 0, 0);
    assert_eq!(refused(board.steps(&upright)), refusal);
    assert_eq!(refused(board.walk_feed(&upright)), refusal);
    assert_eq!(board, before);
}

/// Block 0 copied to block 1, and both blocks kept.
const COPIED: [u8; 6] = [0xE1, 0, 0, 6, 0x00, 0x20];
const KEPT: [u8; 5] = [0xE1, 0, 0, 5, 0x01];

/// Reads over a map of which one entry of two is unsettled, with this count lent: the count afterwards,
/// or that nothing has changed. A run does the same.
fn read_counted(chunk: &[u8], unsettled: usize) -> Option<usize> {
    let (mut picture, mut map, mut kept) = ([7; 32], [0, 65_535], record(SIZE, unsettled));
    let before = (picture, map, kept);
    let run = [&[chunk.len() as u8], chunk].concat();
    let tally = exact::walk_run(kept, &run, &mut picture.clone(), &mut map.clone());
    let read = seatboard::read_chunk(&mut kept, chunk, &mut picture, &mut map);
    assert_eq!((tally.accepted > 0, tally.record), (read.is_ok(), kept));
    assert_eq!(tally.answer.number, 0);
    if read.is_err() {
        assert_eq!(refused(read), (Reason::BadCount, 0, 0));
        assert_eq!((picture, map, kept), before);
    }
    read.ok().map(|_| kept.unsettled)
}

#[test]
fn the_count_follows_each_chunk_within_its_bounds() {
    // one block more is unsettled
    assert_eq!(read_counted(&COPIED, 0), Some(1));
    assert_eq!(read_counted(&COPIED, 1), Some(2));
    assert_eq!(read_counted(&COPIED, 2), None);
    assert_eq!(read_counted(&COPIED, usize::MAX), None);
    // as many as before
    assert_eq!(read_counted(&KEPT, 0), Some(0));
    assert_eq!(read_counted(&KEPT, 2), Some(2));
    assert_eq!(read_counted(&KEPT, 3), None);
    assert_eq!(read_counted(&KEPT, usize::MAX), None);
    // one less
    assert_eq!(read_counted(&fives_then(&[]), 0), None);
    assert_eq!(read_counted(&fives_then(&[]), 1), Some(0));
    assert_eq!(read_counted(&fives_then(&[]), 3), Some(2));
    assert_eq!(read_counted(&fives_then(&[]), 4), None);
    assert_eq!(read_counted(&fives_then(&[]), usize::MAX), None);
}

#[test]
fn a_chunk_that_gets_21_does_not_end_a_run() {
    // of fresh map and count 1: both blocks settled would leave -1, one leaves 0
    let half = [7, 0xE1, 0, 0, 7, 0x60, 9, 0x00];
    let run = [&[6], &fives_then(&[])[..], &half].concat();
    let (mut picture, mut map, mut kept) = ([0; 32], [0, 1], record(SIZE, 1));
    let tally = seatboard::walk_run(&mut kept, &run, &mut picture, &mut map);
    assert_eq!((accepted(tally.end), tally.accepted), ((15, 2), 1));
    assert_eq!((picture[0], picture[31], map), (9, 0, [65_535, 1]));
    assert_eq!(kept, record(SIZE, 0));
}

/// The record is private: it can only be what the calls have left.
fn count_is_true(board: &Board) -> bool {
    seatboard::count_unsettled(board.size(), board.map()) == Ok(board.unsettled())
}

#[test]
fn a_board_does_what_slices_do() {
    let mut board = Board::new(SIZE).expect("an allowed size");
    assert_eq!((board.size(), board.unsettled()), (SIZE, 2));
    assert_eq!((board.picture(), board.map()), (&[0; 32][..], &[0, 1][..]));
    // block 1 is settled, and then unsettled
    let read = board.read_chunk(&[0xE1, 0, 0, 7, 0x00, 0x60, 9]);
    assert_eq!((accepted(read), board.unsettled()), ((7, 2), 1));
    assert!(count_is_true(&board));
    let walked = board.walk_feed(&[&[2, 1], &RUN[..7]].concat());
    assert_eq!((accepted(walked), board.unsettled()), ((9, 2), 2));
    assert!(count_is_true(&board) && board.map() == [0, 0]);
    // ended by 13, with what was accepted before it
    let ran = board.walk_run(&[&RUN[..], &[0x80]].concat());
    assert_eq!(
        (ran.accepted, refused(ran.end)),
        (2, (Reason::FeedCut, 19, 0))
    );
    assert!(count_is_true(&board) && board.unsettled() == 0);
    assert_eq!(board.picture(), [5; 32]);
    let before = board.clone();
    let other_size = board.walk_feed(&[1, 2]);
    assert_eq!(refused(other_size), (Reason::BadLength, 0, 0));
    assert_eq!(board, before);
}

#[test]
fn a_board_of_any_size_is_made_or_refused() {
    let sides = [0, 1, 4, 6, 200, 204, 320, 324, 1 << 32, 1 << 62, usize::MAX];
    for (width, height) in sides.iter().flat_map(|w| sides.map(|h| (*w, h))) {
        let size = Size { width, height };
        let allowed = [4, 200, 204, 320].contains(&width) && [4, 200].contains(&height);
        match Board::new(size) {
            Ok(board) => assert!(allowed && count_is_true(&board) && board.size() == size),
            Err(refusal) => {
                assert!(!allowed);
                assert_eq!(refused::<()>(Err(refusal)), (Reason::BadSize, 0, 0));
            }
        }
    }
}

#[test]
fn a_write_needs_room() {
    let (old, new) = ([0; 32], [5; 32]);
    let mut output = [0xAA; 6];
    let short = seatboard::write_chunk(SIZE, &old, &new, &mut output[..5]);
    assert_eq!(refused(short), (Reason::OutputShort, 0, 0));
    assert_eq!(output, [0xAA; 6]);
    let written = seatboard::write_chunk(SIZE, &old, &new, &mut output);
    assert_eq!(accepted(written), (6, 2));
    assert_eq!(output, [0xE1, 0, 0, 6, 0x61, 5]);
}

#[test]
fn the_longest_chunk_has_room() {
    let size = Size {
        width: 320,
        height: 200,
    };
    let old = vec![0; size.pixels()];
    // every block of sixteen colours
    let new: Vec<u8> = (0..size.pixels())
        .map(|pixel| (pixel / size.width % 4 * 4 + pixel % 4) as u8 + 1)
        .collect();
    let mut output = vec![0; size.longest_chunk()];
    let written = seatboard::write_chunk(size, &old, &new, &mut output);
    assert_eq!(accepted(written), (output.len(), 4_000));
}

/// A dot of colour 7 in the middle of three rows, highest byte first; the frame stands at 16, its
/// rows at 26.
#[rustfmt::skip]
const DOT: [u8; 38] = [
    0, 0, 1, 0xF6, 0, 0, 0, 1, 0, 0, 0, 0, 0, 0, 0, 16,
    0, 0, 0, 0, 0, 3, 0, 3, 0, 0,
    9, 1, 4, 8, 1, 1, 2, 1, 7, 7, 9, 1,
];

/// The dot with its end marker, and this byte in the place of another.
fn dot_with(place: usize, byte: u8) -> Vec<u8> {
    let mut file = [&DOT[..], &[5, 0]].concat();
    file[place] = byte;
    file
}

#[test]
fn a_symbol_is_painted_where_it_is_put() {
    let mut picture = [0; 32];
    let file = dot_with(0, 0);
    for (left, top) in [(-1, -1), (6, 2), (7, 0), (-2, 0)] {
        seatboard::paint_symbol(SIZE, &mut picture, &file, 0, left, top).expect("accepted");
    }
    let mut expected = [0; 32];
    expected[0] = 7;
    expected[31] = 7;
    assert_eq!(picture, expected);
}

#[test]
fn symbols_are_refused_by_their_numbers() {
    let cases = [
        (DOT[..15].to_vec(), 0, Reason::BadSprite),
        (dot_with(3, 0xFA), 0, Reason::BadSprite),
        (dot_with(0, 0), 1, Reason::NoSuchFrame),
        (dot_with(15, 31), 0, Reason::BadFrame),
        (dot_with(19, 1), 0, Reason::BadFrame),
        (dot_with(27, 4), 0, Reason::BadRow),
        (dot_with(28, 5), 0, Reason::BadRow),
        (dot_with(30, 4), 0, Reason::BadSegment),
        (dot_with(33, 3), 0, Reason::BadSegment),
        (dot_with(39, 1), 0, Reason::NoEndMarker),
        (DOT.to_vec(), 0, Reason::NoEndMarker),
    ];
    let mut picture = [0; 32];
    for (file, frame, reason) in cases {
        let answer = seatboard::paint_symbol(SIZE, &mut picture, &file, frame, 0, 0);
        assert_eq!((refused(answer), picture), ((reason, 0, 0), [0; 32]));
    }
    let answer = seatboard::paint_symbol(WRONG, &mut picture, &[], 0, 0, 0);
    assert_eq!(refused(answer), (Reason::BadSize, 0, 0));
    let answer = seatboard::paint_symbol(LONE, &mut picture, &[], 0, 0, 0);
    assert_eq!(refused(answer), (Reason::BadLength, 0, 0));
}

#[test]
fn every_number_has_its_reason() {
    for number in 1..=21 {
        assert_eq!(Reason::numbered(number).number(), number);
    }
    for none in [0].into_iter().chain(22..=255) {
        assert_eq!(Reason::numbered(none), Reason::BadCount);
    }
}

#[test]
fn a_refusal_says_number_place_block_and_meaning() {
    let (chunk, picture, map) = (&[0xE1, 0, 0, 6, 0x00, 0xF0], &mut [0; 32], &mut [0; 2]);
    let answer = exact::read_chunk(fresh(SIZE), chunk, picture, map).answer;
    assert_eq!((answer.number, answer.place, answer.block), (7, 5, 1));
    let refused = seatboard::read_chunk(&mut fresh(SIZE), chunk, picture, map);
    let said = refused.err().map(|refused| refused.to_string());
    assert_eq!(said.as_deref(), Some("7 at 5, block 1: opcode F"));
    let refused = seatboard::read_chunk(&mut record(SIZE, 3), &KEPT, picture, map);
    let said = refused.err().map(|refused| refused.to_string());
    let meaning = "the record's count would leave 0 to the number of blocks";
    assert_eq!(said, Some(format!("21 at 0, block 0: {meaning}")));
}
