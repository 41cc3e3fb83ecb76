//! Feeds for the board program, each with what 01 and 02 say it prints, written out by hand.

use crate::feed_examples::LISTING;
use crate::program::Handed;

pub struct ProgramCase {
    pub name: &'static str,
    pub feed: Vec<u8>,
    pub handed: Handed,
    pub prints: String,
}

fn case(name: &'static str, feed: &[u8], prints: &str) -> ProgramCase {
    ProgramCase {
        name,
        feed: feed.to_vec(),
        handed: Handed::AtOnce,
        prints: prints.into(),
    }
}

fn in_pieces(case: ProgramCase, bytes: usize) -> ProgramCase {
    ProgramCase {
        handed: Handed::InPiecesOf(bytes),
        ..case
    }
}

pub fn all() -> Vec<ProgramCase> {
    [
        listings(),
        accepted_chunks(),
        refused_chunks(),
        blocks(),
        padding(),
        longest_feeds(),
        too_long_feeds(),
        pixel_limit(),
        sizes_not_allowed(),
        failing_first_numbers(),
        failing_second_numbers(),
        failing_lengths(),
        cut_chunks(),
    ]
    .into_iter()
    .flatten()
    .collect()
}

fn listings() -> Vec<ProgramCase> {
    let prints = "board 8 4\n1 0 6 2 2\n2 5 4 2 0\n3 0 6 0 2\nend 0 21\n";
    let slowly = case("01's listing, byte by byte", LISTING, prints);
    vec![
        case("01's listing", LISTING, prints),
        in_pieces(slowly, 1),
        case("no input", &[], "end 13 0\n"),
        case("size numbers alone", &[2, 1], "board 8 4\nend 0 2\n"),
    ]
}

#[rustfmt::skip]
fn accepted_chunks() -> Vec<ProgramCase> {
    vec![
        case(
            "a copy that unsettles",
            &[
                2, 1,
                // Block 1 settled; block 0 copied over it; block 0 settled; both kept.
                7, 0xE1, 0, 0, 7, 0x00, 0x60, 5,
                6, 0xE1, 0, 0, 6, 0x00, 0x20,
                7, 0xE1, 0, 0, 7, 0x60, 5, 0x00,
                5, 0xE1, 0, 0, 5, 0x01,
            ],
            "board 8 4\n1 0 7 1 2\n2 0 6 2 2\n3 0 7 1 2\n4 0 5 1 2\nend 0 31\n",
        ),
        case(
            "colours stored by one chunk, named by the next",
            &[
                1, 1,
                9, 0xE1, 0, 0, 9, 0x80, 3, 7, 0, 8,
                8, 0xE1, 0, 0, 8, 0x90, 0, 0, 8,
            ],
            "board 4 4\n1 0 9 0 1\n2 10 4 0 0\nend 0 21\n",
        ),
    ]
}

#[rustfmt::skip]
fn refused_chunks() -> Vec<ProgramCase> {
    vec![
        case("a chunk of length 0", &[2, 1, 0], "board 8 4\n1 3 0 2 0\nend 0 3\n"),
        case(
            "every refusal of a chunk",
            &[
                1, 1,
                0,
                3, 0xE1, 0, 0,
                6, 0xE1, 0, 0, 7, 0x60, 5,
                4, 0xE1, 0, 0, 4,
                5, 0xE1, 0, 0, 5, 0x10,
                5, 0xE1, 0, 0, 5, 0xF0,
                5, 0xE1, 0, 0, 5, 0x20,
                5, 0xE1, 0, 0, 5, 0x01,
                6, 0xE1, 0, 0, 6, 0x90, 0,
                6, 0xE1, 0, 0, 6, 0x00, 0xAA,
                6, 0xE1, 0, 0, 6, 0x60, 5,
                0,
            ],
            "board 4 4\n1 3 0 1 0\n2 3 0 1 0\n3 4 0 1 0\n4 5 4 1 0\n5 6 4 1 0\n6 7 4 1 0\n\
             7 8 4 1 0\n8 9 4 1 0\n9 10 4 1 0\n10 11 5 1 1\n11 0 6 0 1\n12 3 0 0 0\nend 0 65\n",
        ),
    ]
}

#[rustfmt::skip]
fn blocks() -> Vec<ProgramCase> {
    vec![
        case(
            "every refusal at an opcode, behind other blocks",
            &[
                4, 2,
                5, 0xE1, 0, 0, 5, 0x02,
                6, 0xE1, 0, 0, 6, 0x02, 0x61,
                6, 0xE1, 0, 0, 6, 0x05, 0xF1,
                6, 0xE1, 0, 0, 6, 0x00, 0x41,
                7, 0xE1, 0, 0, 7, 0x61, 9, 0x07,
                7, 0xE1, 0, 0, 7, 0x03, 0x91, 0,
                7, 0xE1, 0, 0, 7, 0x06, 0x00, 0xAA,
                // Two blocks, and three pairs.
                7, 0xE1, 0, 0, 7, 0x61, 9, 0x42,
            ],
            "board 16 8\n1 5 5 8 3\n2 6 5 8 3\n3 7 5 8 6\n4 8 5 8 1\n5 9 6 8 2\n6 10 5 8 4\n\
             7 11 6 8 8\n8 0 7 0 8\nend 0 61\n",
        ),
        case(
            "a block that 8 bits cannot tell",
            &[40, 25, 9, 0xE1, 0, 0, 9, 0x10, 255, 0x10, 254, 0xF0],
            "board 160 100\n1 7 8 1000 511\nend 0 12\n",
        ),
    ]
}

#[rustfmt::skip]
fn padding() -> Vec<ProgramCase> {
    vec![
        case(
            "one to three zeros after the last block",
            &[
                2, 1,
                5, 0xE1, 0, 0, 5, 0x01,
                6, 0xE1, 0, 0, 6, 0x01, 0,
                8, 0xE1, 0, 0, 8, 0x00, 0x20, 0, 0,
                8, 0xE1, 0, 0, 8, 0x01, 0, 0, 0,
                9, 0xE1, 0, 0, 9, 0x61, 0, 0, 0, 0,
            ],
            "board 8 4\n1 0 5 2 2\n2 0 6 2 2\n3 0 8 2 2\n4 0 8 2 2\n5 0 9 0 2\nend 0 43\n",
        ),
        case(
            "bytes after the last block that are no padding",
            &[
                2, 1,
                9, 0xE1, 0, 0, 9, 0x01, 0, 0, 0, 0,
                10, 0xE1, 0, 0, 10, 0x61, 0, 0, 0, 0, 0,
                6, 0xE1, 0, 0, 6, 0x01, 1,
                7, 0xE1, 0, 0, 7, 0x01, 0, 0x80,
                8, 0xE1, 0, 0, 8, 0x01, 0, 0, 0x10,
                9, 0xE1, 0, 0, 9, 0x00, 0x20, 0, 1, 0,
            ],
            "board 8 4\n1 11 5 2 2\n2 11 6 2 2\n3 11 5 2 2\n4 11 5 2 2\n5 11 5 2 2\n6 11 6 2 2\n\
             end 0 57\n",
        ),
    ]
}

/// A 4x4 board, and then zeros: each is a chunk of length 0.
fn zeros(length: usize) -> Vec<u8> {
    let mut feed = vec![0; length];
    feed[..2].fill(1);
    feed
}

fn zeros_print(chunks: usize, end: &str) -> String {
    let lines = (1..=chunks).map(|chunk| format!("{chunk} 3 0 1 0\n"));
    format!("board 4 4\n{}{end}\n", lines.collect::<String>())
}

/// Zeros again, but for the first bytes.
fn starting(start: &[u8], length: usize) -> Vec<u8> {
    [start, &zeros(length)[start.len()..]].concat()
}

fn longest_feeds() -> Vec<ProgramCase> {
    let feed = zeros(32_768);
    let prints = zeros_print(32_766, "end 0 32768");
    let slowly = case("32,768 bytes in pieces", &feed, &prints);
    // A length of three groups; its chunk states it too and has bytes after the last block.
    let chunk = starting(&[1, 1, 0xFB, 0xFF, 1, 0xE1, 0, 0x7F, 0xFB, 0x60, 5], 32_768);
    let chunk_prints = "board 4 4\n1 11 6 1 1\nend 0 32768\n";
    let mut cut = feed.clone();
    cut[32_767] = 5;
    let cut_prints = zeros_print(32_765, "end 13 32768");
    let bad = starting(&[0x80, 0], 32_768);
    vec![
        case("32,768 bytes", &feed, &prints),
        in_pieces(slowly, 5_000),
        case("32,768 bytes, one chunk", &chunk, chunk_prints),
        case("32,768 bytes, the last a length", &cut, &cut_prints),
        case("32,768 bytes, first number bad", &bad, "end 12 0\n"),
        case("32,768 bytes, size of 0", &[0; 32_768], "end 1 0\n"),
    ]
}

fn too_long_feeds() -> Vec<ProgramCase> {
    let feed = zeros(32_769);
    let bad = starting(&[0x80, 0], 32_769);
    let slowly = case("32,769 bytes in pieces", &feed, "too large\n");
    vec![
        case("32,769 bytes", &feed, "too large\n"),
        in_pieces(slowly, 32_768),
        case("32,769 bytes, first number bad", &bad, "too large\n"),
        case("32,769 bytes, size of 0", &[0; 32_769], "too large\n"),
        case("a million bytes", &zeros(1_000_000), "too large\n"),
    ]
}

fn pixel_limit() -> Vec<ProgramCase> {
    // 1,000 blocks: three runs of 256 and one of 232.
    let fill = |counted: u8| [0x70, counted, 5];
    let runs = [fill(0xFF), fill(0xFF), fill(0xFF), fill(0xE7)].concat();
    let filled = [&[40, 25, 0, 16, 0xE1, 0, 0, 16], &runs[..]].concat();
    let filled_prints = "board 160 100\n1 3 0 1000 0\n2 0 16 0 1000\nend 0 20\n";
    let too_large = [
        ("77 x 13 blocks, 16,016 pixels", &[77, 13][..]),
        ("80 x 50 blocks", &[80, 50]),
        ("too many pixels, then a bad length", &[80, 50, 0x80, 0]),
        ("too many pixels, then a cut chunk", &[77, 13, 5]),
        ("too many pixels, then a chunk of length 0", &[77, 13, 0]),
    ];
    let mut cases = vec![
        case("40 x 25 blocks, 16,000 pixels", &filled, filled_prints),
        case(
            "20 x 50 blocks, 16,000 pixels",
            &[20, 50],
            "board 80 200\nend 0 2\n",
        ),
        case(
            "80 x 12 blocks, 15,360 pixels",
            &[80, 12],
            "board 320 48\nend 0 2\n",
        ),
    ];
    cases.extend(too_large.map(|(name, feed)| case(name, feed, "too large\n")));
    cases
}

fn sizes_not_allowed() -> Vec<ProgramCase> {
    [
        ("no blocks across", &[0, 1][..]),
        ("no blocks down", &[1, 0]),
        ("no blocks at all", &[0, 0]),
        ("81 x 1 blocks", &[81, 1]),
        ("1 x 51 blocks", &[1, 51]),
        ("81 x 50 blocks", &[81, 50]),
        ("80 x 51 blocks", &[80, 51]),
        (
            "the greatest numbers",
            &[0xFF, 0xFF, 0xFF, 7, 0xFF, 0xFF, 0xFF, 7],
        ),
        ("16,384 + 1 blocks across", &[0x81, 0x80, 1, 1]),
        ("size not allowed, then a bad length", &[81, 1, 0x80, 0]),
        ("size not allowed, then a chunk", &[81, 1, 0]),
    ]
    .map(|(name, feed)| case(name, feed, "end 1 0\n"))
    .into()
}

fn failing_first_numbers() -> Vec<ProgramCase> {
    vec![
        case("first, four top bits", &[0x80; 4], "end 12 0\n"),
        case("first, last group zero", &[0x82, 0, 1], "end 12 0\n"),
        case("first, above", &[0x80, 0x80, 0x80, 8, 1], "end 12 0\n"),
        case("first, cut", &[0x80], "end 13 0\n"),
        case("first, cut after three groups", &[0x80; 3], "end 13 0\n"),
    ]
}

fn failing_second_numbers() -> Vec<ProgramCase> {
    let five_groups = [2, 0x81, 0x80, 0x80, 0x80, 0];
    vec![
        case("second, four top bits", &five_groups, "end 12 1\n"),
        case("second, last group zero", &[2, 0x81, 0], "end 12 1\n"),
        case("second, above", &[2, 0x81, 0x80, 0x80, 8], "end 12 1\n"),
        case("second, cut", &[2, 0x81], "end 13 1\n"),
        case("second, missing", &[2], "end 13 1\n"),
        // The first is not allowed in any of these; 1 waits for the second.
        case("0, then bad", &[0, 0x80, 0], "end 12 1\n"),
        case("two groups, then bad", &[0x80, 1, 0x80, 0], "end 12 2\n"),
        case("two groups, then cut", &[0x80, 1, 0x80], "end 13 2\n"),
        case("two groups, then missing", &[0x80, 1], "end 13 2\n"),
    ]
}

/// Both blocks of an 8x4 board settled.
const SETTLED: &[u8] = &[2, 1, 6, 0xE1, 0, 0, 6, 0x61, 5];

fn failing_lengths() -> Vec<ProgramCase> {
    let five_groups = [2, 1, 0x80, 0x80, 0x80, 0x80, 0];
    let above = [2, 1, 0x80, 0x80, 0x80, 8];
    let cut = [2, 1, 0x80, 0x80, 0x80];
    let refused = [2, 1, 0, 0x80, 0];
    let settled = [SETTLED, &[0x86, 0]].concat();
    let settled_cut = [SETTLED, &[0x86]].concat();
    let (bad_prints, cut_prints) = ("board 8 4\nend 12 2\n", "board 8 4\nend 13 2\n");
    let refused_prints = "board 8 4\n1 3 0 2 0\nend 12 3\n";
    vec![
        case("length, four top bits", &five_groups, bad_prints),
        case("length, last group zero", &[2, 1, 0x80, 0], bad_prints),
        case("length, above", &above, bad_prints),
        case("length, cut", &cut, cut_prints),
        case("refused, then a bad length", &refused, refused_prints),
        case(
            "accepted, then a bad length",
            &settled,
            "board 8 4\n1 0 6 0 2\nend 12 9\n",
        ),
        case(
            "accepted, then a cut length",
            &settled_cut,
            "board 8 4\n1 0 6 0 2\nend 13 9\n",
        ),
    ]
}

fn cut_chunks() -> Vec<ProgramCase> {
    let greatest = [2, 1, 0xFF, 0xFF, 0xFF, 7, 0xE1];
    let settled = [SETTLED, &[6, 0xE1, 0]].concat();
    vec![
        case("a length and no chunk", &[2, 1, 5], "board 8 4\nend 13 3\n"),
        case("the greatest length", &greatest, "board 8 4\nend 13 6\n"),
        case(
            "accepted, then cut",
            &settled,
            "board 8 4\n1 0 6 0 2\nend 13 10\n",
        ),
    ]
}
