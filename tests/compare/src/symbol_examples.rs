//! Symbols made by hand, with what 001, 01 and 02 say of them: first what is painted, then each way
//! to be refused, and the doubtful places. All but one are put on an 8x4 picture.

use seatboard::Size;

use crate::compare::{Codec, Painting};
use crate::examples::{lent_picture, number_alone, without, FOUND_AND_SAID};
use crate::replay::bytes_in_short;
use crate::symbols::{Placed, SymbolCase};

const LENT: Size = Size {
    width: 8,
    height: 4,
};

struct Example {
    name: &'static str,
    size: Size,
    pixels: usize,
    file: Vec<u8>,
    placed: Placed,
    /// The pixels that are painted, by column, row and colour; or the number of the refusal.
    says: Result<Vec<(usize, usize, u8)>, u8>,
}

impl Example {
    fn at(mut self, left: i16, top: i16) -> Self {
        self.placed.left = left;
        self.placed.top = top;
        self
    }

    fn frame(mut self, frame: usize) -> Self {
        self.placed.frame = frame;
        self
    }
}

fn example(
    name: &'static str,
    file: Vec<u8>,
    says: Result<Vec<(usize, usize, u8)>, u8>,
) -> Example {
    Example {
        name,
        size: LENT,
        pixels: LENT.width * LENT.height,
        file,
        placed: Placed {
            frame: 0,
            left: 0,
            top: 0,
        },
        says,
    }
}

fn painted(name: &'static str, file: Vec<u8>, dots: &[(usize, usize, u8)]) -> Example {
    example(name, file, Ok(dots.to_vec()))
}

fn refused(name: &'static str, file: Vec<u8>, number: u8) -> Example {
    example(name, file, Err(number))
}

/// Lowest byte first: version 502, one frame, palette 7; the frame follows at 16.
const LOW: [u8; 16] = [0xF6, 1, 0, 0, 1, 0, 0, 0, 7, 0, 0, 0, 16, 0, 0, 0];
/// Highest byte first: version 505, one frame, palette 0.
const HIGH: [u8; 16] = [0, 0, 1, 0xF9, 0, 0, 0, 1, 0, 0, 0, 0, 0, 0, 0, 16];

/// A file of one frame: the rows follow, and the end marker with what is behind it.
fn low(height: u8, width: u8, rows: &[u8]) -> Vec<u8> {
    [&LOW[..], &[0, 0, 0, 0, height, 0, width, 0, 0, 0], rows].concat()
}

fn high(height: u8, width: u8, rows: &[u8]) -> Vec<u8> {
    [&HIGH[..], &[0, 0, 0, 0, 0, height, 0, width, 0, 0x10], rows].concat()
}

/// One row of 5 6, by a copy.
fn five_six() -> Vec<u8> {
    low(1, 2, &[4, 6, 3, 2, 5, 6, 5, 0])
}

/// The file with these bytes from a place on.
fn with(mut file: Vec<u8>, place: usize, bytes: &[u8]) -> Vec<u8> {
    file[place..place + bytes.len()].copy_from_slice(bytes);
    file
}

fn cut(mut file: Vec<u8>, length: usize) -> Vec<u8> {
    file.truncate(length);
    file
}

#[rustfmt::skip]
fn whole_files() -> Vec<Example> {
    let all_codes = &[
        4, 10, 1, 1, 2, 2, 7, 7, 1, 1, // ·77·
        9, 1,
        4, 8, 3, 3, 1, 0, 3, 0,        // 103, and the rest of the row untold
        5, 0,
    ];
    let dots = &[(1, 0, 7), (2, 0, 7), (0, 2, 1), (1, 2, 0), (2, 2, 3)];
    vec![
        painted("all codes, lowest first", low(3, 4, all_codes), dots),
        painted("all codes, highest first", high(3, 4, all_codes), dots),
        painted("height and width 0", low(0, 0, &[5, 0]), &[]),
        painted("height 0", high(0, 9, &[5, 0]), &[]),
        painted("width 0, nothing but background", low(2, 0, &[9, 2, 5, 0]), &[]),
        painted("width 0, segments of 0", low(1, 0, &[4, 10, 1, 0, 2, 0, 8, 8, 3, 0, 5, 0]), &[]),
        painted("segments of 0 between others",
            low(1, 2, &[4, 18, 2, 1, 5, 5, 1, 0, 2, 0, 9, 9, 3, 0, 2, 1, 6, 6, 5, 0]), &[(0, 0, 5), (1, 0, 6)]),
        painted("09 00 among the rows",
            low(2, 2, &[9, 0, 4, 6, 2, 1, 5, 5, 9, 0, 9, 0, 4, 6, 2, 2, 6, 6, 5, 0]),
            &[(0, 0, 5), (0, 1, 6), (1, 1, 6)]),
        painted("09 to the very height", low(3, 2, &[9, 2, 4, 6, 2, 1, 5, 5, 5, 0]), &[(0, 2, 5)]),
        painted("the second byte of a run", low(1, 3, &[4, 6, 2, 3, 5, 6, 5, 0]), &[(0, 0, 5), (1, 0, 5), (2, 0, 5)]),
        painted("the pad byte", low(1, 3, &[4, 10, 3, 1, 5, 99, 2, 1, 6, 6, 5, 0]), &[(0, 0, 5), (1, 0, 6)]),
        painted("bytes after the marker", low(1, 2, &[4, 6, 3, 2, 5, 6, 5, 0, 4, 6, 7]), &[(0, 0, 5), (1, 0, 6)]),
        painted("a fifth word of any bytes", with(five_six(), 24, &[9, 9]), &[(0, 0, 5), (1, 0, 6)]),
        painted("any palette", with(five_six(), 8, &[255; 4]), &[(0, 0, 5), (1, 0, 6)]),
        painted("version 503", with(five_six(), 0, &[0xF7]), &[(0, 0, 5), (1, 0, 6)]),
        painted("version 504", with(five_six(), 0, &[0xF8]), &[(0, 0, 5), (1, 0, 6)]),
        painted("version 505", with(five_six(), 0, &[0xF9]), &[(0, 0, 5), (1, 0, 6)]),
        painted("colours 0 and 255", low(1, 2, &[4, 6, 3, 2, 0, 255, 5, 0]), &[(0, 0, 0), (1, 0, 255)]),
    ]
}

/// A block of 2 by 2, 1 2 over 3 4, about every edge.
fn positions() -> Vec<Example> {
    let four = || low(2, 2, &[4, 6, 3, 2, 1, 2, 4, 6, 3, 2, 3, 4, 5, 0]);
    let at = |left, top, dots: &[(usize, usize, u8)]| {
        painted("a block of four", four(), dots).at(left, top)
    };
    let mut examples = vec![
        at(3, 1, &[(3, 1, 1), (4, 1, 2), (3, 2, 3), (4, 2, 4)]),
        at(-1, 1, &[(0, 1, 2), (0, 2, 4)]),
        at(7, 1, &[(7, 1, 1), (7, 2, 3)]),
        at(3, -1, &[(3, 0, 3), (4, 0, 4)]),
        at(3, 3, &[(3, 3, 1), (4, 3, 2)]),
        at(-1, -1, &[(0, 0, 4)]),
        at(7, -1, &[(7, 0, 3)]),
        at(-1, 3, &[(0, 3, 2)]),
        at(7, 3, &[(7, 3, 1)]),
    ];
    let off = [-32_768, -300, -2, 8, 32_767];
    examples.extend(off.map(|left| at(left, 1, &[])));
    let off = [-32_768, -300, -2, 4, 32_767];
    examples.extend(off.map(|top| at(3, top, &[])));
    examples
}

/// A row far down in a frame of the greatest height, and a run as far to the right as the count of a
/// row's bytes lets it be.
fn far_off() -> Vec<Example> {
    let down = [&[9, 255].repeat(128)[..], &[9, 131, 4, 6, 2, 1, 5, 5]].concat();
    let down = [&down[..], &[9, 255].repeat(128), &[9, 123, 5, 0]].concat();
    let tall = || with(low(0, 1, &down), 20, &[255, 255]);
    let across = [&[4, 254], &[1, 255].repeat(124)[..], &[2, 255, 6, 7, 5, 0]].concat();
    let wide = || with(low(1, 0, &across), 22, &[255, 255]);
    let right_end: Vec<_> = (0..8).map(|x| (x, 0, 6)).collect();
    vec![
        painted("row 32,771 of 65,535", tall(), &[(0, 3, 5)]).at(0, -32_768),
        // In 16 bits this would be the picture's first row.
        painted("row 32,771 at 65,536", tall(), &[]).at(0, 32_765),
        painted("column 31,620 of 65,535", wide(), &[(7, 0, 6)]).at(-31_613, 0),
        painted("column 31,867 of 65,535", wide(), &right_end).at(-31_867, 0),
        painted("the column after 31,874", wide(), &[]).at(-31_875, 0),
        painted("a row of 254 bytes, off it", wide(), &[]).at(32_767, 0),
    ]
}

/// A frame behind so many bytes, one behind a table of more than 65,536 offsets, and one of as many
/// data rows as the height can tell.
fn long_files() -> Vec<Example> {
    let frame = &five_six()[16..];
    let behind = |offset: u32| {
        let mut file = [&LOW[..12], &offset.to_le_bytes()].concat();
        file.resize(offset as usize, 0);
        [&file, frame].concat()
    };
    let mut table = with(LOW[..12].to_vec(), 4, &65_537_u32.to_le_bytes());
    table.resize(12 + 4 * 65_536, 0);
    table.extend((12 + 4 * 65_537_u32).to_le_bytes());
    let rows = [&[4, 6, 2, 1, 5, 5].repeat(65_535)[..], &[5, 0]].concat();
    let rows = with(low(0, 1, &rows), 20, &[255, 255]);
    let dots = &[(0, 0, 5), (1, 0, 6)];
    vec![
        painted("an offset of 65,552", behind(65_552), dots),
        painted("an offset past 2^24", behind(0x100_0010), dots),
        painted("frame 65,536", [&table, frame].concat(), dots).frame(65_536),
        refused("frame 65,537", [&table, frame].concat(), 16).frame(65_537),
        painted("65,535 data rows", rows, &[0, 1, 2, 3].map(|y| (7, y, 5))).at(7, -32_768),
    ]
}

/// Offsets into the head; the same frame twice; a table that names no frame elsewhere.
#[rustfmt::skip]
fn offsets() -> Vec<Example> {
    // Palette 0, height 0, width 8, and the marker, all of it head and table.
    let in_table = || vec![
        0, 0, 1, 0xF6, 0, 0, 0, 2, 0, 0, 0, 0, 0, 0, 0, 8, 0, 0, 5, 0,
    ];
    // Height 1, width 3, a copy of 5 6 7, and its pad byte; the last offset names it.
    let painted_there = || vec![
        0xF6, 1, 0, 0, 5, 0, 0, 0, 0, 0, 0, 0, 1, 0, 3, 0, 0, 0, 4, 8, 3, 3, 5, 6, 7, 9, 5, 0, 8, 0, 0, 0,
    ];
    let two = || [
        &[0xF6, 1, 0, 0, 3, 0, 0, 0, 0, 0, 0, 0, 24, 0, 0, 0, 24, 0, 0, 0, 255, 255, 255, 255][..],
        &[0, 0, 0, 0, 1, 0, 1, 0, 0, 0, 4, 6, 2, 1, 5, 5, 5, 0],
    ].concat();
    vec![
        painted("a frame in the table", in_table(), &[]),
        refused("a frame in the table, of another offset", in_table(), 17).frame(1),
        painted("a frame of other offsets", painted_there(), &[(0, 0, 5), (1, 0, 6), (2, 0, 7)]).frame(4),
        painted("a shared offset", two(), &[(0, 0, 5)]),
        painted("the same offset", two(), &[(0, 0, 5)]).frame(1),
        refused("an offset past the end", two(), 17).frame(2),
        refused("offset 0", with(five_six(), 12, &[0]), 17),
        refused("the offset of the file's end", with(five_six(), 12, &[34]), 17),
        refused("9 bytes from the offset", with(five_six(), 12, &[25]), 17),
        refused("an offset of 2^31", with(five_six(), 12, &[0, 0, 0, 128]), 17),
        refused("offset 16 in the other order", with(five_six(), 12, &[0, 0, 0, 16]), 17),
    ]
}

#[rustfmt::skip]
fn heads() -> Vec<Example> {
    let mut examples: Vec<Example> = (0..16)
        .flat_map(|length| [
            refused("a head or table cut short", cut(five_six(), length), 15),
            refused("a head or table cut short", cut(high(0, 0, &[5, 0]), length), 15),
        ])
        .collect();
    let no_frame = || LOW[..12].to_vec();
    examples.extend([
        refused("two zero bytes alone", vec![0, 0], 15),
        refused("version 501", with(five_six(), 0, &[0xF5]), 15),
        refused("version 506", with(five_six(), 0, &[0xFA]), 15),
        refused("version 502 + 2^16", with(five_six(), 2, &[1]), 15),
        refused("version 502 in the other order", with(five_six(), 0, &[0, 0, 0xF6, 1]), 15),
        refused("a count that four times wraps to 4", with(five_six(), 7, &[0x40]), 15),
        refused("the greatest count", with(five_six(), 4, &[255; 4]), 15),
        refused("a table past the file's end by two bytes", with(five_six(), 4, &[6]), 15),
        refused("frame 1 of one", five_six(), 16).frame(1),
        refused("frame 2^32", five_six(), 16).frame(1 << 32),
        refused("frame 2^62", five_six(), 16).frame(1 << 62),
        refused("the greatest frame", five_six(), 16).frame(usize::MAX),
        refused("no frame at all", with(no_frame(), 4, &[0]), 16),
        refused("15 before 16", with(five_six(), 4, &[7]), 15).frame(9),
        refused("16 before 17", with(five_six(), 12, &[255]), 16).frame(1),
        refused("first word not zero", with(five_six(), 16, &[1]), 17),
        refused("first word not zero, upper byte", with(five_six(), 17, &[1]), 17),
        refused("second word not zero", with(five_six(), 18, &[1]), 17),
        refused("second word not zero, upper byte", with(five_six(), 19, &[1]), 17),
        refused("9 bytes of a frame", cut(five_six(), 25), 17),
        refused("10 bytes of a frame", cut(five_six(), 26), 18),
        refused("10 bytes of a frame without rows", cut(low(0, 4, &[]), 26), 20),
    ]);
    examples
}

/// Where only 4 and 9 are known, and where only 1, 2 and 3 are: each time so that it would do to
/// take the code for a known one, or to pass over it.
fn other_codes() -> Vec<Example> {
    let row = |code| {
        let rows: [&[u8]; 3] = [&[code, 4, 1, 1], &[code, 1], &[code, 0, 9, 1]];
        rows.map(|row| refused("a row", low(1, 4, &[row, &[5, 0]].concat()), 18))
    };
    let segment = |code| {
        let rows: [&[u8]; 3] = [
            &[4, 6, code, 2, 5, 6],
            &[4, 4, code, 1],
            &[4, 8, code, 0, 2, 1, 5, 5],
        ];
        rows.map(|row| refused("a segment", low(1, 4, &[row, &[5, 0]].concat()), 19))
    };
    let rows = (0..=255).filter(|code| ![4, 9].contains(code));
    let segments = (0..=255).filter(|code| ![1, 2, 3].contains(code));
    rows.flat_map(row)
        .chain(segments.flat_map(segment))
        .collect()
}

#[rustfmt::skip]
fn rows_and_segments() -> Vec<Example> {
    vec![
        refused("a byte of a row head", low(1, 2, &[4]), 18),
        refused("a byte of a background row", low(1, 2, &[9]), 18),
        refused("the marker too early", low(2, 1, &[4, 6, 2, 1, 5, 5, 5, 0]), 18),
        refused("no row after the first", low(2, 1, &[4, 6, 2, 1, 5, 5]), 18),
        refused("a data row of 0", low(1, 1, &[4, 0, 5, 0]), 18),
        refused("a data row of 2", low(1, 1, &[4, 2, 5, 0]), 18),
        refused("a data row of 3", low(1, 1, &[4, 3, 1, 5, 0]), 18),
        refused("09 past the height", low(2, 1, &[9, 3, 5, 0]), 18),
        refused("09 past the rows that remain", low(2, 1, &[4, 4, 1, 1, 9, 2, 5, 0]), 18),
        refused("a data row past the bytes", low(1, 4, &[4, 6, 2, 1, 5]), 18),
        refused("a data row past the bytes, whatever is in it", low(1, 4, &[4, 10, 7, 7, 7, 7, 5, 0]), 18),
        painted("a data row of 4", low(1, 1, &[4, 4, 1, 1, 5, 0]), &[]),
        refused("a byte left over", low(1, 4, &[4, 5, 1, 1, 0, 5, 0]), 19),
        refused("a code without its count", low(1, 4, &[4, 5, 1, 1, 1, 5, 0]), 19),
        refused("a run past its row", low(1, 4, &[4, 5, 2, 1, 7, 7, 5, 0]), 19),
        refused("a run's bytes in the next row", low(2, 4, &[4, 4, 2, 1, 4, 4, 1, 1, 5, 0]), 19),
        refused("a copy past its row", low(1, 4, &[4, 6, 3, 3, 7, 7, 7, 0, 5, 0]), 19),
        refused("a copy's pad byte past its row", low(1, 4, &[4, 7, 3, 3, 7, 7, 7, 0, 5, 0]), 19),
        refused("a run past the width by one", low(1, 3, &[4, 6, 2, 4, 7, 7, 5, 0]), 19),
        refused("a copy past the width by one", low(1, 1, &[4, 6, 3, 2, 7, 7, 5, 0]), 19),
        refused("background past the width by one", low(1, 3, &[4, 4, 1, 4, 5, 0]), 19),
        refused("a second segment past the width", low(1, 3, &[4, 8, 2, 3, 7, 7, 1, 1, 5, 0]), 19),
        refused("a pixel in a width of 0", low(1, 0, &[4, 4, 1, 1, 5, 0]), 19),
        refused("19 in the first row before 18 in the second", low(2, 1, &[4, 4, 7, 1, 7, 7, 5, 0]), 19),
        refused("18 in the first row before 19 in the second", low(2, 1, &[7, 7, 4, 4, 7, 1, 5, 0]), 18),
        refused("19 in the last row before 20", low(1, 1, &[4, 4, 1, 2, 7, 7]), 19),
        refused("no marker", low(1, 1, &[4, 4, 1, 1]), 20),
        refused("half a marker", low(1, 1, &[4, 4, 1, 1, 5]), 20),
        refused("05 01", low(1, 1, &[4, 4, 1, 1, 5, 1]), 20),
        refused("00 05", low(1, 1, &[4, 4, 1, 1, 0, 5]), 20),
        refused("09 00 after the last row", low(1, 1, &[4, 4, 1, 1, 9, 0, 5, 0]), 20),
        refused("a row more than the height", low(1, 1, &[4, 4, 1, 1, 4, 4, 1, 1, 5, 0]), 20),
        refused("09 00 in a height of 0", low(0, 1, &[9, 0, 5, 0]), 20),
    ]
}

/// The first row is good and coloured: nothing of it may show. Where the frame falls plays no part.
#[rustfmt::skip]
fn nothing_painted() -> Vec<Example> {
    let row = [4, 6, 2, 2, 7, 7];
    let after = |rest: &[u8]| low(2, 2, &[&row, rest].concat());
    vec![
        refused("18 in the second row", after(&[6, 0, 5, 0]), 18),
        refused("19 in the second row", after(&[4, 8, 2, 1, 7, 7, 7, 0, 5, 0]), 19),
        refused("20 after the second row", after(&[9, 1, 5, 5]), 20),
        refused("18 off the picture", after(&[6, 0, 5, 0]), 18).at(-32_768, 32_767),
        refused("19 below the picture", after(&[4, 4, 7, 1, 5, 0]), 19).at(0, 3),
        refused("20 above the picture", after(&[9, 1, 5, 5]), 20).at(0, -2),
    ]
}

/// Before anything of the file is looked at.
fn sizes_and_lengths() -> Vec<Example> {
    let lent = |width, height, pixels, file: Vec<u8>, number| Example {
        size: Size { width, height },
        pixels,
        ..refused("a size or length", file, number)
    };
    vec![
        lent(6, 4, 24, five_six(), 1),
        lent(0, 4, 0, five_six(), 1),
        lent(324, 4, 1_296, five_six(), 1),
        lent(4, 204, 816, five_six(), 1),
        lent(8 + (1 << 62), 4, 32, five_six(), 1),
        lent(6, 4, 32, Vec::new(), 1),
        lent(8, 4, 31, five_six(), 2),
        lent(8, 4, 33, five_six(), 2),
        lent(8, 4, 0, five_six(), 2),
        lent(8, 4, 16, Vec::new(), 2),
        lent(8, 4, 32, Vec::new(), 15),
    ]
}

pub fn check(codec: &Codec) -> Result<(), String> {
    let groups = [
        whole_files(),
        positions(),
        far_off(),
        long_files(),
        offsets(),
        heads(),
        other_codes(),
        rows_and_segments(),
        nothing_painted(),
        sizes_and_lengths(),
    ];
    groups
        .iter()
        .flatten()
        .try_for_each(|example| check_symbol(codec, example))
}

fn check_symbol(codec: &Codec, example: &Example) -> Result<(), String> {
    let Example { size, placed, .. } = *example;
    let lent = case(example);
    let mut left = case(example);
    let number = example.says.as_ref().err().copied().unwrap_or(0);
    for (x, y, colour) in example.says.iter().flatten() {
        left.picture[y * size.width + x] = *colour;
    }
    let found = Painting::of(&lent, |picture, file| {
        (codec.paint_symbol)(size, picture, file, placed)
    });
    let expected = Painting::of(&left, |_, _| number_alone(number));
    without(found.differences(&expected, FOUND_AND_SAID), || {
        let file = bytes_in_short(&example.file);
        format!("{}, {placed:?}, file {file}", example.name)
    })
}

fn case(example: &Example) -> SymbolCase {
    SymbolCase {
        size: example.size,
        picture: lent_picture(example.pixels),
        file: example.file.clone(),
        placed: example.placed,
    }
}
