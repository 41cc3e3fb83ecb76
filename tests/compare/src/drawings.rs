//! The symbols in examples/symbols, each frame painted at several places and compared with its
//! drawing in the README there.

use std::fs;

use seatboard::Size;

use crate::compare::{Codec, Painting};
use crate::examples::{lent_picture, number_alone, without};
use crate::symbols::{Placed, SymbolCase};

const FOLDER: &str = concat!(env!("CARGO_MANIFEST_DIR"), "/../../examples/symbols");

const SIZE: Size = Size {
    width: 24,
    height: 16,
};

/// Whole, and off each edge and corner in part or altogether.
const POSITIONS: [(i16, i16); 9] = [
    (5, 2),
    (-3, 2),
    (18, 1),
    (7, -4),
    (7, 11),
    (-5, -5),
    (20, 12),
    (-12, 0),
    (0, 16),
];

/// A frame as the README draws it: a character a pixel, line by line.
struct Drawing<'a> {
    file: &'a str,
    frame: usize,
    lines: Vec<&'a str>,
}

pub fn check(codec: &Codec) -> Result<(), String> {
    let readme = read("README.md")?;
    let readme = String::from_utf8_lossy(&readme);
    let drawings = drawings(&readme);
    for drawing in &drawings {
        let file = read(drawing.file)?;
        for position in POSITIONS {
            check_painted(codec, drawing, &file, position)?;
        }
    }
    for name in ["chair.spr", "door.spr", "aisle.spr"] {
        let drawn = drawings.iter().filter(|drawing| drawing.file == name);
        check_count(codec, name, drawn.count())?;
    }
    Ok(())
}

fn read(name: &str) -> Result<Vec<u8>, String> {
    fs::read(format!("{FOLDER}/{name}")).map_err(|why| format!("{name}: {why}"))
}

/// They stand between a line "```text FILE FRAME" and a line "```".
fn drawings(readme: &str) -> Vec<Drawing<'_>> {
    let drawing = |block| {
        let mut lines = str::lines(block);
        let (file, frame) = lines.next()?.split_once(' ')?;
        Some(Drawing {
            file,
            frame: frame.parse().ok()?,
            lines: lines.take_while(|line| *line != "```").collect(),
        })
    };
    readme
        .split("```text ")
        .skip(1)
        .filter_map(drawing)
        .collect()
}

fn check_painted(
    codec: &Codec,
    drawing: &Drawing,
    file: &[u8],
    (left, top): (i16, i16),
) -> Result<(), String> {
    let placed = Placed {
        frame: drawing.frame,
        left,
        top,
    };
    let lent = case(file, placed);
    let mut left_behind = case(file, placed);
    let [width, height] = [SIZE.width, SIZE.height].map(|side| side as i32);
    for (line, y) in drawing.lines.iter().zip(i32::from(top)..) {
        for (pixel, x) in line.chars().zip(i32::from(left)..) {
            let on_picture = (0..width).contains(&x) && (0..height).contains(&y);
            if let (Some(colour), true) = (pixel.to_digit(16), on_picture) {
                left_behind.picture[(y * width + x) as usize] = colour as u8;
            }
        }
    }
    compare(codec, drawing.file, [&lent, &left_behind], 0)
}

/// All frames of the file are drawn: there is none after the last of them.
fn check_count(codec: &Codec, name: &str, drawn: usize) -> Result<(), String> {
    let placed = Placed {
        frame: drawn,
        left: 0,
        top: 0,
    };
    let lent = case(&read(name)?, placed);
    compare(codec, name, [&lent, &lent], 16)
}

fn compare(
    codec: &Codec,
    name: &str,
    [lent, left_behind]: [&SymbolCase; 2],
    number: u8,
) -> Result<(), String> {
    let placed = lent.placed;
    let found = Painting::of(lent, |picture, file| {
        (codec.paint_symbol)(SIZE, picture, file, placed)
    });
    let expected = Painting::of(left_behind, |_, _| number_alone(number));
    without(found.differences(&expected, ["it has", "drawn"]), || {
        format!("{name}, {placed:?}")
    })
}

fn case(file: &[u8], placed: Placed) -> SymbolCase {
    SymbolCase {
        size: SIZE,
        picture: lent_picture(SIZE.width * SIZE.height),
        file: file.to_vec(),
        placed,
    }
}
