//! The symbols that are painted: files, whole and damaged, frames and positions, with the pictures
//! lent for them. sprites.rs makes the files.

use seatboard::Size;

use crate::generate;
use crate::random::Random;
use crate::sprites::{self, Built, FRAME_HEAD, HEAD};

pub struct SymbolCase {
    pub size: Size,
    pub picture: Vec<u8>,
    pub file: Vec<u8>,
    pub placed: Placed,
}

/// Which frame of the file, and where its upper left pixel falls.
#[derive(Clone, Copy, Debug)]
pub struct Placed {
    pub frame: usize,
    pub left: i16,
    pub top: i16,
}

/// Symbols are numbered apart from all other cases.
const SYMBOLS: u64 = 1 << 60;

pub fn case(seed: u64, number: u64) -> SymbolCase {
    let random = &mut Random::for_case(seed ^ SYMBOLS, number);
    let right = generate::allowed_size(random);
    let mut built = sprites::file(random);
    let shape = built.parts.shape;
    let left = any_place(random, right.width, shape.width, shape.lead_columns);
    let top = any_place(random, right.height, shape.height, shape.lead_rows);
    match random.below(24) {
        0..=9 => {}
        10 => noise(random, &mut built),
        11 => {
            let length = random.below(40);
            built.file = random.bytes(length);
        }
        _ => damage(random, &mut built),
    }
    // On top of any other fault.
    if random.one_in(16) {
        built.frame = wrong_frame(random, &built);
    }
    let (size, picture) = any_picture(random, right);
    SymbolCase {
        size,
        picture,
        file: built.file,
        placed: Placed {
            frame: built.frame,
            left,
            top,
        },
    }
}

fn any_picture(random: &mut Random, right: Size) -> (Size, Vec<u8>) {
    let pixels = right.width * right.height;
    match random.below(24) {
        0 => {
            let board = generate::board_of_wrong_size(random, right);
            (board.size, board.picture)
        }
        1 => {
            let length = generate::wrong_length(random, pixels, pixels / 16);
            (right, random.bytes(length))
        }
        _ => (right, random.bytes(pixels)),
    }
}

/// Along one side: about both edges of the picture, far off it, and where what comes after the
/// frame's leading background shows, or would show in 16 bits.
fn any_place(random: &mut Random, picture: usize, frame: usize, lead: usize) -> i16 {
    let [picture, frame, lead] = [picture, frame, lead].map(|extent| extent as i64);
    let within = random.below(picture as usize) as i64;
    let about = random.pick(&[-1, 0, 1]);
    let place = match random.below(20) {
        _ if lead > 0 && random.one_in(2) => random.pick(&[within - lead, 65_536 + within - lead]),
        0..=9 => within - lead,
        10 => about - lead,
        11 | 12 => picture - lead + about,
        13 | 14 => about - frame,
        15 => -(random.below(frame as usize + 1) as i64),
        16 | 17 => picture - frame + about,
        18 => random.pick(&[i64::from(i16::MIN), i64::from(i16::MAX)]),
        _ => i64::from(random.next() as i16),
    };
    place.clamp(i16::MIN.into(), i16::MAX.into()) as i16
}

/// Makes one thing wrong, or likely so.
fn damage(random: &mut Random, built: &mut Built) {
    match random.below(12) {
        0 | 1 => damage_head(random, built),
        2 | 3 => damage_frame_head(random, built),
        4 | 5 => damage_row(random, built),
        6..=8 => damage_segment(random, built),
        9 | 10 => damage_end(random, built),
        _ => damage_anywhere(random, built),
    }
}

/// 15, but for some counts: 16 then.
fn damage_head(random: &mut Random, built: &mut Built) {
    let table_end = HEAD + 4 * built.count;
    match random.below(6) {
        0 => built.file.truncate(random.below(table_end)),
        1 => built.file.truncate(table_end - 1),
        2 | 3 => {
            let flipped = 503 ^ (1 << random.below(32));
            let turned = 502 << (8 * random.between(1, 2));
            let version = random.pick(&[0, 1, 501, 506, flipped, turned]);
            built.put(0, 4, version);
        }
        4 => {
            let fit = (built.file.len() - HEAD) / 4;
            // Four times these wrap to little in 32 bits.
            let wraps = built.count + (1 << 30) * random.between(1, 3);
            let count = random.pick(&[fit, fit + 1, fit + 2, wraps, 0xFFFF_FFFF]);
            built.put(4, 4, count);
        }
        _ => built.put(4, 4, random.between(0, built.frame)),
    }
}

fn wrong_frame(random: &mut Random, built: &Built) -> usize {
    let (frame, count) = (built.frame, built.count);
    match random.below(7) {
        0 | 1 => count,
        2 => count + random.between(1, 300),
        // Right, if only the lower bytes were looked at, or those of four times it.
        3 => frame + (1 << random.pick(&[8, 16, 32])),
        4 => frame + (1 << 62) * random.between(1, 3),
        5 => usize::MAX - random.below(8),
        _ => random.next() as usize,
    }
}

/// 17, or a frame elsewhere.
fn damage_frame_head(random: &mut Random, built: &mut Built) {
    let length = built.file.len();
    match random.below(6) {
        0 => built.file[built.start + random.below(4)] ^= 1 << random.below(8),
        1 => {
            let cut = built.start + random.below(FRAME_HEAD + 1);
            built.file.truncate(cut);
        }
        2 | 3 => {
            // About the last place where a frame's head still fits.
            let offset = (length + 2).saturating_sub(random.below(FRAME_HEAD + 4));
            built.put(built.entry(), 4, offset);
        }
        4 => {
            let offset = random.pick(&[length + 100, 0x7FFF_FFFF, 0x8000_0000, 0xFFFF_FFFF]);
            built.put(built.entry(), 4, offset - random.below(12));
        }
        _ => {
            let within = random.below(length);
            let offset = random.pick(&[0, 2, 4, 8, 12, within, built.start + 1]);
            built.put(built.entry(), 4, offset);
        }
    }
}

/// 18, but for counts that still fit.
fn damage_row(random: &mut Random, built: &mut Built) {
    let rows = &built.parts.rows;
    let any_or_last = match rows.last() {
        Some(last) => [random.pick(rows), *last],
        None => [built.parts.marker; 2],
    };
    let row = built.start + random.pick(&any_or_last);
    match random.below(8) {
        0 | 1 => built.file[row] = random.pick(&[0, 1, 2, 3, 5, 6, 8, 10, 0x84, 0x49]),
        2 => built.file[row..row + 2].copy_from_slice(&[4, random.below(4) as u8]),
        3 => built.file[row + 1] = random.pick(&[5, 255]),
        4 => built.file[row + 1] = built.file[row + 1].wrapping_add(random.pick(&[1, 2, 255])),
        5 => built.file.truncate(row + random.below(2)),
        6 => built.file.truncate(row + random.between(2, 8)),
        _ => built.file[row..row + 2].copy_from_slice(&[5, 0]),
    }
}

/// 19, but for counts that still fit; 18 where what comes after is no row then.
fn damage_segment(random: &mut Random, built: &mut Built) {
    let parts = &built.parts;
    if parts.segments.is_empty() {
        return damage_row(random, built);
    }
    let segment = built.start + random.pick(&parts.segments);
    let heads = parts.rows.iter().map(|row| built.start + row);
    let row = heads.filter(|row| *row < segment).max();
    let row = row.expect("a segment stands in a row");
    match random.below(8) {
        0 => built.file[segment] = random.pick(&[0, 4, 5, 6, 9, 0x81, 0x13]),
        1 => built.file[segment] = random.between(1, 3) as u8,
        2 => built.file[segment + 1] = built.file[segment + 1].wrapping_add(1),
        3 => built.file[segment + 1] = random.pick(&[0, 254, 255]),
        // The width is passed, by one often.
        4 | 5 => {
            let width = built.parts.shape.width;
            let less = random.pick(&[1, 1, 2, width]);
            built.put(built.start + 6, 2, width.saturating_sub(less));
        }
        6 => built.file[row + 1] = built.file[row + 1].wrapping_sub(random.between(1, 3) as u8),
        // A byte more than the row's segments have.
        _ => {
            let end = row + usize::from(built.file[row + 1]);
            built.file.insert(end, random.pick(&[0, 1, 3]));
            built.file[row + 1] += 1;
        }
    }
}

/// 20, or 18 where a row more is looked for.
fn damage_end(random: &mut Random, built: &mut Built) {
    let marker = built.start + built.parts.marker;
    match random.below(8) {
        0 => built.file[marker] = random.pick(&[0, 1, 4, 6, 9, 0x85]),
        1 => built.file[marker + 1] = random.pick(&[1, 5, 16, 128]),
        2 => built.file.truncate(marker + random.below(2)),
        3 => drop(built.file.splice(marker..marker, [9, 0])),
        4 => drop(built.file.splice(marker..marker, [4, 4, 1, 0])),
        5 => {
            built.file.remove(marker);
        }
        _ => {
            let height = built.parts.shape.height;
            let heights = [
                height.saturating_sub(1),
                height + 1,
                random.between(0, height),
            ];
            built.put(built.start + 4, 2, random.pick(&heights));
        }
    }
}

fn damage_anywhere(random: &mut Random, built: &mut Built) {
    let length = built.file.len();
    let place = random.between(built.start, length - 1);
    match random.below(5) {
        0 => built.file.truncate(random.below(length)),
        1 => generate::flip_bits(random, &mut built.file),
        2 => generate::flip_bits(random, &mut built.file[built.start..]),
        3 => {
            built.file.remove(place);
        }
        _ => built.file.insert(place, random.byte()),
    }
}

/// Bytes that are likely in a frame, in the place of its rows.
fn noise(random: &mut Random, built: &mut Built) {
    built.put(built.start + 4, 2, random.between(0, 3));
    built.put(built.start + 6, 2, random.between(0, 9));
    built.file.truncate(built.start + FRAME_HEAD);
    for _ in 0..random.below(40) {
        let any = random.below(12) as u8;
        built.file.push(random.pick(&[0, 1, 2, 3, 4, 5, 9, any]));
    }
}
