//! SPR# files without fault, and where their parts stand, for symbols.rs to damage. It knows from
//! papers 001 and 01 how a file is laid out and shares nothing with the second painter, which alone
//! says what is right.

use crate::random::Random;

/// Bytes before the offset table, and before a frame's rows.
pub const HEAD: usize = 12;
pub const FRAME_HEAD: usize = 10;

/// The most rows or pixels that one count tells, and the greatest height or width.
const MOST_COUNTED: usize = 255;
const MOST: usize = 65_535;
/// The most bytes of segments in one row: each segment has an even number of them.
const ROW_ROOM: usize = 252;

/// A file, and the frame in it that is to be painted.
pub struct Built {
    pub file: Vec<u8>,
    pub highest_first: bool,
    pub count: usize,
    /// The frame's number, and where its first byte stands.
    pub frame: usize,
    pub start: usize,
    pub parts: Parts,
}

/// Where in a frame its parts stand, from the frame's first byte on.
pub struct Parts {
    pub shape: Shape,
    pub rows: Vec<usize>,
    pub segments: Vec<usize>,
    pub marker: usize,
}

#[derive(Clone, Copy)]
pub struct Shape {
    pub height: usize,
    pub width: usize,
    /// So many rows and columns of background come first.
    pub lead_rows: usize,
    pub lead_columns: usize,
}

impl Built {
    /// Where the frame's offset stands.
    pub fn entry(&self) -> usize {
        HEAD + 4 * self.frame
    }

    /// Puts a number in the file's own byte order.
    pub fn put(&mut self, place: usize, length: usize, number: usize) {
        let bytes = ordered(self.highest_first, number, length);
        self.file[place..place + length].copy_from_slice(&bytes);
    }
}

fn ordered(highest_first: bool, number: usize, length: usize) -> Vec<u8> {
    let mut bytes = number.to_le_bytes()[..length].to_vec();
    if highest_first {
        bytes.reverse();
    }
    bytes
}

pub fn file(random: &mut Random) -> Built {
    if random.one_in(12) {
        in_the_table(random)
    } else {
        behind_the_table(random)
    }
}

/// Some frames in any order with any bytes between them, and a table that names each of them or one
/// twice. What else it names, if it is not the frame that is painted, need not be a frame.
fn behind_the_table(random: &mut Random) -> Built {
    let highest_first = random.one_in(2);
    let count = random.pick(&[1, 1, 2, 3, 4, 8]);
    let mut file = head(random, highest_first, count);
    file.resize(HEAD + 4 * count, 0);
    let mut frames = Vec::new();
    for _ in 0..count.min(3) {
        if random.one_in(3) {
            let between = random.between(1, 9);
            file.extend(random.bytes(between));
        }
        let (bytes, parts) = Frame::build(random, highest_first);
        frames.push((file.len(), parts));
        file.extend(bytes);
    }
    if random.one_in(2) {
        let after = random.between(1, 20);
        file.extend(random.bytes(after));
    }
    let (start, parts) = frames.swap_remove(random.below(frames.len()));
    let mut built = Built {
        frame: random.below(count),
        file,
        highest_first,
        count,
        start,
        parts,
    };
    fill_table(random, &mut built, &frames);
    built
}

fn fill_table(random: &mut Random, built: &mut Built, others: &[(usize, Parts)]) {
    for entry in 0..built.count {
        let other = others.get(entry).map_or(built.start, |(start, _)| *start);
        let offset = match random.below(4) {
            _ if entry == built.frame => built.start,
            0 => built.start,
            1 => random.next() as u32 as usize,
            _ => other,
        };
        built.put(HEAD + 4 * entry, 4, offset);
    }
}

/// The frame begins with the palette ID, which is zero, and its bytes are the table's first offsets.
/// The last one names it.
fn in_the_table(random: &mut Random) -> Built {
    const START: usize = 8;
    let highest_first = random.one_in(2);
    let (bytes, parts) = Frame::build(random, highest_first);
    let mut file = head(random, highest_first, 0);
    file.truncate(START);
    file.extend(bytes);
    file.resize(file.len().next_multiple_of(4), 0);
    let frame = (file.len() - HEAD) / 4;
    file.extend(ordered(highest_first, START, 4));
    let mut built = Built {
        file,
        highest_first,
        count: frame + 1,
        frame,
        start: START,
        parts,
    };
    built.put(4, 4, built.count);
    if random.one_in(2) {
        let after = random.between(1, 9);
        built.file.extend(random.bytes(after));
    }
    built
}

fn head(random: &mut Random, highest_first: bool, count: usize) -> Vec<u8> {
    let version = random.between(502, 505);
    let any = random.next() as u32 as usize;
    let palette = random.pick(&[0, 1, any]);
    [version, count, palette]
        .map(|number| ordered(highest_first, number, 4))
        .concat()
}

/// A frame as far as it is built.
struct Frame<'a> {
    random: &'a mut Random,
    bytes: Vec<u8>,
    parts: Parts,
    /// Rows still to come.
    left: usize,
}

impl Frame<'_> {
    fn build(random: &mut Random, highest_first: bool) -> (Vec<u8>, Parts) {
        let shape = any_shape(random);
        let fifth = random.pick(&[[0, 0], [0, 0x10], [9, 1], [4, 4]]);
        let mut bytes = vec![0; 4];
        bytes.extend(ordered(highest_first, shape.height, 2));
        bytes.extend(ordered(highest_first, shape.width, 2));
        bytes.extend(fifth);
        let parts = Parts {
            shape,
            rows: Vec::new(),
            segments: Vec::new(),
            marker: 0,
        };
        let mut frame = Frame {
            random,
            bytes,
            parts,
            left: shape.height,
        };
        frame.push_rows();
        frame.parts.marker = frame.bytes.len();
        frame.bytes.extend([5, 0]);
        (frame.bytes, frame.parts)
    }

    fn push_rows(&mut self) {
        self.push_background(self.parts.shape.lead_rows);
        let mut pushed = 0;
        while self.left > 0 {
            // What few rows show of a great height is enough.
            if pushed >= 60 {
                self.push_background(self.left);
                return;
            }
            pushed += 1;
            match self.random.below(12) {
                0 => {
                    let rows = self.count(self.left);
                    self.push_background(rows);
                }
                1 if self.random.one_in(2) => self.push_head(9, 0),
                _ => self.push_data(),
            }
        }
    }

    fn push_head(&mut self, code: u8, count: usize) {
        self.parts.rows.push(self.bytes.len());
        self.bytes.extend([code, count as u8]);
    }

    fn push_background(&mut self, mut rows: usize) {
        self.left -= rows;
        while rows > 0 {
            let some = rows.min(MOST_COUNTED);
            self.push_head(9, some);
            rows -= some;
        }
    }

    /// One row: background as far as it leads, then segments while width and room are left.
    fn push_data(&mut self) {
        let Shape {
            width,
            lead_columns,
            ..
        } = self.parts.shape;
        let head = self.bytes.len();
        self.push_head(4, 0);
        self.left -= 1;
        let mut pixels = 0;
        while pixels < lead_columns {
            let some = (lead_columns - pixels).min(MOST_COUNTED);
            self.push_segment(1, some);
            pixels += some;
        }
        loop {
            let room = ROW_ROOM + 2 - (self.bytes.len() - head);
            if room < 4 {
                break;
            }
            pixels += self.push_any_segment(width - pixels, room);
            let goes_on = if pixels < width { 7 } else { 1 };
            if self.random.below(8) >= goes_on {
                break;
            }
        }
        self.bytes[head + 1] = (self.bytes.len() - head) as u8;
    }

    /// Gives its pixels, of which so many are left.
    fn push_any_segment(&mut self, left: usize, room: usize) -> usize {
        let code = self.random.pick(&[1, 2, 2, 3, 3]);
        let most = if code == 3 { left.min(room - 2) } else { left };
        let pixels = if most == 0 || self.random.one_in(12) {
            0
        } else {
            self.count(most)
        };
        self.push_segment(code, pixels);
        pixels
    }

    fn push_segment(&mut self, code: u8, pixels: usize) {
        self.parts.segments.push(self.bytes.len());
        self.bytes.extend([code, pixels as u8]);
        match code {
            1 => {}
            2 => {
                let colour = any_colour(self.random);
                let second = any_colour(self.random);
                self.bytes
                    .extend([colour, self.random.pick(&[colour, second])]);
            }
            _ => {
                let copied = (0..pixels.next_multiple_of(2)).map(|_| any_colour(self.random));
                self.bytes.extend(copied);
            }
        }
    }

    /// Where at most so many fit, at least 1: often the least or the greatest.
    fn count(&mut self, most: usize) -> usize {
        let most = most.min(MOST_COUNTED);
        match self.random.below(6) {
            0 => 1,
            1 => most,
            2 | 3 => self.random.between(1, most.min(5)),
            _ => self.random.between(1, most),
        }
    }
}

/// 0 often, which is a colour and not background.
fn any_colour(random: &mut Random) -> u8 {
    let any = random.byte();
    random.pick(&[0, 1, 255, any, any])
}

fn any_shape(random: &mut Random) -> Shape {
    let (height, width) = match random.below(16) {
        0..=5 => (random.between(0, 8), random.between(0, 8)),
        6..=9 => (random.between(1, 30), random.between(1, 30)),
        10 => (random.between(1, 3), random.between(200, 700)),
        11 => (random.between(40, 400), random.between(1, 6)),
        12 | 13 => return wide_shape(random),
        _ => return tall_shape(random),
    };
    Shape {
        height,
        width,
        lead_rows: 0,
        lead_columns: 0,
    }
}

/// Up to the last column where a run can begin, by the bytes that a row can count.
fn wide_shape(random: &mut Random) -> Shape {
    const LAST: usize = 124 * MOST_COUNTED;
    let far = random.between(250, LAST);
    let lead_columns = random.pick(&[256, far, LAST]);
    Shape {
        height: random.between(1, 3),
        width: random.pick(&[MOST, lead_columns + 300, 32_767, 32_768]),
        lead_rows: 0,
        lead_columns,
    }
}

/// Often so far down that it shows only where the frame begins high above the picture, or in 16
/// bits would show where the frame begins below it.
fn tall_shape(random: &mut Random) -> Shape {
    let far = random.between(250, MOST);
    let half = random.between(32_750, 32_800);
    let lead_rows = random.pick(&[0, 256, far, half, half, MOST - 1, MOST]);
    Shape {
        height: random.pick(&[MOST, (lead_rows + 20).min(MOST)]),
        width: random.between(1, 12),
        lead_rows,
        lead_columns: 0,
    }
}
