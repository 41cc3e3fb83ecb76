//! The independent second painter of seat symbols, written from papers 001 (the SPR# layout), 01
//! ("Sprites") and 02 (the first request) and from no code of ours. How doubtful places of these are
//! read was settled before, so it is no second opinion on them. It takes from the second reader what
//! is refused with 1 and 2.
//!
//! A frame is first parsed whole, row by row, into segments. Only a frame without fault is then
//! painted, pixel by pixel; so a refused one cannot paint.

use std::iter;

use crate::reader;

/// Why nothing was painted: 02's numbers, with each of the faults that have one number told apart.
#[derive(Clone, Copy, Debug, PartialEq, Eq)]
pub enum Refusal {
    SizeNotAllowed,
    LentLength,
    HeadCut,
    OtherVersion,
    TableCut,
    NoSuchFrame,
    FrameHeadCut,
    WordNotZero,
    RowHeadCut,
    OtherRowCode,
    RowUnderFour,
    RowPastHeight,
    RowPastBytes,
    OtherSegmentCode,
    SegmentPastRow,
    SegmentPastWidth,
    ByteLeftOver,
    MarkerCut,
    OtherMarker,
}

impl Refusal {
    pub fn number(self) -> u8 {
        match self {
            Refusal::SizeNotAllowed => 1,
            Refusal::LentLength => 2,
            Refusal::HeadCut | Refusal::OtherVersion | Refusal::TableCut => 15,
            Refusal::NoSuchFrame => 16,
            Refusal::FrameHeadCut | Refusal::WordNotZero => 17,
            Refusal::RowHeadCut
            | Refusal::OtherRowCode
            | Refusal::RowUnderFour
            | Refusal::RowPastHeight
            | Refusal::RowPastBytes => 18,
            Refusal::OtherSegmentCode
            | Refusal::SegmentPastRow
            | Refusal::SegmentPastWidth
            | Refusal::ByteLeftOver => 19,
            Refusal::MarkerCut | Refusal::OtherMarker => 20,
        }
    }
}

/// A frame that is accepted.
pub struct Frame {
    pub height: usize,
    pub width: usize,
    pub rows: Vec<Row>,
    /// Bytes of the file after the end marker.
    pub unread: usize,
}

pub enum Row {
    /// So many rows of background.
    Background(usize),
    /// One row; what its segments leave of it is background.
    Data(Vec<Segment>),
}

pub enum Segment {
    Background(usize),
    Run(usize, u8),
    Copy(Vec<u8>),
}

/// A pixel that is not background, by its place in the frame.
pub struct Dot {
    pub column: usize,
    pub row: usize,
    pub colour: u8,
}

/// Paints a frame of the file on the picture. 02's order: 1 and 2 first.
pub fn paint_symbol(
    (width, height): (usize, usize),
    picture: &mut [u8],
    file: &[u8],
    frame: usize,
    (left, top): (i16, i16),
) -> Result<Frame, Refusal> {
    reader::check_size(width, height).map_err(|_| Refusal::SizeNotAllowed)?;
    reader::check_picture(width, height, picture).map_err(|_| Refusal::LentLength)?;
    let frame = read_frame(file, frame)?;
    for dot in frame.dots() {
        let x = falls(left, dot.column, width);
        let y = falls(top, dot.row, height);
        if let (Some(x), Some(y)) = (x, y) {
            picture[y * width + x] = dot.colour;
        }
    }
    Ok(frame)
}

/// Where a pixel falls on one side of the picture; 02: pixels off it are dropped.
fn falls(start: i16, by: usize, side: usize) -> Option<usize> {
    let place = i64::from(start) + by as i64;
    usize::try_from(place).ok().filter(|place| *place < side)
}

/// The frame of this number, whatever it is to be painted on.
pub fn read_frame(bytes: &[u8], frame: usize) -> Result<Frame, Refusal> {
    let file = File::new(bytes);
    let offset = file.offset(frame)?;
    file.frame(offset)
}

struct File<'a> {
    bytes: &'a [u8],
    highest_first: bool,
}

impl<'a> File<'a> {
    /// 01: two zero bytes first mean highest byte first, else lowest first.
    fn new(bytes: &'a [u8]) -> Self {
        File {
            bytes,
            highest_first: bytes.starts_with(&[0, 0]),
        }
    }

    /// The number of so many bytes at a place; none where the file ends before them.
    fn number(&self, place: usize, length: usize) -> Option<usize> {
        let bytes = self.bytes.get(place..place + length)?;
        let join = |number: usize, byte: &u8| 256 * number + usize::from(*byte);
        Some(if self.highest_first {
            bytes.iter().fold(0, join)
        } else {
            bytes.iter().rev().fold(0, join)
        })
    }

    /// 001: version, frame count, palette ID, then an offset for each frame.
    fn offset(&self, frame: usize) -> Result<usize, Refusal> {
        let head = |place| self.number(place, 4).ok_or(Refusal::HeadCut);
        let [version, count, _palette] = [head(0)?, head(4)?, head(8)?];
        if !(502..=505).contains(&version) {
            return Err(Refusal::OtherVersion);
        }
        let offsets: Vec<usize> = (0..count)
            .map_while(|entry| self.number(12 + 4 * entry, 4))
            .collect();
        if offsets.len() < count {
            return Err(Refusal::TableCut);
        }
        offsets.get(frame).copied().ok_or(Refusal::NoSuchFrame)
    }

    /// 001: five words, of which the last is passed over, the rows, and the end marker.
    fn frame(&self, offset: usize) -> Result<Frame, Refusal> {
        let word = |place| {
            let word = self.number(offset + place, 2);
            word.ok_or(Refusal::FrameHeadCut)
        };
        let [first, second, height, width, _fifth] =
            [word(0)?, word(2)?, word(4)?, word(6)?, word(8)?];
        if (first, second) != (0, 0) {
            return Err(Refusal::WordNotZero);
        }
        let mut rest = &self.bytes[offset + 10..];
        let rows = take_rows(&mut rest, height, width)?;
        match rest {
            [5, 0, unread @ ..] => Ok(Frame {
                height,
                width,
                rows,
                unread: unread.len(),
            }),
            [_, _, ..] => Err(Refusal::OtherMarker),
            _ => Err(Refusal::MarkerCut),
        }
    }
}

/// 01: exactly height rows.
fn take_rows(rest: &mut &[u8], height: usize, width: usize) -> Result<Vec<Row>, Refusal> {
    let mut rows = Vec::new();
    let mut left = height;
    while left > 0 {
        let (row, after) = row(rest, left, width)?;
        left -= row.height();
        rows.push(row);
        *rest = after;
    }
    Ok(rows)
}

/// The next row or rows, where so many are left, and the bytes after them.
fn row(bytes: &[u8], left: usize, width: usize) -> Result<(Row, &[u8]), Refusal> {
    let [code, count, after @ ..] = bytes else {
        return Err(Refusal::RowHeadCut);
    };
    let count = usize::from(*count);
    match code {
        9 if count <= left => Ok((Row::Background(count), after)),
        9 => Err(Refusal::RowPastHeight),
        4 if count < 4 => Err(Refusal::RowUnderFour),
        // The count includes the two bytes of the row's head.
        4 => {
            let data = after.split_at_checked(count - 2);
            let (data, after) = data.ok_or(Refusal::RowPastBytes)?;
            Ok((Row::Data(segments(data, width)?), after))
        }
        _ => Err(Refusal::OtherRowCode),
    }
}

/// 01: its segments fill that count exactly and the width is not passed.
fn segments(mut data: &[u8], width: usize) -> Result<Vec<Segment>, Refusal> {
    let mut segments = Vec::new();
    let mut pixels = 0;
    while !data.is_empty() {
        let (segment, after) = segment(data)?;
        pixels += segment.pixels();
        if pixels > width {
            return Err(Refusal::SegmentPastWidth);
        }
        segments.push(segment);
        data = after;
    }
    Ok(segments)
}

/// 01: the second byte of a run and the pad byte must be there and aren't looked at.
fn segment(data: &[u8]) -> Result<(Segment, &[u8]), Refusal> {
    let [code, count, rest @ ..] = data else {
        return Err(Refusal::ByteLeftOver);
    };
    let n = usize::from(*count);
    let follow = match code {
        1 => 0,
        2 => 2,
        3 => n.next_multiple_of(2),
        _ => return Err(Refusal::OtherSegmentCode),
    };
    let taken = rest.split_at_checked(follow);
    let (bytes, after) = taken.ok_or(Refusal::SegmentPastRow)?;
    let segment = match code {
        1 => Segment::Background(n),
        2 => Segment::Run(n, bytes[0]),
        _ => Segment::Copy(bytes[..n].to_vec()),
    };
    Ok((segment, after))
}

impl Frame {
    pub fn dots(&self) -> Vec<Dot> {
        let mut dots = Vec::new();
        let mut row = 0;
        for rows in &self.rows {
            if let Row::Data(segments) = rows {
                let colours = segments.iter().flat_map(Segment::colours).enumerate();
                dots.extend(colours.filter_map(|(column, colour)| {
                    let colour = colour?;
                    Some(Dot {
                        column,
                        row,
                        colour,
                    })
                }));
            }
            row += rows.height();
        }
        dots
    }
}

impl Row {
    fn height(&self) -> usize {
        match self {
            Row::Background(rows) => *rows,
            Row::Data(_) => 1,
        }
    }
}

impl Segment {
    pub fn pixels(&self) -> usize {
        match self {
            Segment::Background(n) | Segment::Run(n, _) => *n,
            Segment::Copy(colours) => colours.len(),
        }
    }

    /// Pixel by pixel; none is background.
    fn colours(&self) -> Vec<Option<u8>> {
        match self {
            Segment::Background(n) => vec![None; *n],
            Segment::Run(n, colour) => iter::repeat_n(Some(*colour), *n).collect(),
            Segment::Copy(colours) => colours.iter().copied().map(Some).collect(),
        }
    }
}
