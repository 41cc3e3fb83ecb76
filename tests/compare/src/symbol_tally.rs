//! What the compared symbols had in them, so that a run which missed something says so.

use second::sprite::{self, Dot, Frame, Refusal, Row, Segment};

use crate::compare::SymbolComparison;
use crate::sprites::{FRAME_HEAD, HEAD};
use crate::symbols::{Placed, SymbolCase};
use crate::tally::{named, Counts, Numbers, Thing, Things};

/// 02's faults, and those of 01 that have the same number.
const FAULTS: [(Refusal, &str); 17] = [
    (Refusal::HeadCut, "15: head cut short"),
    (Refusal::TableCut, "15: offset table cut short"),
    (Refusal::OtherVersion, "15: another version"),
    (Refusal::NoSuchFrame, "16: frame number not below the count"),
    (Refusal::FrameHeadCut, "17: fewer than 10 bytes"),
    (Refusal::WordNotZero, "17: a word not zero"),
    (Refusal::RowHeadCut, "18: row head cut short"),
    (Refusal::OtherRowCode, "18: row head of another code"),
    (Refusal::RowUnderFour, "18: data row counting under 4"),
    (Refusal::RowPastHeight, "18: past the height"),
    (Refusal::RowPastBytes, "18: past the bytes"),
    (Refusal::OtherSegmentCode, "19: segment of another code"),
    (Refusal::SegmentPastRow, "19: past its row's count"),
    (Refusal::ByteLeftOver, "19: a byte left over"),
    (Refusal::SegmentPastWidth, "19: past the width"),
    (Refusal::OtherMarker, "20: two other bytes"),
    (Refusal::MarkerCut, "20: bytes end"),
];

#[derive(Default)]
pub struct SymbolTally {
    numbers: Numbers,
    /// As in `FAULTS`.
    faults: [usize; 17],
    orders: Things<6>,
    files: Things<12>,
    rows: Things<9>,
    segments: Things<5>,
    across: Things<6>,
    down: Things<6>,
    far: Things<9>,
}

impl SymbolTally {
    pub fn add(&mut self, case: &SymbolCase, compared: &SymbolComparison) {
        let number = compared.answer.number;
        self.numbers.add(number);
        self.orders.add(orders(case, number));
        match &compared.painted {
            Ok(frame) => {
                self.files.add(files(case, frame));
                self.rows.add(rows(frame));
                self.segments.add(segments(frame));
                self.add_places(case, frame);
            }
            Err(refusal) => {
                let fault = FAULTS.iter().position(|(fault, _)| fault == refusal);
                if let Some(fault) = fault {
                    self.faults[fault] += 1;
                }
            }
        }
    }

    fn add_places(&mut self, case: &SymbolCase, frame: &Frame) {
        let fallen = Fallen::new(case, frame);
        self.far.add(far(case, &fallen));
        // A frame of background alone falls on no edge.
        if let Some([across, down]) = fallen.spans() {
            let shows = fallen.any(|x, y| fallen.on_picture(x, y));
            self.across.add(edges(ACROSS, shows, &across));
            self.down.add(edges(DOWN, shows, &down));
        }
    }

    pub fn number_counts(&self) -> Counts {
        let possible = (0..=2).chain(15..=20);
        self.numbers.counts("symbols that got", possible)
    }

    pub fn fault_counts(&self) -> Counts {
        named(self.faults, |fault: usize| FAULTS[fault].1.into())
    }

    pub fn order_counts(&self) -> Counts {
        self.orders.counts()
    }

    pub fn file_counts(&self) -> Counts {
        self.files.counts()
    }

    pub fn part_counts(&self) -> Counts {
        [self.rows.counts(), self.segments.counts()].concat()
    }

    pub fn place_counts(&self) -> Counts {
        [self.across.counts(), self.down.counts(), self.far.counts()].concat()
    }
}

/// One number where another could be given too.
fn orders(case: &SymbolCase, number: u8) -> [Thing; 6] {
    let frame = case.placed.frame;
    let refused = sprite::read_frame(&case.file, frame).is_err();
    let pixels = case.size.width.checked_mul(case.size.height);
    let fits = pixels == Some(case.picture.len());
    let counted = u32_at(&case.file, 4);
    [
        ("1 although the picture would fit", number == 1 && fits),
        ("1 although the file is refused too", number == 1 && refused),
        ("2 although the file is refused too", number == 2 && refused),
        (
            "15 although the frame number is not below the count",
            number == 15 && counted.is_some_and(|count| frame >= count),
        ),
        (
            "16 by a frame number beyond 32 bits",
            number == 16 && frame > u32::MAX as usize,
        ),
        (
            "16 by the count itself",
            number == 16 && counted == Some(frame),
        ),
    ]
}

/// A number of the file's head or table, in the file's own order.
fn u32_at(file: &[u8], place: usize) -> Option<usize> {
    let bytes = *file.get(place..)?.first_chunk()?;
    Some(if file.starts_with(&[0, 0]) {
        u32::from_be_bytes(bytes) as usize
    } else {
        u32::from_le_bytes(bytes) as usize
    })
}

fn files(case: &SymbolCase, frame: &Frame) -> [Thing; 12] {
    let file = &case.file;
    let version = |version: usize| u32_at(file, 0) == Some(version);
    let ignored = Ignored::new(file, frame);
    let count = u32_at(file, 4).unwrap_or(0);
    let offsets: Vec<usize> = (0..count)
        .filter_map(|entry| u32_at(file, HEAD + 4 * entry))
        .collect();
    let named = offsets.iter().filter(|offset| **offset == ignored.offset);
    let past_the_end = |offset: &usize| *offset > file.len();
    [
        ("accepted, highest byte first", file.starts_with(&[0, 0])),
        ("accepted, lowest byte first", !file.starts_with(&[0, 0])),
        ("accepted, version 502", version(502)),
        ("accepted, version 505", version(505)),
        ("accepted, not the first frame", case.placed.frame > 0),
        ("accepted, the offset twice in the table", named.count() > 1),
        (
            "accepted, another offset past the file's end",
            offsets.iter().any(past_the_end),
        ),
        (
            "accepted, the frame begins in the head",
            ignored.offset < HEAD + 4 * count,
        ),
        ("accepted, bytes after the marker", frame.unread > 0),
        ("accepted, the fifth word not zero", ignored.fifth_not_zero),
        (
            "accepted, a run's second byte another",
            ignored.other_second,
        ),
        ("accepted, a pad byte not zero", ignored.pad_not_zero),
    ]
}

/// What nobody is to look at in an accepted frame, and where the frame stands.
struct Ignored {
    offset: usize,
    fifth_not_zero: bool,
    other_second: bool,
    pad_not_zero: bool,
}

impl Ignored {
    fn new(file: &[u8], frame: &Frame) -> Self {
        let marker = file.len() - frame.unread - 2;
        let rows = marker - frame.rows.iter().map(row_length).sum::<usize>();
        let mut ignored = Ignored {
            offset: rows - FRAME_HEAD,
            fifth_not_zero: file[rows - 2..rows] != [0, 0],
            other_second: false,
            pad_not_zero: false,
        };
        let mut place = rows;
        for row in &frame.rows {
            if let Row::Data(segments) = row {
                let mut at = place + 2;
                for segment in segments {
                    ignored.add(segment, &file[at..at + segment_length(segment)]);
                    at += segment_length(segment);
                }
            }
            place += row_length(row);
        }
        ignored
    }

    fn add(&mut self, segment: &Segment, bytes: &[u8]) {
        match segment {
            Segment::Background(_) => {}
            Segment::Run(..) => self.other_second |= bytes[2] != bytes[3],
            Segment::Copy(colours) => {
                self.pad_not_zero |= bytes[2 + colours.len()..].iter().any(|pad| *pad != 0);
            }
        }
    }
}

fn row_length(row: &Row) -> usize {
    match row {
        Row::Background(_) => 2,
        Row::Data(segments) => 2 + segments.iter().map(segment_length).sum::<usize>(),
    }
}

fn segment_length(segment: &Segment) -> usize {
    match segment {
        Segment::Background(_) => 2,
        Segment::Run(..) => 4,
        Segment::Copy(colours) => 2 + colours.len().next_multiple_of(2),
    }
}

fn rows(frame: &Frame) -> [Thing; 9] {
    let background = |rows: usize| {
        let is = |row: &Row| matches!(row, Row::Background(n) if *n == rows);
        frame.rows.iter().any(is)
    };
    let filled = |is: fn(usize, usize) -> bool| {
        let pixels = |row: &[Segment]| row.iter().map(Segment::pixels).sum();
        data_rows(frame).any(|row| is(pixels(row), frame.width))
    };
    [
        ("accepted, height 0", frame.height == 0),
        (
            "accepted, width 0 with a data row",
            frame.width == 0 && data_rows(frame).next().is_some(),
        ),
        ("accepted, height 65,535", frame.height == 65_535),
        ("accepted, width 65,535", frame.width == 65_535),
        ("accepted, 09 00 among the rows", background(0)),
        ("accepted, 09 255 among the rows", background(255)),
        (
            "accepted, a row left short",
            filled(|pixels, width| pixels < width),
        ),
        (
            "accepted, a row of the full width",
            filled(|pixels, width| pixels == width),
        ),
        (
            "accepted, a row of 254 bytes, the most",
            frame.rows.iter().any(|row| row_length(row) == 254),
        ),
    ]
}

fn segments(frame: &Frame) -> [Thing; 5] {
    let any = |is: fn(&Segment) -> bool| data_rows(frame).flatten().any(is);
    let odd =
        |segment: &Segment| matches!(segment, Segment::Copy(colours) if colours.len() % 2 == 1);
    [
        (
            "accepted, a background of 0 pixels",
            any(|segment| matches!(segment, Segment::Background(0))),
        ),
        (
            "accepted, a run of 0 pixels",
            any(|segment| matches!(segment, Segment::Run(0, _))),
        ),
        (
            "accepted, a copy of 0 pixels",
            any(|segment| matches!(segment, Segment::Copy(colours) if colours.is_empty())),
        ),
        (
            "accepted, a run of 255 pixels",
            any(|segment| matches!(segment, Segment::Run(255, _))),
        ),
        ("accepted, an odd copy", any(odd)),
    ]
}

fn data_rows(frame: &Frame) -> impl Iterator<Item = &[Segment]> {
    frame.rows.iter().filter_map(|row| match row {
        Row::Background(_) => None,
        Row::Data(segments) => Some(&segments[..]),
    })
}

/// Where the coloured pixels of a frame fall, seen from the picture's upper left pixel.
struct Fallen {
    dots: Vec<(i64, i64)>,
    width: i64,
    height: i64,
}

/// Along one side of the picture: the first and the last place where a pixel falls, and the side's
/// length.
struct Span {
    first: i64,
    last: i64,
    end: i64,
}

impl Fallen {
    fn new(case: &SymbolCase, frame: &Frame) -> Self {
        let Placed { left, top, .. } = case.placed;
        let fall = |start: i16, by: usize| i64::from(start) + by as i64;
        let fallen = |dot: Dot| (fall(left, dot.column), fall(top, dot.row));
        Fallen {
            dots: frame.dots().into_iter().map(fallen).collect(),
            width: case.size.width as i64,
            height: case.size.height as i64,
        }
    }

    fn any(&self, is: impl Fn(i64, i64) -> bool) -> bool {
        self.dots.iter().any(|(x, y)| is(*x, *y))
    }

    fn on_picture(&self, x: i64, y: i64) -> bool {
        (0..self.width).contains(&x) && (0..self.height).contains(&y)
    }

    fn spans(&self) -> Option<[Span; 2]> {
        let span = |side: fn(&(i64, i64)) -> i64, end| {
            let places = self.dots.iter().map(side);
            Some(Span {
                first: places.clone().min()?,
                last: places.max()?,
                end,
            })
        };
        Some([
            span(|dot| dot.0, self.width)?,
            span(|dot| dot.1, self.height)?,
        ])
    }
}

const ACROSS: [&str; 6] = [
    "shown, and off the left edge in part",
    "shown, and off the right edge in part",
    "off the left edge by one column",
    "off the right edge by one column",
    "shown by its last column alone",
    "shown by its first column alone",
];
const DOWN: [&str; 6] = [
    "shown, and off the upper edge in part",
    "shown, and off the lower edge in part",
    "off the upper edge by one row",
    "off the lower edge by one row",
    "shown by its last row alone",
    "shown by its first row alone",
];

fn edges(names: [&'static str; 6], shows: bool, span: &Span) -> [Thing; 6] {
    let Span { first, last, end } = *span;
    let has = [
        shows && first < 0,
        shows && last >= end,
        last == -1,
        first == end,
        shows && first < last && last == 0,
        shows && first < last && first == end - 1,
    ];
    std::array::from_fn(|which| (names[which], has[which]))
}

fn far(case: &SymbolCase, fallen: &Fallen) -> [Thing; 9] {
    let Placed { left, top, .. } = case.placed;
    let shown_from = |column: i64, row: i64| {
        let (first, above) = (i64::from(left) + column, i64::from(top) + row);
        fallen.any(|x, y| fallen.on_picture(x, y) && x >= first && y >= above)
    };
    let comes_round = |y: i64| y >= 65_536 && y - 65_536 < fallen.height;
    [
        ("accepted, left -32,768", left == i16::MIN),
        ("accepted, left 32,767", left == i16::MAX),
        ("accepted, top -32,768", top == i16::MIN),
        ("accepted, top 32,767", top == i16::MAX),
        ("shown from column 256 on", shown_from(256, 0)),
        ("shown from column 31,000 on", shown_from(31_000, 0)),
        ("shown from row 256 on", shown_from(0, 256)),
        ("shown from row 32,768 on", shown_from(0, 32_768)),
        (
            "not shown, but its row would be in 16 bits",
            fallen.any(|x, y| comes_round(y) && (0..fallen.width).contains(&x)),
        ),
    ]
}
