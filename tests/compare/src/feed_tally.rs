//! What the compared feeds had in them, so that a run which missed something says so.

use seatboard::Size;
use second::reader;
use second::walk::{self, ChunkRead, Fault, Number, Stop};

use crate::compare::FeedComparison;
use crate::count_tally::walked;
use crate::feeds::FeedCase;
use crate::tally::{named, Counts, Numbers, Thing, Things};

/// In the order of `Number` and of `Fault`.
const NUMBERS: [&str; 3] = [
    "the first size number",
    "the second size number",
    "a chunk's length",
];
const FAULTS: [&str; 3] = [
    "fourth group with its top bit",
    "last of several groups zero",
    "above 16,777,215",
];

/// The least lengths whose numbers have so many groups.
const GROUPS: [(usize, &str); 4] = [
    (0, "one group"),
    (1 << 7, "two groups"),
    (1 << 14, "three groups"),
    (1 << 21, "four groups"),
];

#[derive(Default)]
pub struct FeedTally {
    ends: Numbers,
    sizes: Numbers,
    /// 12, by the number and then by its fault.
    bad_numbers: [[usize; 3]; 3],
    /// 13, by the number.
    cut_numbers: [usize; 3],
    at_the_end: Things<3>,
    orders: Things<6>,
    chunks: Things<5>,
    changes: Things<2>,
    records: Things<6>,
    counts: Things<7>,
    /// Chunks that were read, by the groups of their lengths, and the accepted ones among them.
    groups: [usize; 4],
    accepted_groups: [usize; 4],
}

impl FeedTally {
    pub fn add(&mut self, case: &FeedCase, compared: &FeedComparison) {
        let (number, _) = compared.walk.number_and_at();
        self.ends.add(number);
        self.sizes.add(compared.size.answer.number);
        match compared.walk.end {
            Err(Stop::BadNumber(number, fault, _)) => {
                self.bad_numbers[number as usize][fault as usize] += 1;
            }
            Err(Stop::CutNumber(number, _)) => self.cut_numbers[number as usize] += 1,
            _ => {}
        }
        for chunk in &compared.walk.chunks {
            let group = GROUPS.partition_point(|(least, _)| *least <= chunk.length) - 1;
            self.groups[group] += 1;
            self.accepted_groups[group] += usize::from(chunk.number == 0);
        }
        self.at_the_end.add(at_the_end(case, compared));
        self.orders.add(orders(case, compared));
        self.chunks.add(chunks(compared));
        self.changes.add(changes(compared));
        self.records.add(records(case, compared));
        self.counts.add(walked(&case.board, &compared.walk));
    }

    pub fn end_counts(&self) -> Counts {
        self.ends.counts("walks that got", [0, 1, 2, 12, 13])
    }

    pub fn size_counts(&self) -> Counts {
        self.sizes.counts("feed sizes that got", [0, 1, 12, 13])
    }

    pub fn number_counts(&self) -> Counts {
        let bad = |number: usize| {
            let fault = move |fault: usize| {
                let (number, fault) = (NUMBERS[number], FAULTS[fault]);
                format!("12 at {number}: {fault}")
            };
            named(self.bad_numbers[number], fault)
        };
        let cut = named(self.cut_numbers, |number: usize| {
            format!("13 at {}", NUMBERS[number])
        });
        [bad(0), bad(1), bad(2), cut, self.at_the_end.counts()].concat()
    }

    pub fn order_counts(&self) -> Counts {
        self.orders.counts()
    }

    pub fn chunk_counts(&self) -> Counts {
        [self.chunks.counts(), self.changes.counts()].concat()
    }

    pub fn record_counts(&self) -> Counts {
        [self.records.counts(), self.counts.counts()].concat()
    }

    /// Of long feeds: accepted chunks can have lengths of up to three groups.
    pub fn group_counts(&self) -> Counts {
        let chunks = named(self.groups, |group: usize| {
            format!("chunks with a length of {}", GROUPS[group].1)
        });
        let accepted = named(self.accepted_groups, |group: usize| {
            format!("accepted chunks with a length of {}", GROUPS[group].1)
        });
        [&chunks[..], &accepted[..3]].concat()
    }
}

/// 12 and 13 at the feed's end.
fn at_the_end(case: &FeedCase, compared: &FeedComparison) -> [Thing; 3] {
    let length = case.feed.len();
    let (last_four, cut_at) = match compared.walk.end {
        Err(Stop::BadNumber(_, Fault::FourthGoesOn, place)) => (place + 4 == length, None),
        Err(Stop::CutChunk(first)) => (false, Some(first)),
        _ => (false, None),
    };
    let began = cut_at.is_some_and(|first| first < length);
    [
        ("12 by the feed's last four bytes", last_four),
        ("13 inside a chunk that begins", began),
        ("13 where a chunk should begin", cut_at == Some(length)),
    ]
}

/// One number where another could be given too.
fn orders(case: &FeedCase, compared: &FeedComparison) -> [Thing; 6] {
    let (number, _) = compared.walk.number_and_at();
    let (numbers, after) = leading_numbers(&case.feed);
    let fits = buffers_fit(case, &numbers);
    let first_not_allowed = matches!(numbers[..], [across] if !(1..=80).contains(&across));
    let length_fails = numbers.len() == 2 && after < case.feed.len();
    [
        (
            "12 or 13 at the second size number, the first not allowed",
            first_not_allowed,
        ),
        (
            "1 although both buffers would fit",
            number == 1 && fits == [true, true],
        ),
        (
            "1 although a buffer would not fit",
            number == 1 && fits != [true, true],
        ),
        (
            "1 or 2 although the first length is bad or cut",
            matches!(number, 1 | 2) && length_fails,
        ),
        (
            "2 by the picture alone",
            number == 2 && fits == [false, true],
        ),
        ("2 by the map alone", number == 2 && fits == [true, false]),
    ]
}

/// Which chunks the walk read.
fn chunks(compared: &FeedComparison) -> [Thing; 5] {
    let (number, _) = compared.walk.number_and_at();
    let chunks = &compared.walk.chunks;
    let rises = |two: &[ChunkRead]| two[0].unsettled < two[1].unsettled;
    [
        (
            "walks that got 0 without a chunk",
            number == 0 && chunks.is_empty(),
        ),
        (
            "walks that read a chunk of length 0",
            chunks.iter().any(|chunk| chunk.length == 0),
        ),
        (
            "walks in which the unsettled count rises",
            chunks.windows(2).any(rises),
        ),
        (
            "walks with a refused chunk between accepted ones",
            refused_between(chunks),
        ),
        (
            "walks with an accepted chunk after a padded one",
            accepted_after_padded(chunks),
        ),
    ]
}

/// Whether they showed.
fn changes(compared: &FeedComparison) -> [Thing; 2] {
    let (number, _) = compared.walk.number_and_at();
    [
        (
            "walks that changed the board and got 12",
            compared.changed && number == 12,
        ),
        (
            "walks that changed the board and got 13",
            compared.changed && number == 13,
        ),
    ]
}

/// The feed's size beside the record's.
fn records(case: &FeedCase, compared: &FeedComparison) -> [Thing; 6] {
    let (number, _) = compared.walk.number_and_at();
    let (numbers, _) = leading_numbers(&case.feed);
    let Size { width, height } = case.board.size;
    let same = match numbers[..] {
        [across, down, ..] => (4 * across, 4 * down) == (width, height),
        _ => false,
    };
    let allowed = reader::check_size(width, height).is_ok();
    let fits = buffers_fit(case, &numbers) == [true, true];
    let other = number == 2 && !same && fits;
    [
        ("2 by another size, allowed, alone", other && allowed),
        (
            "2 by a record's size that is not allowed alone",
            other && !allowed,
        ),
        ("2 by the lengths alone", number == 2 && same),
        (
            "1 where the record's size is allowed",
            number == 1 && allowed,
        ),
        ("1 where the record's size is the same", number == 1 && same),
        (
            "12 or 13 before the record's size is found not allowed",
            matches!(number, 12 | 13) && !allowed,
        ),
    ]
}

pub fn refused_between(chunks: &[ChunkRead]) -> bool {
    let accepted = |chunk: &ChunkRead| chunk.number == 0;
    let first = chunks.iter().position(accepted);
    let last = chunks.iter().rposition(accepted);
    match (first, last) {
        (Some(first), Some(last)) => !chunks[first..last].iter().all(accepted),
        _ => false,
    }
}

pub fn accepted_after_padded(chunks: &[ChunkRead]) -> bool {
    let mut from_padded = chunks.iter().skip_while(|chunk| chunk.padding == 0);
    from_padded.next();
    from_padded.any(|chunk| chunk.number == 0)
}

/// The two size numbers and the first length, up to the first of them that is bad or cut, and the
/// place after these.
fn leading_numbers(feed: &[u8]) -> (Vec<usize>, usize) {
    let mut numbers = Vec::new();
    let mut at = 0;
    for which in [Number::Width, Number::Height, Number::ChunkLength] {
        let Ok((number, after)) = walk::number(feed, at, which) else {
            break;
        };
        numbers.push(number);
        at = after;
    }
    (numbers, at)
}

/// Whether picture and map have the lengths that the size numbers ask for.
fn buffers_fit(case: &FeedCase, numbers: &[usize]) -> [bool; 2] {
    let [across, down, ..] = *numbers else {
        return [false; 2];
    };
    let blocks = across * down;
    [
        case.board.picture.len() == 16 * blocks,
        case.board.map.len() == blocks,
    ]
}
