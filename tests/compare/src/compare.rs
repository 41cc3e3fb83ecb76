//! The same call to the library under test and to the second reader, walk, writer or painter, and
//! what differs.

use std::fmt::{Debug, Display};
use std::hint::black_box;

use seatboard::exact::{self, Answer, Count, FeedSize, Recorded, Step, Tally};
use seatboard::{Record, Size};
use second::reader::{self, pixel_blocks, At, Reading, Refusal};
use second::sprite::{self, Frame};
use second::walk::{self, Walk};
use second::writer::{self, Chunk};

use crate::feeds::{self, FeedCase};
use crate::generate::{unsettled, Board, Case, SETTLED};
use crate::pictures::WriteCase;
use crate::runs::RunCase;
use crate::steps::StepCase;
use crate::symbols::{Placed, SymbolCase};

/// One of the two that are compared.
pub struct Codec {
    pub fresh_map: fn(Size, &mut [u16]) -> Recorded,
    pub count: fn(Size, &mut [u16]) -> Count,
    pub read_chunk: fn(Record, &[u8], &mut [u8], &mut [u16]) -> Recorded,
    pub feed_size: fn(&[u8]) -> FeedSize,
    pub walk_feed: fn(Record, &[u8], &mut [u8], &mut [u16]) -> Recorded,
    pub walk_run: fn(Record, &[u8], &mut [u8], &mut [u16]) -> Tally,
    pub walk_step: WalkStep,
    /// Old picture, new picture, output: the pictures too, so that a change of them is found.
    pub write_chunk: fn(Size, &mut [u8], &mut [u8], &mut [u8]) -> Answer,
    /// Picture, file: the file too, so that a change of it is found.
    pub paint_symbol: fn(Size, &mut [u8], &mut [u8], Placed) -> Answer,
}

type WalkStep = fn(Record, &[u8], usize, &mut [u8], &mut [u16]) -> Step;

pub const LIBRARY: Codec = Codec {
    fresh_map: exact::fresh_map,
    count: |size, map| {
        let counted = exact::count(size, map);
        perhaps_changed(map);
        counted
    },
    read_chunk: exact::read_chunk,
    feed_size: exact::feed_size,
    walk_feed: exact::walk_feed,
    walk_run: exact::walk_run,
    walk_step: exact::walk_step,
    write_chunk: |size, old, new, output| {
        let answer = exact::write_chunk(size, old, new, output);
        perhaps_changed(old);
        perhaps_changed(new);
        answer
    },
    paint_symbol: |size, picture, file, Placed { frame, left, top }| {
        let answer = exact::paint_symbol(size, picture, file, frame, left, top);
        perhaps_changed(file);
        answer
    },
};

/// That nothing was written to a buffer lent for reading is for the comparison to find out, not for
/// the compiler to assume.
fn perhaps_changed<T>(lent: &mut [T]) {
    black_box(lent);
}

pub const SECOND: Codec = Codec {
    fresh_map: |size, map| {
        let made = reader::fresh_map((size.width, size.height), map);
        // 01 has a refused count be 0.
        let refused = Record { size, unsettled: 0 };
        Recorded {
            answer: answer(&made, At::NOWHERE),
            record: made.map_or(refused, ours),
        }
    },
    count: |size, map| {
        let counted = reader::count(size.width, size.height, map);
        Count {
            answer: answer(&counted, At::NOWHERE),
            unsettled: counted.unwrap_or(0),
        }
    },
    read_chunk: |record, chunk, picture, map| second_reading(record, chunk, picture, map).0,
    feed_size: second_size,
    walk_feed: |record, feed, picture, map| second_walk(record, feed, picture, map).0,
    walk_run: |record, run, picture, map| second_run(record, run, picture, map).0,
    walk_step: |record, feed, at, picture, map| second_step(record, feed, at, picture, map).0,
    write_chunk: |size, old, new, output| {
        let written = writer::write_chunk((size.width, size.height), old, new, output);
        write_answer(&written)
    },
    paint_symbol: |size, picture, file, placed| {
        symbol_answer(&second_painting(size, picture, file, placed))
    },
};

/// The second reader's record as ours.
fn ours(theirs: reader::Record) -> Record {
    let (width, height) = theirs.size;
    Record {
        size: Size { width, height },
        unsettled: theirs.unsettled,
    }
}

fn theirs(ours: Record) -> reader::Record {
    reader::Record {
        size: (ours.size.width, ours.size.height),
        unsettled: ours.unsettled,
    }
}

fn second_reading(
    record: Record,
    chunk: &[u8],
    picture: &mut [u8],
    map: &mut [u16],
) -> (Recorded, Result<Reading, Refusal>) {
    let mut kept = theirs(record);
    let reading = reader::read_chunk(&mut kept, chunk, picture, map);
    let said = Recorded {
        answer: answer(&reading, At::end(chunk.len(), map)),
        record: ours(kept),
    };
    (said, reading)
}

fn second_walk(
    record: Record,
    feed: &[u8],
    picture: &mut [u8],
    map: &mut [u16],
) -> (Recorded, Walk) {
    let mut kept = theirs(record);
    let walk = walk::walk(&mut kept, feed, picture, map);
    let said = Recorded {
        answer: walk_answer(&walk),
        record: ours(kept),
    };
    (said, walk)
}

pub fn second_run(
    record: Record,
    run: &[u8],
    picture: &mut [u8],
    map: &mut [u16],
) -> (Tally, Walk) {
    let mut kept = theirs(record);
    let walk = walk::walk_run(&mut kept, run, picture, map);
    let tally = Tally {
        answer: walk_answer(&walk),
        accepted: walk.accepted(),
        record: ours(kept),
    };
    (tally, walk)
}

/// 01: 0 from an operation added later returns place 0.
fn second_size(feed: &[u8]) -> FeedSize {
    match walk::size(feed) {
        Ok(((width, height), first)) => FeedSize {
            answer: answered((0, At::NOWHERE)),
            size: Size { width, height },
            first,
        },
        Err(stop) => FeedSize {
            answer: answered(stop.number_and_at()),
            size: Size {
                width: 0,
                height: 0,
            },
            first: 0,
        },
    }
}

fn second_step(
    record: Record,
    bytes: &[u8],
    at: usize,
    picture: &mut [u8],
    map: &mut [u16],
) -> (Step, walk::Step) {
    let mut kept = theirs(record);
    let stepped = walk::step(&mut kept, bytes, at, picture, map);
    let (chunk, next) = match stepped {
        walk::Step::Chunk(_, after) => (true, after),
        walk::Step::End(_) => (false, at),
    };
    let step = Step {
        answer: answered(stepped.number_and_at()),
        record: ours(kept),
        chunk,
        next,
    };
    (step, stepped)
}

fn answer<T>(reading: &Result<T, Refusal>, accepted: At) -> Answer {
    answered(reader::number_and_at(reading, accepted))
}

fn walk_answer(walk: &Walk) -> Answer {
    answered(walk.number_and_at())
}

fn answered((number, At { place, block }): (u8, At)) -> Answer {
    Answer {
        number,
        place,
        block,
    }
}

fn write_answer(written: &Result<Chunk, Refusal>) -> Answer {
    answer(written, written.as_ref().map_or(At::NOWHERE, Chunk::end))
}

fn second_painting(
    size: Size,
    picture: &mut [u8],
    file: &[u8],
    Placed { frame, left, top }: Placed,
) -> Result<Frame, sprite::Refusal> {
    let size = (size.width, size.height);
    sprite::paint_symbol(size, picture, file, frame, (left, top))
}

/// 01: a number added later returns place 0, and so does 0 from an operation added later. 02: it
/// reads and writes no chunk, so that there is no block either.
fn symbol_answer(painted: &Result<Frame, sprite::Refusal>) -> Answer {
    let number = painted.as_ref().err().map_or(0, |refusal| refusal.number());
    answered((number, At::NOWHERE))
}

/// What a call answered, and what it left in the buffers lent to it.
pub struct Outcome<A> {
    answer: A,
    picture: Lent<u8>,
    map: Lent<u16>,
}

impl<A: Debug + PartialEq> Outcome<A> {
    /// Calls with copies of the board's buffers.
    pub fn of(board: &Board, call: impl FnOnce(&mut [u8], &mut [u16]) -> A) -> Self {
        let mut picture = Lent::new(&board.picture, 0xA5);
        let mut map = Lent::new(&board.map, 0xA5A5);
        let answer = call(picture.contents(), map.contents());
        Outcome {
            answer,
            picture,
            map,
        }
    }

    pub fn differences(&self, other: &Self, names: [&str; 2]) -> Vec<String> {
        let buffers = [
            self.picture.difference(&other.picture, "pixel", names),
            self.map.difference(&other.map, "map entry", names),
        ];
        differences([&self.answer, &other.answer], buffers, names)
    }

    /// The same buffers, left by another way to make the call.
    fn answering<B>(self, answer: B) -> Outcome<B> {
        Outcome {
            answer,
            picture: self.picture,
            map: self.map,
        }
    }
}

/// What a write answered, and what it left in the pictures and the output lent to it.
pub struct Writing {
    answer: Answer,
    old: Lent<u8>,
    new: Lent<u8>,
    output: Lent<u8>,
}

impl Writing {
    /// Calls with copies of the case's buffers.
    pub fn of(
        case: &WriteCase,
        call: impl FnOnce(&mut [u8], &mut [u8], &mut [u8]) -> Answer,
    ) -> Self {
        let mut old = Lent::new(&case.board.picture, 0xA5);
        let mut new = Lent::new(&case.new, 0xA5);
        let mut output = Lent::new(&case.output, 0xA5);
        let answer = call(old.contents(), new.contents(), output.contents());
        Writing {
            answer,
            old,
            new,
            output,
        }
    }

    pub fn differences(&self, other: &Self, names: [&str; 2]) -> Vec<String> {
        let buffers = [
            self.old.difference(&other.old, "old pixel", names),
            self.new.difference(&other.new, "new pixel", names),
            self.output.difference(&other.output, "output byte", names),
        ];
        differences([&self.answer, &other.answer], buffers, names)
    }
}

/// What painting a symbol answered, and what it left in the picture and the file lent to it.
pub struct Painting {
    answer: Answer,
    picture: Lent<u8>,
    file: Lent<u8>,
}

impl Painting {
    /// Calls with copies of the case's buffers.
    pub fn of(case: &SymbolCase, call: impl FnOnce(&mut [u8], &mut [u8]) -> Answer) -> Self {
        let mut picture = Lent::new(&case.picture, 0xA5);
        let mut file = Lent::new(&case.file, 0xA5);
        let answer = call(picture.contents(), file.contents());
        Painting {
            answer,
            picture,
            file,
        }
    }

    pub fn differences(&self, other: &Self, names: [&str; 2]) -> Vec<String> {
        let buffers = [
            self.picture.difference(&other.picture, "pixel", names),
            self.file.difference(&other.file, "file's byte", names),
        ];
        differences([&self.answer, &other.answer], buffers, names)
    }
}

/// Both answers and where the buffers differ first; nothing if all is equal.
fn differences<A: Debug + PartialEq, const N: usize>(
    [answer, other_answer]: [&A; 2],
    buffers: [Option<String>; N],
    [name, other_name]: [&str; 2],
) -> Vec<String> {
    if answer == other_answer && buffers.iter().all(Option::is_none) {
        return Vec::new();
    }
    let answers = format!("{name} {answer:?}, {other_name} {other_answer:?}");
    [answers]
        .into_iter()
        .chain(buffers.into_iter().flatten())
        .collect()
}

/// A buffer to lend, with entries on each side that no call may touch.
struct Lent<T>(Vec<T>);

const MARGIN: usize = 16;

impl<T: Copy + Display + PartialEq> Lent<T> {
    fn new(contents: &[T], margin: T) -> Self {
        Lent([&[margin; MARGIN], contents, &[margin; MARGIN]].concat())
    }

    fn contents(&mut self) -> &mut [T] {
        let end = self.0.len() - MARGIN;
        &mut self.0[MARGIN..end]
    }

    /// The first differing place, from 0 at the first lent entry, and what stands there in each.
    fn difference(&self, other: &Self, what: &str, names: [&str; 2]) -> Option<String> {
        if self.0 == other.0 {
            return None;
        }
        let at = self.0.iter().zip(&other.0).position(|(a, b)| a != b)?;
        let place = at as isize - MARGIN as isize;
        let [name, other_name] = names;
        Some(format!(
            "{what} {place}: {name} {}, {other_name} {}",
            self.0[at], other.0[at]
        ))
    }
}

const NAMES: [&str; 2] = ["ours", "second reader's"];

/// The differences between the two on one chunk, with the second reader's own reading.
pub struct Comparison {
    pub differences: Vec<String>,
    pub answer: Answer,
    pub reading: Result<Reading, Refusal>,
}

pub fn read_chunk(Case { board, chunk }: &Case) -> Comparison {
    let record = board.record();
    let ours = Outcome::of(board, |picture, map| {
        (LIBRARY.read_chunk)(record, chunk, picture, map)
    });
    let mut read = None;
    let theirs = Outcome::of(board, |picture, map| {
        let (said, reading) = second_reading(record, chunk, picture, map);
        read = Some(reading);
        said
    });
    Comparison {
        differences: ours.differences(&theirs, NAMES),
        answer: theirs.answer.answer,
        reading: read.expect("the second reader was called"),
    }
}

/// The differences between the two on one feed and its size, and between the walk and its steps, with
/// the second walk itself.
pub struct FeedComparison {
    pub differences: Vec<String>,
    pub size: FeedSize,
    pub walk: Walk,
    /// Whether the second walk left another picture or map than it was lent.
    pub changed: bool,
}

pub fn walk_feed(FeedCase { board, feed }: &FeedCase) -> FeedComparison {
    let record = board.record();
    let ours = Outcome::of(board, |picture, map| {
        (LIBRARY.walk_feed)(record, feed, picture, map)
    });
    let mut walked = None;
    let theirs = Outcome::of(board, |picture, map| {
        let (said, walk) = second_walk(record, feed, picture, map);
        let changed = *picture != board.picture[..] || *map != board.map[..];
        walked = Some((walk, changed));
        said
    });
    let (walk, changed) = walked.expect("the second walk was called");
    let mut differences = ours.differences(&theirs, ["ours", "second walk's"]);
    let [size, stated] = [LIBRARY, SECOND].map(|codec| (codec.feed_size)(feed));
    if size != stated {
        differences.push(format!("ours {size:?}, second {stated:?}"));
    }
    // Whoever steps over a feed looks at its size first, as the walk does.
    if stated.answer.number == 0 && stated.size == record.size {
        let steps = steps_of(record, stated.first, &walk);
        let stepped = by_steps(board, feed, stated.first, steps.len());
        differences.extend(stepped.differences(&theirs.answering(steps), STEP_NAMES));
    }
    FeedComparison {
        differences,
        size: stated,
        walk,
        changed,
    }
}

const STEP_NAMES: [&str; 2] = ["ours by steps", "second walk's"];

/// What the steps from a place on should say, by the second walk from there.
fn steps_of(record: Record, first: usize, walk: &Walk) -> Vec<Step> {
    let mut before = Step {
        answer: walk_answer(walk),
        record,
        chunk: false,
        next: first,
    };
    let mut steps = Vec::new();
    for read in &walk.chunks {
        before.record.unsettled = read.kept;
        before.next = read.first + read.length;
        steps.push(Step {
            answer: answered((read.number, read.at)),
            chunk: true,
            ..before
        });
    }
    steps.push(before);
    steps
}

/// Ours, so many steps from a place on, each with the record and at the place that the one before it
/// handed back.
fn by_steps(board: &Board, bytes: &[u8], first: usize, steps: usize) -> Outcome<Vec<Step>> {
    Outcome::of(board, |picture, map| {
        let (mut record, mut at) = (board.record(), first);
        let mut step = || {
            let step = (LIBRARY.walk_step)(record, bytes, at, picture, map);
            (record, at) = (step.record, step.next);
            step
        };
        (0..steps).map(|_| step()).collect()
    })
}

/// The differences between the two on one run, and between ours and other ways to hand over its
/// chunks, with the second walk itself.
pub struct RunComparison {
    pub differences: Vec<String>,
    pub walk: Walk,
}

pub fn walk_run(case: &RunCase) -> RunComparison {
    let RunCase { board, run } = case;
    let record = board.record();
    let ours = Outcome::of(board, |picture, map| {
        (LIBRARY.walk_run)(record, run, picture, map)
    });
    let mut walked = None;
    let theirs = Outcome::of(board, |picture, map| {
        let (tally, walk) = second_run(record, run, picture, map);
        walked = Some(walk);
        tally
    });
    let walk = walked.expect("the second walk was called");
    let mut differences = ours.differences(&theirs, ["ours", "second walk's"]);
    differences.extend(ours.differences(&singly(case, &walk), ["ours", "singly"]));
    if let Some(numbers) = feeds::size_numbers(board.size) {
        let as_feed = behind(&numbers, case, ours.answer.accepted);
        differences.extend(ours.differences(&as_feed, ["ours", "as a feed"]));
    }
    let steps = steps_of(record, 0, &walk);
    let stepped = by_steps(board, run, 0, steps.len());
    differences.extend(stepped.differences(&theirs.answering(steps), STEP_NAMES));
    RunComparison { differences, walk }
}

/// The differences between the two on one step, with the second walk's own.
pub struct StepComparison {
    pub differences: Vec<String>,
    pub step: walk::Step,
}

pub fn walk_step(StepCase { board, bytes, at }: &StepCase) -> StepComparison {
    let record = board.record();
    let ours = Outcome::of(board, |picture, map| {
        (LIBRARY.walk_step)(record, bytes, *at, picture, map)
    });
    let mut stepped = None;
    let theirs = Outcome::of(board, |picture, map| {
        let (said, step) = second_step(record, bytes, *at, picture, map);
        stepped = Some(step);
        said
    });
    StepComparison {
        differences: ours.differences(&theirs, ["ours", "second walk's"]),
        step: stepped.expect("the second walk was called"),
    }
}

/// The same by single readings (02): all chunks before the end that the second walk found, each read
/// by ours with the record that the one before it handed back.
fn singly(RunCase { board, run }: &RunCase, walk: &Walk) -> Outcome<Tally> {
    Outcome::of(board, |picture, map| {
        let mut tally = Tally {
            answer: walk_answer(walk),
            accepted: 0,
            record: board.record(),
        };
        for chunk in &walk.chunks {
            let chunk = &run[chunk.first..][..chunk.length];
            let read = (LIBRARY.read_chunk)(tally.record, chunk, picture, map);
            tally.record = read.record;
            tally.accepted += usize::from(read.answer.number == 0);
        }
        tally
    })
}

/// Ours on the feed that is the run behind these size numbers, with places as the run has them. A
/// feed's walk does not say how many it accepted.
fn behind(numbers: &[u8], RunCase { board, run }: &RunCase, accepted: usize) -> Outcome<Tally> {
    let feed = [numbers, run].concat();
    Outcome::of(board, |picture, map| {
        let Recorded { mut answer, record } =
            (LIBRARY.walk_feed)(board.record(), &feed, picture, map);
        if !matches!(answer.number, 1 | 2) {
            answer.place = answer.place.wrapping_sub(numbers.len());
        }
        Tally {
            answer,
            accepted,
            record,
        }
    })
}

/// The differences between the two on one write, with the second writer's own chunk.
pub struct WriteComparison {
    pub differences: Vec<String>,
    pub answer: Answer,
    pub written: Result<Chunk, Refusal>,
}

pub fn write_chunk(case: &WriteCase) -> WriteComparison {
    let size = case.board.size;
    let ours = Writing::of(case, |old, new, output| {
        (LIBRARY.write_chunk)(size, old, new, output)
    });
    let mut written = None;
    let theirs = Writing::of(case, |old, new, output| {
        let chunk = writer::write_chunk((size.width, size.height), old, new, output);
        write_answer(written.insert(chunk))
    });
    let written = written.expect("the second writer was called");
    let mut differences = ours.differences(&theirs, ["ours", "second writer's"]);
    // Without a difference this is the chunk that both wrote.
    if let (Ok(chunk), true) = (&written, differences.is_empty()) {
        differences = read_back(case, &chunk.bytes);
    }
    WriteComparison {
        differences,
        answer: theirs.answer,
        written,
    }
}

/// Both readers over the old picture, with a true record: they make the new one of it and settle
/// exactly the changed blocks.
fn read_back(case: &WriteCase, chunk: &[u8]) -> Vec<String> {
    let size = case.board.size;
    let [old, new] = [&case.board.picture, &case.new].map(|lent| pixel_blocks(size.width, lent));
    let mut map = case.board.map.clone();
    for (entry, (old, new)) in map.iter_mut().zip(old.iter().zip(&new)) {
        if old != new {
            *entry = SETTLED;
        }
    }
    let read = Board::with_true_record(size, case.new.clone(), map);
    let expected = Outcome::of(&read, |_, map| Recorded {
        answer: answered((0, At::end(chunk.len(), map))),
        record: read.record(),
    });
    let lent = Record {
        size,
        unsettled: unsettled(&case.board.map),
    };
    let back = |codec: Codec, name| {
        let found = Outcome::of(&case.board, |picture, map| {
            (codec.read_chunk)(lent, chunk, picture, map)
        });
        found.differences(&expected, [name, "should be"])
    };
    [
        back(LIBRARY, "read back by ours"),
        back(SECOND, "read back by the second reader"),
    ]
    .concat()
}

/// The differences between the two on one symbol, with the second painter's own reading of it.
pub struct SymbolComparison {
    pub differences: Vec<String>,
    pub answer: Answer,
    pub painted: Result<Frame, sprite::Refusal>,
}

pub fn paint_symbol(case: &SymbolCase) -> SymbolComparison {
    let SymbolCase { size, placed, .. } = *case;
    let ours = Painting::of(case, |picture, file| {
        (LIBRARY.paint_symbol)(size, picture, file, placed)
    });
    let mut painted = None;
    let theirs = Painting::of(case, |picture, file| {
        let painting = second_painting(size, picture, file, placed);
        symbol_answer(painted.insert(painting))
    });
    SymbolComparison {
        differences: ours.differences(&theirs, ["ours", "second painter's"]),
        answer: theirs.answer,
        painted: painted.expect("the second painter was called"),
    }
}

/// The differences in a fresh map and in a count, with the second reader's number for both.
pub fn fresh_map_and_count(board: &Board) -> (Vec<String>, u8) {
    let size = board.size;
    let [ours, theirs] =
        [LIBRARY, SECOND].map(|codec| Outcome::of(board, |_, map| (codec.fresh_map)(size, map)));
    let mut differences = ours.differences(&theirs, NAMES);
    let number = theirs.answer.answer.number;
    let [ours, theirs] =
        [LIBRARY, SECOND].map(|codec| Outcome::of(board, |_, map| (codec.count)(size, map)));
    differences.extend(ours.differences(&theirs, NAMES));
    (differences, number)
}
