//! One case of a comparison again, with all of it printed: a chunk, feed, run, step, write, symbol,
//! listing or sequence.

use std::process::ExitCode;

use seatboard::Size;
use second::listing;
use second::walk::{Step, Walk};

use crate::compare;
use crate::feeds::{self, FeedCase};
use crate::generate::{self, Board, Case};
use crate::kept;
use crate::pictures::{self, WriteCase};
use crate::program::{self, Handed};
use crate::runs::{self, RunCase};
use crate::sequences::{self, Call, Sequence};
use crate::steps::{self, StepCase};
use crate::symbols::{self, SymbolCase};
use crate::two_boards;

#[derive(Clone, Copy)]
pub enum Replay {
    Case(u64),
    Feed(u64),
    Run(u64),
    Step(u64),
    Write(u64),
    Symbol(u64),
    Listing(u64),
    Sequence(u64),
}

impl Replay {
    pub fn run(self, seed: u64) -> ExitCode {
        let differences = match self {
            Replay::Case(number) => chunk(seed, number),
            Replay::Feed(number) => feed(seed, number),
            Replay::Run(number) => run(seed, number),
            Replay::Step(number) => step(seed, number),
            Replay::Write(number) => write(seed, number),
            Replay::Symbol(number) => symbol(seed, number),
            Replay::Listing(number) => listing(seed, number),
            Replay::Sequence(number) => sequence(seed, number),
        };
        for difference in &differences {
            println!("{difference}");
        }
        if differences.is_empty() {
            println!("no difference");
            return ExitCode::SUCCESS;
        }
        ExitCode::FAILURE
    }
}

fn chunk(seed: u64, number: u64) -> Vec<String> {
    let case = generate::case(seed, number);
    print_board(&format!("seed {seed}, case {number}"), &case.board);
    println!("chunk {:02X?}", case.chunk);
    let compared = compare::read_chunk(&case);
    println!("second reader's {:?}", compared.answer);
    compared.differences
}

fn feed(seed: u64, number: u64) -> Vec<String> {
    let case = feeds::case(seed, number);
    print_board(&format!("seed {seed}, feed {number}"), &case.board);
    println!("feed {:02X?}", case.feed);
    let compared = compare::walk_feed(&case);
    print_walk(&compared.walk);
    compared.differences
}

fn run(seed: u64, number: u64) -> Vec<String> {
    let case = runs::case(seed, number);
    print_board(&format!("seed {seed}, run {number}"), &case.board);
    println!("run {:02X?}", case.run);
    let compared = compare::walk_run(&case);
    print_walk(&compared.walk);
    println!("{} accepted", compared.walk.accepted());
    compared.differences
}

fn step(seed: u64, number: u64) -> Vec<String> {
    let case = steps::case(seed, number);
    print_board(&format!("seed {seed}, step {number}"), &case.board);
    println!("at {} of {:02X?}", case.at, case.bytes);
    let compared = compare::walk_step(&case);
    match compared.step {
        Step::Chunk(chunk, next) => println!("second walk's {chunk:?}, next {next}"),
        Step::End(end) => println!("second walk's end {end:?}"),
    }
    compared.differences
}

fn print_walk(walk: &Walk) {
    for chunk in &walk.chunks {
        println!("second walk's {chunk:?}");
    }
    println!("second walk's end {:?}", walk.end);
}

fn write(seed: u64, number: u64) -> Vec<String> {
    let case = pictures::case(seed, number);
    print_board(&format!("seed {seed}, write {number}"), &case.board);
    println!("new picture {:?}", case.new);
    println!("output {:02X?}", case.output);
    let compared = compare::write_chunk(&case);
    if let Ok(chunk) = &compared.written {
        println!("second writer's chunk {:02X?}", chunk.bytes);
    }
    println!("second writer's {:?}", compared.answer);
    compared.differences
}

fn symbol(seed: u64, number: u64) -> Vec<String> {
    let case = symbols::case(seed, number);
    let short = symbol_in_short(&case);
    println!("seed {seed}, symbol {number}: {short}");
    println!("picture {:?}", case.picture);
    println!("file {:02X?}", case.file);
    let compared = compare::paint_symbol(&case);
    if let Err(refusal) = compared.painted {
        println!("second painter's {refusal:?}");
    }
    println!("second painter's {:?}", compared.answer);
    compared.differences
}

fn listing(seed: u64, number: u64) -> Vec<String> {
    let feed = feeds::for_program(seed, number);
    println!("seed {seed}, listing {number}");
    println!("feed {feed:02X?}");
    let expected = listing::listing(&feed);
    print!("{expected}");
    match program::run(&feed, Handed::AtOnce) {
        Ok(printed) => Vec::from_iter(program::difference(&printed, &expected)),
        Err(why) => vec![why],
    }
}

fn sequence(seed: u64, number: u64) -> Vec<String> {
    let sequence = sequences::case(seed, number);
    let short = sequence_in_short(&sequence);
    println!("seed {seed}, sequence {number}: {short}");
    for start in &sequence.starts {
        println!("starting picture {start:?}");
    }
    for call in &sequence.calls {
        match call {
            Call::Read(chunk) => println!("chunk {chunk:02X?}"),
            Call::Walk(feed) => println!("feed {feed:02X?}"),
            Call::Run(run) => println!("run {run:02X?}"),
        }
    }
    println!("map {:?} and count {}", sequence.maps[0], sequence.count);
    let mut wrong = kept::check(&sequence, &mut kept::Tally::default());
    wrong.extend(two_boards::check(
        &sequence,
        &mut two_boards::Tally::default(),
    ));
    wrong
}

fn print_board(name: &str, board: &Board) {
    println!("{name}: {}", board_in_short(board));
    println!("picture {:?}", board.picture);
    println!("map {:?}", board.map);
}

/// Bytes of the longest chunk, feed or run that is shown whole in a report; a replay shows all.
const SHORT: usize = 80;

pub fn board_in_short(board: &Board) -> String {
    let Size { width, height } = board.size;
    let (pixels, entries) = (board.picture.len(), board.map.len());
    let count = board.unsettled;
    format!("{width}x{height}, {pixels} pixels, {entries} map entries and count {count} lent")
}

pub fn case_in_short(Case { board, chunk }: &Case) -> String {
    format!("{}, chunk {}", board_in_short(board), bytes_in_short(chunk))
}

pub fn feed_in_short(FeedCase { board, feed }: &FeedCase) -> String {
    format!("{}, feed {}", board_in_short(board), bytes_in_short(feed))
}

pub fn run_in_short(RunCase { board, run }: &RunCase) -> String {
    format!("{}, run {}", board_in_short(board), bytes_in_short(run))
}

pub fn step_in_short(StepCase { board, bytes, at }: &StepCase) -> String {
    let (board, bytes) = (board_in_short(board), bytes_in_short(bytes));
    format!("{board}, at {at} of {bytes}")
}

pub fn write_in_short(WriteCase { board, new, output }: &WriteCase) -> String {
    let (pixels, bytes) = (new.len(), output.len());
    format!(
        "{}, {pixels} new pixels, output of {bytes} bytes",
        board_in_short(board)
    )
}

pub fn symbol_in_short(case: &SymbolCase) -> String {
    let Size { width, height } = case.size;
    let (pixels, file) = (case.picture.len(), bytes_in_short(&case.file));
    format!(
        "{width}x{height}, {pixels} pixels lent, {:?}, file {file}",
        case.placed
    )
}

pub fn sequence_in_short(sequence: &Sequence) -> String {
    let Size { width, height } = sequence.size;
    format!("{width}x{height}, {} calls", sequence.calls.len())
}

pub fn bytes_in_short(bytes: &[u8]) -> String {
    if bytes.len() > SHORT {
        return format!("of {} bytes", bytes.len());
    }
    format!("{bytes:02X?}")
}
