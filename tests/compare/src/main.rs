//! Compares the library under test with an independent second reader and writer of SMC chunks, a
//! second walk of the house feed and of runs of chunks, by steps too, and a second painter of symbols,
//! and the board program with a second listing; and tries demand 3 on two boards.
//!
//! The library is called through the package `seatboard`; the second ones are the package `second`.
//! generate.rs makes boards and chunks, feeds.rs feeds of them, runs.rs runs, steps.rs places in both,
//! pictures.rs pairs of pictures to write, symbols.rs symbols to paint from the files of sprites.rs,
//! right and wrong; compare.rs gives each to both and compares the answer and all that was lent;
//! tally.rs, feed_tally.rs, run_tally.rs, step_tally.rs, write_tally.rs and symbol_tally.rs count what
//! they had in them; examples.rs, block_examples.rs, padding_examples.rs, feed_examples.rs,
//! run_examples.rs, step_examples.rs, write_examples.rs and symbol_examples.rs try both on paper 01's
//! examples and on others made by hand, and drawings.rs on the symbols in examples/.
//! Whatever reads chunks is lent a record, true to its map or not; record_examples.rs has some made by
//! hand, and count_tally.rs counts what became of them.
//! Each chunk written is read back by both readers, each run is also handed over chunk by chunk and
//! behind size numbers, and each feed and run is also gone through step by step. program.rs runs the board program, on the cases of program_cases.rs and
//! on random feeds (listings.rs). sequences.rs makes sequences of calls; kept.rs runs them beside the
//! second reader, with the record handed on from call to call, and two_boards.rs on two boards.
//!
//! From the repository's root, with the library in target/lib or in $SEATBOARD_LIB and the board
//! program as crates/board/out/board or $SEATBOARD_BOARD:
//!
//! ```text
//! cargo run --quiet --release --locked --offline --package compare -- [--seed N] [--chunks N]
//!     [--feeds N]
//!     [--case N | --feed N | --run N | --step N | --write N | --symbol N | --listing N | --sequence N]
//! ```
//!
//! `--case N`, `--feed N`, `--run N`, `--step N`, `--write N`, `--symbol N`, `--listing N` and
//! `--sequence N` replay one chunk, feed, run, step, write, symbol, listing or sequence of that seed
//! and print all of it.
//! Each check prints `ok NAME` or `FAILED NAME: why`; the last line is `N passed, M failed`.

mod block_examples;
mod compare;
mod count_tally;
mod drawings;
mod examples;
mod feed_examples;
mod feed_tally;
mod feeds;
mod generate;
mod kept;
mod listings;
mod padding_examples;
mod pictures;
mod program;
mod program_cases;
mod random;
mod record_examples;
mod replay;
mod report;
mod run_examples;
mod run_tally;
mod runs;
mod sequences;
mod sprites;
mod step_examples;
mod step_tally;
mod steps;
mod symbol_examples;
mod symbol_tally;
mod symbols;
mod tally;
mod two_boards;
mod write_examples;
mod write_tally;

use std::process::ExitCode;

use second::reader;

use compare::{LIBRARY, SECOND};
use count_tally::CountTally;
use feed_tally::FeedTally;
use feeds::FeedCase;
use generate::{Board, Case};
use pictures::WriteCase;
use replay::{
    board_in_short, case_in_short, feed_in_short, run_in_short, sequence_in_short, step_in_short,
    symbol_in_short, write_in_short, Replay,
};
use report::{compare_each, Report};
use run_tally::RunTally;
use runs::RunCase;
use sequences::Sequence;
use step_tally::StepTally;
use steps::StepCase;
use symbol_tally::SymbolTally;
use symbols::SymbolCase;
use tally::{Numbers, Tally, Things};
use write_tally::WriteTally;

const BOARDS: u64 = 20_000;
const RUNS: u64 = 20_000;
const STEPS: u64 = 20_000;
const WRITES: u64 = 40_000;
const SYMBOLS: u64 = 40_000;
const SEQUENCES: u64 = 20_000;
/// How often a thing must occur for the comparison to count as having tried it.
const ENOUGH: usize = 100;
/// The same for 21, below 0 and above the number of blocks.
const OFTEN: usize = 1_000;
/// The same for the feeds that the board program is run on, which are fewer.
const ENOUGH_LISTINGS: usize = 5;

struct Options {
    seed: u64,
    chunks: u64,
    feeds: u64,
    replay: Option<Replay>,
}

fn main() -> ExitCode {
    let options = match options() {
        Ok(options) => options,
        Err(why) => {
            eprintln!(
                "{why}; known are --seed, --chunks, --feeds, --case, --feed, --run, --step, \
                 --write, --symbol, --listing and --sequence"
            );
            return ExitCode::from(2);
        }
    };
    if let Some(replay) = options.replay {
        return replay.run(options.seed);
    }
    let (seed, chunks, feeds) = (options.seed, options.chunks, options.feeds);
    println!(
        "seed {seed}, {chunks} chunks, {BOARDS} maps, {feeds} feeds, {RUNS} runs, \
         {STEPS} steps, {WRITES} writes, {SYMBOLS} symbols, {} listings, {SEQUENCES} sequences with records and \
         on two boards",
        listings::FEEDS
    );
    let mut report = Report::default();
    check_read_examples(&mut report);
    check_reading(&options, &mut report);
    check_walks(&options, &mut report);
    check_runs(seed, &mut report);
    check_steps(seed, &mut report);
    check_writes(seed, &mut report);
    check_symbols(seed, &mut report);
    check_program(seed, &mut report);
    check_sequences(seed, &mut report);
    println!("{} passed, {} failed", report.passed, report.failed);
    if report.failed == 0 {
        ExitCode::SUCCESS
    } else {
        ExitCode::FAILURE
    }
}

fn check_read_examples(report: &mut Report) {
    report.check("second reader: half-bytes of an octet", half_bytes());
    for (name, codec) in [("second reader", &SECOND), ("library", &LIBRARY)] {
        let mut check = |what, result| report.check(&format!("{name}: {what}"), result);
        check("01's examples", examples::check(codec));
        check("chunks stopped at a block", block_examples::check(codec));
        check("bytes after the last block", padding_examples::check(codec));
        check("records made by hand", record_examples::check(codec));
    }
}

fn check_reading(options: &Options, report: &mut Report) {
    let Options { seed, chunks, .. } = *options;
    let mut tally = Tally::default();
    let cases = (0..chunks).map(|number| generate::case(seed, number));
    let compared = compare_chunks(&format!("seed {seed}, case"), cases, &mut tally);
    report.check("chunks compared", compared);
    // Nothing is asked of what the few long ones have in them.
    let name = format!("seed {seed}, long chunk");
    let compared = compare_chunks(&name, generate::long_cases(seed), &mut Tally::default());
    report.check("long chunks compared", compared);
    report.check_counts("every number", ENOUGH, tally.number_counts());
    report.check_counts("every block", ENOUGH, tally.stop_counts());
    report.check_counts("every opcode", ENOUGH, tally.opcode_counts());
    report.check_counts("every table wrapped", ENOUGH, tally.wrap_counts());
    report.check_counts("longest runs", ENOUGH, tally.longest_run_counts());
    report.check_counts("copies", ENOUGH, tally.copy_counts());
    report.check_counts(
        "bytes after the last block",
        ENOUGH,
        tally.following_counts(),
    );
    check_counted(&tally.counts, report);

    let mut numbers = Numbers::default();
    let compared = compare_maps(seed, &mut numbers);
    report.check("fresh maps and counts compared", compared);
    report.check_counts(
        "fresh maps and counts: every number",
        ENOUGH,
        numbers.counts("number", 0..=2),
    );
}

/// What became of the records that were lent with the chunks.
fn check_counted(counts: &CountTally, report: &mut Report) {
    let never = match counts.true_refused() {
        0 => Ok(()),
        times => Err(format!("{times} times")),
    };
    report.check("21 never by a true record", never);
    report.check_counts("21 from each side", OFTEN, counts.side_counts());
    report.check_counts("records", ENOUGH, counts.record_counts());
    report.check_counts("counts at their bounds", ENOUGH, counts.bound_counts());
    report.check_counts("21 last of all", ENOUGH, counts.before_counts());
}

fn check_walks(options: &Options, report: &mut Report) {
    let examples = feed_examples::check(&SECOND);
    report.check("second walk: feeds made by hand", examples);
    let examples = feed_examples::check(&LIBRARY);
    report.check("library: feeds made by hand", examples);

    let Options { seed, feeds, .. } = *options;
    let mut tally = FeedTally::default();
    let cases = (0..feeds).map(|number| feeds::case(seed, number));
    let compared = compare_feeds(&format!("seed {seed}, feed"), cases, &mut tally);
    report.check("feeds compared", compared);
    report.check_counts("walks: every number", ENOUGH, tally.end_counts());
    report.check_counts("feed sizes: every number", ENOUGH, tally.size_counts());
    report.check_counts("walks: 12 and 13", ENOUGH, tally.number_counts());
    report.check_counts("walks: orders", ENOUGH, tally.order_counts());
    report.check_counts("walks: chunks", ENOUGH, tally.chunk_counts());
    report.check_counts("walks: records", ENOUGH, tally.record_counts());

    let mut tally = FeedTally::default();
    let cases = feeds::long_cases(seed);
    let compared = compare_feeds(&format!("seed {seed}, long feed"), cases, &mut tally);
    report.check("long feeds compared", compared);
    report.check_counts("long feeds: lengths", 1, tally.group_counts());
}

fn check_runs(seed: u64, report: &mut Report) {
    let examples = run_examples::check(&SECOND);
    report.check("second walk: runs made by hand", examples);
    let examples = run_examples::check(&LIBRARY);
    report.check("library: runs made by hand", examples);

    let mut tally = RunTally::default();
    let cases = (0..RUNS).map(|number| runs::case(seed, number));
    let compared = compare_runs(&format!("seed {seed}, run"), cases, &mut tally);
    report.check("runs compared", compared);
    report.check_counts("runs: every number", ENOUGH, tally.end_counts());
    report.check_counts("runs: boards", ENOUGH, tally.board_counts());
    report.check_counts("runs: 12 and 13", ENOUGH, tally.stop_counts());
    report.check_counts("runs: chunks", ENOUGH, tally.chunk_counts());
    report.check_counts("runs: records", ENOUGH, tally.record_counts());

    // Nothing more is asked of what the few long ones have in them than of the feeds.
    let name = format!("seed {seed}, long run");
    let compared = compare_runs(&name, runs::long_cases(seed), &mut RunTally::default());
    report.check("long runs compared", compared);
}

fn check_steps(seed: u64, report: &mut Report) {
    let examples = step_examples::check(&SECOND);
    report.check("second walk: steps and sizes made by hand", examples);
    let examples = step_examples::check(&LIBRARY);
    report.check("library: steps and sizes made by hand", examples);

    let mut tally = StepTally::default();
    let cases = (0..STEPS).map(|number| steps::case(seed, number));
    let compared = compare_steps(&format!("seed {seed}, step"), cases, &mut tally);
    report.check("steps compared", compared);
    report.check_counts("steps: every number", ENOUGH, tally.number_counts());
    report.check_counts("steps: places", ENOUGH, tally.place_counts());
    report.check_counts("steps: chunks", ENOUGH, tally.chunk_counts());
}

fn check_writes(seed: u64, report: &mut Report) {
    let examples = write_examples::check(&SECOND);
    report.check("second writer: chunks written out by hand", examples);
    let examples = write_examples::check(&LIBRARY);
    report.check("library: chunks written out by hand", examples);

    let mut tally = WriteTally::default();
    let cases = (0..WRITES).map(|number| pictures::case(seed, number));
    let compared = compare_writes(&format!("seed {seed}, write"), cases, &mut tally);
    report.check("writes compared", compared);
    report.check_counts("writes: every number", ENOUGH, tally.number_counts());
    report.check_counts("writes: orders", ENOUGH, tally.order_counts());
    report.check_counts("writes: outputs", ENOUGH, tally.output_counts());
    report.check_counts("writes: runs", ENOUGH, tally.run_counts());
    report.check_counts("writes: colours", ENOUGH, tally.colour_counts());
    report.check_counts("writes: pictures", ENOUGH, tally.picture_counts());

    let mut tally = WriteTally::default();
    let cases = pictures::long_cases(seed);
    let compared = compare_writes(&format!("seed {seed}, long write"), cases, &mut tally);
    report.check("long writes compared", compared);
    report.check_counts("long writes", 1, tally.long_counts());
}

fn check_symbols(seed: u64, report: &mut Report) {
    for (name, codec) in [("second painter", &SECOND), ("library", &LIBRARY)] {
        let examples = symbol_examples::check(codec);
        report.check(&format!("{name}: symbols made by hand"), examples);
        let drawings = drawings::check(codec);
        report.check(&format!("{name}: examples/symbols"), drawings);
    }

    let mut tally = SymbolTally::default();
    let cases = (0..SYMBOLS).map(|number| symbols::case(seed, number));
    let compared = compare_symbols(&format!("seed {seed}, symbol"), cases, &mut tally);
    report.check("symbols compared", compared);
    report.check_counts("symbols: every number", ENOUGH, tally.number_counts());
    report.check_counts("symbols: every fault", ENOUGH, tally.fault_counts());
    report.check_counts("symbols: orders", ENOUGH, tally.order_counts());
    report.check_counts("symbols: files", ENOUGH, tally.file_counts());
    report.check_counts("symbols: rows and segments", ENOUGH, tally.part_counts());
    report.check_counts("symbols: places", ENOUGH, tally.place_counts());
}

fn check_program(seed: u64, report: &mut Report) {
    let cases = listings::check_cases();
    report.check("board program: cases written from 01", cases);
    let mut things = Things::default();
    let compared = listings::compare_random(seed, &mut things);
    report.check("board program: random feeds", compared);
    report.check_counts("listings", ENOUGH_LISTINGS, things.counts());
}

/// With the record handed on beside the second reader, and on two boards.
fn check_sequences(seed: u64, report: &mut Report) {
    let mut tally = kept::Tally::default();
    let compared = try_sequences(seed, |sequence| kept::check(sequence, &mut tally));
    report.check("records handed on", compared);
    report.check_counts("records handed on", ENOUGH, tally.counts());

    let mut tally = two_boards::Tally::default();
    let claim = try_sequences(seed, |sequence| two_boards::check(sequence, &mut tally));
    report.check("two boards: demand 3", claim);
    report.check_counts("two boards", ENOUGH, tally.counts());
}

fn try_sequences(
    seed: u64,
    contradictions: impl FnMut(&Sequence) -> Vec<String>,
) -> Result<(), String> {
    let sequences = (0..SEQUENCES).map(|number| sequences::case(seed, number));
    let name = format!("seed {seed}, sequence");
    compare_each(&name, sequences, contradictions, sequence_in_short)
}

fn options() -> Result<Options, String> {
    let mut options = Options {
        seed: 1,
        chunks: 240_000,
        feeds: 40_000,
        replay: None,
    };
    let mut arguments = std::env::args().skip(1);
    while let Some(name) = arguments.next() {
        let value = arguments.next().and_then(|value| value.parse().ok());
        let value = value.ok_or(format!("{name} is not followed by a number"))?;
        match name.as_str() {
            "--seed" => options.seed = value,
            "--chunks" => options.chunks = value,
            "--feeds" => options.feeds = value,
            "--case" => options.replay = Some(Replay::Case(value)),
            "--feed" => options.replay = Some(Replay::Feed(value)),
            "--run" => options.replay = Some(Replay::Run(value)),
            "--step" => options.replay = Some(Replay::Step(value)),
            "--write" => options.replay = Some(Replay::Write(value)),
            "--symbol" => options.replay = Some(Replay::Symbol(value)),
            "--listing" => options.replay = Some(Replay::Listing(value)),
            "--sequence" => options.replay = Some(Replay::Sequence(value)),
            _ => return Err(format!("{name} is not known")),
        }
    }
    Ok(options)
}

/// 01's example 1, on the second reader alone; the library is tried on it as a chunk.
fn half_bytes() -> Result<(), String> {
    let numbers = reader::octet_numbers([0x01, 0x23, 0x45, 0x67, 0x89, 0xAB]);
    if numbers == [0x012456, 0x89A37B] {
        return Ok(());
    }
    Err(format!("{numbers:X?}"))
}

fn compare_chunks(
    name: &str,
    cases: impl IntoIterator<Item = Case>,
    tally: &mut Tally,
) -> Result<(), String> {
    let differences = |case: &Case| {
        let compared = compare::read_chunk(case);
        tally.add(case, &compared);
        compared.differences
    };
    compare_each(name, cases, differences, case_in_short)
}

fn compare_maps(seed: u64, numbers: &mut Numbers) -> Result<(), String> {
    let boards = (0..BOARDS).map(|number| generate::board(seed, number));
    let differences = |board: &Board| {
        let (differences, answered) = compare::fresh_map_and_count(board);
        numbers.add(answered);
        differences
    };
    let name = format!("seed {seed}, board");
    compare_each(&name, boards, differences, board_in_short)
}

fn compare_feeds(
    name: &str,
    cases: impl IntoIterator<Item = FeedCase>,
    tally: &mut FeedTally,
) -> Result<(), String> {
    let differences = |case: &FeedCase| {
        let compared = compare::walk_feed(case);
        tally.add(case, &compared);
        compared.differences
    };
    compare_each(name, cases, differences, feed_in_short)
}

fn compare_runs(
    name: &str,
    cases: impl IntoIterator<Item = RunCase>,
    tally: &mut RunTally,
) -> Result<(), String> {
    let differences = |case: &RunCase| {
        let compared = compare::walk_run(case);
        tally.add(case, &compared);
        compared.differences
    };
    compare_each(name, cases, differences, run_in_short)
}

fn compare_steps(
    name: &str,
    cases: impl IntoIterator<Item = StepCase>,
    tally: &mut StepTally,
) -> Result<(), String> {
    let differences = |case: &StepCase| {
        let compared = compare::walk_step(case);
        tally.add(case, &compared);
        compared.differences
    };
    compare_each(name, cases, differences, step_in_short)
}

fn compare_writes(
    name: &str,
    cases: impl IntoIterator<Item = WriteCase>,
    tally: &mut WriteTally,
) -> Result<(), String> {
    let differences = |case: &WriteCase| {
        let compared = compare::write_chunk(case);
        tally.add(case, &compared);
        compared.differences
    };
    compare_each(name, cases, differences, write_in_short)
}

fn compare_symbols(
    name: &str,
    cases: impl IntoIterator<Item = SymbolCase>,
    tally: &mut SymbolTally,
) -> Result<(), String> {
    let differences = |case: &SymbolCase| {
        let compared = compare::paint_symbol(case);
        tally.add(case, &compared);
        compared.differences
    };
    compare_each(name, cases, differences, symbol_in_short)
}
