//! Measures the library beside the second reader, writer and walk and beside FFmpeg, in one run.
//!
//! From the repository's root, with the library in target/lib:
//!
//! ```text
//! cargo run --release --locked --offline --package bench [-- --only WORK]
//! ```
//!
//! The works are a, b, c, c8, d1 to d4 and e. `--count WORK [--who NAME] [--rounds N]` does one of
//! them as one contestant ("ours") so many times (once) and takes no time, for tools that count. The
//! function that is measured is called for nothing else, so that it alone can be looked at:
//!
//! ```text
//! valgrind --tool=callgrind --toggle-collect=seatboard_v2_read_chunk target/cargo/release/bench --count a
//! ```

#[cfg_attr(not(ffmpeg), path = "without_ffmpeg.rs")]
mod beside;
mod contest;
mod dense;
#[cfg(ffmpeg)]
mod ffmpeg;
mod hall;
#[path = "../../tests/compare/src/random.rs"]
mod random;
mod readers;
mod report;
mod story;
mod walks;
mod writers;

use std::process::ExitCode;

use contest::Contest;
use report::Table;

/// Every run measures the same work.
const SEED: u64 = 1;

/// How many blocks change.
const ALL: usize = hall::SIZE.blocks();
const HALF: usize = ALL / 2;
const FEW: usize = ALL / 20;

/// The heading, which bytes a second are told, and the works.
const SECTIONS: [(&str, &str, &[&str]); 3] = [
    ("Reading a chunk, 320x200", "pixels", &["a", "b", "c", "c8"]),
    (
        "Writing a chunk, 320x200",
        "pixels",
        &["d1", "d2", "d3", "d4"],
    ),
    ("Walking a feed, 320x200", "feed", &["e"]),
];

fn contest(work: &str) -> Result<Contest, String> {
    Ok(match work {
        "a" => readers::changes("a: 5 % of the blocks changed", FEW, 2.5),
        "b" => readers::changes("b: half of the blocks changed", HALF, 1.5),
        "c" => readers::dense("c: every opcode", &dense::EVERY_OPCODE, 1.5),
        "c8" => readers::dense("c8: octets alone", &dense::OCTETS, 1.0),
        "d1" => writers::contest("d1: equal pictures", 0, 2.0),
        "d2" => writers::contest("d2: 5 % of the blocks changed", FEW, 2.0),
        "d3" => writers::contest("d3: half of the blocks changed", HALF, 2.0),
        "d4" => writers::contest("d4: all blocks changed", ALL, 2.0),
        "e" => walks::contest("e"),
        _ => return Err(unknown(work)),
    })
}

fn unknown(work: &str) -> String {
    format!("{work} is no work of this benchmark")
}

fn main() -> ExitCode {
    let done = options().and_then(|options| match &options.count {
        Some(work) => count(work, &options),
        None => measure(options.only.as_deref()),
    });
    match done {
        Ok(()) => ExitCode::SUCCESS,
        Err(why) => {
            eprintln!("{why}");
            ExitCode::FAILURE
        }
    }
}

struct Options {
    only: Option<String>,
    count: Option<String>,
    who: String,
    rounds: u32,
}

fn options() -> Result<Options, String> {
    let mut options = Options {
        only: None,
        count: None,
        who: "ours".into(),
        rounds: 1,
    };
    let mut arguments = std::env::args().skip(1);
    while let Some(name) = arguments.next() {
        let value = arguments.next();
        let value = value.ok_or(format!("{name} is not followed by a value"))?;
        match name.as_str() {
            "--only" => options.only = Some(value),
            "--count" => options.count = Some(value),
            "--who" => options.who = value,
            "--rounds" => options.rounds = value.parse().map_err(|_| "--rounds takes a number")?,
            _ => return Err(format!("{name} is not known")),
        }
    }
    Ok(options)
}

/// All works, or one.
fn measure(only: Option<&str>) -> Result<(), String> {
    let wanted = |work: &&&str| only.is_none_or(|only| only == **work);
    let mut works = SECTIONS.iter().flat_map(|(_, _, works)| *works);
    if !works.any(|work| wanted(&work)) {
        return Err(unknown(only.unwrap_or_default()));
    }
    report::print_machine();
    for (heading, bytes, works) in SECTIONS {
        let mut table = Table::new(bytes);
        for work in works.iter().filter(wanted) {
            let mut contest = contest(work)?;
            let measured = contest.run()?;
            table.add(&contest, &measured);
        }
        table.print(heading);
    }
    Ok(())
}

fn count(work: &str, options: &Options) -> Result<(), String> {
    let mut contest = contest(work)?;
    let who = options.who.as_str();
    let place = contest.contestants.iter().position(|one| one.name() == who);
    contest.pass(place.ok_or(format!("{who} takes no part"))?, options.rounds);
    println!("{} chunks, {} times", contest.chunks, options.rounds);
    Ok(())
}
