//! The board program beside 01: on cases written out by hand, and on random feeds beside the
//! second listing.

use seatboard::Size;
use second::{listing, walk};

use crate::feeds;
use crate::program::{self, Handed};
use crate::program_cases;
use crate::report::Differing;
use crate::tally::{Thing, Things};
use crate::two_boards::own_board;

pub const FEEDS: u64 = 1_000;

pub fn check_cases() -> Result<(), String> {
    let mut differing = Differing::default();
    let cases = program_cases::all();
    for case in &cases {
        let printed =
            program::run(&case.feed, case.handed).map_err(|why| format!("{}: {why}", case.name))?;
        let difference = program::difference(&printed, &case.prints);
        differing.add(difference.as_slice(), || case.name.into());
    }
    differing.result(cases.len() as u64)
}

pub fn compare_random(seed: u64, things: &mut Things<11>) -> Result<(), String> {
    let mut differing = Differing::default();
    for number in 0..FEEDS {
        let feed = feeds::for_program(seed, number);
        let expected = listing::listing(&feed);
        things.add(things_of(&feed, &expected));
        let case = || format!("seed {seed}, listing {number}: {} bytes", feed.len());
        let printed =
            program::run(&feed, Handed::AtOnce).map_err(|why| format!("{}: {why}", case()))?;
        let difference = program::difference(&printed, &expected);
        differing.add(difference.as_slice(), case);
    }
    differing.result(FEEDS)
}

/// What a listing has, so that a run which missed something says so.
fn things_of(feed: &[u8], listing: &str) -> [Thing; 11] {
    let length = feed.len();
    let too_large = listing == "too large\n";
    let board = listing.starts_with("board");
    let last = listing.lines().last().unwrap_or_default();
    let ends = |numbers: &[&str]| numbers.iter().any(|number| last.starts_with(number));
    [
        ("too large by the bytes", too_large && length > 32_768),
        ("too large by the pixels", too_large && length <= 32_768),
        ("32,768 bytes listed", !too_large && length == 32_768),
        ("the end line alone, with 1", !board && ends(&["end 1 "])),
        (
            "the end line alone, with 12 or 13",
            !board && ends(&["end 12 ", "end 13 "]),
        ),
        ("a board ended by 0", board && ends(&["end 0 "])),
        ("a board ended by 12", board && ends(&["end 12 "])),
        ("a board ended by 13", board && ends(&["end 13 "])),
        ("a count that rises", count_rises(listing)),
        (
            "a chunk refused behind the first block",
            refused_behind(listing),
        ),
        ("a padded chunk", board && padded(feed)),
    ]
}

fn count_rises(listing: &str) -> bool {
    let counts: Vec<usize> = rows(listing).map(|[.., unsettled, _]| unsettled).collect();
    counts.windows(2).any(|two| two[0] < two[1])
}

fn refused_behind(listing: &str) -> bool {
    rows(listing).any(|[_, number, .., block]| (5..=10).contains(&number) && block > 0)
}

/// As the second walk finds it, on a board of its own.
fn padded(feed: &[u8]) -> bool {
    let Ok(((width, height), _)) = walk::size(feed) else {
        return false;
    };
    let (mut record, mut picture, mut map) = own_board(Size { width, height });
    let walk = walk::walk(&mut record, feed, &mut picture, &mut map);
    walk.chunks.iter().any(|chunk| chunk.padding > 0)
}

/// Chunk, number, place, unsettled and block.
fn rows(listing: &str) -> impl Iterator<Item = [usize; 5]> + '_ {
    let row = |line: &str| {
        let columns = line.split(' ').map(|column| column.parse().ok());
        let columns: Option<Vec<usize>> = columns.collect();
        columns?.try_into().ok()
    };
    listing.lines().filter_map(row)
}
