//! The independent second listing: what the board program prints for a feed, written from papers
//! 01 and 02 (its fifth column) over the second walk.

use crate::reader::{At, Record};
use crate::walk;

/// 01: the board program takes feeds up to these.
const MOST_BYTES: usize = 32_768;
const MOST_PIXELS: usize = 16_000;

const TOO_LARGE: &str = "too large\n";

/// 01's order: the feed's length, the size numbers, 1, the pixels, then the walk.
pub fn listing(feed: &[u8]) -> String {
    if feed.len() > MOST_BYTES {
        return TOO_LARGE.into();
    }
    match walk::size(feed) {
        Err(stop) => end_line(stop.number_and_at()),
        Ok(((width, height), _)) if width * height > MOST_PIXELS => TOO_LARGE.into(),
        Ok((size, _)) => board_and_chunks(feed, size),
    }
}

/// From an all-zero picture and a fresh map. What is printed as unsettled is counted in the map, and
/// not what the record says.
fn board_and_chunks(feed: &[u8], size: (usize, usize)) -> String {
    let (width, height) = size;
    let mut picture = vec![0; width * height];
    let mut map: Vec<u16> = (0..).take(width * height / 16).collect();
    let unsettled = map.len();
    let mut record = Record { size, unsettled };
    let walk = walk::walk(&mut record, feed, &mut picture, &mut map);
    let mut text = format!("board {width} {height}\n");
    for (before, read) in walk.chunks.iter().enumerate() {
        let chunk = before + 1;
        let At { place, block } = read.at;
        let line = format!(
            "{chunk} {} {place} {} {block}\n",
            read.number, read.unsettled
        );
        text.push_str(&line);
    }
    text + &end_line(walk.number_and_at())
}

/// It has no block (02).
fn end_line((number, at): (u8, At)) -> String {
    format!("end {number} {}\n", at.place)
}
