//! The library's functions with their answers as C has them: a number, a place and a block, whatever
//! the number, and the record by value. For programs that show or compare answers. The only file with
//! `unsafe`.

use crate::{Record, Size};

#[repr(C)]
#[derive(Clone, Copy, Debug, PartialEq, Eq)]
pub struct Answer {
    /// 0 for accepted; the others are those of [`crate::Reason`].
    pub number: u8,
    pub place: usize,
    /// That of [`crate::Accepted`] or [`crate::Refused`]; 0 where no chunk is read or written.
    pub block: usize,
}

/// What a fresh start, a chunk and a feed answer.
#[repr(C)]
#[derive(Clone, Copy, Debug, PartialEq, Eq)]
pub struct Recorded {
    pub answer: Answer,
    /// As it is after the call; of a refused fresh start the lent size and count 0.
    pub record: Record,
}

#[repr(C)]
#[derive(Clone, Copy, Debug, PartialEq, Eq)]
pub struct Count {
    pub answer: Answer,
    /// 0 where the count was refused.
    pub unsettled: usize,
}

#[repr(C)]
#[derive(Clone, Copy, Debug, PartialEq, Eq)]
pub struct Tally {
    pub answer: Answer,
    /// How many chunks were accepted; 0 where the answer is 1 or 2.
    pub accepted: usize,
    /// As it is after the call.
    pub record: Record,
}

#[repr(C)]
#[derive(Clone, Copy, Debug, PartialEq, Eq)]
pub struct FeedSize {
    pub answer: Answer,
    /// 0 by 0 where the feed was refused.
    pub size: Size,
    /// The place behind the size numbers; 0 where the feed was refused.
    pub first: usize,
}

#[repr(C)]
#[derive(Clone, Copy, Debug, PartialEq, Eq)]
pub struct Step {
    /// The chunk's or, where there was none, the walk's own.
    pub answer: Answer,
    /// As it is after the call.
    pub record: Record,
    pub chunk: bool,
    /// The place behind the chunk or, where there was none, the one that was lent.
    pub next: usize,
}

// The symbols have the number of the interface in their names: with the library of another one this
// file does not link.
extern "C" {
    #[link_name = "seatboard_v2_fresh_map"]
    fn seatboard_fresh_map(size: Size, map: *mut u16, map_length: usize) -> Recorded;
    #[link_name = "seatboard_v2_count"]
    fn seatboard_count(size: Size, map: *const u16, map_length: usize) -> Count;
    #[link_name = "seatboard_v2_read_chunk"]
    fn seatboard_read_chunk(
        record: Record,
        chunk: *const u8,
        chunk_length: usize,
        picture: *mut u8,
        picture_length: usize,
        map: *mut u16,
        map_length: usize,
    ) -> Recorded;
    #[link_name = "seatboard_v2_write_chunk"]
    fn seatboard_write_chunk(
        size: Size,
        old_picture: *const u8,
        old_length: usize,
        new_picture: *const u8,
        new_length: usize,
        output: *mut u8,
        output_length: usize,
    ) -> Answer;
    #[link_name = "seatboard_v2_feed_size"]
    fn seatboard_feed_size(feed: *const u8, feed_length: usize) -> FeedSize;
    #[link_name = "seatboard_v2_walk_feed"]
    fn seatboard_walk_feed(
        record: Record,
        feed: *const u8,
        feed_length: usize,
        picture: *mut u8,
        picture_length: usize,
        map: *mut u16,
        map_length: usize,
    ) -> Recorded;
    #[link_name = "seatboard_v2_walk_run"]
    fn seatboard_walk_run(
        record: Record,
        run: *const u8,
        run_length: usize,
        picture: *mut u8,
        picture_length: usize,
        map: *mut u16,
        map_length: usize,
    ) -> Tally;
    #[link_name = "seatboard_v2_walk_step"]
    fn seatboard_walk_step(
        record: Record,
        feed: *const u8,
        feed_length: usize,
        at: usize,
        picture: *mut u8,
        picture_length: usize,
        map: *mut u16,
        map_length: usize,
    ) -> Step;
    #[link_name = "seatboard_v2_paint_symbol"]
    fn seatboard_paint_symbol(
        size: Size,
        picture: *mut u8,
        picture_length: usize,
        file: *const u8,
        file_length: usize,
        frame: usize,
        left: i16,
        top: i16,
    ) -> Answer;
}

// Every call below is sound for one reason. Each pointer and length are those of one slice that is
// lent for the call, so it is aligned and that long; slices lent for writing overlap no other; and
// the library, for all inputs, touches nothing outside what it is lent and keeps no pointer.

pub fn fresh_map(size: Size, map: &mut [u16]) -> Recorded {
    // SAFETY: as above.
    unsafe { seatboard_fresh_map(size, map.as_mut_ptr(), map.len()) }
}

pub fn count(size: Size, map: &[u16]) -> Count {
    // SAFETY: as above.
    unsafe { seatboard_count(size, map.as_ptr(), map.len()) }
}

pub fn read_chunk(record: Record, chunk: &[u8], picture: &mut [u8], map: &mut [u16]) -> Recorded {
    // SAFETY: as above.
    unsafe {
        seatboard_read_chunk(
            record,
            chunk.as_ptr(),
            chunk.len(),
            picture.as_mut_ptr(),
            picture.len(),
            map.as_mut_ptr(),
            map.len(),
        )
    }
}

pub fn write_chunk(size: Size, old: &[u8], new: &[u8], output: &mut [u8]) -> Answer {
    // SAFETY: as above.
    unsafe {
        seatboard_write_chunk(
            size,
            old.as_ptr(),
            old.len(),
            new.as_ptr(),
            new.len(),
            output.as_mut_ptr(),
            output.len(),
        )
    }
}

pub fn feed_size(feed: &[u8]) -> FeedSize {
    // SAFETY: as above.
    unsafe { seatboard_feed_size(feed.as_ptr(), feed.len()) }
}

pub fn walk_feed(record: Record, feed: &[u8], picture: &mut [u8], map: &mut [u16]) -> Recorded {
    // SAFETY: as above.
    unsafe {
        seatboard_walk_feed(
            record,
            feed.as_ptr(),
            feed.len(),
            picture.as_mut_ptr(),
            picture.len(),
            map.as_mut_ptr(),
            map.len(),
        )
    }
}

pub fn walk_run(record: Record, run: &[u8], picture: &mut [u8], map: &mut [u16]) -> Tally {
    // SAFETY: as above.
    unsafe {
        seatboard_walk_run(
            record,
            run.as_ptr(),
            run.len(),
            picture.as_mut_ptr(),
            picture.len(),
            map.as_mut_ptr(),
            map.len(),
        )
    }
}

pub fn walk_step(
    record: Record,
    feed: &[u8],
    at: usize,
    picture: &mut [u8],
    map: &mut [u16],
) -> Step {
    // SAFETY: as above.
    unsafe {
        seatboard_walk_step(
            record,
            feed.as_ptr(),
            feed.len(),
            at,
            picture.as_mut_ptr(),
            picture.len(),
            map.as_mut_ptr(),
            map.len(),
        )
    }
}

pub fn paint_symbol(
    size: Size,
    picture: &mut [u8],
    file: &[u8],
    frame: usize,
    left: i16,
    top: i16,
) -> Answer {
    // SAFETY: as above.
    unsafe {
        seatboard_paint_symbol(
            size,
            picture.as_mut_ptr(),
            picture.len(),
            file.as_ptr(),
            file.len(),
            frame,
            left,
            top,
        )
    }
}
