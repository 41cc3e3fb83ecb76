use std::iter::FusedIterator;

use crate::{feed_size, fresh_map, read_chunk, walk_feed, walk_run, walk_step};
use crate::{Accepted, FeedSize, Reason, Record, Refused, Size, Step, Tally};

/// A picture with its map and record, kept together from a fresh start: nobody else can write them,
/// so that the record is always true to the map and no call is refused with [`Reason::BadCount`].
///
/// ```
/// # fn main() -> Result<(), seatboard::Refused> {
/// use seatboard::{Board, Size, SETTLED};
///
/// let mut board = Board::new(Size { width: 8, height: 4 })?;
/// assert_eq!((board.map(), board.unsettled()), (&[0, 1][..], 2));
///
/// board.read_chunk(&[0xE1, 0, 0, 7, 0x60, 5, 0x00])?; // block 0 of colour 5, block 1 skipped
/// assert_eq!((board.map(), board.unsettled()), (&[SETTLED, 1][..], 1));
/// assert_eq!(board.picture()[..8], [5, 5, 5, 5, 0, 0, 0, 0]);
/// # Ok(())
/// # }
/// ```
#[derive(Clone, Debug, PartialEq, Eq)]
pub struct Board {
    picture: Vec<u8>,
    map: Vec<u16>,
    record: Record,
}

impl Board {
    /// An all-zero picture, a fresh map and its record. A size that is not allowed is refused before
    /// anything is allocated.
    ///
    /// ```
    /// use seatboard::{Board, Reason, Size};
    ///
    /// let refused = Board::new(Size { width: usize::MAX, height: 4 }).unwrap_err();
    /// assert_eq!(refused.reason, Reason::BadSize);
    /// ```
    pub fn new(size: Size) -> Result<Self, Refused> {
        // An allowed size has blocks, so that an empty map is never right: what is refused then is the
        // size or the length, and the size is looked at first.
        if let Err(refused) = fresh_map(size, &mut []) {
            if refused.reason == Reason::BadSize {
                return Err(refused);
            }
        }
        let mut map = vec![0; size.blocks()];
        let record = fresh_map(size, &mut map)?;
        Ok(Board {
            picture: vec![0; size.pixels()],
            map,
            record,
        })
    }

    /// The same of the size that a feed states, or what [`feed_size`] refuses. Nothing of the feed is
    /// walked.
    ///
    /// ```
    /// # fn main() -> Result<(), seatboard::Refused> {
    /// # use seatboard::{Board, Reason};
    /// let feed = [2, 1, 6, 0xE1, 0, 0, 6, 0x61, 5]; // 8 by 4, two blocks of colour 5
    /// let mut board = Board::for_feed(&feed)?;
    /// assert_eq!((board.size().width, board.unsettled()), (8, 2));
    /// board.walk_feed(&feed)?;
    /// assert_eq!((board.picture(), board.unsettled()), (&[5; 32][..], 0));
    ///
    /// let refused = Board::for_feed(&[81, 1]).unwrap_err(); // of 324 by 4
    /// assert_eq!(refused.reason, Reason::BadSize);
    /// # Ok(())
    /// # }
    /// ```
    pub fn for_feed(feed: &[u8]) -> Result<Self, Refused> {
        Board::new(feed_size(feed)?.size)
    }

    /// [`read_chunk`] over this board.
    ///
    /// ```
    /// # fn main() -> Result<(), seatboard::Refused> {
    /// # use seatboard::{Board, Reason, Size};
    /// let mut board = Board::new(Size { width: 4, height: 4 })?;
    /// let refused = board.read_chunk(&[0xE1, 0, 0, 5, 0x20]).unwrap_err(); // no block before
    /// assert_eq!((refused.reason, refused.place), (Reason::NoneBefore, 4));
    /// assert_eq!(board, Board::new(board.size())?); // nothing has changed
    /// # Ok(())
    /// # }
    /// ```
    pub fn read_chunk(&mut self, chunk: &[u8]) -> Result<Accepted, Refused> {
        read_chunk(&mut self.record, chunk, &mut self.picture, &mut self.map)
    }

    /// [`walk_feed`] over this board: [`Reason::BadLength`] where the feed has another size that is
    /// allowed, [`Reason::BadSize`] where it has one that is not.
    ///
    /// ```
    /// # fn main() -> Result<(), seatboard::Refused> {
    /// # use seatboard::{Board, Reason, Size};
    /// let mut board = Board::new(Size { width: 8, height: 4 })?;
    /// board.walk_feed(&[2, 1, 6, 0xE1, 0, 0, 6, 0x61, 5])?; // two blocks of colour 5
    /// assert_eq!(board.unsettled(), 0);
    ///
    /// let refused = board.walk_feed(&[1, 2]).unwrap_err(); // of 4 by 8
    /// assert_eq!(refused.reason, Reason::BadLength);
    /// # Ok(())
    /// # }
    /// ```
    pub fn walk_feed(&mut self, feed: &[u8]) -> Result<Accepted, Refused> {
        walk_feed(&mut self.record, feed, &mut self.picture, &mut self.map)
    }

    /// [`walk_run`] over this board.
    ///
    /// ```
    /// # fn main() -> Result<(), seatboard::Refused> {
    /// # use seatboard::{Board, Size};
    /// let mut board = Board::new(Size { width: 4, height: 4 })?;
    /// // a chunk of length 0, which is refused, and a block of colour 5
    /// let tally = board.walk_run(&[0, 6, 0xE1, 0, 0, 6, 0x60, 5]);
    /// assert_eq!((tally.accepted, tally.end?.length, board.unsettled()), (1, 8, 0));
    /// # Ok(())
    /// # }
    /// ```
    pub fn walk_run(&mut self, run: &[u8]) -> Tally {
        walk_run(&mut self.record, run, &mut self.picture, &mut self.map)
    }

    /// [`walk_feed`] over this board, step by step: an answer for each chunk, and the board to look at
    /// in between. Chunks that are not asked for are not read. What the walk refuses before its first
    /// chunk is refused at once: size numbers that fail, a size that is not allowed
    /// ([`Reason::BadSize`]) or not the board's ([`Reason::BadLength`]).
    ///
    /// ```
    /// # fn main() -> Result<(), seatboard::Refused> {
    /// # use seatboard::{Board, Reason};
    /// // one block of colour 5 and one skipped; a chunk of length 0, which is refused; both of colour 7
    /// let feed = [2, 1, 7, 0xE1, 0, 0, 7, 0x60, 5, 0, 0, 6, 0xE1, 0, 0, 6, 0x61, 7];
    /// let mut board = Board::for_feed(&feed)?;
    /// let mut steps = board.steps(&feed)?;
    /// let mut seen = Vec::new();
    /// while let Some(said) = steps.next() {
    ///     seen.push((said.is_ok(), steps.board().unsettled()));
    /// }
    /// assert_eq!(seen, [(true, 1), (false, 1), (true, 0)]);
    /// assert_eq!(steps.end().map(|end| end.is_ok()), Some(true));
    ///
    /// let refused = board.steps(&[1, 2]).err(); // of 4 by 8
    /// assert_eq!(refused.map(|refused| refused.reason), Some(Reason::BadLength));
    /// # Ok(())
    /// # }
    /// ```
    pub fn steps<'a>(&'a mut self, feed: &'a [u8]) -> Result<Steps<'a>, Refused> {
        let FeedSize { size, first } = feed_size(feed)?;
        if size != self.size() {
            return Err(Refused {
                reason: Reason::BadLength,
                place: 0,
                block: 0,
            });
        }
        Ok(Steps {
            board: self,
            feed,
            at: first,
            end: None,
        })
    }

    pub fn size(&self) -> Size {
        self.record.size
    }

    /// How many entries of the map are unsettled: asked of the record, and not counted.
    pub fn unsettled(&self) -> usize {
        self.record.unsettled
    }

    /// Copy it to paint symbols.
    pub fn picture(&self) -> &[u8] {
        &self.picture
    }

    pub fn map(&self) -> &[u16] {
        &self.map
    }
}

/// The steps of a feed over a board: what each chunk answers, as it is read. Made by [`Board::steps`].
#[derive(Debug)]
#[must_use = "chunks are read as they are asked for"]
pub struct Steps<'a> {
    board: &'a mut Board,
    feed: &'a [u8],
    at: usize,
    end: Option<Result<Accepted, Refused>>,
}

impl Steps<'_> {
    /// As the chunks read so far have left it.
    pub fn board(&self) -> &Board {
        self.board
    }

    /// The walk's own end, once there is no further chunk: what [`Board::walk_feed`] answers. Places
    /// count from the feed's first byte.
    pub fn end(&self) -> Option<Result<Accepted, Refused>> {
        self.end
    }
}

impl Iterator for Steps<'_> {
    type Item = Result<Accepted, Refused>;

    fn next(&mut self) -> Option<Self::Item> {
        let Board {
            picture,
            map,
            record,
        } = &mut *self.board;
        match walk_step(record, self.feed, self.at, picture, map) {
            Step::Chunk { said, next } => {
                self.at = next;
                Some(said)
            }
            Step::End(end) => {
                self.end = Some(end);
                None
            }
        }
    }
}

// Where no chunk stands there is none the next time either.
impl FusedIterator for Steps<'_> {}
