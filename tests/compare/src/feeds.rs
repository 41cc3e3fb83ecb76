//! The feeds: size numbers and chunks, whole and damaged, with the buffers lent for the walk. It
//! knows how a feed is laid out from paper 01 and shares nothing with the second walk, which
//! alone says what is right. Runs (runs.rs) are made of the same parts.

use seatboard::Size;

use crate::generate::{self, Board, FULL};
use crate::random::Random;

/// The walk is lent the board's buffers and record, whose size need not be the feed's.
pub struct FeedCase {
    pub board: Board,
    pub feed: Vec<u8>,
}

/// Feeds are numbered apart from the chunk cases and the boards, and listings apart from feeds.
const FEEDS: u64 = 1 << 63;
const LISTINGS: u64 = 1 << 62;

/// The least numbers of two, three and four groups, and the greatest of all.
const TWO_GROUPS: usize = 1 << 7;
const THREE_GROUPS: usize = 1 << 14;
const FOUR_GROUPS: usize = 1 << 21;
const GREATEST: usize = 16_777_215;

pub fn case(seed: u64, number: u64) -> FeedCase {
    let random = &mut Random::for_case(seed ^ FEEDS, number);
    let size = generate::allowed_size(random);
    any_case(random, size)
}

/// A feed for the board program, which takes at most 32,768 bytes and 16,000 pixels.
pub fn for_program(seed: u64, number: u64) -> Vec<u8> {
    let random = &mut Random::for_case(seed ^ LISTINGS, number);
    let size = if random.one_in(4) {
        about_16_000_pixels(random)
    } else {
        generate::allowed_size(random)
    };
    let mut feed = any_case(random, size).feed;
    if random.one_in(8) {
        // In a feed that is whole so far each of these zeros is a chunk of length 0.
        let length = random.pick(&[32_767, 32_768, 32_769, 32_770, 100_000]);
        feed.resize(length, 0);
    }
    feed
}

fn about_16_000_pixels(random: &mut Random) -> Size {
    let in_blocks = [(40, 25), (20, 50), (80, 12), (77, 13), (80, 13)];
    let (across, down) = random.pick(&in_blocks);
    size_in_blocks(across, down)
}

/// Feeds too long to be made often: hundreds of chunks at the greatest size, and chunks at each
/// length from which on its number takes another group, and at the greatest.
pub fn long_cases(seed: u64) -> Vec<FeedCase> {
    let random = &mut Random::for_case(seed ^ FEEDS, u64::MAX);
    let hundreds = (0..400)
        .map(|_| generate::any_chunk(random, FULL))
        .collect();
    let accepted_around = vec![
        generate::plain_chunk(random),
        overlong_chunk(random, FULL, FOUR_GROUPS),
        generate::valid_chunk(random, FULL),
    ];
    let block = Size {
        width: 4,
        height: 4,
    };
    let lengths = [TWO_GROUPS, THREE_GROUPS, FOUR_GROUPS]
        .into_iter()
        .flat_map(|least| [least - 1, least])
        .chain([GREATEST]);
    let each_length = lengths
        .flat_map(|length| [settling(random), overlong_chunk(random, block, length)])
        .collect();
    let mut cases = vec![
        whole_case(random, FULL, hundreds),
        whole_case(random, FULL, accepted_around),
        whole_case(random, block, each_length),
    ];
    let mut cut = cases[2].feed.clone();
    cut.pop();
    cases.push(FeedCase {
        board: generate::fitting_board(random, block),
        feed: cut,
    });
    cases
}

fn whole_case(random: &mut Random, size: Size, chunks: Vec<Vec<u8>>) -> FeedCase {
    FeedCase {
        board: generate::fitting_board(random, size),
        feed: Parts::feed(in_blocks(size), chunks).bytes(),
    }
}

/// A valid chunk and random bytes after it, too many for padding, up to a length that the chunk
/// states: refused.
fn overlong_chunk(random: &mut Random, size: Size, length: usize) -> Vec<u8> {
    let mut chunk = generate::valid_chunk(random, size);
    let more = length - chunk.len();
    chunk.extend(random.bytes(more));
    generate::state_length(&mut chunk);
    chunk
}

/// One block of one colour.
fn settling(random: &mut Random) -> Vec<u8> {
    vec![0xE1, 0, 0, 6, 0x60, random.byte()]
}

fn in_blocks(size: Size) -> (usize, usize) {
    (size.width / 4, size.height / 4)
}

/// The numbers that say this size, allowed or not, if there are such.
pub fn size_numbers(size: Size) -> Option<Vec<u8>> {
    let (across, down) = in_blocks(size);
    let sayable =
        (4 * across, 4 * down) == (size.width, size.height) && across.max(down) <= GREATEST;
    sayable.then(|| [shortest(across), shortest(down)].concat())
}

/// Chunks for that size; the feed states it or another, and buffers and record need not fit.
pub fn any_case(random: &mut Random, size: Size) -> FeedCase {
    let right = in_blocks(size);
    let (stated, board) = match random.below(32) {
        0..=3 => {
            let stated = size_not_allowed(random, right);
            (stated, board_as_if_allowed(random, stated, size))
        }
        4 | 5 => {
            let stated = as_many_blocks(random, right);
            (stated, generate::fitting_board(random, size))
        }
        6 => {
            let stated = in_blocks(generate::allowed_size(random));
            (stated, generate::fitting_board(random, size))
        }
        7 | 8 => (right, generate::board_of_wrong_lengths(random, size)),
        9 => (right, board_of_another_size(random, size)),
        _ => (right, generate::fitting_board(random, size)),
    };
    let parts = Parts::feed(stated, any_chunks(random, size));
    let feed = if random.one_in(40) {
        noise(random)
    } else {
        parts.perhaps_damaged(random)
    };
    FeedCase { board, feed }
}

fn size_not_allowed(random: &mut Random, (across, down): (usize, usize)) -> (usize, usize) {
    match random.below(3) {
        0 => (wrong_extent(random, across, 80), down),
        1 => (across, wrong_extent(random, down, 50)),
        _ => (
            wrong_extent(random, across, 80),
            wrong_extent(random, down, 50),
        ),
    }
}

fn wrong_extent(random: &mut Random, right: usize, most: usize) -> usize {
    match random.below(6) {
        0 => 0,
        1 | 2 => most + 1,
        // Allowed, if only the lower bits of four times this were looked at.
        3 => right + random.pick(&[1 << 8, 1 << 14, 1 << 22]),
        4 => GREATEST - random.below(2),
        _ => random.between(most + 1, 4 * most),
    }
}

/// Buffers that would fit, where they are not too long, so that only the size is at fault; the record
/// has it too, or the right one.
fn board_as_if_allowed(random: &mut Random, stated: (usize, usize), right: Size) -> Board {
    let (across, down) = stated;
    let blocks = across * down;
    if blocks > 4_000 || random.one_in(4) {
        return generate::fitting_board(random, right);
    }
    let mut board = generate::lent_board(random, right, 16 * blocks, blocks);
    if random.one_in(2) {
        board.size = size_in_blocks(across, down);
    }
    board
}

/// Buffers that fit, and a record of which only the size is at fault.
fn board_of_another_size(random: &mut Random, right: Size) -> Board {
    let mut board = generate::fitting_board(random, right);
    board.size = generate::wrong_size(random, right);
    board
}

fn size_in_blocks(across: usize, down: usize) -> Size {
    Size {
        width: 4 * across,
        height: 4 * down,
    }
}

/// Any allowed size whose buffers have the lengths of the given one's, such as 4x8 for 8x4.
fn as_many_blocks(random: &mut Random, (across, down): (usize, usize)) -> (usize, usize) {
    let blocks = across * down;
    let sizes: Vec<_> = (1..=80)
        .filter(|across| blocks.is_multiple_of(*across) && blocks / across <= 50)
        .map(|across| (across, blocks / across))
        .collect();
    random.pick(&sizes)
}

pub fn any_chunks(random: &mut Random, size: Size) -> Vec<Vec<u8>> {
    let small = size.width * size.height <= 1_024;
    let chunks = if small && random.one_in(8) {
        random.between(8, 40)
    } else {
        random.pick(&[0, 1, 1, 2, 3, 4, 6])
    };
    let kind = random.below(6);
    let mut any = || match random.below(12) {
        0 => Vec::new(),
        _ if kind < 2 => generate::sparse_chunk(random, size),
        _ if kind == 2 => generate::valid_chunk(random, size),
        _ => generate::any_chunk(random, size),
    };
    (0..chunks).map(|_| any()).collect()
}

/// Short, and mostly with an allowed size in front.
fn noise(random: &mut Random) -> Vec<u8> {
    let length = random.between(0, 12);
    let mut feed = random.bytes(length);
    if random.one_in(4) {
        return feed;
    }
    feed.iter_mut().take(2).for_each(|byte| *byte = 1);
    feed
}

/// What a feed or run is made of, in order: the two size numbers, of a feed alone, then each chunk's
/// length and the chunk.
pub struct Parts {
    parts: Vec<Vec<u8>>,
    /// How many of them are size numbers.
    sizes: usize,
}

impl Parts {
    fn feed((across, down): (usize, usize), chunks: Vec<Vec<u8>>) -> Self {
        let Parts { mut parts, .. } = Parts::run(chunks);
        parts.splice(..0, [shortest(across), shortest(down)]);
        Parts { parts, sizes: 2 }
    }

    pub fn run(chunks: Vec<Vec<u8>>) -> Self {
        let behind_length = |chunk: Vec<u8>| [shortest(chunk.len()), chunk];
        Parts {
            parts: chunks.into_iter().flat_map(behind_length).collect(),
            sizes: 0,
        }
    }

    pub fn bytes(&self) -> Vec<u8> {
        self.parts.concat()
    }

    /// The bytes, as they should be or damaged.
    pub fn perhaps_damaged(mut self, random: &mut Random) -> Vec<u8> {
        match random.below(32) {
            0..=6 => self.spoil_number(random),
            7..=11 => self.cut_number(random),
            12..=15 => self.cut_chunk(random),
            16 | 17 => self.misstate_length(random),
            _ => {}
        }
        let mut bytes = self.bytes();
        if bytes.is_empty() {
            return bytes;
        }
        match random.below(24) {
            0 => bytes.truncate(random.below(bytes.len())),
            1 => generate::flip_bits(random, &mut bytes),
            2 => {
                bytes.remove(random.below(bytes.len()));
            }
            3 => bytes.insert(random.between(0, bytes.len()), random.byte()),
            _ => {}
        }
        bytes
    }

    /// Which part is the length of some chunk, if there is one.
    fn some_length(&self, random: &mut Random) -> Option<usize> {
        let chunks = (self.parts.len() - self.sizes) / 2;
        (chunks > 0).then(|| self.sizes + 2 * random.below(chunks))
    }

    /// Which part is some number, if there is one: as often a length as a size number.
    fn some_number(&self, random: &mut Random) -> Option<usize> {
        if self.sizes == 0 {
            return self.some_length(random);
        }
        let size_number = random.below(self.sizes);
        if random.one_in(2) {
            return Some(size_number);
        }
        self.some_length(random).or(Some(size_number))
    }

    fn spoil_number(&mut self, random: &mut Random) {
        let Some(which) = self.some_number(random) else {
            return;
        };
        let right = self.value(which);
        self.parts[which] = badly_formed(random, right);
        if random.one_in(3) {
            self.parts.truncate(which + 1);
        }
    }

    fn value(&self, which: usize) -> usize {
        let groups = self.parts[which].iter().rev();
        groups.fold(0, |value, group| value << 7 | usize::from(group & 0x7F))
    }

    /// The bytes end inside a number, or where a size number should begin.
    fn cut_number(&mut self, random: &mut Random) {
        let Some(which) = self.some_number(random) else {
            return;
        };
        let mut groups = in_groups(self.value(which), 4);
        let least = if which < self.sizes { 0 } else { 1 };
        groups.truncate(random.between(least, 3));
        self.parts[which] = groups;
        self.parts.truncate(which + 1);
    }

    /// The bytes end inside a chunk, often where its first byte should be.
    fn cut_chunk(&mut self, random: &mut Random) {
        let Some(length) = self.some_length(random) else {
            return;
        };
        let chunk = &mut self.parts[length + 1];
        match random.below(3) {
            0 => chunk.clear(),
            1 => {
                chunk.pop();
            }
            _ => chunk.truncate(random.between(0, chunk.len())),
        }
        self.parts.truncate(length + 2);
    }

    fn misstate_length(&mut self, random: &mut Random) {
        let Some(length) = self.some_length(random) else {
            return;
        };
        let right = self.value(length);
        let wrong = [
            right + 1,
            right + 2,
            right.saturating_sub(1),
            right / 2,
            right + 1_000,
            right + 65_536,
            GREATEST,
        ];
        self.parts[length] = shortest(random.pick(&wrong));
    }
}

/// The only right form of a number.
fn shortest(number: usize) -> Vec<u8> {
    let groups = (1..5).find(|groups| number >> (7 * groups) == 0);
    in_groups(number, groups.expect("at most four groups"))
}

/// As many groups as asked for; what does not fit is left out.
fn in_groups(number: usize, groups: usize) -> Vec<u8> {
    let mut bytes: Vec<u8> = (0..groups)
        .map(|group| (number >> (7 * group)) as u8 | 0x80)
        .collect();
    bytes[groups - 1] &= 0x7F;
    bytes
}

/// One of 01's three faults, mostly so that a reader without that rule takes the right number.
fn badly_formed(random: &mut Random, right: usize) -> Vec<u8> {
    let value = if random.one_in(4) {
        random.below(GREATEST + 1)
    } else {
        right
    };
    match random.below(3) {
        0 => {
            let mut five = in_groups(value, 5);
            // Without the fifth it is as bad, also at the feed's end.
            five.truncate(random.between(4, 5));
            five
        }
        1 => {
            let groups = random.between(2, 4);
            in_groups(value % (1 << (7 * (groups - 1))), groups)
        }
        _ => {
            let fourth = random.pick(&[8, 8, 9, 16, 64, 127]);
            in_groups(value % FOUR_GROUPS + fourth * FOUR_GROUPS, 4)
        }
    }
}
