//! The cases: boards and chunks, valid, damaged and arbitrary. It knows how a chunk is laid out
//! from paper 01 and shares nothing with the second reader, which alone says what is right.

use seatboard::{Record, Size};

use crate::random::Random;

pub const SETTLED: u16 = 65_535;
/// The greatest size.
pub const FULL: Size = Size {
    width: 320,
    height: 200,
};

/// A size with the buffers lent for it, which need not fit each other, and the count that is lent with
/// it in a record, which need not be that of the map.
pub struct Board {
    pub size: Size,
    pub unsettled: usize,
    pub picture: Vec<u8>,
    pub map: Vec<u16>,
}

impl Board {
    /// With the record that is true to its map.
    pub fn with_true_record(size: Size, picture: Vec<u8>, map: Vec<u16>) -> Self {
        Board {
            size,
            unsettled: unsettled(&map),
            picture,
            map,
        }
    }

    pub fn record(&self) -> Record {
        Record {
            size: self.size,
            unsettled: self.unsettled,
        }
    }
}

pub struct Case {
    pub board: Board,
    pub chunk: Vec<u8>,
}

pub fn case(seed: u64, number: u64) -> Case {
    let random = &mut Random::for_case(seed, number);
    let size = allowed_size(random);
    let chunk = any_chunk(random, size);
    Case {
        board: any_board(random, size),
        chunk,
    }
}

/// A board alone, for fresh maps and counts: numbered apart from the chunk cases.
pub fn board(seed: u64, number: u64) -> Board {
    let random = &mut Random::for_case(!seed, number);
    let size = allowed_size(random);
    any_board(random, size)
}

/// Chunks too long to be made often: past 65,535 bytes, where the highest byte of the stated
/// length counts, and past 16,777,215, which no three bytes can state.
pub fn long_cases(seed: u64) -> Vec<Case> {
    let random = &mut Random::for_case(seed, u64::MAX);
    let plain = plain_chunk(random);
    let mut highest_left_out = plain.clone();
    highest_left_out[1] = 0;
    let mut longest = random.bytes(0xFF_FFFF);
    longest[..6].copy_from_slice(&[0xE1, 0xFF, 0xFF, 0xFF, 0x60, 5]);
    let mut too_long = random.bytes(0x100_0006);
    too_long[..6].copy_from_slice(&[0xE1, 0, 0, 6, 0x60, 5]);
    let block = Size {
        width: 4,
        height: 4,
    };
    [
        (FULL, plain),
        (FULL, highest_left_out),
        (block, longest),
        (block, too_long),
    ]
    .map(|(size, chunk)| Case {
        board: fitting_board(random, size),
        chunk,
    })
    .into()
}

/// The longest chunk that is accepted at the greatest size: every block by itself under opcode E.
pub fn plain_chunk(random: &mut Random) -> Vec<u8> {
    let mut plain = vec![0xE1, 0, 0, 0];
    for _ in 0..4_000 {
        plain.push(0xE0);
        plain.extend(random.bytes(16));
    }
    state_length(&mut plain);
    plain
}

pub fn allowed_size(random: &mut Random) -> Size {
    let (width, height) = match random.below(32) {
        0..=11 => random.pick(&[(4, 4), (8, 4), (4, 8), (8, 8), (12, 8), (16, 4), (4, 16)]),
        12..=20 => (4 * random.between(1, 10), 4 * random.between(1, 10)),
        21..=25 => (4 * random.between(10, 30), 4 * random.between(10, 25)),
        26 => (320, 4 * random.between(1, 5)),
        27 => (4 * random.between(1, 5), 200),
        28..=30 => (4 * random.between(16, 40), 4 * random.between(17, 25)),
        _ if random.one_in(2) => (FULL.width, FULL.height),
        _ => (4 * random.between(1, 80), 4 * random.between(1, 50)),
    };
    Size { width, height }
}

fn any_board(random: &mut Random, size: Size) -> Board {
    match random.below(32) {
        0 => board_of_wrong_size(random, size),
        1 => board_of_wrong_lengths(random, size),
        _ => fitting_board(random, size),
    }
}

pub fn fitting_board(random: &mut Random, size: Size) -> Board {
    let pixels = size.width * size.height;
    lent_board(random, size, pixels, pixels / 16)
}

pub fn lent_board(random: &mut Random, size: Size, pixels: usize, entries: usize) -> Board {
    let picture = random.bytes(pixels);
    let map = any_map(random, entries);
    Board {
        size,
        unsettled: any_count(random, &map),
        picture,
        map,
    }
}

/// How many entries are unsettled: what a true record says.
pub fn unsettled(map: &[u16]) -> usize {
    map.iter().filter(|entry| **entry != SETTLED).count()
}

/// The count of a record: as often as not true to the map.
pub fn any_count(random: &mut Random, map: &[u16]) -> usize {
    let right = unsettled(map);
    if random.one_in(2) {
        return right;
    }
    let blocks = map.len();
    match random.below(16) {
        0..=2 => 0,
        3 | 4 => right.wrapping_sub(1),
        5 | 6 => right + 1,
        7 | 8 => blocks,
        9 => blocks + 1,
        10 => usize::MAX,
        11 | 12 => random.between(0, blocks),
        // A chunk that settles enough brings it down to what is allowed.
        13 => random.between(blocks, 2 * blocks),
        14 => usize::MAX - random.below(8),
        // True, if only the lower bits were looked at.
        _ => right + random.pick(&[1 << 8, 1 << 16, 1 << 32, 1 << 63]),
    }
}

pub fn any_map(random: &mut Random, entries: usize) -> Vec<u16> {
    let kind = random.below(8);
    let mut entry = |place: usize| match kind {
        0 | 1 => place as u16,
        2 => SETTLED,
        3 => random.next() as u16,
        // A copy of one of the few others unsettles.
        4 if !random.one_in(4) => SETTLED,
        _ => match random.below(4) {
            0 => SETTLED,
            1 => SETTLED - 1 - random.below(3) as u16,
            // Among them numbers past the last block.
            _ => random.below(2 * entries) as u16,
        },
    };
    (0..entries).map(&mut entry).collect()
}

/// A size that is not allowed, with buffers as if it were: of the product, where that is small
/// or wraps to something small, or else of the size it was made from.
pub fn board_of_wrong_size(random: &mut Random, right: Size) -> Board {
    let size = wrong_size(random, right);
    let product = size.width.wrapping_mul(size.height);
    let pixels = if product <= 70_000 {
        product
    } else {
        right.width * right.height
    };
    lent_board(random, size, pixels, pixels / 16)
}

pub fn wrong_size(random: &mut Random, right: Size) -> Size {
    let mut size = right;
    match random.below(4) {
        0 => size.width = wrong_extent(random, right.width, 320),
        1 => size.height = wrong_extent(random, right.height, 200),
        2 => {
            size.width = wrong_extent(random, right.width, 320);
            size.height = wrong_extent(random, right.height, 200);
        }
        // The product wraps to the right size's own number of pixels.
        _ => size.width += (1 << 62) * random.between(1, 3),
    }
    size
}

fn wrong_extent(random: &mut Random, right: usize, most: usize) -> usize {
    match random.below(10) {
        0 => 0,
        1 => most + 4,
        2 => most + random.between(1, 100),
        3 => right + random.between(1, 3),
        4 => random.between(1, 3),
        5 => usize::MAX - random.below(8),
        // Allowed, if only the lower bytes were looked at.
        6 => right + random.pick(&[1 << 8, 1 << 16, 1 << 32]),
        7 => random.pick(&[1 << 32, 1 << 62, 1 << 63]),
        8 => 4 * random.between(most / 4 + 1, most),
        _ => random.next() as usize,
    }
}

pub fn board_of_wrong_lengths(random: &mut Random, size: Size) -> Board {
    let pixels = size.width * size.height;
    let entries = pixels / 16;
    let (lent_pixels, lent_entries) = match random.below(4) {
        0 => (entries, pixels),
        1 => (wrong_length(random, pixels, entries), entries),
        2 => (pixels, wrong_length(random, entries, pixels)),
        _ => (
            wrong_length(random, pixels, entries),
            wrong_length(random, entries, pixels),
        ),
    };
    lent_board(random, size, lent_pixels, lent_entries)
}

pub fn wrong_length(random: &mut Random, right: usize, other: usize) -> usize {
    match random.below(6) {
        0 => 0,
        1 => right - 1,
        2 => right + 1,
        3 => other,
        4 => right / 2,
        _ => right + random.between(1, 64),
    }
}

pub fn any_chunk(random: &mut Random, size: Size) -> Vec<u8> {
    let blocks = size.width * size.height / 16;
    match random.below(32) {
        0 => {
            let length = random.below(4);
            random.bytes(length)
        }
        1..=5 => noise(random),
        6..=9 => valid_then_wrong(random, blocks),
        10..=15 => damaged(random, blocks),
        16..=18 => followed(random, blocks),
        19..=21 => sparse_chunk(random, size),
        _ => valid(random, blocks).chunk,
    }
}

pub fn state_length(chunk: &mut [u8]) {
    let length = chunk.len() as u32;
    chunk[1..4].copy_from_slice(&length.to_be_bytes()[1..]);
}

/// Mends the stated length of most damaged chunks, or else the damage would never be reached.
fn state_length_mostly(random: &mut Random, chunk: &mut [u8]) {
    if chunk.len() < 4 {
        return;
    }
    state_length(chunk);
    if !random.one_in(12) {
        return;
    }
    match random.below(4) {
        0 => chunk[3] ^= 1 << random.below(8),
        1 => chunk[1..4].reverse(),
        2 => chunk[3] = chunk[3].wrapping_sub(4),
        _ => chunk[1..4].copy_from_slice(&random.next().to_le_bytes()[..3]),
    }
}

fn noise(random: &mut Random) -> Vec<u8> {
    let most = random.pick(&[1, 3, 8, 30, 200]);
    let length = 4 + random.between(0, most);
    let mut chunk = random.bytes(length);
    state_length(&mut chunk);
    chunk
}

/// Valid up to some block, then an opcode that is likely wrong there, then noise.
fn valid_then_wrong(random: &mut Random, blocks: usize) -> Vec<u8> {
    let turn = match random.below(6) {
        0 => 0,
        1 => 1,
        2 => blocks - 1,
        _ => random.below(blocks),
    };
    let mut builder = Builder::new(random, blocks);
    builder.extend_to(turn);
    let mut chunk = builder.chunk;
    let upper = random.pick(&[0x0, 0x1, 0x2, 0x3, 0x4, 0x5, 0x7, 0x9, 0xB, 0xD, 0xE, 0xF]);
    let low = match random.below(4) {
        0 | 1 => 0xF,
        // One block, which fits at the last one too.
        2 => 0,
        _ => random.byte() & 15,
    };
    chunk.push(upper << 4 | low);
    if random.one_in(3) {
        chunk.push(0xFF);
    }
    let most = random.pick(&[0, 2, 8, 40, 300]);
    let rest = random.between(0, most);
    chunk.extend(random.bytes(rest));
    state_length_mostly(random, &mut chunk);
    chunk
}

/// Valid, and after that up to five bytes: zeros, zeros but for one bit, or any. Now and then the
/// chunk states its length without them.
fn followed(random: &mut Random, blocks: usize) -> Vec<u8> {
    let mut chunk = valid(random, blocks).chunk;
    let mut more = vec![0; random.between(1, 5)];
    match random.below(4) {
        0 | 1 => {}
        2 => flip_bit(random, &mut more),
        _ => more = random.bytes(more.len()),
    }
    chunk.extend(more);
    if !random.one_in(8) {
        state_length(&mut chunk);
    }
    chunk
}

fn damaged(random: &mut Random, blocks: usize) -> Vec<u8> {
    let Built { mut chunk, opcodes } = valid(random, blocks);
    let opcode = random.pick(&opcodes);
    match random.below(8) {
        0 => chunk.truncate(random.below(chunk.len())),
        1 => chunk.truncate(opcode + random.below(3)),
        2 => {
            let more = random.between(1, 20);
            chunk.extend(random.bytes(more));
        }
        3 => flip_bits(random, &mut chunk[4..]),
        // The opcode itself or the byte after it.
        4 => {
            let end = chunk.len().min(opcode + 2);
            flip_bits(random, &mut chunk[opcode..end]);
        }
        // The last opcode's run, or count byte, made the longest there is.
        5 => {
            let last = opcodes[opcodes.len() - 1];
            chunk[last] |= 15;
            if let Some(after) = chunk.get_mut(last + 1) {
                *after = 0xFF;
            }
        }
        // An entry number likely not filled, where the opcode has one.
        6 => {
            if let Some(after) = chunk.get_mut(opcode + 1) {
                *after = 0xFF;
            }
        }
        _ if random.one_in(2) => {
            chunk.remove(random.between(4, chunk.len() - 1));
        }
        _ => chunk.insert(random.between(4, chunk.len()), random.byte()),
    }
    state_length_mostly(random, &mut chunk);
    chunk
}

pub fn flip_bits(random: &mut Random, bytes: &mut [u8]) {
    for _ in 0..random.between(1, 3) {
        flip_bit(random, bytes);
    }
}

fn flip_bit(random: &mut Random, bytes: &mut [u8]) {
    bytes[random.below(bytes.len())] ^= 1 << random.below(8);
}

struct Built {
    chunk: Vec<u8>,
    /// Where the opcodes stand.
    opcodes: Vec<usize>,
}

pub fn valid_chunk(random: &mut Random, size: Size) -> Vec<u8> {
    valid(random, size.width * size.height / 16).chunk
}

/// Valid, and paints few blocks or only keeps and copies: several of these leave settled blocks
/// beside unsettled ones, so that a copy can unsettle.
pub fn sparse_chunk(random: &mut Random, size: Size) -> Vec<u8> {
    let weights = random.pick(&[FEW_PAINTED, MOVES]);
    let mut builder = Builder::new(random, size.width * size.height / 16);
    builder.weights = weights;
    builder.finish().chunk
}

fn valid(random: &mut Random, blocks: usize) -> Built {
    Builder::new(random, blocks).finish()
}

/// How often each opcode is taken where it is possible, 0 to E.
type Weights = [usize; 15];

const EVEN: Weights = [1; 15];
const SKIPS_AND_COPIES: Weights = [4, 2, 5, 2, 5, 2, 2, 1, 1, 0, 1, 0, 1, 0, 2];
const LONG_RUNS: Weights = [0, 4, 0, 4, 0, 4, 1, 4, 0, 0, 0, 0, 0, 0, 1];
const ALL_TABLES: Weights = [1, 0, 1, 0, 1, 0, 1, 0, 30, 8, 30, 8, 30, 8, 1];
const PAIRS: Weights = [1, 0, 1, 0, 1, 0, 1, 0, 60, 20, 1, 1, 1, 1, 1];
const QUADS: Weights = [1, 0, 1, 0, 1, 0, 1, 0, 1, 1, 60, 20, 1, 1, 1];
const OCTETS: Weights = [1, 0, 1, 0, 1, 0, 1, 0, 1, 1, 1, 1, 60, 20, 1];
const FEW_PAINTED: Weights = [6, 0, 0, 0, 0, 0, 3, 0, 1, 0, 0, 0, 0, 0, 1];
const MOVES: Weights = [6, 1, 4, 1, 3, 1, 0, 0, 0, 0, 0, 0, 0, 0, 0];
const PLAIN: Weights = [0, 0, 0, 0, 0, 0, 0, 0, 0, 0, 0, 0, 0, 0, 1];

fn any_weights(random: &mut Random, blocks: usize) -> Weights {
    let tables = [ALL_TABLES, PAIRS, QUADS, OCTETS];
    // Only here can a table be filled and stored into again.
    if blocks > 256 && random.one_in(3) {
        return random.pick(&tables);
    }
    match random.below(16) {
        0..=3 => EVEN,
        4..=6 => SKIPS_AND_COPIES,
        7 | 8 => LONG_RUNS,
        9..=11 => random.pick(&tables),
        12 => PLAIN,
        _ => std::array::from_fn(|_| random.below(3)),
    }
}

struct Builder<'a> {
    random: &'a mut Random,
    weights: Weights,
    chunk: Vec<u8>,
    opcodes: Vec<usize>,
    /// The next block and the number of them all.
    turn: usize,
    blocks: usize,
    /// How many entries were stored in the pair, quad and octet table.
    stored: [usize; 3],
}

impl<'a> Builder<'a> {
    fn new(random: &'a mut Random, blocks: usize) -> Self {
        let weights = any_weights(random, blocks);
        let first = if random.one_in(3) {
            0xE1
        } else {
            random.byte()
        };
        let chunk = vec![first, 0, 0, 0];
        Builder {
            random,
            weights,
            chunk,
            opcodes: Vec::new(),
            turn: 0,
            blocks,
            stored: [0; 3],
        }
    }

    /// All blocks that are left, now and then padding (02), and the length stated.
    fn finish(mut self) -> Built {
        self.extend_to(self.blocks);
        if self.random.one_in(4) {
            let padding = self.random.between(1, 3);
            self.chunk.extend(vec![0; padding]);
        }
        state_length(&mut self.chunk);
        Built {
            chunk: self.chunk,
            opcodes: self.opcodes,
        }
    }

    fn extend_to(&mut self, turn: usize) {
        while self.turn < turn {
            self.opcodes.push(self.chunk.len());
            match self.possible_opcode() {
                upper @ 0x0..=0x7 => self.push_run(upper),
                upper @ 0x8..=0xD => self.push_drawing(upper),
                _ => {
                    let n = self.push_opcode(0xE);
                    self.push_random(16 * n);
                }
            }
        }
    }

    fn possible_opcode(&mut self) -> u8 {
        let left = self.blocks - self.turn;
        let possible = |upper: usize| match upper {
            0x2 | 0x3 => self.turn >= 1,
            0x4 | 0x5 => self.turn >= 2 && left >= 2,
            0x9 | 0xB | 0xD => self.stored[(upper - 9) / 2] > 0,
            _ => true,
        };
        let weights = std::array::from_fn(|upper| {
            if possible(upper) {
                self.weights[upper]
            } else {
                0
            }
        });
        // The weights may name nothing that is possible here; skipping always is.
        self.random.weighted::<15>(&weights).unwrap_or(0) as u8
    }

    /// A run's length where at most `most` fit: often the least or the greatest.
    fn run_length(&mut self, most: usize) -> usize {
        match self.random.below(8) {
            0..=2 => 1,
            3 => most,
            4 | 5 => self.random.between(1, most.min(4)),
            _ => self.random.between(1, most),
        }
    }

    fn push_run(&mut self, upper: u8) {
        let blocks_each = if upper == 0x4 || upper == 0x5 { 2 } else { 1 };
        let counts = if upper.is_multiple_of(2) { 16 } else { 256 };
        let most = ((self.blocks - self.turn) / blocks_each).min(counts);
        let n = self.run_length(most);
        let counted = (n - 1) as u8;
        if upper.is_multiple_of(2) {
            self.chunk.push(upper << 4 | counted);
        } else {
            let ignored = self.random.byte() & 15;
            self.chunk.extend([upper << 4 | ignored, counted]);
        }
        if upper >= 0x6 {
            self.push_random(1);
        }
        self.turn += n * blocks_each;
    }

    /// Opcodes 8 to D: colours or an entry number, then the flags.
    fn push_drawing(&mut self, upper: u8) {
        let table = usize::from(upper - 8) / 2;
        let n = self.push_opcode(upper);
        if upper.is_multiple_of(2) {
            self.push_random([2, 4, 8][table]);
            self.stored[table] += 1;
        } else {
            let entry = self.random.below(self.stored[table].min(256));
            self.chunk.push(entry as u8);
        }
        self.push_random([2, 4, 6][table] * n);
    }

    /// Opcodes 8 to E: mostly one block each, so that tables fill before the blocks end.
    fn push_opcode(&mut self, upper: u8) -> usize {
        let most = (self.blocks - self.turn).min(16);
        let n = if self.random.one_in(4) {
            self.run_length(most)
        } else {
            1
        };
        self.chunk.push(upper << 4 | (n - 1) as u8);
        self.turn += n;
        n
    }

    fn push_random(&mut self, length: usize) {
        let bytes = self.random.bytes(length);
        self.chunk.extend(bytes);
    }
}
