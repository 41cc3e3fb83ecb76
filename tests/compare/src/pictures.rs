//! The pairs of pictures that are written, with the outputs lent for them, right and wrong. It
//! knows from paper 01 which blocks the writer tells apart. The second writer, which alone says
//! what is right, is asked for nothing but the chunk's length, against which outputs are measured.

use seatboard::Size;
use second::writer;

use crate::generate::{self, Board};
use crate::random::Random;

/// The board has the size, the old picture, and the map that what was written is read back over.
pub struct WriteCase {
    pub board: Board,
    pub new: Vec<u8>,
    pub output: Vec<u8>,
}

/// Writes are numbered apart from all other cases.
const WRITES: u64 = 1 << 61;

/// 01: the chunk's length is at most this.
pub fn greatest_length(blocks: usize) -> usize {
    4 + 17 * blocks
}

pub fn case(seed: u64, number: u64) -> WriteCase {
    let random = &mut Random::for_case(seed ^ WRITES, number);
    let size = any_size(random);
    match random.below(16) {
        0 => of_wrong_size(random, size),
        1 => of_wrong_lengths(random, size),
        _ => {
            let weights = any_weights(random);
            let pictures = Pictures::new(random, size, weights);
            let output = any_length(random, &pictures);
            pictures.lent(random, output)
        }
    }
}

/// Pictures too large to be made often, of each kind: the longest chunk there is, whose length
/// needs its highest byte, and the longest runs. The output is exact, or a byte shorter or longer.
pub fn long_cases(seed: u64) -> Vec<WriteCase> {
    let random = &mut Random::for_case(seed ^ WRITES, u64::MAX);
    let mut cases = Vec::new();
    for weights in [NOISE, UNCHANGED, ONE_COLOUR, MIXED] {
        let pictures = Pictures::new(random, generate::FULL, weights);
        let chunk = pictures.chunk_length();
        let outputs = [chunk - 1, chunk, chunk + 1];
        cases.extend(outputs.map(|output| pictures.lent(random, output)));
    }
    cases
}

/// Often small, and else mostly with room for runs of more than 256 or 512 blocks.
fn any_size(random: &mut Random) -> Size {
    let (across, down) = match random.below(8) {
        0 | 1 => (random.between(1, 4), random.between(1, 4)),
        2 | 3 => (random.between(1, 12), random.between(1, 12)),
        4 => (random.between(16, 24), random.between(17, 22)),
        5 | 6 => (random.between(26, 32), random.between(24, 26)),
        _ => return generate::allowed_size(random),
    };
    Size {
        width: 4 * across,
        height: 4 * down,
    }
}

/// A size that is not allowed, often with pictures as if it were.
fn of_wrong_size(random: &mut Random, right: Size) -> WriteCase {
    let board = generate::board_of_wrong_size(random, right);
    let mut new = board.picture.len();
    if random.one_in(3) {
        let pixels = right.width * right.height;
        new = generate::wrong_length(random, pixels, pixels / 16);
    }
    refused(random, board, new)
}

fn of_wrong_lengths(random: &mut Random, size: Size) -> WriteCase {
    let right = size.width * size.height;
    let blocks = right / 16;
    let wrong = generate::wrong_length(random, right, blocks);
    let other = random.between(1, right);
    let (old, new) = match random.below(6) {
        0 => (wrong, right),
        1 => (right, wrong),
        2 => (wrong, wrong),
        // Together as long as two right ones.
        3 => (right - other, right + other),
        4 => (right + other, right - other),
        _ => (wrong, generate::wrong_length(random, right, blocks)),
    };
    let board = generate::lent_board(random, size, old, blocks);
    refused(random, board, new)
}

/// What is refused with 1 or 2 gets an output too short for any chunk or enough for every one.
fn refused(random: &mut Random, board: Board, new: usize) -> WriteCase {
    let length = random.pick(&[0, 3, 4, 5, 40, 80_000]);
    WriteCase {
        board,
        new: random.bytes(new),
        output: random.bytes(length),
    }
}

/// Two pictures of exactly the size.
struct Pictures {
    size: Size,
    old: Vec<u8>,
    new: Vec<u8>,
}

impl Pictures {
    fn new(random: &mut Random, size: Size, weights: Weights) -> Self {
        let Pairs { old, new, .. } = Pairs::fill(random, weights, size.width * size.height / 16);
        Pictures {
            size,
            old: laid_out(size.width, &old),
            new: laid_out(size.width, &new),
        }
    }

    fn blocks(&self) -> usize {
        self.new.len() / 16
    }

    fn chunk_length(&self) -> usize {
        let Size { width, height } = self.size;
        let chunk = writer::chunk((width, height), &self.old, &self.new);
        chunk.expect("the pictures fit").bytes.len()
    }

    fn lent(&self, random: &mut Random, output: usize) -> WriteCase {
        WriteCase {
            board: Board::with_true_record(
                self.size,
                self.old.clone(),
                generate::any_map(random, self.blocks()),
            ),
            new: self.new.clone(),
            output: random.bytes(output),
        }
    }
}

/// An output's length, against the chunk's and against the greatest that 01 allows it.
fn any_length(random: &mut Random, pictures: &Pictures) -> usize {
    let chunk = pictures.chunk_length();
    let greatest = greatest_length(pictures.blocks());
    match random.below(24) {
        0..=5 => chunk,
        6..=8 => chunk - 1,
        9..=12 => chunk + random.between(1, 16),
        13 | 14 => chunk + random.between(100, 2_000),
        15 | 16 => greatest,
        17 => greatest - 1,
        18 => greatest + 1,
        19 | 20 => random.between(chunk, greatest),
        21 => random.below(chunk),
        22 => 0,
        _ => random.pick(&[3, 4]),
    }
}

/// Blocks are numbered left to right, then down.
fn laid_out(width: usize, blocks: &[Block]) -> Vec<u8> {
    let mut picture = vec![0; 16 * blocks.len()];
    let across = width / 4;
    for (number, block) in blocks.iter().enumerate() {
        let corner = number / across * 4 * width + number % across * 4;
        for (y, row) in block.chunks_exact(4).enumerate() {
            let left = corner + y * width;
            picture[left..left + 4].copy_from_slice(row);
        }
    }
    picture
}

/// How often each kind of piece is taken, in the order of `Pairs::push_piece`.
type Weights = [usize; 6];

const MIXED: Weights = [4, 4, 2, 4, 1, 2];
const RUNS: Weights = [4, 4, 2, 1, 0, 0];
const CHANGED: Weights = [0, 3, 0, 4, 1, 0];
const DRAWN: Weights = [1, 0, 0, 12, 1, 0];
const PATTERNS: Weights = [0, 0, 0, 0, 0, 1];
const UNCHANGED: Weights = [1, 0, 0, 0, 0, 0];
const ONE_COLOUR: Weights = [0, 1, 0, 0, 0, 0];
const NOISE: Weights = [0, 0, 0, 0, 1, 0];

fn any_weights(random: &mut Random) -> Weights {
    match random.below(24) {
        0..=8 => MIXED,
        9..=14 => RUNS,
        15 | 16 => CHANGED,
        17 | 18 => DRAWN,
        19 | 20 => PATTERNS,
        21 => UNCHANGED,
        22 => ONE_COLOUR,
        _ => NOISE,
    }
}

type Block = [u8; 16];

/// The blocks of both pictures, filled piece by piece.
struct Pairs<'a> {
    random: &'a mut Random,
    old: Vec<Block>,
    new: Vec<Block>,
    /// How many there are to be.
    blocks: usize,
    /// The colour of the last run, which the next one mostly has not.
    colour: u8,
}

impl<'a> Pairs<'a> {
    fn fill(random: &'a mut Random, weights: Weights, blocks: usize) -> Self {
        let colour = random.byte();
        let mut pairs = Pairs {
            random,
            old: Vec::with_capacity(blocks),
            new: Vec::with_capacity(blocks),
            blocks,
            colour,
        };
        while pairs.left() > 0 {
            let piece = pairs.any_piece(weights);
            pairs.push_piece(piece);
        }
        pairs
    }

    /// After an unchanged block an unchanged run would be longer than it was meant to be.
    fn any_piece(&mut self, weights: Weights) -> usize {
        let mut others = weights;
        if !self.new.is_empty() && self.old.last() == self.new.last() {
            others[0] = 0;
        }
        self.random.weighted(&others).unwrap_or(0)
    }

    fn left(&self) -> usize {
        self.blocks - self.new.len()
    }

    fn push_piece(&mut self, piece: usize) {
        match piece {
            0 => self.push_unchanged_run(),
            1 => self.push_run_of_one_colour(),
            2 => self.push_run_with_unchanged_inside(),
            3 => self.push_drawn(),
            4 => self.push_noise(),
            _ => self.push_patterns(),
        }
    }

    fn push_unchanged_run(&mut self) {
        let n = self.run_length();
        if self.random.one_in(3) {
            let block = self.any_block();
            self.push_unchanged(n, block);
        } else {
            for _ in 0..n.min(self.left()) {
                let block = noise(self.random);
                self.push_unchanged(1, block);
            }
        }
    }

    fn push_run_of_one_colour(&mut self) {
        let n = self.run_length();
        self.colour = self.other_colour();
        self.push_changed(n, [self.colour; 16]);
    }

    /// 01's run ends at an unchanged block, even where that has the run's colour.
    fn push_run_with_unchanged_inside(&mut self) {
        let [before, after] = [self.run_length(), self.run_length()];
        let inside = self.random.pick(&[1, 1, 1, 2, 17]);
        self.colour = self.other_colour();
        let block = [self.colour; 16];
        self.push_changed(before, block);
        self.push_unchanged(inside, block);
        self.push_changed(after, block);
    }

    /// A few blocks of so many colours; the same block twice still goes by itself each time.
    fn push_drawn(&mut self) {
        let times = self.random.pick(&[1, 1, 1, 2, 3]);
        let colours = self.random.between(1, 16);
        for _ in 0..self.random.between(1, 4) {
            let block = drawn(self.random, colours);
            self.push_changed(times, block);
        }
    }

    fn push_noise(&mut self) {
        for _ in 0..self.random.between(1, 40) {
            let block = noise(self.random);
            self.push_changed(1, block);
        }
    }

    /// Both pictures of the same few blocks, so that all that they can do follows one another.
    fn push_patterns(&mut self) {
        let mut patterns = vec![[self.colour; 16], [self.other_colour(); 16]];
        if self.random.one_in(2) {
            patterns.push(self.any_block());
        }
        for _ in 0..self.random.between(1, 60) {
            let [old, new] = [self.random.pick(&patterns), self.random.pick(&patterns)];
            self.push(1, old, new);
        }
    }

    /// Lengths about those where the opcode changes, and where a run is cut into two or three.
    fn run_length(&mut self) -> usize {
        if self.left() > 600 && self.random.one_in(2) {
            return self.random.pick(&[511, 512, 513]);
        }
        match self.random.below(4) {
            0 => self.random.between(1, 3),
            1 => self.random.between(1, 40),
            2 => self.random.pick(&[1, 15, 16, 17, 18]),
            _ => self.random.pick(&[255, 256, 257, 258]),
        }
    }

    fn other_colour(&mut self) -> u8 {
        let colour = any_colour(self.random);
        if colour == self.colour {
            colour.wrapping_add(1)
        } else {
            colour
        }
    }

    fn any_block(&mut self) -> Block {
        match self.random.below(4) {
            0 => [self.colour; 16],
            1 => [any_colour(self.random); 16],
            _ => {
                let colours = self.random.between(1, 16);
                drawn(self.random, colours)
            }
        }
    }

    fn push_unchanged(&mut self, n: usize, block: Block) {
        self.push(n, block, block);
    }

    fn push_changed(&mut self, n: usize, block: Block) {
        for _ in 0..n.min(self.left()) {
            let old = another(self.random, block);
            self.push(1, old, block);
        }
    }

    /// As many as there is room for.
    fn push(&mut self, n: usize, old: Block, new: Block) {
        let end = self.new.len() + n.min(self.left());
        self.old.resize(end, old);
        self.new.resize(end, new);
    }
}

/// Often an extreme.
fn any_colour(random: &mut Random) -> u8 {
    match random.below(4) {
        0 => 0,
        1 => 255,
        _ => random.byte(),
    }
}

fn noise(random: &mut Random) -> Block {
    let [first, second] = [random.next(), random.next()];
    let both = u128::from(first) << 64 | u128::from(second);
    both.to_le_bytes()
}

/// A block of exactly so many colours.
fn drawn(random: &mut Random, colours: usize) -> Block {
    let first = any_colour(random);
    // An odd step does not come round before 256; one of 255 goes from 0 to 255.
    let odd = random.byte() | 1;
    let step = random.pick(&[1, 255, odd]);
    let colour = |which: usize| first.wrapping_add(step.wrapping_mul(which as u8));
    let mut block = std::array::from_fn(|pixel| {
        if pixel < colours {
            colour(pixel)
        } else {
            colour(random.below(colours))
        }
    });
    for pixel in 1..16 {
        block.swap(pixel, random.between(0, pixel));
    }
    block
}

/// A block that is not the given one: often in one pixel alone.
fn another(random: &mut Random, block: Block) -> Block {
    let mut other = match random.below(4) {
        0 => [any_colour(random); 16],
        1 => noise(random),
        _ => block,
    };
    if other == block {
        other[random.below(16)] ^= 1 << random.below(8);
    }
    other
}
