//! Pictures as a seat board shows them: a hall of seats, each a block or a square of four, that
//! change from picture to picture.

use seatboard::Size;

use crate::random::Random;

pub const SIZE: Size = Size {
    width: 320,
    height: 200,
};
/// The same for the second reader and writer.
pub const WIDTH_AND_HEIGHT: (usize, usize) = (SIZE.width, SIZE.height);
const ACROSS: usize = SIZE.width / 4;

/// How many colours a seat's blocks can have, least and most: what the writer tells apart, opcodes
/// 6, 8, A, C and E. A seat takes each kind equally often, and within a kind each number.
const KINDS: [(usize, usize); 5] = [(1, 1), (2, 2), (3, 4), (5, 8), (9, 16)];

type Block = [u8; 16];

pub struct Hall {
    /// The blocks of each seat. A change deals the seats anew: those in front have changed.
    seats: Vec<Vec<usize>>,
    blocks: Vec<Block>,
}

impl Hall {
    /// A hall in which every seat shows something.
    pub fn new(random: &mut Random) -> Self {
        let mut hall = Hall {
            seats: seats(),
            blocks: vec![[0; 16]; SIZE.blocks()],
        };
        hall.change(random, SIZE.blocks());
        hall
    }

    /// Seats anywhere take another look, until so many blocks differ from what they were.
    pub fn change(&mut self, random: &mut Random, blocks: usize) {
        let mut changed = 0;
        let mut dealt = 0;
        while changed < blocks {
            let drawn = random.between(dealt, self.seats.len() - 1);
            self.seats.swap(dealt, drawn);
            let colours = any_colours(random);
            for &block in &self.seats[dealt] {
                self.blocks[block] = another_block(random, &colours, self.blocks[block]);
            }
            changed += self.seats[dealt].len();
            dealt += 1;
        }
    }

    /// The pixels row after row.
    pub fn picture(&self) -> Vec<u8> {
        let mut picture = vec![0; SIZE.pixels()];
        for (number, block) in self.blocks.iter().enumerate() {
            let corner = number / ACROSS * 4 * SIZE.width + number % ACROSS * 4;
            for (y, row) in block.chunks_exact(4).enumerate() {
                let left = corner + y * SIZE.width;
                picture[left..left + 4].copy_from_slice(row);
            }
        }
        picture
    }
}

/// Two lines of blocks with a seat in each, then two lines with squares of four, and so on.
fn seats() -> Vec<Vec<usize>> {
    let mut seats = Vec::new();
    for (strip, first) in (0..SIZE.blocks()).step_by(2 * ACROSS).enumerate() {
        if strip.is_multiple_of(2) {
            seats.extend((first..first + 2 * ACROSS).map(|block| vec![block]));
        } else {
            let corners = (first..first + ACROSS).step_by(2);
            let square = |corner| vec![corner, corner + 1, corner + ACROSS, corner + ACROSS + 1];
            seats.extend(corners.map(square));
        }
    }
    seats
}

fn any_colours(random: &mut Random) -> Vec<u8> {
    let (least, most) = random.pick(&KINDS);
    let colours = random.between(least, most);
    let first = random.byte();
    // An odd step does not come round before 256.
    let step = random.byte() | 1;
    let colour = |which: usize| first.wrapping_add(step.wrapping_mul(which as u8));
    (0..colours).map(colour).collect()
}

/// A block of exactly these colours that is not the old one.
fn another_block(random: &mut Random, colours: &[u8], old: Block) -> Block {
    let mut block = std::array::from_fn(|pixel| match colours.get(pixel) {
        Some(colour) => *colour,
        None => random.pick(colours),
    });
    for pixel in 1..16 {
        block.swap(pixel, random.between(0, pixel));
    }
    if block == old {
        // With other colours: of one colour, the same would come again.
        let others: Vec<u8> = colours.iter().map(|colour| !colour).collect();
        return another_block(random, &others, old);
    }
    block
}
