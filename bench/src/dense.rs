//! Chunks of chosen opcodes, with runs of any length and random colours, flags and entries.

use crate::hall::SIZE;
use crate::random::Random;

/// How often each opcode is taken, 0 to E.
pub type Weights = [usize; 15];

/// So that each of 2 to E paints about as many blocks as any other, those that count up to 256 being
/// taken the more seldom. Skips have a tenth of such a share.
pub const EVERY_OPCODE: Weights = [
    12, 1, 120, 8, 60, 4, 120, 8, 120, 120, 120, 120, 120, 120, 120,
];

/// Octets stored and octets named, equally often.
pub const OCTETS: Weights = [0, 0, 0, 0, 0, 0, 0, 0, 0, 0, 0, 0, 1, 1, 0];

pub fn chunk(random: &mut Random, weights: &Weights) -> Vec<u8> {
    let mut dense = Dense {
        random,
        weights,
        chunk: vec![0xE1, 0, 0, 0],
        left: SIZE.blocks(),
        stored: [0; 3],
    };
    while dense.left > 0 {
        dense.push_opcode();
    }
    let mut chunk = dense.chunk;
    let length = chunk.len() as u32;
    chunk[1..4].copy_from_slice(&length.to_be_bytes()[1..]);
    chunk
}

struct Dense<'a> {
    random: &'a mut Random,
    weights: &'a Weights,
    chunk: Vec<u8>,
    /// Blocks that have not had their turn.
    left: usize,
    /// How many entries were stored in the pair, quad and octet table.
    stored: [usize; 3],
}

impl Dense<'_> {
    fn push_opcode(&mut self) {
        let mut weights = *self.weights;
        for (upper, weight) in weights.iter_mut().enumerate() {
            *weight *= usize::from(self.can(upper));
        }
        let upper = self.random.weighted(&weights);
        let upper = upper.expect("a skip or a stored octet is always possible");
        let n = self.push_count(upper);
        match upper {
            0x0..=0x5 => {}
            0x6 | 0x7 => self.push_random(1),
            0x8..=0xD => self.push_drawing(upper, n),
            _ => self.push_random(16 * n),
        }
    }

    fn can(&self, upper: usize) -> bool {
        let done = SIZE.blocks() - self.left;
        match upper {
            0x2 | 0x3 => done >= 1,
            0x4 | 0x5 => done >= 2 && self.left >= 2,
            0x9 | 0xB | 0xD => self.stored[(upper - 9) / 2] > 0,
            _ => true,
        }
    }

    /// The opcode with its count, which is any that it can have and that there are blocks for.
    fn push_count(&mut self, upper: usize) -> usize {
        let blocks_each = if matches!(upper, 0x4 | 0x5) { 2 } else { 1 };
        let in_byte = matches!(upper, 0x1 | 0x3 | 0x5 | 0x7);
        let most = if in_byte { 256 } else { 16 };
        let n = self.random.between(1, most.min(self.left / blocks_each));
        let opcode = (upper as u8) << 4;
        if in_byte {
            self.chunk.extend([opcode, (n - 1) as u8]);
        } else {
            self.chunk.push(opcode | (n - 1) as u8);
        }
        self.left -= n * blocks_each;
        n
    }

    /// Colours or an entry number, then the flags.
    fn push_drawing(&mut self, upper: usize, n: usize) {
        let table = (upper - 8) / 2;
        if upper.is_multiple_of(2) {
            self.push_random([2, 4, 8][table]);
            self.stored[table] += 1;
        } else {
            let entry = self.random.below(self.stored[table].min(256));
            self.chunk.push(entry as u8);
        }
        self.push_random([2, 4, 6][table] * n);
    }

    fn push_random(&mut self, length: usize) {
        let bytes = self.random.bytes(length);
        self.chunk.extend(bytes);
    }
}
