//! The independent second reader of SMC chunks, written from papers 01 (the rules), 02 (which block,
//! padding, the kept count) and 003 (the published description) and from nothing of ours.
//!
//! A chunk is first parsed whole into commands, with every table entry already replaced by its
//! colours. Only a chunk without fault is then applied, to a picture held as blocks; so a refused
//! chunk cannot paint. The blocks go back only where the record's count can follow: it is kept by
//! comparing the map before with the one after, entry by entry.

/// 01, "Picture, blocks, map": this map entry means settled.
const SETTLED: u16 = 65_535;

/// Where a call stopped: 01's place, and 02's block, which is how many have had their turn there.
#[derive(Clone, Copy, Debug, PartialEq, Eq)]
pub struct At {
    pub place: usize,
    pub block: usize,
}

impl At {
    /// Of what has no place either.
    pub const NOWHERE: At = At::no_block(0);

    /// 02: block 0 for all that no opcode has a say in.
    pub const fn no_block(place: usize) -> Self {
        At { place, block: 0 }
    }

    /// Of what was accepted: its length (01), padding included, and the number of blocks (02).
    pub fn end(length: usize, map: &[u16]) -> Self {
        At {
            place: length,
            block: map.len(),
        }
    }
}

/// 01, "Numbered outcomes", 1 to 11 and 14, and 02's 21; those found in the opcodes carry where, 14
/// the length of the chunk for which there is no room, and 21 the count that there cannot be, with what
/// would have led to it.
#[derive(Clone, Copy, Debug)]
pub enum Refusal {
    SizeNotAllowed,
    LentLength,
    UnderFourBytes,
    StatedLength,
    NoMoreOpcodes(At),
    CutInside(At),
    UnknownOpcode(At),
    NoBlockBefore(At),
    PastLastBlock(At),
    UnfilledEntry(At),
    BytesFollow(At),
    OutputTooShort(usize),
    NoSuchCount(i128, Turned),
}

impl Refusal {
    pub fn number_and_at(self) -> (u8, At) {
        match self {
            Refusal::SizeNotAllowed => (1, At::NOWHERE),
            Refusal::LentLength => (2, At::NOWHERE),
            Refusal::UnderFourBytes => (3, At::NOWHERE),
            Refusal::StatedLength => (4, At::NOWHERE),
            Refusal::NoMoreOpcodes(at) => (5, at),
            Refusal::CutInside(at) => (6, at),
            Refusal::UnknownOpcode(at) => (7, at),
            Refusal::NoBlockBefore(at) => (8, at),
            Refusal::PastLastBlock(at) => (9, at),
            Refusal::UnfilledEntry(at) => (10, at),
            Refusal::BytesFollow(at) => (11, at),
            Refusal::OutputTooShort(_) => (14, At::NOWHERE),
            Refusal::NoSuchCount(..) => (21, At::NOWHERE),
        }
    }
}

/// What a call tells that was accepted there, or refused.
pub fn number_and_at<T>(outcome: &Result<T, Refusal>, accepted: At) -> (u8, At) {
    match outcome {
        Ok(_) => (0, accepted),
        Err(refusal) => refusal.number_and_at(),
    }
}

/// What one opcode asks for (01, "A chunk").
pub enum Command {
    Keep(usize),
    CopyOneBefore(usize),
    /// Holds blocks: twice the pairs that the opcode counts.
    CopyTwoBefore(usize),
    Fill(usize, u8),
    Pairs([u8; 2], Vec<[u8; 2]>),
    Quads([u8; 4], Vec<[u8; 4]>),
    Octets([u8; 8], Vec<[u8; 6]>),
    Plain(Vec<[u8; 16]>),
}

impl Command {
    pub fn blocks(&self) -> usize {
        match self {
            Command::Keep(n) | Command::CopyOneBefore(n) | Command::CopyTwoBefore(n) => *n,
            Command::Fill(n, _) => *n,
            Command::Pairs(_, flags) => flags.len(),
            Command::Quads(_, flags) => flags.len(),
            Command::Octets(_, flags) => flags.len(),
            Command::Plain(blocks) => blocks.len(),
        }
    }
}

/// A command with the place of its opcode and the first block whose turn it takes.
pub struct Step {
    pub place: usize,
    pub first: usize,
    pub command: Command,
}

/// An accepted chunk.
#[derive(Default)]
pub struct Reading {
    pub steps: Vec<Step>,
    /// How many bytes follow the last block (02).
    pub padding: usize,
    pub turned: Turned,
}

/// How many blocks a chunk has made the other: newly unsettled and newly settled (02).
#[derive(Clone, Copy, Debug, Default)]
pub struct Turned {
    pub unsettled: usize,
    pub settled: usize,
}

impl Turned {
    fn between(before: &[u16], after: &[Block]) -> Self {
        let mut turned = Turned::default();
        for (before, after) in before.iter().zip(after) {
            match (*before == SETTLED, after.entry == SETTLED) {
                (true, false) => turned.unsettled += 1,
                (false, true) => turned.settled += 1,
                _ => {}
            }
        }
        turned
    }
}

/// 02: a board's record. Its count may be untrue to the map.
#[derive(Clone, Copy, Debug, PartialEq, Eq)]
pub struct Record {
    pub size: (usize, usize),
    pub unsettled: usize,
}

impl Record {
    /// 02: adds the blocks newly unsettled and takes away those newly settled, unless that falls below
    /// 0 or above the number of blocks. In 128 bits nothing that is lent overflows.
    fn follow(&mut self, turned: Turned, blocks: usize) -> Result<(), Refusal> {
        let [lent, unsettled, settled] =
            [self.unsettled, turned.unsettled, turned.settled].map(|count| count as i128);
        let count = lent + unsettled - settled;
        if !(0..=blocks as i128).contains(&count) {
            return Err(Refusal::NoSuchCount(count, turned));
        }
        self.unsettled = count as usize;
        Ok(())
    }
}

/// 01: 1 and 2 are all that a fresh map refuses; 02: its record counts all blocks.
pub fn fresh_map(size: (usize, usize), map: &mut [u16]) -> Result<Record, Refusal> {
    check_map(size.0, size.1, map)?;
    for (block, entry) in map.iter_mut().enumerate() {
        *entry = block as u16;
    }
    Ok(Record {
        size,
        unsettled: map.len(),
    })
}

/// 01: how many entries are not 65,535.
pub fn count(width: usize, height: usize, map: &[u16]) -> Result<usize, Refusal> {
    check_map(width, height, map)?;
    Ok(map.iter().filter(|entry| **entry != SETTLED).count())
}

/// Reads a chunk over the lent picture and map, with their record; gives what an accepted one has in
/// it. 02: 21 is the last of all checks.
pub fn read_chunk(
    record: &mut Record,
    chunk: &[u8],
    picture: &mut [u8],
    map: &mut [u16],
) -> Result<Reading, Refusal> {
    check_lent(record.size, picture, map)?;
    let mut reading = parse(chunk, map.len())?;
    let (width, _) = record.size;
    let mut blocks = cut_into_blocks(width, picture, map);
    for step in &reading.steps {
        apply(&mut blocks, step);
    }
    reading.turned = Turned::between(map, &blocks);
    record.follow(reading.turned, map.len())?;
    put_blocks_back(&blocks, width, picture, map);
    Ok(reading)
}

/// 01's order: 1, then 2 for either buffer.
pub fn check_lent(
    (width, height): (usize, usize),
    picture: &[u8],
    map: &[u16],
) -> Result<(), Refusal> {
    check_picture(width, height, picture)?;
    check_map(width, height, map)
}

pub fn check_picture(width: usize, height: usize, picture: &[u8]) -> Result<(), Refusal> {
    check_size(width, height)?;
    if picture.len() == width * height {
        Ok(())
    } else {
        Err(Refusal::LentLength)
    }
}

pub fn check_size(width: usize, height: usize) -> Result<(), Refusal> {
    let allowed =
        |extent: usize, most: usize| (4..=most).contains(&extent) && extent.is_multiple_of(4);
    if allowed(width, 320) && allowed(height, 200) {
        Ok(())
    } else {
        Err(Refusal::SizeNotAllowed)
    }
}

fn check_map(width: usize, height: usize, map: &[u16]) -> Result<(), Refusal> {
    check_size(width, height)?;
    if map.len() == (width / 4) * (height / 4) {
        Ok(())
    } else {
        Err(Refusal::LentLength)
    }
}

/// One of the three colour tables. All that was stored is kept in order: as the entry after 255 is
/// entry 0 again, entry e is the last one stored whose position leaves e when divided by 256.
struct Table<const COLOURS: usize>(Vec<[u8; COLOURS]>);

impl<const COLOURS: usize> Table<COLOURS> {
    fn entry(&self, number: u8) -> Option<[u8; COLOURS]> {
        self.0
            .iter()
            .skip(usize::from(number))
            .step_by(256)
            .next_back()
            .copied()
    }
}

struct Parser<'a> {
    chunk: &'a [u8],
    /// The next byte to take.
    next: usize,
    /// Blocks that have had their turn, and all blocks of the picture.
    done: usize,
    blocks: usize,
    /// Where the opcode in hand stands, before it gives any block its turn.
    opcode: At,
    pairs: Table<2>,
    quads: Table<4>,
    octets: Table<8>,
}

fn parse(chunk: &[u8], blocks: usize) -> Result<Reading, Refusal> {
    let [_, high, middle, low, ..] = *chunk else {
        return Err(Refusal::UnderFourBytes);
    };
    let stated = usize::from(high) * 65_536 + usize::from(middle) * 256 + usize::from(low);
    if stated != chunk.len() {
        return Err(Refusal::StatedLength);
    }
    let mut parser = Parser {
        chunk,
        next: 4,
        done: 0,
        blocks,
        opcode: At::NOWHERE,
        pairs: Table(Vec::new()),
        quads: Table(Vec::new()),
        octets: Table(Vec::new()),
    };
    let mut steps = Vec::new();
    while parser.done < blocks {
        let command = parser.command()?;
        steps.push(Step {
            place: parser.opcode.place,
            first: parser.opcode.block,
            command,
        });
    }
    Ok(Reading {
        steps,
        padding: parser.padding()?,
        turned: Turned::default(),
    })
}

impl Parser<'_> {
    fn here(&self) -> At {
        At {
            place: self.next,
            block: self.done,
        }
    }

    /// 02: one to three bytes after the last block are accepted if all are zero.
    fn padding(&self) -> Result<usize, Refusal> {
        let rest = &self.chunk[self.next..];
        match rest {
            [] | [0] | [0, 0] | [0, 0, 0] => Ok(rest.len()),
            _ => Err(Refusal::BytesFollow(self.here())),
        }
    }

    /// 01's order within one opcode: 5, 7, the count byte (6), 8, 9, colour bytes or entry number
    /// (6), 10, remaining bytes (6).
    fn command(&mut self) -> Result<Command, Refusal> {
        self.opcode = self.here();
        let opcode = *self
            .chunk
            .get(self.next)
            .ok_or(Refusal::NoMoreOpcodes(self.opcode))?;
        self.next += 1;
        match opcode >> 4 {
            upper @ 0x0..=0x7 => {
                // Odd ones count in a byte of their own; their lower half-byte says nothing.
                let counted = if upper.is_multiple_of(2) {
                    opcode & 15
                } else {
                    self.take::<1>()?[0]
                };
                self.run(upper, 1 + usize::from(counted))
            }
            0xF => Err(Refusal::UnknownOpcode(self.opcode)),
            upper => self.drawing(upper, 1 + usize::from(opcode & 15)),
        }
    }

    fn run(&mut self, upper: u8, n: usize) -> Result<Command, Refusal> {
        match upper {
            0x0 | 0x1 => {
                self.turns(n)?;
                Ok(Command::Keep(n))
            }
            0x2 | 0x3 => {
                self.needs_before(1)?;
                self.turns(n)?;
                Ok(Command::CopyOneBefore(n))
            }
            0x4 | 0x5 => {
                self.needs_before(2)?;
                self.turns(2 * n)?;
                Ok(Command::CopyTwoBefore(2 * n))
            }
            _ => {
                self.turns(n)?;
                let [colour] = self.take()?;
                Ok(Command::Fill(n, colour))
            }
        }
    }

    fn drawing(&mut self, upper: u8, n: usize) -> Result<Command, Refusal> {
        self.turns(n)?;
        match upper {
            0x8 | 0xA | 0xC => self.storing(upper, n),
            0x9 | 0xB | 0xD => self.naming(upper, n),
            _ => Ok(Command::Plain(self.take_each(n)?)),
        }
    }

    fn storing(&mut self, upper: u8, n: usize) -> Result<Command, Refusal> {
        match upper {
            0x8 => {
                let colours = self.take()?;
                self.pairs.0.push(colours);
                Ok(Command::Pairs(colours, self.take_each(n)?))
            }
            0xA => {
                let colours = self.take()?;
                self.quads.0.push(colours);
                Ok(Command::Quads(colours, self.take_each(n)?))
            }
            _ => {
                let colours = self.take()?;
                self.octets.0.push(colours);
                Ok(Command::Octets(colours, self.take_each(n)?))
            }
        }
    }

    fn naming(&mut self, upper: u8, n: usize) -> Result<Command, Refusal> {
        let [entry] = self.take()?;
        let unfilled = Refusal::UnfilledEntry(self.opcode);
        match upper {
            0x9 => {
                let colours = self.pairs.entry(entry).ok_or(unfilled)?;
                Ok(Command::Pairs(colours, self.take_each(n)?))
            }
            0xB => {
                let colours = self.quads.entry(entry).ok_or(unfilled)?;
                Ok(Command::Quads(colours, self.take_each(n)?))
            }
            _ => {
                let colours = self.octets.entry(entry).ok_or(unfilled)?;
                Ok(Command::Octets(colours, self.take_each(n)?))
            }
        }
    }

    fn needs_before(&self, blocks: usize) -> Result<(), Refusal> {
        if self.done < blocks {
            return Err(Refusal::NoBlockBefore(self.opcode));
        }
        Ok(())
    }

    fn turns(&mut self, blocks: usize) -> Result<(), Refusal> {
        if blocks > self.blocks - self.done {
            return Err(Refusal::PastLastBlock(self.opcode));
        }
        self.done += blocks;
        Ok(())
    }

    fn take<const BYTES: usize>(&mut self) -> Result<[u8; BYTES], Refusal> {
        let taken = self.chunk[self.next..]
            .first_chunk()
            .ok_or(Refusal::CutInside(self.opcode))?;
        self.next += BYTES;
        Ok(*taken)
    }

    fn take_each<const BYTES: usize>(&mut self, n: usize) -> Result<Vec<[u8; BYTES]>, Refusal> {
        (0..n).map(|_| self.take()).collect()
    }
}

#[derive(Clone, Copy)]
struct Block {
    pixels: [u8; 16],
    /// The map's entry, which travels with the pixels.
    entry: u16,
}

/// 01: blocks are numbered left to right, then down; 003: pixels within one row by row.
pub fn pixel_blocks(width: usize, picture: &[u8]) -> Vec<[u8; 16]> {
    let mut blocks = vec![[0; 16]; picture.len() / 16];
    let lines = picture
        .chunks_exact(4 * width)
        .zip(blocks.chunks_exact_mut(width / 4));
    for (pixels, line) in lines {
        for (y, row) in pixels.chunks_exact(width).enumerate() {
            for (block, four) in line.iter_mut().zip(row.chunks_exact(4)) {
                block[4 * y..4 * y + 4].copy_from_slice(four);
            }
        }
    }
    blocks
}

fn cut_into_blocks(width: usize, picture: &[u8], map: &[u16]) -> Vec<Block> {
    let blocks = pixel_blocks(width, picture).into_iter().zip(map);
    blocks
        .map(|(pixels, &entry)| Block { pixels, entry })
        .collect()
}

fn put_blocks_back(blocks: &[Block], width: usize, picture: &mut [u8], map: &mut [u16]) {
    for (entry, block) in map.iter_mut().zip(blocks) {
        *entry = block.entry;
    }
    let lines = picture
        .chunks_exact_mut(4 * width)
        .zip(blocks.chunks_exact(width / 4));
    for (pixels, line) in lines {
        for (y, row) in pixels.chunks_exact_mut(width).enumerate() {
            for (block, four) in line.iter().zip(row.chunks_exact_mut(4)) {
                four.copy_from_slice(&block.pixels[4 * y..4 * y + 4]);
            }
        }
    }
}

/// 01: copies work block by block in order, on the picture as made so far; 6 to E settle.
fn apply(blocks: &mut [Block], step: &Step) {
    let turns = step.first..step.first + step.command.blocks();
    match &step.command {
        Command::Keep(_) => {}
        Command::CopyOneBefore(_) => turns.for_each(|block| blocks[block] = blocks[block - 1]),
        Command::CopyTwoBefore(_) => turns.for_each(|block| blocks[block] = blocks[block - 2]),
        Command::Fill(_, colour) => {
            blocks[turns].fill(Block {
                pixels: [*colour; 16],
                entry: SETTLED,
            });
        }
        Command::Pairs(colours, flags) => {
            settle(
                &mut blocks[turns],
                flags.iter().map(|two| pair_pixels(colours, *two)),
            );
        }
        Command::Quads(colours, flags) => {
            settle(
                &mut blocks[turns],
                flags.iter().map(|four| quad_pixels(colours, *four)),
            );
        }
        Command::Octets(colours, flags) => {
            settle(
                &mut blocks[turns],
                flags.iter().map(|six| octet_pixels(colours, *six)),
            );
        }
        Command::Plain(plain) => settle(&mut blocks[turns], plain.iter().copied()),
    }
}

fn settle(blocks: &mut [Block], drawn: impl Iterator<Item = [u8; 16]>) {
    for (block, pixels) in blocks.iter_mut().zip(drawn) {
        *block = Block {
            pixels,
            entry: SETTLED,
        };
    }
}

/// 003: a7 is the upper left pixel, b3 the lower left.
fn pair_pixels(colours: &[u8; 2], flags: [u8; 2]) -> [u8; 16] {
    let bits = u16::from_be_bytes(flags);
    std::array::from_fn(|pixel| colours[usize::from(bits >> (15 - pixel) & 1)])
}

/// 003: one flag byte a row, the upper two bits leftmost.
fn quad_pixels(colours: &[u8; 4], flags: [u8; 4]) -> [u8; 16] {
    std::array::from_fn(|pixel| {
        let row = flags[pixel / 4];
        colours[usize::from(row >> (6 - 2 * (pixel % 4)) & 3)]
    })
}

/// 003: bits 23 to 21 of the first number are the first pixel, of the second the ninth.
fn octet_pixels(colours: &[u8; 8], flags: [u8; 6]) -> [u8; 16] {
    let numbers = octet_numbers(flags);
    std::array::from_fn(|pixel| {
        let number = numbers[pixel / 8];
        colours[(number >> (21 - 3 * (pixel % 8)) & 7) as usize]
    })
}

/// 01: n0 n1 n2 n4 n5 n6 and n8 n9 nA n3 n7 nB, each as a 24-bit number.
pub fn octet_numbers(flags: [u8; 6]) -> [u32; 2] {
    let half = |n: usize| {
        let byte = u32::from(flags[n / 2]);
        if n.is_multiple_of(2) {
            byte >> 4
        } else {
            byte & 15
        }
    };
    let joined = |order: [usize; 6]| order.iter().fold(0, |number, &n| number << 4 | half(n));
    [
        joined([0x0, 0x1, 0x2, 0x4, 0x5, 0x6]),
        joined([0x8, 0x9, 0xA, 0x3, 0x7, 0xB]),
    ]
}
