//! The independent second writer of SMC chunks, written from papers 01, "The writer's chunk", and
//! 003 (the published description) and from nothing of ours. It takes from the second reader how
//! a picture is cut into blocks and what is refused with 1 and 2.
//!
//! Each block first makes a command of its own, which joins the command before it where the two
//! are one run; the commands are then put into bytes. Only a chunk that is there whole goes into
//! the output; so a refusal cannot touch it.

use std::collections::BTreeSet;

use crate::reader::{check_picture, pixel_blocks, At, Refusal};

const LONGEST_RUN: usize = 256;
/// A longer run counts in a byte of its own.
const LONGEST_IN_OPCODE: usize = 16;

type Block = [u8; 16];

/// What one opcode of the chunk asks for.
pub enum Command {
    Skip(usize),
    Fill(usize, u8),
    /// One block, and its colours: two or more.
    Draw(Block, BTreeSet<u8>),
}

impl Command {
    pub fn blocks(&self) -> usize {
        match self {
            Command::Skip(n) | Command::Fill(n, _) => *n,
            Command::Draw(..) => 1,
        }
    }
}

pub struct Chunk {
    pub commands: Vec<Command>,
    pub bytes: Vec<u8>,
}

impl Chunk {
    /// 01: the length written; 02: all blocks have had their turn.
    pub fn end(&self) -> At {
        At {
            place: self.bytes.len(),
            block: self.commands.iter().map(Command::blocks).sum(),
        }
    }
}

/// Writes the chunk to the output's first bytes. 01's order: 1, 2 for either picture, then 14.
pub fn write_chunk(
    size: (usize, usize),
    old: &[u8],
    new: &[u8],
    output: &mut [u8],
) -> Result<Chunk, Refusal> {
    let chunk = chunk(size, old, new)?;
    let length = chunk.bytes.len();
    let room = output.get_mut(..length);
    room.ok_or(Refusal::OutputTooShort(length))?
        .copy_from_slice(&chunk.bytes);
    Ok(chunk)
}

/// The chunk that makes the new picture of the old one, wherever it is to go.
pub fn chunk((width, height): (usize, usize), old: &[u8], new: &[u8]) -> Result<Chunk, Refusal> {
    check_picture(width, height, old)?;
    check_picture(width, height, new)?;
    let commands = commands(&pixel_blocks(width, old), &pixel_blocks(width, new));
    let bytes = serialised(&commands);
    Ok(Chunk { commands, bytes })
}

fn commands(old: &[Block], new: &[Block]) -> Vec<Command> {
    let mut commands = Vec::new();
    for (old, new) in old.iter().zip(new) {
        let command = if old == new {
            Command::Skip(1)
        } else {
            painting(new)
        };
        add(&mut commands, command);
    }
    commands
}

fn painting(block: &Block) -> Command {
    let colours = BTreeSet::from(*block);
    if colours.len() == 1 {
        Command::Fill(1, block[0])
    } else {
        Command::Draw(*block, colours)
    }
}

/// 01: the longest run, at most 256. A skipped block stands between two runs of its own colour.
fn add(commands: &mut Vec<Command>, next: Command) {
    match (commands.last_mut(), &next) {
        (Some(Command::Skip(n)), Command::Skip(_)) if *n < LONGEST_RUN => *n += 1,
        (Some(Command::Fill(n, colour)), Command::Fill(_, same))
            if *n < LONGEST_RUN && colour == same =>
        {
            *n += 1;
        }
        _ => commands.push(next),
    }
}

/// 01: byte 0 is E1; bytes 1 to 3, highest first, are the whole length.
fn serialised(commands: &[Command]) -> Vec<u8> {
    let mut bytes = vec![0xE1, 0, 0, 0];
    for command in commands {
        match command {
            Command::Skip(n) => push_run(&mut bytes, 0x0, *n),
            Command::Fill(n, colour) => {
                push_run(&mut bytes, 0x6, *n);
                bytes.push(*colour);
            }
            Command::Draw(block, colours) => push_drawing(&mut bytes, block, colours),
        }
    }
    let length = bytes.len();
    bytes[1] = (length / 65_536) as u8;
    bytes[2] = (length / 256 % 256) as u8;
    bytes[3] = (length % 256) as u8;
    bytes
}

/// 01: runs of 1 to 16 use opcodes 0 or 6, longer ones 1 or 7 with low 0.
fn push_run(bytes: &mut Vec<u8>, upper: u8, n: usize) {
    let counted = (n - 1) as u8;
    if n <= LONGEST_IN_OPCODE {
        bytes.push(upper << 4 | counted);
    } else {
        bytes.extend([(upper + 1) << 4, counted]);
    }
}

/// 01: a block of 2, 3 to 4, 5 to 8 or more colours goes by itself under 8, A, C or E.
fn push_drawing(bytes: &mut Vec<u8>, block: &Block, colours: &BTreeSet<u8>) {
    let (upper, bits) = match colours.len() {
        ..=2 => (0x8, 1),
        3..=4 => (0xA, 2),
        5..=8 => (0xC, 3),
        _ => {
            bytes.push(0xE0);
            bytes.extend(block);
            return;
        }
    };
    bytes.push(upper << 4);
    let greatest = colours.last().into_iter().cycle();
    bytes.extend(colours.iter().chain(greatest).take(1 << bits));
    // The entry of a colour is how many smaller ones there are: those that repeat stand behind.
    let entry = |pixel: &u8| colours.range(..*pixel).count() as u64;
    let flags = block
        .iter()
        .fold(0, |flags, pixel| flags << bits | entry(pixel));
    match bits {
        1 => bytes.extend((flags as u16).to_be_bytes()),
        2 => bytes.extend((flags as u32).to_be_bytes()),
        _ => bytes.extend(octet_bytes(flags)),
    }
}

/// Where 01 has the twelve half-bytes of an octet's flags, pixels 0 to 7 first.
const HALF_BYTES: [usize; 12] = [0x0, 0x1, 0x2, 0x4, 0x5, 0x6, 0x8, 0x9, 0xA, 0x3, 0x7, 0xB];

fn octet_bytes(flags: u64) -> [u8; 6] {
    let mut bytes = [0; 6];
    for (half_byte, place) in HALF_BYTES.into_iter().enumerate() {
        let value = (flags >> (44 - 4 * half_byte)) as u8 & 15;
        bytes[place / 2] |= if place.is_multiple_of(2) {
            value << 4
        } else {
            value
        };
    }
    bytes
}
