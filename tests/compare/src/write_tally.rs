//! What the compared writes had in them, so that a run which missed something says so.

use seatboard::Size;
use second::reader::{pixel_blocks, Refusal};
use second::writer::{Chunk, Command};

use crate::compare::WriteComparison;
use crate::pictures::{greatest_length, WriteCase};
use crate::tally::{named, Counts, Numbers, Thing, Things};

/// Blocks of the runs that are counted: about those where the opcode changes, and where the run is
/// cut into two or three.
const RUNS: [usize; 8] = [1, 16, 17, 255, 256, 257, 512, 513];

#[derive(Default)]
pub struct WriteTally {
    numbers: Numbers,
    orders: Things<9>,
    outputs: Things<13>,
    /// In written chunks, as in `RUNS`.
    unchanged_runs: [usize; 8],
    one_colour_runs: [usize; 8],
    /// Blocks drawn in written chunks, by their colours, from two on; and those of them that have
    /// the colours 0 and 255.
    drawn: [usize; 15],
    drawn_with_extremes: [usize; 15],
    pictures: Things<5>,
    long: Things<3>,
}

impl WriteTally {
    pub fn add(&mut self, case: &WriteCase, compared: &WriteComparison) {
        let number = compared.answer.number;
        self.numbers.add(number);
        self.orders.add(orders(case, number));
        self.outputs.add(outputs(case, compared));
        if let Ok(chunk) = &compared.written {
            self.add_runs(&chunk.commands);
            self.add_colours(&chunk.commands);
            self.pictures.add(pictures(case));
            self.long.add(long(chunk));
        }
    }

    /// A run that was cut stands as commands one after the other, which are counted together.
    fn add_runs(&mut self, commands: &[Command]) {
        let one_run = |command: &Command, next: &Command| match (command, next) {
            (Command::Skip(_), Command::Skip(_)) => true,
            (Command::Fill(_, colour), Command::Fill(_, next)) => colour == next,
            _ => false,
        };
        for run in commands.chunk_by(one_run) {
            let runs = match run {
                [Command::Skip(_), ..] => &mut self.unchanged_runs,
                [Command::Fill(..), ..] => &mut self.one_colour_runs,
                _ => continue,
            };
            let blocks = run.iter().map(Command::blocks).sum::<usize>();
            if let Some(which) = RUNS.iter().position(|run| *run == blocks) {
                runs[which] += 1;
            }
        }
    }

    fn add_colours(&mut self, commands: &[Command]) {
        for command in commands {
            if let Command::Draw(_, colours) = command {
                let which = colours.len() - 2;
                let extremes = colours.contains(&0) && colours.contains(&255);
                self.drawn[which] += 1;
                self.drawn_with_extremes[which] += usize::from(extremes);
            }
        }
    }

    pub fn number_counts(&self) -> Counts {
        self.numbers.counts("writes that got", [0, 1, 2, 14])
    }

    pub fn order_counts(&self) -> Counts {
        self.orders.counts()
    }

    pub fn output_counts(&self) -> Counts {
        self.outputs.counts()
    }

    pub fn run_counts(&self) -> Counts {
        let unchanged = named(self.unchanged_runs, |which: usize| {
            format!("unchanged runs of length {}", RUNS[which])
        });
        let one_colour = named(self.one_colour_runs, |which: usize| {
            format!("changed runs of one colour of length {}", RUNS[which])
        });
        [unchanged, one_colour].concat()
    }

    pub fn colour_counts(&self) -> Counts {
        let drawn = named(self.drawn, |which: usize| {
            format!("changed blocks of {} colours", which + 2)
        });
        let with_extremes = named(self.drawn_with_extremes, |which: usize| {
            format!("of {} colours, with 0 and 255 among them", which + 2)
        });
        [drawn, with_extremes].concat()
    }

    pub fn picture_counts(&self) -> Counts {
        self.pictures.counts()
    }

    pub fn long_counts(&self) -> Counts {
        self.long.counts()
    }
}

/// One number where another could be given too.
fn orders(case: &WriteCase, number: u8) -> [Thing; 9] {
    let Size { width, height } = case.board.size;
    let pixels = width.checked_mul(height);
    let lengths = [case.board.picture.len(), case.new.len()];
    let fits = lengths.map(|length| Some(length) == pixels);
    let [old, new] = lengths;
    let two = pixels.and_then(|pixels| pixels.checked_mul(2));
    let no_output = case.output.is_empty();
    [
        (
            "1 although both pictures would fit",
            number == 1 && fits == [true, true],
        ),
        (
            "1 although a picture would not fit",
            number == 1 && fits != [true, true],
        ),
        ("1 although the output is empty", number == 1 && no_output),
        (
            "2 by the old picture alone",
            number == 2 && fits == [false, true],
        ),
        (
            "2 by the new picture alone",
            number == 2 && fits == [true, false],
        ),
        (
            "2 by both pictures, of the same length",
            number == 2 && old == new,
        ),
        (
            "2 by both pictures, together as long as two right ones",
            number == 2 && Some(old + new) == two,
        ),
        ("2 by an empty picture", number == 2 && lengths.contains(&0)),
        ("2 although the output is empty", number == 2 && no_output),
    ]
}

/// The output's length against that of the chunk, and against the greatest that 01 allows it.
fn outputs(case: &WriteCase, compared: &WriteComparison) -> [Thing; 13] {
    let output = case.output.len();
    let most = greatest_length(case.board.map.len());
    let (written, refused) = match &compared.written {
        Ok(chunk) => (Some(chunk.bytes.len()), None),
        Err(Refusal::OutputTooShort(length)) => (None, Some(*length)),
        Err(_) => (None, None),
    };
    let longer = written.map(|length| output - length);
    let shorter = refused.map(|length| length - output);
    [
        (
            "0, the output exact, the chunk shorter than 4 + 17 x blocks",
            longer == Some(0) && output < most,
        ),
        ("0, the output longer by one", longer == Some(1)),
        (
            "0, the output longer by a few",
            matches!(longer, Some(2..=16)),
        ),
        (
            "0, the output longer by a hundred or more",
            longer >= Some(100),
        ),
        (
            "0, the output longer, yet shorter than 4 + 17 x blocks",
            longer > Some(0) && output < most,
        ),
        (
            "0, the output longer, and of 4 + 17 x blocks",
            longer > Some(0) && output == most,
        ),
        (
            "0, the output of one less than that",
            longer.is_some() && output + 1 == most,
        ),
        (
            "0, the output of one more than that",
            longer.is_some() && output == most + 1,
        ),
        (
            "0, chunk and output of 4 + 17 x blocks",
            written == Some(most) && output == most,
        ),
        (
            "14 by one byte, the chunk shorter than 4 + 17 x blocks",
            shorter == Some(1) && refused < Some(most),
        ),
        (
            "14 by one byte, the chunk of 4 + 17 x blocks",
            shorter == Some(1) && refused == Some(most),
        ),
        ("14, the output empty", shorter.is_some() && output == 0),
        (
            "14, the output of 3 bytes",
            shorter.is_some() && output == 3,
        ),
    ]
}

/// A block of the old picture and the same of the new one.
struct Pair {
    old: [u8; 16],
    new: [u8; 16],
}

impl Pair {
    fn changed(&self) -> bool {
        self.old != self.new
    }

    fn changed_pixels(&self) -> usize {
        let pixels = self.old.iter().zip(&self.new);
        pixels.filter(|(old, new)| old != new).count()
    }

    fn of_one_colour(&self) -> bool {
        self.new == [self.new[0]; 16]
    }
}

fn pictures(case: &WriteCase) -> [Thing; 5] {
    let [old, new] = [&case.board.picture, &case.new]
        .map(|picture| pixel_blocks(case.board.size.width, picture).into_iter());
    let pairs: Vec<Pair> = old.zip(new).map(|(old, new)| Pair { old, new }).collect();
    [
        ("equal pictures", !pairs.iter().any(Pair::changed)),
        (
            "pictures changed throughout",
            pairs.iter().all(Pair::changed),
        ),
        (
            "a block changed in one pixel alone",
            pairs.iter().any(|pair| pair.changed_pixels() == 1),
        ),
        (
            "a drawn block twice in turn",
            pairs.windows(2).any(drawn_twice),
        ),
        (
            "an unchanged block of the run's colour inside a run",
            pairs.windows(3).any(unchanged_inside),
        ),
    ]
}

fn drawn_twice(two: &[Pair]) -> bool {
    two.iter().all(Pair::changed) && two[0].new == two[1].new && !two[0].of_one_colour()
}

fn unchanged_inside(three: &[Pair]) -> bool {
    let alike = three.iter().all(|pair| pair.new == three[0].new);
    let changed: Vec<bool> = three.iter().map(Pair::changed).collect();
    alike && three[0].of_one_colour() && changed == [true, false, true]
}

/// Of the greatest size.
fn long(chunk: &Chunk) -> [Thing; 3] {
    let only = |kind: fn(&Command) -> bool| chunk.commands.iter().all(kind);
    [
        (
            "chunks of the greatest length, 68,004 bytes",
            chunk.bytes.len() == 68_004,
        ),
        (
            "chunks that only skip",
            only(|command| matches!(command, Command::Skip(_))),
        ),
        (
            "chunks of runs of one colour alone",
            only(|command| matches!(command, Command::Fill(..))),
        ),
    ]
}
