//! One run of several contestants over the same work, turn by turn, so that whatever slows the
//! machine down for a while slows all of them.

use std::time::{Duration, Instant};

/// Odd, so that a median is one of them.
const ROUNDS: usize = 41;
/// About how long a contestant's turn in a round is.
const TURN: Duration = Duration::from_millis(20);

pub const FFMPEG: &str = "FFmpeg";

pub trait Contestant {
    fn name(&self) -> &'static str;

    /// Does one of the pieces of work, which are done in order and over again: what is timed.
    fn work(&mut self, piece: usize);

    /// What that piece of work, done last, has made: what contestants are compared by.
    fn made(&self, piece: usize) -> Made;
}

pub struct Made {
    pub picture: Vec<u8>,
    /// The length of the chunk or feed that was read or written.
    pub bytes: usize,
}

pub struct Contest {
    pub title: String,
    /// How many pieces of work there are, how many chunks in all of them, and how many bytes of
    /// pixels or feed.
    pub pieces: usize,
    pub chunks: usize,
    pub bytes: usize,
    /// How many times as fast as FFmpeg the library is to be.
    pub aim: Option<f64>,
    /// Whether FFmpeg must make our pictures: the others must in any case.
    pub strict: bool,
    /// Ours first.
    pub contestants: Vec<Box<dyn Contestant>>,
}

/// The median, and the lowest and highest round.
pub struct Spread {
    pub median: f64,
    pub lowest: f64,
    pub highest: f64,
}

/// What a contestant has made of all pieces of work.
#[derive(Default)]
pub struct Compared {
    /// How many of the pictures are the same as ours.
    pub same: usize,
    /// Chunks or feeds, all together.
    pub bytes: usize,
}

pub struct Measured {
    pub name: &'static str,
    pub compared: Compared,
    /// For all pieces of work once: the median.
    pub seconds: f64,
    /// How many times as long as ours in the same round.
    pub against_ours: Spread,
}

impl Contest {
    /// Compares, and then measures.
    pub fn run(&mut self) -> Result<Vec<Measured>, String> {
        let compared = self.compare();
        for (who, compared) in self.contestants.iter().zip(&compared) {
            let excused = who.name() == FFMPEG && !self.strict;
            if compared.same < self.pieces && !excused {
                let [title, name] = [&self.title, who.name()];
                return Err(format!("{title}: {name} makes other pictures than ours"));
            }
        }
        let seconds = self.measure();
        let measured = self.contestants.iter().zip(compared).zip(&seconds);
        Ok(measured
            .map(|((who, compared), theirs)| Measured {
                name: who.name(),
                compared,
                seconds: spread(theirs.clone()).median,
                against_ours: spread(ratios(theirs, &seconds[0])),
            })
            .collect())
    }

    /// All pieces of work, so many times.
    pub fn pass(&mut self, who: usize, passes: u32) {
        let contestant = &mut self.contestants[who];
        for _ in 0..passes {
            (0..self.pieces).for_each(|piece| contestant.work(piece));
        }
    }

    fn compare(&mut self) -> Vec<Compared> {
        let contestants = self.contestants.iter();
        let mut compared: Vec<_> = contestants.map(|_| Compared::default()).collect();
        for piece in 0..self.pieces {
            self.contestants.iter_mut().for_each(|who| who.work(piece));
            let ours = self.contestants[0].made(piece);
            for (who, compared) in self.contestants.iter().zip(&mut compared) {
                let theirs = who.made(piece);
                compared.same += usize::from(theirs.picture == ours.picture);
                compared.bytes += theirs.bytes;
            }
        }
        compared
    }

    /// The seconds that all pieces of work took each contestant in each round.
    fn measure(&mut self) -> Vec<Vec<f64>> {
        let contestants = self.contestants.len();
        let passes: Vec<_> = (0..contestants)
            .map(|who| self.passes_in_turn(who))
            .collect();
        let mut seconds = vec![Vec::with_capacity(ROUNDS); contestants];
        for round in 0..ROUNDS {
            // Each is first, second and so on about equally often.
            for turn in 0..contestants {
                let who = (round + turn) % contestants;
                let taken = self.time(who, passes[who]).as_secs_f64();
                seconds[who].push(taken / f64::from(passes[who]));
            }
        }
        seconds
    }

    fn time(&mut self, who: usize, passes: u32) -> Duration {
        let start = Instant::now();
        self.pass(who, passes);
        start.elapsed()
    }

    /// Doubled until there is enough to go by; this also warms everything up.
    fn passes_in_turn(&mut self, who: usize) -> u32 {
        let mut passes = 1;
        let mut taken = self.time(who, passes);
        while taken < TURN / 2 {
            passes *= 2;
            taken = self.time(who, passes);
        }
        let turns = TURN.as_secs_f64() / taken.as_secs_f64();
        (f64::from(passes) * turns).ceil() as u32
    }
}

fn ratios(theirs: &[f64], ours: &[f64]) -> Vec<f64> {
    let rounds = theirs.iter().zip(ours);
    rounds.map(|(theirs, ours)| theirs / ours).collect()
}

fn spread(mut rounds: Vec<f64>) -> Spread {
    rounds.sort_by(f64::total_cmp);
    Spread {
        median: rounds[ROUNDS / 2],
        lowest: rounds[0],
        highest: rounds[ROUNDS - 1],
    }
}
