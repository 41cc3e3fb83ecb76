//! What is printed: the machine, and a table for each kind of work.

use std::fs;

use crate::beside;
use crate::contest::{Contest, Measured, Spread, FFMPEG};

const COLUMNS: usize = 9;
/// Columns of numbers, which stand to the right.
const NUMBERS: std::ops::Range<usize> = 2..7;

/// The lines that say what the numbers were measured on.
pub fn print_machine() {
    let processors = fs::read_to_string("/proc/cpuinfo").unwrap_or_default();
    let model = processors
        .lines()
        .find(|line| line.starts_with("model name"))
        .and_then(|line| line.split(": ").nth(1));
    let kernel = fs::read_to_string("/proc/sys/kernel/osrelease").unwrap_or_default();
    let ffmpeg = beside::version().unwrap_or("no FFmpeg: libavcodec was not there".into());
    println!("- processor: {}", model.unwrap_or("not known"));
    println!("- kernel: Linux {}", kernel.trim());
    println!("- compiler of the Rust packages: {}", env!("BENCH_RUSTC"));
    println!("- beside: {ffmpeg}");
}

/// A Markdown table whose columns stand under each other as plain text too.
pub struct Table {
    rows: Vec<[String; COLUMNS]>,
    /// What is said below it.
    notes: Vec<String>,
}

impl Table {
    /// `bytes` says which bytes a second are meant.
    pub fn new(bytes: &str) -> Self {
        let head = [
            "work",
            "who",
            "same pictures",
            "bytes a chunk",
            "µs a chunk",
            "chunks a second",
            &format!("MB of {bytes} a second"),
            "times as long as ours (lowest to highest round)",
            "aim",
        ];
        Table {
            rows: vec![head.map(String::from)],
            notes: Vec::new(),
        }
    }

    pub fn add(&mut self, contest: &Contest, measured: &[Measured]) {
        let chunks = contest.chunks as f64;
        for (place, measured) in measured.iter().enumerate() {
            let of_ours = place == 0;
            let seconds = measured.seconds;
            self.rows.push([
                shown_if(of_ours, contest.title.clone()),
                measured.name.to_string(),
                format!("{} of {}", measured.compared.same, contest.pieces),
                in_thousands(measured.compared.bytes as f64 / chunks),
                format!("{:.2}", 1e6 * seconds / chunks),
                in_thousands(chunks / seconds),
                in_thousands(1e-6 * contest.bytes as f64 / seconds),
                shown_if(!of_ours, ratio(&measured.against_ours)),
                verdict(contest, measured),
            ]);
            if contest.pieces == 1 {
                let milliseconds = 1e3 * seconds;
                let [name, all] = [measured.name, &in_thousands(chunks)];
                let note = format!("All {all} chunks together, {name}: {milliseconds:.2} ms");
                self.notes.push(note);
            }
        }
    }

    /// Nothing where no row was added.
    pub fn print(&self, heading: &str) {
        if self.rows.len() < 2 {
            return;
        }
        println!("\n{heading}:\n");
        let widest = |column: usize| {
            self.rows
                .iter()
                .map(|row| row[column].chars().count())
                .max()
        };
        let widths: [_; COLUMNS] = std::array::from_fn(|column| widest(column).unwrap_or(0));
        for (line, row) in self.rows.iter().enumerate() {
            print_row(|column| padded(&row[column], column, widths[column]));
            if line == 0 {
                print_row(|column| rule(column, widths[column]));
            }
        }
        for note in &self.notes {
            println!("\n{note}");
        }
    }
}

fn padded(cell: &str, column: usize, width: usize) -> String {
    if NUMBERS.contains(&column) {
        format!(" {cell:>width$} ")
    } else {
        format!(" {cell:<width$} ")
    }
}

/// What Markdown wants below the heads.
fn rule(column: usize, width: usize) -> String {
    let end = if NUMBERS.contains(&column) { ":" } else { "-" };
    "-".repeat(width + 1) + end
}

fn print_row(cell: impl Fn(usize) -> String) {
    let cells: Vec<_> = (0..COLUMNS).map(cell).collect();
    println!("|{}|", cells.join("|"));
}

fn shown_if(shown: bool, text: String) -> String {
    if shown {
        text
    } else {
        String::new()
    }
}

fn ratio(spread: &Spread) -> String {
    let Spread {
        median,
        lowest,
        highest,
    } = spread;
    format!("{median:.2} ({lowest:.2} to {highest:.2})")
}

/// The aims are times FFmpeg's speed.
fn verdict(contest: &Contest, measured: &Measured) -> String {
    match contest.aim {
        Some(aim) if measured.name == FFMPEG => {
            let reached = measured.against_ours.median >= aim;
            format!("{aim:.1}: {}", if reached { "reached" } else { "short" })
        }
        _ => String::new(),
    }
}

fn in_thousands(number: f64) -> String {
    let digits = format!("{number:.0}");
    let mut grouped = String::new();
    for (place, digit) in digits.chars().enumerate() {
        if place > 0 && (digits.len() - place).is_multiple_of(3) {
            grouped.push(',');
        }
        grouped.push(digit);
    }
    grouped
}
