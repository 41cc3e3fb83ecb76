//! What the checks print, and the count of those that passed and failed.

use crate::tally::Counts;

/// Differing cases that each comparison shows; the rest are only counted.
const SHOWN: u64 = 5;

#[derive(Default)]
pub struct Report {
    pub passed: usize,
    pub failed: usize,
}

impl Report {
    pub fn check(&mut self, name: &str, result: Result<(), String>) {
        match result {
            Ok(()) => {
                self.passed += 1;
                println!("ok {name}");
            }
            Err(why) => {
                self.failed += 1;
                println!("FAILED {name}: {why}");
            }
        }
    }

    /// Prints how often each thing occurred; fails if one occurred fewer than `enough` times.
    pub fn check_counts(&mut self, name: &str, enough: usize, counts: Counts) {
        for (what, times) in &counts {
            println!("{times:>8} {what}");
        }
        let rare: Vec<_> = counts
            .iter()
            .filter(|(_, times)| *times < enough)
            .map(|(what, _)| what.as_str())
            .collect();
        let result = if rare.is_empty() {
            Ok(())
        } else {
            Err(format!("fewer than {enough}: {}", rare.join("; ")))
        };
        self.check(&format!("{name} at least {enough} times"), result);
    }
}

/// Counts the cases that differ and shows the first few of them.
#[derive(Default)]
pub struct Differing(u64);

impl Differing {
    pub fn add(&mut self, differences: &[String], case: impl FnOnce() -> String) {
        if differences.is_empty() {
            return;
        }
        self.0 += 1;
        if self.0 <= SHOWN {
            println!("difference: {}", case());
            differences
                .iter()
                .for_each(|difference| println!("    {difference}"));
        }
    }

    pub fn result(&self, compared: u64) -> Result<(), String> {
        match self.0 {
            0 => Ok(()),
            differing => Err(format!("{differing} of {compared} differ")),
        }
    }
}

/// Compares case after case; one that differs is shown in short, with its number.
pub fn compare_each<C>(
    name: &str,
    cases: impl IntoIterator<Item = C>,
    mut differences: impl FnMut(&C) -> Vec<String>,
    in_short: impl Fn(&C) -> String,
) -> Result<(), String> {
    let mut differing = Differing::default();
    let mut compared = 0;
    for case in cases {
        let shown = || format!("{name} {compared}: {}", in_short(&case));
        differing.add(&differences(&case), shown);
        compared += 1;
    }
    differing.result(compared)
}
