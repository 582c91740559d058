//! Counts what the inputs led to, and tells when a run has shown too little.

use crate::kinds::{Kind, KINDS};
use std::collections::BTreeSet;

/// What an input can end in: a report, or a refusal with this number.
const ENDS: [&str; 6] = ["report", "10", "15", "16", "17", "18"];

/// A run of at least so many inputs has to show everything below.
const LARGE_RUN: usize = 5_000;

/// The ends that each kind of input must show in a large run, in the order of `KINDS`.
const EXPECTED: [(Kind, &[usize]); 6] = [
    (Kind::Small, &[0, 2, 3, 4]),
    (Kind::Near, &[0, 1, 2, 3, 4, 5]),
    (Kind::Over, &[0, 1]),
    (Kind::Edited, &[0, 1, 2, 3, 4]),
    (Kind::Damaged, &[0, 1, 2]),
    (Kind::Noise, &[0, 1]),
];

#[derive(Default)]
pub struct Tally {
    /// By kind and end.
    ends: [[usize; ENDS.len()]; KINDS.len()],
    /// Reports with a `bind`, an `over`, a `none` line, and with a start order that is not
    /// the load order turned round.
    reports_with: [usize; 4],
    bad_lines: BTreeSet<usize>,
}

const SHOWN: [&str; 4] = ["bind", "over", "none", "a start order not simply reversed"];

impl Tally {
    /// Counts an input of this kind with this answer.
    pub fn add(&mut self, kind: Kind, answer: &str) {
        let kind = KINDS.iter().position(|&other| other == kind).expect("a listed kind");
        let first: Vec<&str> = answer.lines().next().unwrap_or("").split(' ').collect();
        let end = match first[..] {
            ["refused", number, _, place] => {
                if number == "10" {
                    self.bad_lines.extend(place.parse::<usize>());
                }
                ENDS.iter().position(|&other| other == number).expect("a known refusal")
            }
            _ => {
                self.add_report(answer);
                0
            }
        };
        self.ends[kind][end] += 1;
    }

    fn add_report(&mut self, answer: &str) {
        let has = |word: &str| answer.lines().any(|line| line.starts_with(word));
        let order = |word: &str| -> Vec<String> {
            answer.lines().filter_map(|line| line.strip_prefix(word)).map(String::from).collect()
        };
        let mut load = order("load ");
        load.reverse();
        let shown = [has("bind "), has("over "), has("none "), load != order("init ")];
        for (count, shown) in self.reports_with.iter_mut().zip(shown) {
            *count += usize::from(shown);
        }
    }

    /// How often the inputs of all kinds came to this end.
    fn total(&self, end: usize) -> usize {
        self.ends.iter().map(|ends| ends[end]).sum()
    }

    pub fn print(&self) {
        println!("{:<12} {:>7}{}", "kind", "inputs", row(ENDS));
        for (kind, ends) in KINDS.iter().zip(&self.ends) {
            let inputs: usize = ends.iter().sum();
            println!("{:<12} {inputs:>7}{}", kind.name(), row(*ends));
        }
        let totals: [usize; ENDS.len()] = std::array::from_fn(|end| self.total(end));
        println!("{:<12} {:>7}{}", "all", totals.iter().sum::<usize>(), row(totals));
        for (what, count) in SHOWN.iter().zip(self.reports_with) {
            println!("reports with {what}: {count}");
        }
        println!("refusal 10 at {} different lines", self.bad_lines.len());
    }

    /// What a large run should have shown and did not.
    pub fn missing(&self) -> Vec<String> {
        let mut missing = Vec::new();
        let inputs: usize = self.ends.iter().flatten().sum();
        if inputs < LARGE_RUN {
            return missing;
        }
        let mut require = |count: usize, least: usize, what: String| {
            if count < least {
                missing.push(format!("{what}: {count}, not {least}"));
            }
        };
        for (end, name) in ENDS.iter().enumerate() {
            require(self.total(end), if end == 0 { 1_000 } else { 20 }, format!("in all {name}"));
        }
        for ((kind, expected), ends) in EXPECTED.iter().zip(&self.ends) {
            for &end in *expected {
                require(ends[end], 1, format!("{} {}", kind.name(), ENDS[end]));
            }
        }
        for (what, count) in SHOWN.iter().zip(self.reports_with) {
            require(count, 100, format!("reports with {what}"));
        }
        require(self.bad_lines.len(), 50, "different bad lines".to_string());
        let bad = self.ends[0][1];
        if bad > 0 {
            missing.push(format!("small books are made lawful, but {bad} have a bad line"));
        }
        missing
    }
}

/// The cells of one row of the table.
fn row<T: std::fmt::Display>(cells: [T; ENDS.len()]) -> String {
    cells.map(|cell| format!(" {cell:>7}")).concat()
}
