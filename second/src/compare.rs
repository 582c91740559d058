//! Compares a program with our answers on many random inputs.

use crate::child;
use crate::kinds::{self, Kind};
use crate::report::answer;
use crate::tally::Tally;
use std::path::Path;
use std::sync::atomic::{AtomicBool, AtomicU64, Ordering};
use std::sync::{Arc, Mutex};
use std::thread;

/// Where the first input with a difference is written.
const FAILURE_FILE: &str = "second-failure.book";
const THREADS: usize = 2;
/// How much of an output is shown.
const SHOWN_BYTES: usize = 600;

/// An input on which the program does not do what it must.
struct Difference {
    index: u64,
    kind: Kind,
    input: Arc<Vec<u8>>,
    ours: String,
    /// What the program printed, or how it failed.
    theirs: Result<Vec<u8>, String>,
}

/// What the threads share.
struct Run<'a> {
    program: &'a Path,
    books: u64,
    seed: u64,
    next: AtomicU64,
    stopped: AtomicBool,
    tally: Mutex<Tally>,
    differences: Mutex<Vec<Difference>>,
}

/// Compares on so many inputs and prints the outcome; an error says what was wrong.
pub fn compare(program: &str, books: u64, seed: u64) -> Result<(), String> {
    println!("seed {seed}");
    if books == 0 {
        return Err("no books to compare".to_string());
    }
    let path = std::fs::canonicalize(program).map_err(|error| format!("{program}: {error}"))?;
    let run = Run {
        program: &path,
        books,
        seed,
        next: AtomicU64::new(0),
        stopped: AtomicBool::new(false),
        tally: Mutex::default(),
        differences: Mutex::default(),
    };
    thread::scope(|scope| {
        for _ in 0..THREADS {
            scope.spawn(|| run.work());
        }
    });
    let differences = run.differences.into_inner().expect("no thread panicked");
    // Indices are handed out in order, so the lowest is the same in every run.
    if let Some(first) = differences.iter().min_by_key(|difference| difference.index) {
        return Err(show(first, program, seed));
    }
    let tally = run.tally.into_inner().expect("no thread panicked");
    tally.print();
    let missing = tally.missing();
    if !missing.is_empty() {
        return Err(format!("this run shows too little:\n{}", missing.join("\n")));
    }
    println!("{books} books agree");
    Ok(())
}

impl Run<'_> {
    /// Takes one input after the other until there are no more or one fails.
    fn work(&self) {
        while !self.stopped.load(Ordering::SeqCst) {
            let index = self.next.fetch_add(1, Ordering::SeqCst);
            if index >= self.books {
                return;
            }
            if let Some(difference) = self.one(index) {
                self.stopped.store(true, Ordering::SeqCst);
                self.differences.lock().expect("no thread panicked").push(difference);
            }
        }
    }

    fn one(&self, index: u64) -> Option<Difference> {
        let (kind, input) = kinds::make(self.seed, index);
        let ours = answer(&input);
        let input = Arc::new(input);
        // Some bytes more than ours are enough to show that it prints too much.
        let theirs = child::run(self.program, &input, ours.len() + SHOWN_BYTES);
        if theirs.as_deref() != Ok(ours.as_bytes()) {
            return Some(Difference { index, kind, input, ours, theirs });
        }
        self.tally.lock().expect("no thread panicked").add(kind, &ours);
        None
    }
}

/// Keeps the input and tells what was printed on both sides.
fn show(difference: &Difference, program: &str, seed: u64) -> String {
    let kept = match std::fs::write(FAILURE_FILE, difference.input.as_slice()) {
        Ok(()) => format!("the input is in {FAILURE_FILE}"),
        Err(error) => format!("the input could not be written to {FAILURE_FILE}: {error}"),
    };
    let (how, theirs) = match &difference.theirs {
        Ok(printed) => (different_line(&difference.ours, printed), shortened(printed)),
        Err(failure) => (format!("{program} {failure}"), String::new()),
    };
    let index = difference.index;
    [
        format!("difference at index {index}: {how}"),
        format!("kind: {}, {} bytes; {kept}", difference.kind.name(), difference.input.len()),
        format!("--- second link\n{}", shortened(difference.ours.as_bytes())),
        format!("--- {program}\n{theirs}"),
        "to see it again:".to_string(),
        format!("  second link < {FAILURE_FILE}"),
        format!("  {program} < {FAILURE_FILE}"),
        format!("  second compare {program} --seed {seed} --books {}", index + 1),
    ]
    .join("\n")
}

fn shortened(output: &[u8]) -> String {
    let shown = String::from_utf8_lossy(&output[..output.len().min(SHOWN_BYTES)]);
    let rest = output.len().saturating_sub(SHOWN_BYTES);
    if rest == 0 {
        shown.into_owned()
    } else {
        format!("{shown}\n... and {rest} bytes more")
    }
}

/// The first line in which the outputs differ, counted from 0.
fn different_line(ours: &str, theirs: &[u8]) -> String {
    let ours: Vec<&[u8]> = ours.as_bytes().split(|&byte| byte == b'\n').collect();
    let theirs: Vec<&[u8]> = theirs.split(|&byte| byte == b'\n').collect();
    let longer = ours.len().max(theirs.len());
    let place = (0..longer).find(|&place| ours.get(place) != theirs.get(place)).unwrap_or(longer);
    let at = |lines: &[&[u8]]| match lines.get(place) {
        Some(line) => format!("'{}'", String::from_utf8_lossy(line)),
        None => "nothing".to_string(),
    };
    format!("line {place} is {} and not {}", at(&theirs), at(&ours))
}
