//! A second linker: answers a book by itself, or compares another program on random books.

mod book;
mod child;
mod compare;
mod damage;
mod edit;
mod fields;
mod kinds;
mod large;
mod link;
mod make;
mod object;
mod report;
mod rng;
mod sizes;
mod symbols;
mod tally;
#[cfg(test)]
mod tests;
mod text;

use std::io::{Read, Write};
use std::process::ExitCode;

const USAGE: &str = "usage: second link < BOOK\n       \
                     second compare PROGRAM [--books N] [--seed S]";
const DEFAULT_BOOKS: u64 = 6_000;
const DEFAULT_SEED: u64 = 1;

fn main() -> ExitCode {
    let arguments: Vec<String> = std::env::args().skip(1).collect();
    let words: Vec<&str> = arguments.iter().map(String::as_str).collect();
    let done = match words[..] {
        ["link"] => link(),
        ["compare", program, ref options @ ..] => compare(program, options),
        _ => Err(USAGE.to_string()),
    };
    match done {
        Ok(()) => ExitCode::SUCCESS,
        Err(message) => {
            eprintln!("{message}");
            ExitCode::FAILURE
        }
    }
}

/// Prints the report or refusal for the book on standard input.
fn link() -> Result<(), String> {
    let mut input = Vec::new();
    // One byte past the longest input shows that it is too long.
    let most = object::LONGEST_INPUT as u64 + 1;
    std::io::stdin().take(most).read_to_end(&mut input).map_err(|error| error.to_string())?;
    let answer = report::answer(&input);
    std::io::stdout().write_all(answer.as_bytes()).map_err(|error| error.to_string())
}

fn compare(program: &str, options: &[&str]) -> Result<(), String> {
    let (mut books, mut seed) = (DEFAULT_BOOKS, DEFAULT_SEED);
    for option in options.chunks(2) {
        let (name, value) = match option {
            [name, value] => (*name, value.parse().map_err(|_| USAGE.to_string())?),
            _ => return Err(USAGE.to_string()),
        };
        match name {
            "--books" => books = value,
            "--seed" => seed = value,
            _ => return Err(USAGE.to_string()),
        }
    }
    compare::compare(program, books, seed)
}
