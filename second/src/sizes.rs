//! Makes inputs of about the longest size: books filled up to a size, and other bytes.

use crate::damage;
use crate::edit;
use crate::make;
use crate::object::{LONGEST_INPUT, LONGEST_NAME, MOST_NEEDED};
use crate::rng::Rng;
use crate::text;

const OBJECT_LINE: &[u8] = b"object 0\n";
const SHORTEST_LINE: usize = b"needed x\n".len();
const LONGEST_LINE: usize = b"needed \n".len() + LONGEST_NAME;

/// A book or other bytes, of the longest size, just under, just over or far over.
pub fn sized(rng: &mut Rng) -> Vec<u8> {
    let size = match rng.below(10) {
        0 => LONGEST_INPUT - 1,
        1..=4 => LONGEST_INPUT,
        5 | 6 => LONGEST_INPUT + 1,
        7 => LONGEST_INPUT + rng.between(2, 300),
        _ => rng.between(70_000, 300_000),
    };
    match rng.below(10) {
        0 => garbage(rng, size),
        1 => unfinished(rng, size),
        2 | 3 => {
            // A bad line counts for nothing where the whole is too long.
            let small = make::small(rng);
            let book = edit::edited(rng, &text::write(&small));
            filled(rng, book, size)
        }
        _ => {
            let small = make::small(rng);
            filled(rng, text::write(&small), size)
        }
    }
}

/// Adds objects that nothing needs until the book has exactly this size.
pub fn filled(rng: &mut Rng, mut book: Vec<u8>, size: usize) -> Vec<u8> {
    while size - book.len() >= OBJECT_LINE.len() + SHORTEST_LINE {
        book.extend_from_slice(OBJECT_LINE);
        let mut lines = 0;
        while size > book.len() && lines < MOST_NEEDED {
            let left = size - book.len();
            // What is left must again be nothing, or room for a line and an object.
            let length = if left <= LONGEST_LINE {
                left
            } else {
                LONGEST_LINE.min(left - OBJECT_LINE.len() - SHORTEST_LINE)
            };
            needed_line(rng, &mut book, length);
            lines += 1;
        }
    }
    book
}

/// A line for a needed name, of exactly this length.
fn needed_line(rng: &mut Rng, book: &mut Vec<u8>, length: usize) {
    book.extend_from_slice(b"needed ");
    let letter = rng.between(0x21, 0x7E) as u8;
    book.resize(book.len() + length - b"needed \n".len(), letter);
    book.push(b'\n');
}

/// A filled book whose last line feed is missing or is another byte.
fn unfinished(rng: &mut Rng, size: usize) -> Vec<u8> {
    let small = make::small(rng);
    let mut book = filled(rng, text::write(&small), size);
    book.pop();
    if rng.chance(50) {
        book.push(*rng.pick(b"x \0\r"));
    }
    book
}

/// No book at all, or one that turns into something else.
fn garbage(rng: &mut Rng, size: usize) -> Vec<u8> {
    let mut text = if rng.chance(50) { b"book 1\n".to_vec() } else { Vec::new() };
    if rng.chance(50) {
        text.extend_from_slice(OBJECT_LINE);
    }
    match rng.below(4) {
        0 => text.resize(size, b'\n'),
        1 => text.resize(size, 0),
        2 => {
            while text.len() < size {
                text.extend(damage::bytes(rng, 5_000))
            }
        }
        _ => {
            while text.len() < size {
                text.extend(damage::printable_line(rng))
            }
        }
    }
    text.truncate(size);
    text
}
