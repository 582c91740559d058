//! Damages bytes of a book, and makes inputs that were never books.

use crate::rng::Rng;

/// Flips, inserts, deletes or cuts off bytes at random places.
pub fn damaged(rng: &mut Rng, book: Vec<u8>) -> Vec<u8> {
    let mut text = book;
    for _ in 0..*rng.pick(&[1, 1, 1, 2, 3]) {
        if text.is_empty() {
            break;
        }
        let place = rng.below(text.len());
        match rng.below(10) {
            0 | 1 => text[place] ^= 1 << rng.below(8),
            2 => text[place] = rng.byte(),
            3..=5 => text[place] = like(rng, text[place]),
            6 => text.insert(place, rng.byte()),
            7 => text.insert(place, *rng.pick(b"0123456789ab \n")),
            8 => drop(text.remove(place)),
            _ => text.truncate(place),
        }
    }
    text
}

/// A digit for a digit and a letter for a letter, which often leaves a lawful book.
fn like(rng: &mut Rng, byte: u8) -> u8 {
    match byte {
        b'0'..=b'9' => *rng.pick(b"0123456789"),
        b'a'..=b'z' | b'A'..=b'Z' => *rng.pick(b"abVdefnor"),
        _ => *rng.pick(b" \n.~"),
    }
}

/// Words that make a random line look like a book's.
const PIECES: [&str; 22] = [
    "object", "soname", "needed", "want", "version", "def", "ref", "0", "1", "2", "3", "4", "5",
    "7", "255", "32770", "65535", "a", "b", "V1", "V2", "book",
];

/// The shapes of the lines, where # is a random number and a a random name.
const SHAPES: [&str; 9] = [
    "object #",
    "soname a",
    "needed a",
    "want a a #",
    "version a #",
    "def # a # #",
    "def # a # # a",
    "ref # a #",
    "ref # a # a",
];

/// Random bytes, random printable lines, or lines of random words behind a lawful beginning.
pub fn noise(rng: &mut Rng) -> Vec<u8> {
    let mut text = Vec::new();
    let shape = rng.below(4);
    if shape >= 2 || rng.chance(50) {
        text.extend_from_slice(b"book 1\n");
    }
    if shape >= 2 || rng.chance(50) {
        text.extend_from_slice(b"object 0\n");
    }
    match shape {
        0 => text.extend(bytes(rng, 300)),
        1 => (0..rng.below(12)).for_each(|_| text.extend(printable_line(rng))),
        2 => (0..rng.below(12)).for_each(|_| text.extend(word_line(rng))),
        _ => (0..rng.below(9)).for_each(|_| text.extend(shaped_line(rng))),
    }
    text
}

/// Up to so many bytes of any value.
pub fn bytes(rng: &mut Rng, most: usize) -> Vec<u8> {
    (0..rng.between(0, most)).map(|_| rng.byte()).collect()
}

pub fn printable_line(rng: &mut Rng) -> Vec<u8> {
    let mut line: Vec<u8> = (0..rng.below(60)).map(|_| rng.between(0x20, 0x7E) as u8).collect();
    line.push(b'\n');
    line
}

fn word_line(rng: &mut Rng) -> Vec<u8> {
    let words: Vec<&str> = (0..rng.between(1, 5)).map(|_| *rng.pick(&PIECES)).collect();
    format!("{}\n", words.join(" ")).into_bytes()
}

fn shaped_line(rng: &mut Rng) -> Vec<u8> {
    let mut line = String::new();
    for letter in rng.pick(&SHAPES).split(' ') {
        match letter {
            "#" => line.push_str(&rng.pick(&[0, 1, 2, 3, 4]).to_string()),
            "a" => line.push(*rng.pick(&['a', 'b'])),
            word => line.push_str(word),
        }
        line.push(' ');
    }
    line.pop();
    line.push('\n');
    line.into_bytes()
}
