//! Makes small odd edits to a book, each of which touches one rule of the format.

use crate::fields::*;
use crate::rng::Rng;
use crate::text::{self, Lines};

const FIRST_LINES: [&str; 12] = [
    "book 2", "book 0", "book 01", "book 1 ", " book 1", "book  1", "book\t1", "book", "Book 1",
    "book 1 1", "", "object 0",
];

type Edit = fn(&mut Lines, &mut Rng);

/// Those that stand more than once are made more often.
#[rustfmt::skip]
const EDITS: [Edit; 24] = [
    spare_zero, odd_number, odd_number, odd_number, drop_field, drop_field, add_field, empty_field,
    more_space, tab, carriage_return, empty_line, swap_lines, move_line, double_line, delete_line,
    delete_line, set_flags, set_flags, own_disagrees, number_order, same_index, other_word,
    odd_byte,
];

/// Edits a book once or twice.
pub fn edited(rng: &mut Rng, book: &[u8]) -> Vec<u8> {
    let mut lines = text::split(book);
    match rng.below(30) {
        0 => lines[0] = rng.pick(&FIRST_LINES).as_bytes().to_vec(),
        1 => return other_end(rng, book),
        2 => lines.iter_mut().for_each(|line| line.push(b'\r')),
        _ => {
            for _ in 0..*rng.pick(&[1, 1, 1, 1, 2]) {
                rng.pick(&EDITS)(&mut lines, rng);
            }
        }
    }
    text::join(&lines)
}

/// Ends a book in another way, or long before it has begun.
fn other_end(rng: &mut Rng, book: &[u8]) -> Vec<u8> {
    match rng.below(7) {
        0 => Vec::new(),
        1 => b"book 1\n".to_vec(),
        2 => b"book 1".to_vec(),
        3 => b"book 1\nobject 0".to_vec(),
        4 => [book, b"\n"].concat(),
        5 => [book, b"\0"].concat(),
        _ => book[..book.len() - 1].to_vec(),
    }
}

/// A second space, a space before the line or one behind it.
fn more_space(lines: &mut Lines, rng: &mut Rng) {
    let line = any_line_of(lines, rng);
    let spaces: Vec<usize> = (0..line.len()).filter(|&place| line[place] == b' ').collect();
    let place = match rng.below(3) {
        0 => 0,
        1 if !spaces.is_empty() => *rng.pick(&spaces),
        _ => line.len(),
    };
    line.insert(place, b' ');
}

fn tab(lines: &mut Lines, rng: &mut Rng) {
    let line = any_line_of(lines, rng);
    if let Some(space) = line.iter().position(|&byte| byte == b' ') {
        line[space] = b'\t';
    }
}

fn carriage_return(lines: &mut Lines, rng: &mut Rng) {
    any_line_of(lines, rng).push(b'\r');
}

fn empty_line(lines: &mut Lines, rng: &mut Rng) {
    lines.insert(rng.below(lines.len() + 1), Vec::new());
}

fn swap_lines(lines: &mut Lines, rng: &mut Rng) {
    let line = any_line(lines, rng);
    let other = if rng.chance(60) { (line + 1) % lines.len() } else { any_line(lines, rng) };
    lines.swap(line, other);
}

fn move_line(lines: &mut Lines, rng: &mut Rng) {
    let place = any_line(lines, rng);
    let line = lines.remove(place);
    lines.insert(rng.below(lines.len() + 1), line);
}

fn double_line(lines: &mut Lines, rng: &mut Rng) {
    let line = any_line(lines, rng);
    lines.insert(line, lines[line].clone());
}

fn delete_line(lines: &mut Lines, rng: &mut Rng) {
    lines.remove(any_line(lines, rng));
}
