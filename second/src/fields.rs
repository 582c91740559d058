//! Edits of one field of a line: numbers, flags, names, versions and the word.

use crate::rng::Rng;
use crate::text::{self, Lines};

/// Numbers that are lawful nowhere, or only somewhere.
#[rustfmt::skip]
const ODD_NUMBERS: [&str; 26] = [
    "", "0", "00", "01", "1", "2", "3", "4", "8", "255", "256", "32767", "32768", "32769", "32770",
    "33023", "33024", "65535", "65536", "65537", "99999", "100000", "+1", "-1", "4294967297",
    "18446744073709551617",
];

/// Bytes that no name may hold.
const ODD_BYTES: [u8; 10] = [0, 1, 9, 11, 13, 31, 127, 128, 194, 255];

const WORDS: [&str; 12] = [
    "object", "soname", "needed", "want", "version", "def", "ref", "Def", "refs", "book", "", "de",
];

/// A line, but not the first as long as there are others.
pub fn any_line(lines: &Lines, rng: &mut Rng) -> usize {
    if lines.len() < 2 {
        0
    } else {
        rng.between(1, lines.len() - 1)
    }
}

/// The same, to be changed.
pub fn any_line_of<'a>(lines: &'a mut Lines, rng: &mut Rng) -> &'a mut Vec<u8> {
    let place = any_line(lines, rng);
    &mut lines[place]
}

/// A line that begins with this word.
fn line_with(lines: &Lines, rng: &mut Rng, word: &str) -> Option<usize> {
    let begins = |place: &usize| text::fields(&lines[*place])[0] == word.as_bytes();
    let places: Vec<usize> = (0..lines.len()).filter(begins).collect();
    (!places.is_empty()).then(|| *rng.pick(&places))
}

/// Which fields of a line are numbers, and which are names.
fn places(line: &[u8]) -> (&'static [usize], &'static [usize]) {
    let fields = text::fields(line);
    let count = fields.len();
    match fields[0].as_slice() {
        b"object" | b"book" => (&[1], &[]),
        b"soname" | b"needed" => (&[], &[1]),
        b"want" => (&[3], &[1, 2]),
        b"version" => (&[2], &[1]),
        b"def" if count > 5 => (&[1, 3, 4], &[2, 5]),
        b"def" => (&[1, 3, 4], &[2]),
        b"ref" if count > 4 => (&[1, 3], &[2, 4]),
        b"ref" => (&[1, 3], &[2]),
        _ => (&[], &[]),
    }
}

/// Changes one field of a line, if the line has it.
fn change(line: &mut Vec<u8>, place: usize, to: impl FnOnce(&mut Vec<u8>)) {
    let mut fields = text::fields(line);
    if let Some(field) = fields.get_mut(place) {
        to(field);
        *line = text::line_of(&fields);
    }
}

/// A random number field of a random line.
fn number_field(lines: &Lines, rng: &mut Rng) -> Option<(usize, usize)> {
    let line = any_line(lines, rng);
    let numbers = places(&lines[line]).0;
    (!numbers.is_empty()).then(|| (line, *rng.pick(numbers)))
}

pub fn spare_zero(lines: &mut Lines, rng: &mut Rng) {
    if let Some((line, place)) = number_field(lines, rng) {
        change(&mut lines[line], place, |field| field.insert(0, b'0'));
    }
}

pub fn odd_number(lines: &mut Lines, rng: &mut Rng) {
    if let Some((line, place)) = number_field(lines, rng) {
        let number = rng.pick(&ODD_NUMBERS).as_bytes().to_vec();
        change(&mut lines[line], place, |field| *field = number);
    }
}

pub fn drop_field(lines: &mut Lines, rng: &mut Rng) {
    let line = any_line(lines, rng);
    let mut fields = text::fields(&lines[line]);
    // Often the last one, which is the version where there is one.
    let last = fields.len() - 1;
    fields.remove(if rng.chance(60) { last } else { rng.below(last + 1) });
    lines[line] = text::line_of(&fields);
}

pub fn add_field(lines: &mut Lines, rng: &mut Rng) {
    let line = any_line(lines, rng);
    let mut fields = text::fields(&lines[line]);
    let place = if rng.chance(60) { fields.len() } else { rng.below(fields.len() + 1) };
    let field = rng.pick(&["V1", "0", "1", "4", "a", ""]).as_bytes().to_vec();
    fields.insert(place, field);
    lines[line] = text::line_of(&fields);
}

pub fn empty_field(lines: &mut Lines, rng: &mut Rng) {
    let line = any_line(lines, rng);
    let place = rng.below(text::fields(&lines[line]).len());
    change(&mut lines[line], place, Vec::clear);
}

/// Flips a flag bit, in and out of the line's range.
pub fn set_flags(lines: &mut Lines, rng: &mut Rng) {
    let (word, place) =
        *rng.pick(&[("object", 1), ("want", 3), ("def", 4), ("ref", 3), ("ref", 3)]);
    let Some(line) = line_with(lines, rng, word) else { return };
    let bit = *rng.pick(&[1, 2, 2, 4, 4, 8]);
    change(&mut lines[line], place, |field| {
        let flags = String::from_utf8_lossy(field).parse::<u64>().unwrap_or(0);
        *field = (flags ^ bit).to_string().into_bytes();
    });
}

/// Gives a definition or a reference another name or version, so that the two may disagree.
pub fn own_disagrees(lines: &mut Lines, rng: &mut Rng) {
    let word = *rng.pick(&["def", "ref"]);
    let Some(line) = line_with(lines, rng, word) else { return };
    let place = *rng.pick(places(&lines[line]).1);
    let name = rng.pick(&["V1", "V2", "a", "b", "other"]).as_bytes().to_vec();
    change(&mut lines[line], place, |field| *field = name);
}

/// Lets a symbol number repeat, fall, rise by one or become 0.
pub fn number_order(lines: &mut Lines, rng: &mut Rng) {
    let word = *rng.pick(&["def", "ref"]);
    let Some(line) = line_with(lines, rng, word) else { return };
    let before = text::fields(&lines[line.saturating_sub(1)]).get(1).cloned().unwrap_or_default();
    let before = String::from_utf8_lossy(&before).parse::<u64>().unwrap_or(1);
    let number =
        *rng.pick(&[0, before, before, before.saturating_sub(1), before.saturating_add(1)]);
    change(&mut lines[line], 1, |field| *field = number.to_string().into_bytes());
}

/// Gives a version line the index of another one.
pub fn same_index(lines: &mut Lines, rng: &mut Rng) {
    let Some(line) = line_with(lines, rng, "version") else { return };
    let Some(other) = line_with(lines, rng, "version") else { return };
    let index = text::fields(&lines[other]).get(2).cloned().unwrap_or_default();
    change(&mut lines[line], 2, |field| *field = index);
}

pub fn other_word(lines: &mut Lines, rng: &mut Rng) {
    let word = rng.pick(&WORDS).as_bytes().to_vec();
    change(any_line_of(lines, rng), 0, |field| *field = word);
}

/// Puts a byte that no name may hold into a name.
pub fn odd_byte(lines: &mut Lines, rng: &mut Rng) {
    let line = any_line(lines, rng);
    let names = places(&lines[line]).1;
    if !names.is_empty() {
        let place = *rng.pick(names);
        change(&mut lines[line], place, |field| {
            let at = rng.below(field.len() + 1);
            field.insert(at, *rng.pick(&ODD_BYTES));
        });
    }
}
