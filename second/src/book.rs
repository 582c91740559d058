//! Reads an export book, the text in which shared objects are written down.

use crate::object::*;

/// The lines of one object stand in this order.
const ORDER: [&[u8]; 6] = [b"soname", b"needed", b"want", b"version", b"def", b"ref"];

/// Reads a whole book, or tells its first bad or missing line.
pub fn read(input: &[u8]) -> Result<Vec<Object>, Refusal> {
    if input.len() > LONGEST_INPUT {
        return Err(bad_line(0));
    }
    let mut reader = Reader::default();
    let mut rest = input;
    let mut line = 0;
    while !rest.is_empty() {
        // A tail without its line feed is a bad line, whatever it says.
        let end = rest.iter().position(|&byte| byte == b'\n').ok_or(bad_line(line))?;
        reader.line(line, &rest[..end]).ok_or(bad_line(line))?;
        rest = &rest[end + 1..];
        line += 1;
    }
    if reader.objects.is_empty() {
        return Err(bad_line(line));
    }
    Ok(reader.objects)
}

/// A bad line belongs to no object, which the largest number says.
fn bad_line(line: usize) -> Refusal {
    let largest = LARGEST_NUMBER as usize;
    Refusal { number: BAD_LINE, object: largest, place: line.min(largest) }
}

#[derive(Default)]
struct Reader {
    objects: Vec<Object>,
    /// How far in `ORDER` the last object has come.
    stage: usize,
}

impl Reader {
    /// Takes one line in; none if it is bad after the lines before it.
    fn line(&mut self, number: usize, line: &[u8]) -> Option<()> {
        if number == 0 {
            return (line == b"book 1").then_some(());
        }
        let fields: Vec<&[u8]> = line.split(|&byte| byte == b' ').collect();
        let (word, fields) = fields.split_first()?;
        if *word == b"object" {
            return self.object(fields);
        }
        let stage = ORDER.iter().position(|known| known == word)?;
        let object = self.objects.last_mut()?;
        if stage < self.stage {
            return None;
        }
        self.stage = stage;
        match stage {
            0 => soname(object, fields),
            1 => needed(object, fields),
            2 => want(object, fields),
            3 => version(object, fields),
            4 => definition(object, fields),
            _ => reference(object, fields),
        }
    }

    fn object(&mut self, fields: &[&[u8]]) -> Option<()> {
        let [flags] = fields else { return None };
        let flags = decimal(flags, 3)?;
        self.stage = 0;
        let object =
            Object { symbolic: flags & 1 != 0, versioned: flags & 2 != 0, ..Object::default() };
        add(&mut self.objects, object, MOST_OBJECTS)
    }
}

fn soname(object: &mut Object, fields: &[&[u8]]) -> Option<()> {
    let [name] = fields else { return None };
    if object.soname.is_some() {
        return None;
    }
    object.soname = Some(lawful(name)?);
    Some(())
}

fn needed(object: &mut Object, fields: &[&[u8]]) -> Option<()> {
    let [name] = fields else { return None };
    add(&mut object.needed, lawful(name)?, MOST_NEEDED)
}

fn want(object: &mut Object, fields: &[&[u8]]) -> Option<()> {
    let [file, version, flag] = fields else { return None };
    let weak = decimal(flag, 1)? == 1;
    let want = Want { file: lawful(file)?, version: lawful(version)?, weak };
    add(&mut object.wants, want, MOST_WANTS)
}

fn version(object: &mut Object, fields: &[&[u8]]) -> Option<()> {
    let [name, index] = fields else { return None };
    let index = decimal(index, LARGEST_INDEX)?;
    if index < 2 || object.versions.iter().any(|other| other.index == index) {
        return None;
    }
    add(&mut object.versions, Version { name: lawful(name)?, index }, MOST_VERSIONS)
}

fn definition(object: &mut Object, fields: &[&[u8]]) -> Option<()> {
    let [number, name, index, flags, version @ ..] = fields else { return None };
    let number = rising(number, object.definitions.last().map(|last| last.number))?;
    let written = decimal(index, LARGEST_NUMBER)?;
    let (hidden, index) = (written >= HIDDEN, written % HIDDEN);
    let index_fits =
        if object.versioned { (1..=LARGEST_INDEX).contains(&index) } else { written == 0 };
    let flags = decimal(flags, 3)?;
    let version = optional(version)?;
    // Indices 0 and 1 have no version, all others have one.
    if !index_fits || version.is_some() != (index >= 2) {
        return None;
    }
    let definition = Definition {
        number,
        name: lawful(name)?,
        index,
        hidden,
        weak: flags & 1 != 0,
        protected: flags & 2 != 0,
        version,
    };
    add(&mut object.definitions, definition, MOST_SYMBOLS)
}

fn reference(object: &mut Object, fields: &[&[u8]]) -> Option<()> {
    let [number, name, flags, version @ ..] = fields else { return None };
    let number = rising(number, object.references.last().map(|last| last.number))?;
    let flags = decimal(flags, 7)?;
    let reference = Reference {
        number,
        name: lawful(name)?,
        weak: flags & 1 != 0,
        protected: flags & 2 != 0,
        own: flags & 4 != 0,
        version: optional(version)?,
    };
    // An own reference says what its definition says; any other is never protected.
    let agrees = match object.definition(number) {
        Some(definition) => {
            reference.own
                && reference.name == definition.name
                && reference.version == definition.version
                && reference.weak == definition.weak
                && reference.protected == definition.protected
        }
        None => !reference.own && !reference.protected,
    };
    if !agrees {
        return None;
    }
    add(&mut object.references, reference, MOST_SYMBOLS)
}

/// Adds an item unless the list is full.
fn add<T>(list: &mut Vec<T>, item: T, most: usize) -> Option<()> {
    if list.len() >= most {
        return None;
    }
    list.push(item);
    Some(())
}

/// A symbol number: at least 1 and above the one before.
fn rising(field: &[u8], before: Option<u32>) -> Option<u32> {
    let number = decimal(field, LARGEST_NUMBER)?;
    (number > before.unwrap_or(0)).then_some(number)
}

/// A decimal number without spare zeros, at most `most`.
fn decimal(field: &[u8], most: u32) -> Option<u32> {
    let spare_zero = field.len() > 1 && field[0] == b'0';
    // Five digits hold every lawful number, and a longer one could not be counted safely.
    if field.is_empty() || field.len() > 5 || spare_zero {
        return None;
    }
    if !field.iter().all(u8::is_ascii_digit) {
        return None;
    }
    let value = field.iter().fold(0, |value, digit| value * 10 + u32::from(digit - b'0'));
    (value <= most).then_some(value)
}

/// A name or version: 1 to 255 printable bytes without a space.
fn lawful(field: &[u8]) -> Option<String> {
    let fits = (1..=LONGEST_NAME).contains(&field.len());
    if !fits || !field.iter().all(|byte| (0x21..=0x7E).contains(byte)) {
        return None;
    }
    String::from_utf8(field.to_vec()).ok()
}

/// The version at the end of a line, which may be left out.
fn optional(fields: &[&[u8]]) -> Option<Option<String>> {
    match fields {
        [] => Some(None),
        [version] => lawful(version).map(Some),
        _ => None,
    }
}
