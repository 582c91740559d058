//! Writes objects down as a book, and takes a book apart into lines and fields.

use crate::object::*;
use std::fmt::Write;

/// A book's lines without their line feeds; they need not be right.
pub type Lines = Vec<Vec<u8>>;

/// The book of these objects. It keeps no rule by itself: what is put in is written.
pub fn write(objects: &[Object]) -> Vec<u8> {
    let mut text = String::from("book 1\n");
    for object in objects {
        write_object(&mut text, object).expect("a String takes every line");
    }
    text.into_bytes()
}

fn write_object(text: &mut String, object: &Object) -> std::fmt::Result {
    let flags = u32::from(object.symbolic) + 2 * u32::from(object.versioned);
    writeln!(text, "object {flags}")?;
    if let Some(soname) = &object.soname {
        writeln!(text, "soname {soname}")?;
    }
    for name in &object.needed {
        writeln!(text, "needed {name}")?;
    }
    for want in &object.wants {
        writeln!(text, "want {} {} {}", want.file, want.version, u32::from(want.weak))?;
    }
    for version in &object.versions {
        writeln!(text, "version {} {}", version.name, version.index)?;
    }
    for d in &object.definitions {
        let index = d.index + if d.hidden { HIDDEN } else { 0 };
        let flags = u32::from(d.weak) + 2 * u32::from(d.protected);
        let version = spaced(&d.version);
        writeln!(text, "def {} {} {index} {flags}{version}", d.number, d.name)?;
    }
    for r in &object.references {
        let flags = u32::from(r.weak) + 2 * u32::from(r.protected) + 4 * u32::from(r.own);
        let version = spaced(&r.version);
        writeln!(text, "ref {} {} {flags}{version}", r.number, r.name)?;
    }
    Ok(())
}

fn spaced(version: &Option<String>) -> String {
    version.iter().map(|version| format!(" {version}")).collect()
}

/// The lines of a text that ends with a line feed.
pub fn split(text: &[u8]) -> Lines {
    let mut lines: Lines = text.split(|&byte| byte == b'\n').map(<[u8]>::to_vec).collect();
    lines.pop();
    lines
}

pub fn join(lines: &[Vec<u8>]) -> Vec<u8> {
    let mut text = Vec::new();
    for line in lines {
        text.extend_from_slice(line);
        text.push(b'\n');
    }
    text
}

pub fn fields(line: &[u8]) -> Vec<Vec<u8>> {
    line.split(|&byte| byte == b' ').map(<[u8]>::to_vec).collect()
}

pub fn line_of(fields: &[Vec<u8>]) -> Vec<u8> {
    fields.join(&b' ')
}
