//! What a shared object is to the linker, and the limits that every object keeps.

/// Most objects in one book.
pub const MOST_OBJECTS: usize = 64;
/// Most `needed` lines of one object.
pub const MOST_NEEDED: usize = 32;
/// Most `want` lines of one object.
pub const MOST_WANTS: usize = 64;
/// Most `version` lines of one object.
pub const MOST_VERSIONS: usize = 64;
/// Most `def` lines of one object, and most `ref` lines.
pub const MOST_SYMBOLS: usize = 4_096;
/// Most references in all loaded objects together.
pub const MOST_BINDINGS: usize = 4_096;
/// Longest name or version, in bytes.
pub const LONGEST_NAME: usize = 255;
/// Longest input that the program takes.
pub const LONGEST_INPUT: usize = 65_536;
/// Largest number in a book.
pub const LARGEST_NUMBER: u32 = 65_535;
/// Largest version index.
pub const LARGEST_INDEX: u32 = 255;
/// Added to a definition's index where the definition is hidden.
pub const HIDDEN: u32 = 32_768;

#[derive(Clone, Debug, Default)]
pub struct Object {
    pub symbolic: bool,
    /// Whether its definitions carry version indices.
    pub versioned: bool,
    pub soname: Option<String>,
    pub needed: Vec<String>,
    pub wants: Vec<Want>,
    pub versions: Vec<Version>,
    /// By rising symbol number.
    pub definitions: Vec<Definition>,
    /// By rising symbol number.
    pub references: Vec<Reference>,
}

/// A need for a version that another object must define.
#[derive(Clone, Debug)]
pub struct Want {
    pub file: String,
    pub version: String,
    pub weak: bool,
}

/// A version that the object says it defines.
#[derive(Clone, Debug)]
pub struct Version {
    pub name: String,
    pub index: u32,
}

#[derive(Clone, Debug)]
pub struct Definition {
    pub number: u32,
    pub name: String,
    /// Without what is added for hidden ones.
    pub index: u32,
    pub hidden: bool,
    pub weak: bool,
    pub protected: bool,
    pub version: Option<String>,
}

#[derive(Clone, Debug)]
pub struct Reference {
    pub number: u32,
    pub name: String,
    pub weak: bool,
    pub protected: bool,
    /// The object itself defines this symbol number.
    pub own: bool,
    pub version: Option<String>,
}

impl Object {
    /// The definition with this symbol number.
    pub fn definition(&self, number: u32) -> Option<&Definition> {
        let place = self.definitions.binary_search_by_key(&number, |d| d.number);
        place.ok().map(|place| &self.definitions[place])
    }
}

/// Why there is no report: a number, an object and a place.
#[derive(Clone, Copy, Debug, PartialEq, Eq)]
pub struct Refusal {
    pub number: u32,
    pub object: usize,
    pub place: usize,
}

/// The refusals that a book can meet.
pub const BAD_LINE: u32 = 10;
pub const NO_TARGET: u32 = 15;
pub const UNMET_WANT: u32 = 16;
pub const UNBOUND: u32 = 17;
pub const TOO_MANY_BINDINGS: u32 = 18;
