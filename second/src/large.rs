//! Makes books at the limits and past them.

use crate::make::{self, own_reference};
use crate::object::*;
use crate::rng::Rng;
use crate::symbols;
use crate::text;

/// A book that comes near some limit, reaches it or passes it by a little.
pub fn near_limits(rng: &mut Rng) -> Vec<u8> {
    let objects = match rng.below(12) {
        0 => make::book(rng, MOST_OBJECTS),
        1 => many_needed(rng, MOST_NEEDED),
        2 => many_wants(rng, MOST_WANTS),
        3 => many_versions(rng, MOST_VERSIONS),
        4 => symbols::many_definitions(rng, MOST_SYMBOLS),
        5 => symbols::many_references(rng, MOST_SYMBOLS),
        6..=8 => symbols::shared_references(rng),
        9 => long_names(rng),
        10 => high_numbers(rng),
        _ => high_indices(rng),
    };
    text::write(&objects)
}

/// A book that has one more of something than it may have.
pub fn over_limits(rng: &mut Rng) -> Vec<u8> {
    let objects = match rng.below(6) {
        0 => make::book(rng, MOST_OBJECTS + 1),
        1 => many_needed(rng, MOST_NEEDED + 1),
        2 => many_wants(rng, MOST_WANTS + 1),
        3 => many_versions(rng, MOST_VERSIONS + 1),
        4 => symbols::many_definitions(rng, MOST_SYMBOLS + 1),
        _ => symbols::many_references(rng, MOST_SYMBOLS + 1),
    };
    text::write(&objects)
}

/// The root, or often enough another object.
fn some_object(rng: &mut Rng, objects: &[Object]) -> usize {
    if rng.chance(60) {
        0
    } else {
        rng.below(objects.len())
    }
}

fn sonames(objects: &[Object]) -> Vec<String> {
    let mut names: Vec<String> = objects.iter().filter_map(|o| o.soname.clone()).collect();
    names.push("l0.so".to_string());
    names
}

fn many_needed(rng: &mut Rng, count: usize) -> Vec<Object> {
    let size = rng.between(20, 45);
    let mut objects = make::book(rng, size);
    let names = sonames(&objects);
    let place = some_object(rng, &objects);
    let mut needed: Vec<String> = (0..count).map(|_| rng.pick(&names).clone()).collect();
    if rng.chance(30) {
        // Only the last entry leads nowhere.
        needed[count - 1] = "nowhere.so".to_string();
    }
    objects[place].needed = needed;
    objects
}

fn many_wants(rng: &mut Rng, count: usize) -> Vec<Object> {
    let mut objects = make::book(rng, 6);
    let names = sonames(&objects);
    let place = some_object(rng, &objects);
    let mut want = |_| {
        let version = format!("V{}", rng.between(1, 3));
        Want { file: rng.pick(&names).clone(), version, weak: rng.chance(40) }
    };
    objects[place].wants = (0..count).map(&mut want).collect();
    make::mend(&mut objects, &[NO_TARGET, UNMET_WANT]);
    if rng.chance(30) {
        let last = &mut objects[place].wants[count - 1];
        last.weak = false;
        last.version = "never".to_string();
    }
    objects
}

/// One object defines many versions, and another wants some of them.
fn many_versions(rng: &mut Rng, count: usize) -> Vec<Object> {
    let mut objects = make::book(rng, 4);
    let place = rng.below(objects.len());
    let mut indices: Vec<u32> = (2..=LARGEST_INDEX).collect();
    rng.shuffle(&mut indices);
    let named = |(name, index): (usize, u32)| Version { name: format!("v{name}"), index };
    objects[place].versions = indices.into_iter().take(count).enumerate().map(named).collect();
    objects[place].soname = Some("many.so".to_string());
    objects[0].needed.push("many.so".to_string());
    for _ in 0..5 {
        let version = format!("v{}", rng.between(count - 6, count));
        let want = Want { file: "many.so".to_string(), version, weak: rng.chance(50) };
        objects[0].wants.push(want);
    }
    objects
}

/// One name of the book becomes about as long as a name may be, wherever it stands.
fn long_names(rng: &mut Rng) -> Vec<Object> {
    let mut objects = make::small(rng);
    let length = *rng.pick(&[254, 255, 255, 255, 256, 257]);
    let count = all_names(&mut objects).len();
    if count == 0 {
        objects[0].soname = Some("s".repeat(length));
        return objects;
    }
    let chosen = all_names(&mut objects)[rng.below(count)].clone();
    let long = chosen.chars().cycle().take(length).collect::<String>();
    for name in all_names(&mut objects) {
        if *name == chosen {
            *name = long.clone();
        }
    }
    objects
}

/// Every name and version in the book.
fn all_names(objects: &mut [Object]) -> Vec<&mut String> {
    let mut names = Vec::new();
    for object in objects {
        names.extend(&mut object.soname);
        names.extend(&mut object.needed);
        for want in &mut object.wants {
            names.extend([&mut want.file, &mut want.version]);
        }
        names.extend(object.versions.iter_mut().map(|version| &mut version.name));
        for definition in &mut object.definitions {
            names.push(&mut definition.name);
            names.extend(&mut definition.version);
        }
        for reference in &mut object.references {
            names.push(&mut reference.name);
            names.extend(&mut reference.version);
        }
    }
    names
}

/// Moves an object's symbol numbers up until the last is at the largest number or past it.
fn high_numbers(rng: &mut Rng) -> Vec<Object> {
    let mut objects = make::small(rng);
    let place = some_object(rng, &objects);
    let object = &mut objects[place];
    let last_definition = object.definitions.last().map_or(0, |last| last.number);
    let last_reference = object.references.last().map_or(0, |last| last.number);
    let top = *rng.pick(&[65_534, 65_535, 65_535, 65_535, 65_536, 65_537]);
    let rise = top - last_definition.max(last_reference);
    for definition in &mut object.definitions {
        definition.number += rise;
    }
    for reference in &mut object.references {
        reference.number += rise;
    }
    objects
}

/// Gives some definitions and versions indices at the ends of their range and past them.
fn high_indices(rng: &mut Rng) -> Vec<Object> {
    let mut objects = make::small(rng);
    let past = rng.chance(40);
    let indices: &[u32] = if past { &[0, 1, 255, 256, 257, 32_767] } else { &[1, 2, 254, 255] };
    for object in &mut objects {
        if past && rng.chance(20) {
            let index = *rng.pick(&[0, 1, 256, 511, 32_770]);
            object.versions.push(Version { name: "V1".to_string(), index });
        }
        // Without symbol versions only index 0 is lawful, and not even that if hidden.
        let indices = if object.versioned { indices } else { &[0, 0, 0, 1] };
        if object.versioned || (past && rng.chance(30)) {
            object.definitions.iter_mut().for_each(|d| change_index(rng, d, indices));
        }
        let own = |r: &Reference| object.definition(r.number).map(own_reference);
        let references = object.references.iter().map(|r| own(r).unwrap_or(r.clone())).collect();
        object.references = references;
    }
    objects
}

/// Half of the time takes another index, with a version exactly where one belongs.
fn change_index(rng: &mut Rng, definition: &mut Definition, indices: &[u32]) {
    if rng.chance(50) {
        definition.index = *rng.pick(indices);
        definition.hidden = rng.chance(50);
        let version = definition.version.take().unwrap_or("V1".to_string());
        definition.version = (definition.index >= 2).then_some(version);
    }
}
