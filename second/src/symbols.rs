//! Makes books with as many definitions or references as fit into an input.

use crate::make::own_reference;
use crate::object::*;
use crate::rng::Rng;

/// Mostly one byte, since thousands of lines have to fit.
fn short_name(rng: &mut Rng) -> String {
    let letter = |rng: &mut Rng| char::from(rng.between(0x21, 0x7E) as u8);
    let mut name = String::from(letter(rng));
    if rng.chance(8) {
        name.push(letter(rng));
    }
    name
}

fn definition(rng: &mut Rng, number: u32, name: String, versioned: bool) -> Definition {
    let later = versioned && rng.chance(5);
    let index = if later { rng.between(2, 9) as u32 } else { u32::from(versioned) };
    Definition {
        number,
        name,
        index,
        hidden: later && rng.chance(30),
        weak: rng.chance(20),
        protected: rng.chance(10),
        version: later.then(|| "v".to_string()),
    }
}

/// A reference that is not the object's own.
fn outward(rng: &mut Rng, number: u32, name: String, weak: bool) -> Reference {
    let version = rng.chance(5).then(|| "v".to_string());
    Reference { number, name, weak, protected: false, own: false, version }
}

/// An object with this many definitions, and some references in it and in the root.
pub fn many_definitions(rng: &mut Rng, count: usize) -> Vec<Object> {
    let mut many = named("m");
    many.versioned = rng.chance(50);
    many.symbolic = rng.chance(30);
    let versioned = many.versioned;
    for number in 1..=count as u32 {
        let name = short_name(rng);
        many.definitions.push(definition(rng, number, name, versioned));
    }
    // Own references near both ends and in the middle.
    let chosen = [0, 1, count / 2, count - 2, count - 1];
    many.references.extend(chosen.map(|place| own_reference(&many.definitions[place])));
    let mut root = Object { needed: vec!["m".to_string()], ..Object::default() };
    for number in 1..=rng.between(50, 120) as u32 {
        let name = rng.pick(&many.definitions).name.clone();
        let weak = rng.chance(70);
        root.references.push(outward(rng, number, name, weak));
    }
    if rng.chance(30) {
        // The large object is the root itself, behind which nothing is loaded.
        return vec![many, root];
    }
    vec![root, many]
}

/// An object with this many references, some of them its own.
pub fn many_references(rng: &mut Rng, count: usize) -> Vec<Object> {
    let mut library = named("d");
    let mut many = named("m");
    library.needed.push("m".to_string());
    many.needed.push("d".to_string());
    for number in 1..=60 {
        let name = short_name(rng);
        library.definitions.push(definition(rng, number, name, false));
    }
    for number in (1..=count as u32).step_by(rng.between(20, 60)) {
        let name = rng.pick(&library.definitions).name.clone();
        many.definitions.push(definition(rng, number, name, false));
    }
    for number in 1..=count as u32 {
        let own = many.definition(number).map(own_reference);
        let name = rng.pick(&library.definitions).name.clone();
        let weak = rng.chance(20);
        let reference = own.unwrap_or_else(|| outward(rng, number, name, weak));
        many.references.push(reference);
    }
    if rng.chance(30) {
        // One reference more, but in another object.
        library.references.push(outward(rng, 61, "a".to_string(), true));
    }
    if rng.chance(50) {
        vec![many, library]
    } else {
        vec![library, many]
    }
}

/// Several loaded objects that have about as many references together as may be bound.
pub fn shared_references(rng: &mut Rng) -> Vec<Object> {
    let total = *rng.pick(&[4_095, 4_096, 4_096, 4_097, 4_097, 4_098, 4_300]);
    let count = rng.between(2, 6);
    let mut objects: Vec<Object> = (0..count).map(|place| named(&format!("s{place}"))).collect();
    for number in 1..=20 {
        let name = char::from(b'a' + number as u8).to_string();
        objects[count - 1].definitions.push(definition(rng, number, name, false));
    }
    // The list of objects follows the needed names, not the book.
    let mut order: Vec<usize> = (1..count).collect();
    rng.shuffle(&mut order);
    objects[0].needed = order.iter().map(|place| format!("s{place}")).collect();
    let (mut left, last) = (total, rng.below(count));
    for (place, object) in objects.iter_mut().enumerate() {
        let share = if place == last { 0 } else { rng.below(left / 2 + 1) };
        refer(rng, object, share);
        left -= share;
    }
    refer(rng, &mut objects[last], left);
    if rng.chance(30) {
        // References of an object that is not loaded do not count.
        let mut apart = named("apart");
        refer(rng, &mut apart, 300);
        objects.push(apart);
    }
    spoil(rng, &mut objects);
    objects
}

/// So many references to names that the last loaded object defines.
fn refer(rng: &mut Rng, object: &mut Object, count: usize) {
    // Numbers behind all definitions, so that none of them is the object's own.
    for number in (21..).take(count) {
        let name = char::from(b'b' + rng.below(20) as u8).to_string();
        let weak = rng.chance(20);
        object.references.push(outward(rng, number, name, weak));
    }
}

/// Sometimes adds a fault, to show which of several faults is told.
fn spoil(rng: &mut Rng, objects: &mut [Object]) {
    let place = rng.below(objects.len());
    let object = &mut objects[place];
    match rng.below(8) {
        0 => object.needed.push("nowhere".to_string()),
        1 => object.wants.push(Want {
            file: "nowhere".to_string(),
            version: "v".to_string(),
            weak: rng.chance(30),
        }),
        2 | 3 if !object.references.is_empty() => {
            let chosen = rng.below(object.references.len());
            object.references[chosen].name = "nothing".to_string();
            object.references[chosen].weak = rng.chance(30);
        }
        _ => {}
    }
}

fn named(soname: &str) -> Object {
    Object { soname: Some(soname.to_string()), ..Object::default() }
}
