//! Makes random books that keep every rule of the format, with names that often collide.

use crate::link::link;
use crate::object::*;
use crate::rng::Rng;

/// Names with common beginnings, names that look like numbers and names that look like words.
const NAMES: [&str; 12] =
    ["a", "b", "aa", "ab", "read", "note", "beep", "0", "12", "def", "~", "x@y"];
const VERSIONS: [&str; 6] = ["V1", "V2", "V3", "V", "1", "a"];
/// No object has this soname.
const NOWHERE: &str = "nowhere.so";

/// What one book draws from. Small pools make many collisions.
struct Pools {
    names: Vec<String>,
    versions: Vec<String>,
    sonames: Vec<String>,
    /// Percentage of objects with symbol versions, and of outward references that want one.
    versioned: usize,
    wanting: usize,
    /// Percentage of needed names that no object has.
    lost: usize,
}

/// A book with 1 to 8 objects.
pub fn small(rng: &mut Rng) -> Vec<Object> {
    let count = rng.between(1, 8);
    book(rng, count)
}

/// A book with this many objects. Most books link; the others fail in some check.
pub fn book(rng: &mut Rng, count: usize) -> Vec<Object> {
    let pools = pools(rng, count);
    let mut objects: Vec<Object> = (0..count).map(|place| object(rng, &pools, place)).collect();
    connect(rng, &mut objects);
    let fixed: &[u32] = match rng.below(10) {
        0 => &[],
        1 | 2 => &[NO_TARGET],
        3 => &[NO_TARGET, UNMET_WANT],
        _ => &[NO_TARGET, UNMET_WANT, UNBOUND],
    };
    mend(&mut objects, fixed);
    objects
}

/// Takes away the causes of these refusals, one by one, until the book meets none of them.
pub fn mend(objects: &mut [Object], fixed: &[u32]) {
    while let Err(refusal) = link(objects, 0) {
        if !fixed.contains(&refusal.number) {
            return;
        }
        let object = &mut objects[refusal.object];
        match refusal.number {
            NO_TARGET => drop(object.needed.remove(refusal.place)),
            UNMET_WANT => object.wants[refusal.place].weak = true,
            UNBOUND => {
                // An own reference always finds something, so no definition disagrees.
                let number = refusal.place as u32;
                let unbound = object.references.iter_mut().find(|r| r.number == number);
                unbound.expect("a refusal names a reference").weak = true;
            }
            _ => return,
        }
    }
}

fn pools(rng: &mut Rng, count: usize) -> Pools {
    let mut names = NAMES.to_vec();
    rng.shuffle(&mut names);
    names.truncate(rng.between(1, 6));
    let mut versions = VERSIONS.to_vec();
    rng.shuffle(&mut versions);
    versions.truncate(rng.between(1, 4));
    Pools {
        names: names.into_iter().map(String::from).collect(),
        versions: versions.into_iter().map(String::from).collect(),
        sonames: (0..count).map(|place| format!("l{place}.so")).collect(),
        versioned: *rng.pick(&[0, 50, 50, 100]),
        wanting: *rng.pick(&[0, 30, 70]),
        lost: *rng.pick(&[0, 0, 15]),
    }
}

fn object(rng: &mut Rng, pools: &Pools, place: usize) -> Object {
    let versioned = rng.chance(pools.versioned);
    let definitions = definitions(rng, pools, versioned);
    Object {
        symbolic: rng.chance(25),
        versioned,
        // Some objects have no soname, some have another's.
        soname: match rng.below(100) {
            0..=9 => None,
            10..=19 => Some(rng.pick(&pools.sonames).clone()),
            _ => Some(pools.sonames[place].clone()),
        },
        needed: (0..rng.below(3)).map(|_| file(rng, pools)).collect(),
        wants: wants(rng, pools),
        versions: versions(rng, pools),
        references: references(rng, pools, &definitions),
        definitions,
    }
}

fn file(rng: &mut Rng, pools: &Pools) -> String {
    if rng.chance(pools.lost) {
        return NOWHERE.to_string();
    }
    rng.pick(&pools.sonames).clone()
}

fn wants(rng: &mut Rng, pools: &Pools) -> Vec<Want> {
    let count = if rng.chance(60) { 0 } else { rng.between(1, 4) };
    let mut want = |_| {
        let file = file(rng, pools);
        Want { file, version: rng.pick(&pools.versions).clone(), weak: rng.chance(30) }
    };
    (0..count).map(&mut want).collect()
}

fn versions(rng: &mut Rng, pools: &Pools) -> Vec<Version> {
    let count = if rng.chance(40) { 0 } else { rng.between(1, 4) };
    let mut indices: Vec<u32> = vec![2, 3, 4, 5, 9, 254, 255];
    rng.shuffle(&mut indices);
    indices.truncate(count);
    let mut version = |index| Version { name: rng.pick(&pools.versions).clone(), index };
    indices.into_iter().map(&mut version).collect()
}

fn definitions(rng: &mut Rng, pools: &Pools, versioned: bool) -> Vec<Definition> {
    let count = rng.below(9);
    // A book with few low indices shows what is offered when there are none.
    let indices = rng.pick(&[[1, 2, 3, 4], [3, 4, 5, 255], [1, 3, 3, 7]]);
    let hidden = *rng.pick(&[0, 30, 70]);
    let mut number = 0;
    let mut definitions = Vec::new();
    for _ in 0..count {
        number += rng.between(1, 3) as u32;
        let index = if versioned { *rng.pick(indices) } else { 0 };
        definitions.push(Definition {
            number,
            name: rng.pick(&pools.names).clone(),
            index,
            hidden: versioned && rng.chance(hidden),
            weak: rng.chance(30),
            protected: rng.chance(20),
            version: (index >= 2).then(|| rng.pick(&pools.versions).clone()),
        });
    }
    definitions
}

/// Own references to some definitions, and outward ones at numbers in between and behind.
fn references(rng: &mut Rng, pools: &Pools, definitions: &[Definition]) -> Vec<Reference> {
    let last = definitions.last().map_or(0, |last| last.number);
    let end = last + rng.between(1, 6) as u32;
    let mut references = Vec::new();
    for number in 1..end {
        let own = definitions.iter().find(|definition| definition.number == number);
        if !rng.chance(if own.is_some() { 60 } else { 40 }) {
            continue;
        }
        references.push(match own {
            Some(definition) => own_reference(definition),
            None => outward(rng, pools, number),
        });
    }
    references
}

/// An own reference says what its definition says.
pub fn own_reference(definition: &Definition) -> Reference {
    Reference {
        number: definition.number,
        name: definition.name.clone(),
        weak: definition.weak,
        protected: definition.protected,
        own: true,
        version: definition.version.clone(),
    }
}

fn outward(rng: &mut Rng, pools: &Pools, number: u32) -> Reference {
    let wanting = rng.chance(pools.wanting);
    Reference {
        number,
        name: rng.pick(&pools.names).clone(),
        weak: rng.chance(30),
        protected: false,
        own: false,
        version: wanting.then(|| rng.pick(&pools.versions).clone()),
    }
}

/// Lets most objects be needed by an earlier one, so that they are loaded.
fn connect(rng: &mut Rng, objects: &mut [Object]) {
    for place in 1..objects.len() {
        let Some(soname) = objects[place].soname.clone() else { continue };
        let needed = &mut objects[rng.below(place)].needed;
        if rng.chance(75) && needed.len() < MOST_NEEDED {
            needed.insert(rng.below(needed.len() + 1), soname);
        }
    }
}
