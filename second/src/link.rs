//! Links the objects of a book: load order, checks, bindings and start order.

use crate::object::*;
use std::collections::HashMap;

/// A granted link. Objects are told by their place in the book.
#[derive(Debug)]
pub struct Linked {
    pub load: Vec<usize>,
    pub start: Vec<usize>,
    /// By load order and symbol number.
    pub bindings: Vec<Binding>,
}

/// What one reference took.
#[derive(Debug)]
pub struct Binding {
    pub object: usize,
    /// Place of the reference among the object's references.
    pub reference: usize,
    /// Object and symbol number; none for a weak reference that found nothing.
    pub target: Option<(usize, u32)>,
}

/// Links with this object as the root.
pub fn link(objects: &[Object], root: usize) -> Result<Linked, Refusal> {
    let catalogue = Catalogue::new(objects);
    let load = catalogue.list(root);
    // Each check goes over the whole list before the next one begins.
    catalogue.check_targets(&load)?;
    catalogue.check_wants(&load)?;
    check_count(objects, &load)?;
    let bindings = catalogue.bind_all(&load)?;
    let mut walk = Walk { entered: vec![false; objects.len()], start: Vec::new() };
    walk.enter(&catalogue, root);
    Ok(Linked { load, start: walk.start, bindings })
}

/// All loaded objects together may have only so many references.
fn check_count(objects: &[Object], load: &[usize]) -> Result<(), Refusal> {
    let mut total = 0;
    for &object in load {
        total += objects[object].references.len();
        if total > MOST_BINDINGS {
            return Err(Refusal { number: TOO_MANY_BINDINGS, object, place: MOST_BINDINGS });
        }
    }
    Ok(())
}

/// The objects with what is needed to look them up.
struct Catalogue<'a> {
    objects: &'a [Object],
    /// The first object with each soname.
    sonames: HashMap<&'a str, usize>,
    /// For each object its definitions of each name, lowest number first.
    definitions: Vec<HashMap<&'a str, Vec<&'a Definition>>>,
}

impl<'a> Catalogue<'a> {
    fn new(objects: &'a [Object]) -> Self {
        let mut sonames = HashMap::new();
        let mut definitions = Vec::new();
        for (place, object) in objects.iter().enumerate() {
            if let Some(soname) = &object.soname {
                sonames.entry(soname.as_str()).or_insert(place);
            }
            let mut by_name: HashMap<&str, Vec<&Definition>> = HashMap::new();
            for definition in &object.definitions {
                by_name.entry(&definition.name).or_default().push(definition);
            }
            definitions.push(by_name);
        }
        Catalogue { objects, sonames, definitions }
    }

    fn target(&self, soname: &str) -> Option<usize> {
        self.sonames.get(soname).copied()
    }

    /// The root and then the needed targets of each listed object, each once.
    fn list(&self, root: usize) -> Vec<usize> {
        let mut list = vec![root];
        let mut place = 0;
        while place < list.len() {
            for name in &self.objects[list[place]].needed {
                if let Some(target) = self.target(name) {
                    if !list.contains(&target) {
                        list.push(target);
                    }
                }
            }
            place += 1;
        }
        list
    }

    /// Every needed name is some object's soname.
    fn check_targets(&self, load: &[usize]) -> Result<(), Refusal> {
        for &object in load {
            for (place, name) in self.objects[object].needed.iter().enumerate() {
                if self.target(name).is_none() {
                    return Err(Refusal { number: NO_TARGET, object, place });
                }
            }
        }
        Ok(())
    }

    /// Every version need is weak or met.
    fn check_wants(&self, load: &[usize]) -> Result<(), Refusal> {
        for &object in load {
            for (place, want) in self.objects[object].wants.iter().enumerate() {
                if !want.weak && !self.is_met(want, load) {
                    return Err(Refusal { number: UNMET_WANT, object, place });
                }
            }
        }
        Ok(())
    }

    /// Met by a loaded object that defines the version, or that defines no version at all.
    fn is_met(&self, want: &Want, load: &[usize]) -> bool {
        let Some(target) = self.target(&want.file) else { return false };
        let versions = &self.objects[target].versions;
        let defined = versions.iter().any(|version| version.name == want.version);
        load.contains(&target) && (versions.is_empty() || defined)
    }

    /// Binds every reference of the loaded objects, or tells the first that cannot be.
    fn bind_all(&self, load: &[usize]) -> Result<Vec<Binding>, Refusal> {
        let mut bindings = Vec::new();
        for &object in load {
            for (place, reference) in self.objects[object].references.iter().enumerate() {
                let target = self.bind(load, object, reference);
                if target.is_none() && !reference.weak {
                    let place = reference.number as usize;
                    return Err(Refusal { number: UNBOUND, object, place });
                }
                bindings.push(Binding { object, reference: place, target });
            }
        }
        Ok(bindings)
    }

    /// What a reference takes: itself if protected, else its symbolic object's own offer,
    /// else the first offer in load order.
    fn bind(&self, load: &[usize], object: usize, reference: &Reference) -> Option<(usize, u32)> {
        if reference.own && reference.protected {
            return Some((object, reference.number));
        }
        if self.objects[object].symbolic {
            if let Some(symbol) = self.offer(object, reference) {
                return Some((object, symbol));
            }
        }
        load.iter().find_map(|&other| Some((other, self.offer(other, reference)?)))
    }

    /// The symbol that an object offers to a reference.
    fn offer(&self, object: usize, reference: &Reference) -> Option<u32> {
        let same_name = self.definitions[object].get(reference.name.as_str())?;
        let versioned = self.objects[object].versioned;
        choose(same_name, versioned, reference.version.as_deref()).map(|chosen| chosen.number)
    }
}

/// Which of an object's definitions of one name, lowest number first, it offers.
pub fn choose<'a>(
    same_name: &[&'a Definition],
    versioned: bool,
    wanted: Option<&str>,
) -> Option<&'a Definition> {
    // Without symbol versions a wanted version does not matter.
    if !versioned {
        return same_name.first().copied();
    }
    if wanted.is_some() {
        let fits = |d: &&&Definition| d.version.as_deref() == wanted || (d.index == 1 && !d.hidden);
        return same_name.iter().find(fits).copied();
    }
    // Indices 1 and 2 are the base and the oldest version: what an unversioned user means.
    if let Some(base) = same_name.iter().find(|d| d.index == 1 || d.index == 2) {
        return Some(base);
    }
    // Later versions only serve where one visible one leaves no doubt.
    let mut visible = same_name.iter().filter(|d| d.index >= 3 && !d.hidden);
    match (visible.next(), visible.next()) {
        (Some(only), None) => Some(only),
        _ => None,
    }
}

/// The depth-first walk that puts each object down after the objects it needs.
struct Walk {
    entered: Vec<bool>,
    start: Vec<usize>,
}

impl Walk {
    fn enter(&mut self, catalogue: &Catalogue, object: usize) {
        if self.entered[object] {
            return;
        }
        self.entered[object] = true;
        for name in &catalogue.objects[object].needed {
            if let Some(target) = catalogue.target(name) {
                self.enter(catalogue, target);
            }
        }
        self.start.push(object);
    }
}
