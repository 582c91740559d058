//! Writes what a link gives, and answers a whole input as the checked program must.

use crate::book;
use crate::link::{link, Binding, Linked};
use crate::object::{Object, Refusal};
use std::fmt::Write;

/// The report or the refusal for an input, with object 0 as the root.
pub fn answer(input: &[u8]) -> String {
    let linked = |objects: Vec<Object>| Ok(report(&objects, &link(&objects, 0)?));
    book::read(input).and_then(linked).unwrap_or_else(refusal)
}

fn refusal(refusal: Refusal) -> String {
    format!("refused {} {} {}\n", refusal.number, refusal.object, refusal.place)
}

fn report(objects: &[Object], linked: &Linked) -> String {
    let mut text = String::new();
    for object in &linked.load {
        line(&mut text, format_args!("load {object}"));
    }
    for object in &linked.start {
        line(&mut text, format_args!("init {object}"));
    }
    for binding in &linked.bindings {
        bound(&mut text, objects, binding);
    }
    text
}

/// The line of one reference.
fn bound(text: &mut String, objects: &[Object], binding: &Binding) {
    let object = binding.object;
    let reference = &objects[object].references[binding.reference];
    let (number, name) = (reference.number, &reference.name);
    let Some((target, symbol)) = binding.target else {
        return line(text, format_args!("none {object} {number} {name}"));
    };
    // `over`: the object defines the symbol, and yet another definition was taken.
    let itself = (target, symbol) == (object, number);
    let word = if reference.own && !itself { "over" } else { "bind" };
    line(text, format_args!("{word} {object} {number} {name} {target} {symbol}"));
}

fn line(text: &mut String, line: std::fmt::Arguments) {
    writeln!(text, "{line}").expect("a String takes every line");
}
