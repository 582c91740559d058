//! Samples whose answers are known.

use crate::book;
use crate::kinds;
use crate::link::{choose, link};
use crate::make;
use crate::object::*;
use crate::report::answer;
use crate::rng::Rng;
use crate::sizes;
use crate::text;

const SAMPLE: &str = "\
book 1
object 0
needed can.so
ref 1 read 0
ref 2 note 0
object 0
soname can.so
needed log.so
def 2 read 0 0
def 3 note 0 0
ref 3 note 4
object 0
soname log.so
def 2 note 0 0
ref 2 note 4
ref 3 beep 1
";

const REPORT: &str = "\
load 0
load 1
load 2
init 2
init 1
init 0
bind 0 1 read 1 2
bind 0 2 note 1 3
bind 1 3 note 1 3
over 2 2 note 1 3
none 2 3 beep
";

fn answered(book: &str) -> String {
    answer(book.as_bytes())
}

#[test]
fn sample_report() {
    assert_eq!(answered(SAMPLE), REPORT);
}

#[test]
fn symbolic_object_takes_its_own() {
    let book = SAMPLE.replace("object 0\nsoname log.so", "object 1\nsoname log.so");
    let report = REPORT.replace("over 2 2 note 1 3", "bind 2 2 note 2 2");
    assert_eq!(answered(&book), report);
}

#[test]
fn missing_target() {
    assert_eq!(answered(&SAMPLE.replace("soname can.so\n", "")), "refused 15 0 0\n");
}

#[test]
fn cycle_starts_the_other_first() {
    let book = "book 1\nobject 0\nsoname a\nneeded b\nobject 0\nsoname b\nneeded a\n";
    assert_eq!(answered(book), "load 0\nload 1\ninit 1\ninit 0\n");
}

/// The symbol offered by definitions of one name with these indices, numbered from 1.
fn offered(written: &[(u32, Option<&str>)], wanted: Option<&str>) -> Option<u32> {
    let definition = |(place, (written, version)): (usize, &(u32, Option<&str>))| Definition {
        number: place as u32 + 1,
        name: "n".to_string(),
        index: written % HIDDEN,
        hidden: *written >= HIDDEN,
        weak: false,
        protected: false,
        version: version.map(String::from),
    };
    let definitions: Vec<Definition> = written.iter().enumerate().map(definition).collect();
    let same_name: Vec<&Definition> = definitions.iter().collect();
    choose(&same_name, true, wanted).map(|chosen| chosen.number)
}

#[test]
fn offers_without_a_wanted_version() {
    let v = Some("V");
    assert_eq!(offered(&[(3, v)], None), Some(1));
    assert_eq!(offered(&[(3, v), (4, v)], None), None);
    assert_eq!(offered(&[(3 + HIDDEN, v)], None), None);
    assert_eq!(offered(&[(2 + HIDDEN, v)], None), Some(1));
    assert_eq!(offered(&[(3 + HIDDEN, v), (4, v)], None), Some(2));
    assert_eq!(offered(&[(3, v), (4, v), (1 + HIDDEN, None)], None), Some(3));
}

#[test]
fn offers_with_a_wanted_version() {
    let (v, w) = (Some("V"), Some("W"));
    assert_eq!(offered(&[(3, w), (4 + HIDDEN, v)], v), Some(2));
    assert_eq!(offered(&[(1, None), (4, v)], v), Some(1));
    assert_eq!(offered(&[(1 + HIDDEN, None), (4, v)], v), Some(2));
    assert_eq!(offered(&[(1 + HIDDEN, None), (2, w)], v), None);
}

#[test]
fn first_bad_or_missing_line() {
    for (book, line) in [
        ("", 0),
        ("book 1", 0),
        ("book 2\n", 0),
        ("book 1\n", 1),
        ("book 1\nobject 0", 1),
        ("book 1\nobject 4\n", 1),
        ("book 1\nobject 0\nneeded a\nsoname b\n", 3),
        ("book 1\nobject 0\nsoname a\nsoname a\n", 3),
        ("book 1\nobject 2\ndef 1 a 2 0\n", 2),
        ("book 1\nobject 2\ndef 1 a 32769 0 V\n", 2),
        ("book 1\nobject 0\ndef 1 a 0 2\nref 1 a 4\n", 3),
        ("book 1\nobject 0\nref 1 a 3\n", 2),
    ] {
        assert_eq!(answered(book), format!("refused 10 65535 {line}\n"), "{book:?}");
    }
}

#[test]
fn too_long_is_told_before_any_line() {
    let book = format!("{SAMPLE}{}", "\n".repeat(LONGEST_INPUT));
    assert_eq!(answered(&book), "refused 10 65535 0\n");
    let lines = SAMPLE.lines().count();
    let bad = answered(&book[..LONGEST_INPUT]);
    assert_eq!(bad, format!("refused 10 65535 {lines}\n"));
}

#[test]
fn an_own_reference_can_take_a_lower_symbol_of_its_object() {
    let book = "book 1\nobject 0\ndef 1 a 0 0\ndef 2 a 0 0\ndef 3 a 0 2\nref 2 a 4\nref 3 a 6\n";
    assert_eq!(answered(book), "load 0\ninit 0\nover 0 2 a 0 1\nbind 0 3 a 0 3\n");
}

#[test]
fn needs_look_at_version_lines_of_loaded_objects() {
    let book = |want: &str, rest: &str| {
        let objects = book::read(format!("book 1\nobject 0\nneeded b\n{want}{rest}").as_bytes());
        link(&objects.expect("a lawful book"), 0).map_err(|refusal| refusal.place)
    };
    let bare = "object 2\nsoname b\ndef 1 a 2 0 V\n";
    let other = "object 0\nsoname b\nversion W 2\n";
    let apart = "object 0\nsoname b\nobject 0\nsoname c\nversion V 2\n";
    assert!(book("want b V 0\n", bare).is_ok());
    assert!(book("want b V 1\n", other).is_ok());
    assert_eq!(book("want b X 1\nwant b V 0\n", other).unwrap_err(), 1);
    assert_eq!(book("want c V 0\n", apart).unwrap_err(), 0);
}

#[test]
fn inputs_depend_on_seed_and_index_alone() {
    for index in 0..200 {
        assert_eq!(kinds::make(7, index), kinds::make(7, index));
    }
    assert!((0..20).any(|index| kinds::make(7, index) != kinds::make(8, index)));
}

#[test]
fn filled_books_are_lawful_and_have_their_size() {
    for index in 0..40 {
        let rng = &mut Rng::new(3, index);
        let small = make::small(rng);
        let size = LONGEST_INPUT - index as usize;
        let book = sizes::filled(rng, text::write(&small), size);
        assert_eq!(book.len(), size);
        assert!(book::read(&book).is_ok());
    }
}

#[test]
fn small_books_are_lawful_and_read_back_as_written() {
    for index in 0..500 {
        let book = text::write(&make::small(&mut Rng::new(4, index)));
        let objects = book::read(&book).expect("a lawful book");
        assert_eq!(text::write(&objects), book);
    }
}
