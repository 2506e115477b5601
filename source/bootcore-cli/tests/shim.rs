//! The stand-ins of the shim do what those of Rattle's std and ports do.

use bootcore::shim::alloc::{AllocError, Allocator, Global};
use bootcore_cli::format_in;
use bootcore_cli::program_line::{Job, LineFault, Order, read_line};
use bootcore_cli::shim::collections::BTreeSet;
use bootcore_cli::shim::hex::{FromHexError, decode, encode};
use bootcore_cli::shim::string::String;
use bootcore_cli::shim::toml::table_from_str;
use std::cell::Cell;

/// Refuses each growth.
struct Nothing;

impl Allocator for Nothing {
    fn grant(&self, _: usize) -> Result<(), AllocError> {
        Err(AllocError)
    }
}

/// Grants one growth.
struct Once(Cell<bool>);

impl Allocator for Once {
    fn grant(&self, _: usize) -> Result<(), AllocError> {
        if self.0.replace(false) { Ok(()) } else { Err(AllocError) }
    }
}

#[test]
fn texts_grow_or_say_that_they_can_not() {
    let mut text = String::new(Global);
    assert_eq!(text.push_str("a"), Ok(()));
    assert_eq!(text.write_fmt(format_args!("{:02x}", 10)), Ok(()));
    assert_eq!((text.as_str(), text.as_bytes(), &*text), ("a0a", &b"a0a"[..], "a0a"));
    text.clear();
    assert_eq!(text.as_str(), "");
    assert_eq!(String::from_str(Global, "é").unwrap().to_string(), "é");
    assert_eq!(format_in!(Global; "{}-{}", 1, "b").unwrap().as_str(), "1-b");
    let mut full = String::new(Once(Cell::new(true)));
    assert_eq!(full.write_fmt(format_args!("{}", 12345678)), Ok(()));
    assert_eq!(full.write_fmt(format_args!("{}{}", "", 9)), Err(AllocError));
    assert_eq!(full.as_str(), "12345678");
    assert_eq!(String::new(Nothing).push_str("a"), Err(AllocError));
    assert!(String::from_str(Nothing, "a").is_err());
    assert!(format_in!(Nothing; "{}", 1).is_err());
}

#[test]
fn a_set_has_each_item_once() {
    let mut set = BTreeSet::new(Global);
    let inserted = [3, 1, 2, 1, 3].map(|item| set.insert(item));
    assert_eq!(inserted, [Ok(true), Ok(true), Ok(true), Ok(false), Ok(false)]);
    assert_eq!(BTreeSet::new(Nothing).insert(1), Err(AllocError));
}

#[test]
fn hex_is_of_both_cases_and_whole_bytes() {
    for (text, bytes) in [("", &[][..]), ("00fF", &[0, 255]), ("aAbB", &[0xAA, 0xBB])] {
        assert_eq!(decode(Global, text).unwrap().as_slice(), bytes);
    }
    for text in ["0", "0g", "0x", " 00", "00 ", "é"] {
        assert_eq!(decode(Global, text).unwrap_err(), FromHexError::NotHex, "{text}");
    }
    assert_eq!(decode(Nothing, "00").unwrap_err(), FromHexError::OutOfMemory);
    assert_eq!(encode(Global, &[0, 10, 255]).unwrap().as_str(), "000aff");
    assert!(encode(Nothing, &[0]).is_err());
}

#[test]
fn a_fault_of_toml_has_the_place_of_what_is_wrong() {
    // `^` stands before the place
    for text in [
        "a = 1\n^a = 2\n",
        "a = 1\nb = 1979-05-27T07:32:00Z\nc = 07:32:00\n^b = 2\n",
        "[t]\na = 1\n[u]\na = 1\n^a = 2\n",
        "[[t]]\na = 1\n[[t]]\na = 2\n^a = 3\n",
        "a = { b = 1, ^b = 2 }\n",
        "a = [{ b = 1 }, { b = 2, c = [\n1,\n2 ], ^b = 3 }]\n",
        "\"a\" = \"\"\"\na = 1\n\"\"\"\n^'a' = 2\n",
        "a = 1\r\n^a = 2\r\n",
    ] {
        let error = table_from_str(Global, &text.replace('^', "")).expect_err(text);
        assert_eq!(error.span().map(|place| place.start), text.find('^'), "{text}");
        assert!(!error.is_memory());
    }
    for text in ["a = 1\nb = \nc = 2\n", "[t]\nx y\n", "a = \"\n"] {
        let error = table_from_str(Global, text).expect_err(text);
        assert!(text[..error.span().unwrap().start].lines().count() >= 1, "{text}");
    }
    let read = table_from_str(Global, "a = 1\n[t]\na = [2, { a = 3 }]\n").ok().expect("a table");
    assert_eq!(read["a"].as_integer(), Some(1));
}

#[test]
fn toml_is_read_otherwise_as_the_readme_lists() {
    for text in ["a = { b = 1,\n c = 2 }\n", "a = { b = 1, }\n", "a = \"\\e\"\n", "a = \"\\x41\"\n", "a = 07:32\n"] {
        assert!(table_from_str(Global, text).is_err(), "{text}");
    }
    assert!(table_from_str(Global, "a = 1979-02-30\n").is_ok());
    // beside the place that the proved program tells
    for (text, proved) in [("a = 01\n", 4), ("[a]\nb.c = 1\n[a.b]\nd = 1\n", 12), ("a = {}\na.b = 1\n", 7)] {
        let error = table_from_str(Global, text).expect_err(text);
        assert_ne!(error.span().map(|span| span.start), Some(proved), "{text}");
    }
}

#[test]
fn a_command_line_has_one_job() {
    let read = |line: &str| read_line(Global, &line.split(' ').collect::<Vec<_>>());
    let text = std::string::String::from;
    let boot = Job::Boot { description: text("a"), image: text("b"), order: Order::Reverse };
    assert_eq!(read("x boot a --out=b --order reverse"), Ok(boot));
    assert_eq!(read("x digest -- --image"), Ok(Job::Digest { description: text("--image") }));
    assert_eq!(read("x digest --image a"), Ok(Job::DigestImage { image: text("a") }));
    assert_eq!(read("x map -h"), Err(LineFault::Help));
    for line in ["x", "x help", "x --version", "x map", "x map a b", "x boot a --out b --out c", "x digest --im a"] {
        assert_eq!(read(line), Err(LineFault::Refused), "{line}");
    }
    assert_eq!(read_line(Global, &[]), Err(LineFault::Refused));
}
