//! How the words of a row are read. Numbers are hexadecimal.

use crate::row::{Answered, Stop};
use std::ops::Range;

/// What stands before and behind a mark.
pub fn cut<'t>(text: &'t str, mark: &str) -> Answered<(&'t str, &'t str)> {
    text.split_once(mark).ok_or(Stop::BadRow)
}

/// What stands before and behind a mark; without one, all and something else.
pub fn cut_or<'t>(text: &'t str, mark: char, otherwise: &'t str) -> (&'t str, &'t str) {
    text.split_once(mark).unwrap_or((text, otherwise))
}

/// The first word, and what follows it, which may be nothing.
pub fn first_word(text: &str) -> (&str, &str) {
    let (word, rest) = cut_or(text, ' ', "");
    (word, rest.trim())
}

/// What stands after `NAME=` in a word.
pub fn field<'t>(word: &'t str, name: &str) -> Answered<&'t str> {
    match cut(word, "=")? {
        (key, value) if key == name => Ok(value),
        _ => Err(Stop::BadRow),
    }
}

/// The value of this name in a table.
pub fn pick<T: Copy>(table: &[(&str, T)], name: &str) -> Answered<T> {
    table.iter().find(|(known, _)| *known == name).map(|(_, value)| *value).ok_or(Stop::BadRow)
}

/// The number of these digits.
pub fn number<T: TryFrom<u64>>(digits: &str) -> Answered<T> {
    u64::from_str_radix(digits, 16).ok().and_then(|number| T::try_from(number).ok()).ok_or(Stop::BadRow)
}

/// The numbers that stand between commas.
pub fn numbers<T: TryFrom<u64>>(list: &str) -> Answered<Vec<T>> {
    list.split(',').map(number).collect()
}

/// The numbers that stand between commas, if the list is not empty.
pub fn numbers_if_any(list: &str) -> Answered<Vec<u64>> {
    list.split_terminator(',').map(number).collect()
}

/// The range that `START..END` is.
pub fn range(word: &str) -> Answered<Range<u64>> {
    let (start, end) = cut(word, "..")?;
    Ok(number(start)?..number(end)?)
}

/// The ranges that these words are.
pub fn ranges(words: &str) -> Answered<Vec<Range<u64>>> {
    words.split_whitespace().map(range).collect()
}
