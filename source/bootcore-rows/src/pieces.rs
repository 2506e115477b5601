//! Bytes in a row: pieces, one appended after the other, and changes of what stands so far.

use crate::row::{Answered, Stop};
use crate::words::{cut, number, numbers};
use bootcore::shim::alloc::Global;
use bootcore_cli::shim::hex;
use std::collections::HashMap;
use std::fmt::Write;

/// So many equal bytes in a row, or more, are told by their count.
const MANY: usize = 16;

/// The bytes that have names.
#[derive(Default)]
pub struct Names(HashMap<String, Vec<u8>>);

impl Names {
    /// Gives bytes a name, which no others have then.
    pub fn insert(&mut self, name: &str, bytes: Vec<u8>) {
        self.0.insert(name.to_owned(), bytes);
    }

    pub fn get_mut(&mut self, name: &str) -> Option<&mut Vec<u8>> {
        self.0.get_mut(name)
    }

    /// Appends the bytes of a piece: those of a name, of numbers (`u16:N,N`, `u32:N`, `u64:N`), or of digits.
    fn push(&self, bytes: &mut Vec<u8>, piece: &str) -> Answered {
        if let Some(named) = self.0.get(piece) {
            bytes.extend_from_slice(named);
            return Ok(());
        }
        match piece.split_once(':') {
            Some(("u16", list)) => bytes.extend(numbers(list)?.into_iter().flat_map(u16::to_le_bytes)),
            Some(("u32", list)) => bytes.extend(numbers(list)?.into_iter().flat_map(u32::to_le_bytes)),
            Some(("u64", list)) => bytes.extend(numbers(list)?.into_iter().flat_map(u64::to_le_bytes)),
            _ => bytes.extend_from_slice(&hex::decode(Global, piece).map_err(|_| Stop::BadRow)?),
        }
        Ok(())
    }

    /// `OFFSET=PIECE`: puts a piece over the bytes.
    fn change(&self, bytes: &mut [u8], change: &str) -> Answered {
        let (at, piece) = cut(change, "=")?;
        let mut over = Vec::new();
        self.push(&mut over, piece)?;
        let place = bytes.get_mut(number(at)?..).and_then(|from| from.get_mut(..over.len()));
        place.ok_or(Stop::BadRow)?.copy_from_slice(&over);
        Ok(())
    }

    /// The bytes of these words.
    pub fn bytes(&self, words: &str) -> Answered<Vec<u8>> {
        let mut bytes = Vec::new();
        for word in words.split_whitespace() {
            if let Some(length) = word.strip_prefix('<') {
                let length = number(length)?;
                bytes.get(length..).ok_or(Stop::BadRow)?;
                bytes.truncate(length);
            } else if let Some(length) = word.strip_prefix('>') {
                let length = number(length)?;
                if length < bytes.len() {
                    return Err(Stop::BadRow);
                }
                bytes.resize(length, 0);
            } else if let Some(change) = word.strip_prefix('@') {
                self.change(&mut bytes, change)?;
            } else {
                let (count, piece) = word.split_once('*').unwrap_or(("1", word));
                for _ in 0..number::<u64>(count)? {
                    self.push(&mut bytes, piece)?;
                }
            }
        }
        Ok(bytes)
    }
}

/// Two digits for each byte.
pub fn digits(bytes: &[u8]) -> String {
    bytes.iter().map(|byte| format!("{byte:02x}")).collect()
}

/// Bytes as an answer has them: digits, and `COUNT*DIGITS` where one byte stands sixteen times in a row or more.
pub fn pieces(bytes: &[u8]) -> String {
    let mut text = String::new();
    for run in bytes.chunk_by(|one, other| one == other) {
        if run.len() < MANY {
            text += &digits(run);
            continue;
        }
        let blank = if text.is_empty() || text.ends_with(' ') { "" } else { " " };
        write!(text, "{blank}{:x}*{:02x} ", run.len(), run[0]).expect("a text grows");
    }
    text.truncate(text.trim_end().len());
    text
}
