//! A row's call while it is made: its words, what it is over, and the answer so far.

use crate::calls::machine;
use crate::refusing::Refusing;
use crate::session::Session;
use crate::words::{field, first_word, number};
use bootcore::proved::bl_map::Machine;
use bootcore::shim::alloc::{AllocError, AllocFailed, Global};
use bootcore::shim::vec::Vec as CoreVec;
use std::num::ParseIntError;

/// Why a call, or a step of one, ends early.
pub enum Stop {
    /// The row can't be read, or asks for what a call of the core may not be asked.
    BadRow,
    /// A request for memory was refused, which ends the answer, whatever words are left.
    NoMemory,
    /// This ends the answer.
    Answer(String),
}

pub type Answered<T = ()> = Result<T, Stop>;

impl From<AllocError> for Stop {
    fn from(_: AllocError) -> Stop {
        Stop::NoMemory
    }
}

impl<T> From<AllocFailed<T>> for Stop {
    fn from(_: AllocFailed<T>) -> Stop {
        Stop::NoMemory
    }
}

impl From<ParseIntError> for Stop {
    fn from(_: ParseIntError) -> Stop {
        Stop::BadRow
    }
}

/// Refuses a row that asks for what a call of the core may not be asked.
pub fn require(is_met: bool) -> Answered {
    if is_met { Ok(()) } else { Err(Stop::BadRow) }
}

/// A vector of the core over the global allocator, which refuses nothing.
pub fn core_vec<T: Clone>(items: &[T]) -> CoreVec<T> {
    CoreVec::from_slice(Global, items).expect("memory")
}

/// Appends to a row's answer.
macro_rules! say {
    ($row:expr, $($text:tt)+) => {
        std::fmt::Write::write_fmt(&mut $row.text, format_args!($($text)+)).expect("a text grows")
    };
}
pub(crate) use say;

/// A row's call while it is made.
pub struct Row<'a> {
    /// The memory whose requests the row may have refused.
    pub heap: &'a Refusing,
    /// What earlier lines left.
    pub session: &'a Session,
    /// The bytes that the call is over.
    pub bytes: &'a [u8],
    /// The answer so far.
    pub text: String,
    /// The words that were not read yet.
    words: &'a str,
}

impl<'a> Row<'a> {
    /// A call of these words over bytes, whose answer is empty.
    pub fn new(heap: &'a Refusing, session: &'a Session, words: &'a str, bytes: &'a [u8]) -> Row<'a> {
        Row { heap, session, bytes, text: String::new(), words }
    }

    /// The next word, which is empty where none is left.
    pub fn word(&mut self) -> &'a str {
        let (word, rest) = first_word(self.words);
        self.words = rest;
        word
    }

    /// All words that are left.
    pub fn rest(&mut self) -> &'a str {
        std::mem::take(&mut self.words)
    }

    /// What stands after `NAME=` in the next word.
    pub fn field(&mut self, name: &str) -> Answered<&'a str> {
        field(self.word(), name)
    }

    /// The number that is the next word.
    pub fn number<T: TryFrom<u64>>(&mut self) -> Answered<T> {
        number(self.word())
    }

    /// The number that stands after `NAME=` in the next word.
    pub fn number_field<T: TryFrom<u64>>(&mut self, name: &str) -> Answered<T> {
        number(self.field(name)?)
    }

    /// The bytes that stand after `NAME=` in the next word.
    pub fn bytes_field(&mut self, name: &str) -> Answered<Vec<u8>> {
        self.session.bytes(self.field(name)?)
    }

    /// The last machine that was accepted, made again over a heap.
    pub fn machine_over<'h>(&self, heap: &'h Refusing) -> Answered<Machine<&'h Refusing>> {
        machine::read(self.session, &self.session.machine, heap)?.map_err(|_| Stop::NoMemory)
    }

    /// Ends a call, or a step of one, of which all words must have been read. That memory ran out is marked where no request was
    /// refused after the first so many refusals.
    pub fn end(&mut self, made: Answered, refused: u64) -> Answered {
        match made {
            Ok(()) => {}
            Err(Stop::BadRow) => return Err(Stop::BadRow),
            Err(Stop::Answer(text)) => self.text += &text,
            Err(Stop::NoMemory) => {
                self.text += "no memory";
                self.words = "";
            }
        }
        require(self.words.is_empty())?;
        if self.text.ends_with("no memory") && self.heap.refused() == refused {
            self.text += ", unasked";
        }
        Ok(())
    }

    /// Makes a step of these words, whose answer stands behind those of the steps before.
    pub fn step(&mut self, words: &'a str, refused: u64, make: impl FnOnce(&mut Row<'a>) -> Answered) -> Answered {
        if !self.text.is_empty() {
            self.text += "; ";
        }
        self.words = words.trim();
        let made = make(self);
        self.end(made, refused)
    }

    /// Makes each of the steps that are left. One that answers want of memory must have been refused a request itself.
    pub fn steps(&mut self, mut make: impl FnMut(&mut Row<'a>) -> Answered) -> Answered {
        for words in self.rest().split(';') {
            let refused = self.heap.refused();
            self.step(words, refused, &mut make)?;
        }
        Ok(())
    }
}
