//! What the program's code takes from Rattle's std and ports, beyond what the core takes. There is no `unsafe`.

pub use bootcore::shim::{alloc, error, fmt, io, marker, mem, ops, sha2, vec};
pub use core::str;

pub mod string {
    use super::alloc::{AllocError, Allocator, Global};
    use super::vec::Vec;
    use core::fmt;

    /// std::string::String: each growth may be refused. It is UTF-8, since only texts are written to it.
    pub struct String<A: Allocator = Global> {
        held: Vec<u8, A>,
    }

    impl<A: Allocator> String<A> {
        /// String::new.
        pub fn new(alloc: A) -> String<A> {
            String { held: Vec::new(alloc) }
        }

        /// String::from_str.
        pub fn from_str(alloc: A, text: &str) -> Result<String<A>, AllocError> {
            Ok(String { held: Vec::from_slice(alloc, text.as_bytes())? })
        }

        /// format!(in alloc; ..).
        pub fn format<D: fmt::Display>(alloc: A, value: D) -> Result<String<A>, AllocError> {
            let mut made = String::new(alloc);
            made.write_fmt(format_args!("{value}"))?;
            Ok(made)
        }

        /// What is written in digits.
        pub(super) fn of_digits(digits: Vec<u8, A>) -> String<A> {
            String { held: digits }
        }

        /// String::push_str.
        pub fn push_str(&mut self, text: &str) -> Result<(), AllocError> {
            self.held.extend_from_slice(text.as_bytes())
        }

        /// write!: all of it, or nothing.
        pub fn write_fmt(&mut self, text: fmt::Arguments<'_>) -> Result<(), AllocError> {
            let before = self.held.len();
            let mut pieces = Pieces { held: &mut self.held, fill: [0; 32], count: 0 };
            if fmt::Write::write_fmt(&mut pieces, text).and_then(|()| fmt::Write::write_str(&mut pieces, "")).is_err() {
                self.held.truncate(before);
                return Err(AllocError);
            }
            Ok(())
        }

        /// String::clear.
        pub fn clear(&mut self) {
            self.held.clear();
        }

        /// String::as_bytes.
        pub fn as_bytes(&self) -> &[u8] {
            self.held.as_slice()
        }

        /// String::as_str.
        pub fn as_str(&self) -> &str {
            core::str::from_utf8(&self.held).expect("what was written is text")
        }
    }

    impl<A: Allocator> core::ops::Deref for String<A> {
        type Target = str;

        fn deref(&self) -> &str {
            self.as_str()
        }
    }

    impl<A: Allocator> fmt::Display for String<A> {
        fn fmt(&self, f: &mut fmt::Formatter<'_>) -> fmt::Result {
            self.as_str().fmt(f)
        }
    }

    /// Asks for memory as the toolchain's library does: what pads a number comes with its digits, not each character alone.
    struct Pieces<'a, A: Allocator> {
        held: &'a mut Vec<u8, A>,
        fill: [u8; 32],
        count: usize,
    }

    impl<A: Allocator> fmt::Write for Pieces<'_, A> {
        fn write_char(&mut self, fill: char) -> fmt::Result {
            if !fill.is_ascii() || self.count == self.fill.len() {
                return self.write_str(fill.encode_utf8(&mut [0; 4]));
            }
            self.fill[self.count] = fill as u8;
            self.count += 1;
            Ok(())
        }

        fn write_str(&mut self, text: &str) -> fmt::Result {
            let fill = &self.fill[..core::mem::take(&mut self.count)];
            self.held.reserve(fill.len() + text.len()).map_err(|_| fmt::Error)?;
            self.held.extend_from_slice(fill).map_err(|_| fmt::Error)?;
            self.held.extend_from_slice(text.as_bytes()).map_err(|_| fmt::Error)
        }
    }
}

/// format!, of which the exporter writes the allocator as `format!(in alloc; ..)` has it.
#[macro_export]
#[doc(hidden)]
macro_rules! format_in {
    ($alloc:expr; $($text:tt)+) => {
        $crate::shim::string::String::format($alloc, format_args!($($text)+))
    };
}

pub mod collections {
    use super::alloc::{AllocError, Allocator};
    use super::vec::Vec;

    /// std::collections::BTreeSet: a set, as a vector in order.
    pub struct BTreeSet<T, A: Allocator> {
        held: Vec<T, A>,
    }

    impl<T: Ord, A: Allocator> BTreeSet<T, A> {
        /// BTreeSet::new.
        pub fn new(alloc: A) -> BTreeSet<T, A> {
            BTreeSet { held: Vec::new(alloc) }
        }

        /// BTreeSet::insert: whether it is new.
        pub fn insert(&mut self, item: T) -> Result<bool, AllocError> {
            let Err(at) = self.held.binary_search(&item) else {
                return Ok(false);
            };
            self.held.insert(at, item)?;
            Ok(true)
        }
    }
}

pub mod hex {
    use super::alloc::{AllocError, Allocator};
    use super::string::String;
    use super::vec::Vec;

    /// hex::FromHexError.
    #[derive(Clone, Copy, Debug, PartialEq, Eq)]
    pub enum FromHexError {
        /// Not of an even count of hex digits.
        NotHex,
        OutOfMemory,
    }

    impl From<AllocError> for FromHexError {
        fn from(_: AllocError) -> FromHexError {
            FromHexError::OutOfMemory
        }
    }

    /// hex::decode, into memory that may be refused.
    pub fn decode<A: Allocator>(alloc: A, text: &str) -> Result<Vec<u8, A>, FromHexError> {
        let mut bytes = Vec::from_elem(alloc, 0, text.len() / 2)?;
        hex::decode_to_slice(text, &mut bytes).map_err(|_| FromHexError::NotHex)?;
        Ok(bytes)
    }

    /// hex::encode, into memory that may be refused.
    pub fn encode<A: Allocator>(alloc: A, bytes: &[u8]) -> Result<String<A>, AllocError> {
        let mut digits = Vec::from_elem(alloc, 0, 2 * bytes.len())?;
        hex::encode_to_slice(bytes, &mut digits).expect("two digits for each byte");
        Ok(String::of_digits(digits))
    }
}

/// The crate toml, which does not answer want of memory: the process ends.
pub mod toml {
    mod second_key;

    use super::alloc::Global;
    pub use ::toml::Value;
    pub use ::toml::value::Table;

    pub mod de {
        use core::ops::Range;

        /// toml::de::Error, by the place that it tells.
        pub struct Error(pub(super) usize);

        impl Error {
            /// Error::is_memory.
            pub fn is_memory(&self) -> bool {
                false
            }

            /// Error::span, of which the beginning alone is asked for.
            pub fn span(&self) -> Option<Range<usize>> {
                Some(self.0..self.0)
            }
        }
    }

    /// toml::table_from_str.
    pub fn table_from_str(_global: Global, text: &str) -> Result<Table, de::Error> {
        // As a `Value`: where it reads a `Table`, toml 0.5 lets a key stand twice.
        match ::toml::from_str::<Value>(text) {
            Ok(Value::Table(table)) => Ok(table),
            Ok(_) => unreachable!("a document is a table"),
            Err(error) => {
                let is_second = error.to_string().starts_with("duplicate key: ");
                let second = is_second.then(|| second_key::place(text)).flatten();
                Err(de::Error(second.unwrap_or_else(|| place(text, &error))))
            }
        }
    }

    /// Where toml 0.5 found a fault: it counts lines and columns from 0.
    fn place(text: &str, error: &::toml::de::Error) -> usize {
        let (line, column) = error.line_col().unwrap_or((0, 0));
        let before: usize = text.split_inclusive('\n').take(line).map(str::len).sum();
        (before + column).min(text.len())
    }
}

pub mod prelude {
    pub use super::string::String;
    pub use crate::format_in;
    pub use bootcore::shim::prelude::*;
}
