//! Why an entry or an image is refused.

use core::fmt;

/// What a field of a refusal is.
macro_rules! about {
    (file) => {
        "Its place in the entry, of which the kernel's is 0."
    };
    (offset) => {
        "Its offset in the kernel's file."
    };
    (tag) => {
        "The tag's type."
    };
    (segment) => {
        "The index of its program header."
    };
    (one) => {
        "The index of a program header."
    };
    (other) => {
        "The index of the other."
    };
    (part) => {
        "The part's index."
    };
}

/// Shows a refusal with what it carries: an offset to the base 16, other numbers to the base 10.
fn show(
    to: &mut fmt::Formatter<'_>,
    begins: &str,
    number: u32,
    name: &str,
    carries: &[(&str, u64)],
    meaning: &str,
) -> fmt::Result {
    write!(to, "{begins} {number} {name}")?;
    match carries {
        [] => {}
        [("offset", offset)] => write!(to, "({offset:#x})")?,
        [(_, one)] => write!(to, "({one})")?,
        [(_, one), (_, other), ..] => write!(to, "({one}, {other})")?,
    }
    write!(to, ": {meaning}")
}

const NO_MEANING: &str = "no refusal has this number";

/// An enum over numbers of the header that carry at most two numbers, with their meaning in words.
macro_rules! refusals {
    ($(#[$about:meta])* $name:ident $begins:literal {
        $(
            $variant:ident $(($first:ident $(, $second:ident)?))? = $number:literal,
            $meaning:literal;
        )*
    }) => {
        $(#[$about])*
        #[derive(Clone, Copy, Debug, PartialEq, Eq, Hash)]
        #[non_exhaustive]
        pub enum $name {
            $(
                #[doc = concat!("Number ", $number, ": ", $meaning, ".")]
                $variant $({
                    #[doc = about!($first)]
                    $first: u64,
                    $(
                        #[doc = about!($second)]
                        $second: u64,
                    )?
                })?,
            )*
            /// One that this version of the crate does not know.
            Other {
                /// Its number.
                number: u32,
                /// What it carries.
                first: u64,
                /// What else it carries.
                second: u64,
            },
        }

        impl $name {
            /// What a number means, and what it carries: the inverse of [`number`](Self::number),
            /// as for what was recorded.
            pub fn from_number(number: u32, first: u64, second: u64) -> $name {
                match number {
                    $($number => Self::$variant $({ $first: first, $($second: second)? })?,)*
                    _ => Self::Other { number, first, second },
                }
            }

            /// What it carries, 0 for nothing: as a recorder wants it beside its number.
            pub fn carries(self) -> (u64, u64) {
                match self {
                    $($(Self::$variant { $first, $($second)? } => ($first, 0 $(+ $second)?),)?)*
                    Self::Other { first, second, .. } => (first, second),
                    _ => (0, 0),
                }
            }

            /// Its number, which keeps its meaning.
            pub fn number(self) -> u32 {
                match self {
                    $(Self::$variant { .. } => $number,)*
                    Self::Other { number, .. } => number,
                }
            }

            /// What it means in words, without what it carries.
            pub fn meaning(self) -> &'static str {
                match self {
                    $(Self::$variant { .. } => $meaning,)*
                    Self::Other { .. } => NO_MEANING,
                }
            }
        }

        impl fmt::Display for $name {
            fn fmt(&self, to: &mut fmt::Formatter<'_>) -> fmt::Result {
                let (name, carries): (&str, &[(&str, u64)]) = match *self {
                    $(
                        Self::$variant $({ $first, $($second)? })? => (
                            stringify!($variant),
                            &[$((stringify!($first), $first), $((stringify!($second), $second))?)?],
                        ),
                    )*
                    Self::Other { number, .. } => {
                        return write!(to, "{} {number}: {NO_MEANING}", $begins);
                    }
                };
                show(to, $begins, self.number(), name, carries, self.meaning())
            }
        }

        impl core::error::Error for $name {}
    };
}

refusals! {
    /// Why an entry is refused. Shown, it is a line as of `bootcore explain`. Of a line that is too
    /// long [`Entry::long_line`](crate::Entry::long_line) says which, and its limit; of a part that
    /// finds no place [`unplaced`](crate::unplaced()) says which, and what it wants.
    ///
    /// ```
    /// let refusal = bootcore::Refusal::NoFile { file: 0 };
    /// assert!(refusal.to_string().starts_with("refused 1 NoFile(0): the file can't be read: "));
    /// ```
    Refusal "refused" {
        // >>> tools/refusals: refusals
        NoFile(file) = 1, "the file can't be read: it is missing, or no regular file";
        FileFault(file) = 2, "a piece of the file did not come";
        FileTooLong(file) = 3, "the file is too long: it has more than 0x40000000 bytes";
        NoHeader = 4, "no Multiboot2 header in the first 32768 bytes, at a multiple of 8, with a \
            right sum";
        HeaderCut = 5, "the Multiboot2 header is cut: its length is below 24, passes the file's \
            end, or passes the first 32768 bytes";
        BadArchitecture = 6, "the header is for another architecture than i386";
        BadTag(offset) = 7, "a bad header tag at this offset: it is cut, has a bad size, or is an \
            address tag that the file can't meet";
        UnsupportedTag(tag) = 8, "a header tag of an unknown type is required";
        UnsupportedRequest(tag) = 9, "a required request names type 9, the ELF symbols, which are \
            never given, or a type that the specification does not have";
        NoConsole = 10, "a console is required, and there is none";
        NotElf = 11, "not an ELF file; without an address tag it must be one";
        BadElf = 12, "a bad ELF file: its header or a program header breaks a rule";
        SegmentCut(segment) = 13, "the segment is cut: its bytes pass the file's end";
        AddressTooHigh(segment) = 14, "the segment lies too high: it ends above 4 GiB";
        SegmentsOverlap(one, other) = 15, "the two segments overlap: they share a byte";
        NoEntry = 16, "no entry address: there is no entry address tag, and the file names no \
            entry in a segment";
        EntryOutside = 17, "the entry lies in no segment at its linked address; of a Linux kernel \
            by the 64-bit entry: the payload has at most 0x200 bytes";
        BadAlign = 18, "the alignment is no power of two: kernel_alignment of a relocatable kernel";
        NotUsable = 19, "a part at a fixed address has a byte that is not usable, or is avoided";
        NoRoom = 20, "no address is permitted for a part";
        NoPool = 21, "the pool is too small for the files: in all, or beside the parts";
        NotBzImage = 22, "not a bzImage";
        OldProtocol = 23, "the boot protocol is older than 2.10";
        NotHigh = 24, "the kernel is not loaded high";
        SetupCut = 25, "the setup is cut: the setup header ends too early, or there is no payload";
        BadPreferred = 26, "the kernel can't be relocated, and its preferred address is not from 1 \
            MiB to 4 GiB";
        LineTooLong = 27, "a line is too long: it has more than 4095 bytes, or more than the \
            kernel takes";
        LineHasNul = 28, "a line has a zero byte";
        MapTooLong = 29, "the memory map has too many runs for a Linux kernel: more than 128";
        No64Entry = 30, "no 64-bit entry: the boot protocol is older than 2.12, or xloadflags has \
            bit 0 clear";
        // <<<
    }
}

refusals! {
    /// What an image has wrong.
    ///
    /// ```
    /// use bootcore::{walk, Error, Fault};
    ///
    /// assert_eq!(walk(b"no image").unwrap_err(), Error::BadImage(Fault::BadMagic));
    /// ```
    Fault "bad image" {
        // >>> tools/refusals: faults
        BadMagic = 71, "the first eight bytes are not BLIMAGE and a zero byte";
        BadVersion = 72, "another version than 1 and 2";
        BadHeader = 73, "a protocol, a register or a number of parts that is not allowed, or a \
            word after that number that is not 0; version 1 with protocol 3";
        BadPart(part) = 74, "record i is bad: its role, its address, its length or its end; role 8 \
            is allowed with protocol 3 alone";
        WrongLength = 75, "the image ends too early, or goes on after its end";
        OutsideImage = 81, "the entry lies in no part of the kernel, or an address that the kernel \
            follows leads out of the parts";
        BadInfo = 82, "the information, the boot parameters or a line break their form";
        BadState = 83, "a register, the descriptors, or where the page tables lead, are not those \
            of the entry state";
        // <<<
    }
}
