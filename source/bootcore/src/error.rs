//! How a call ends that does not do what it is called for.

use alloc::vec::Vec;
use core::fmt;

use crate::numbers::numbered;
use crate::refusal::{Fault, Refusal};

macro_rules! misuses {
    ($(#[$about:meta])* $name:ident {
        $($variant:ident = $number:literal, $meaning:literal;)*
    }) => {
        numbered! {
            $(#[$about])*
            $name {
                $(
                    #[doc = concat!("Number ", $number, ": ", $meaning, ".")]
                    $variant = $number,
                )*
            }
        }

        impl fmt::Display for $name {
            fn fmt(&self, to: &mut fmt::Formatter<'_>) -> fmt::Result {
                match self {
                    $(Self::$variant => to.write_str($meaning),)*
                    Self::Other(number) => write!(to, "misuse {number}: no status has this number"),
                }
            }
        }
    };
}

misuses! {
    /// A mistake of the program that calls, or of the data that it passes on, as a memory map of a
    /// firmware. Nothing was changed. Of several the first in this order is told. What no program
    /// in Rust can do wrong, as a reserved word, has no name here. Which region is bad
    /// [`Machine::bad_region`](crate::Machine::bad_region) says.
    Misuse {
        NoBytes = 101, "a file is known by its length alone, and its bytes are read";
        BadFile = 103, "a file can't be read, or a plan is carried out with too few or too short \
            files";
        BadSize = 106, "the machine's size is no multiple of 4096 from 1 MiB to 4 GiB: what lies \
            above 4 GiB is a region alone";
        TooManyRegions = 107, "there are more than 128 regions";
        BadRegion = 108, "a region ends above 2^52";
        BadPool = 109, "the pool is not of whole frames, or not all of it is usable";
        BadMemory = 110, "memory does not reach to the machine's size, or for a boot does not end \
            there";
        TooManyEntries = 112, "there are more than 32 entries";
        TooManyModules = 113, "an entry has more than 64 modules";
        LongRsdp = 114, "a copy of an RSDP has more than 256 bytes";
        BadIndex = 115, "a menu's first entry or a fallback is no entry";
        LowPool = 117, "the pool begins below the memory that is given";
        Unwanted = 118, "a digest is fed more bytes than it wants";
        // >>> tools/refusals: misuses of MapFault
        BadScreenSize = 121, "a bad size of the screen: its width, its height or its pitch is not \
            1 to 65535";
        BadScreenDepth = 122, "a bad depth of the screen: not 15, 16, 24 or 32 bits";
        BadScreenColor = 123, "a bad colour of the screen: its bits do not lie in the pixel";
        BadScreenPitch = 124, "a bad pitch of the screen: a line's pixels do not fit into its \
            bytes";
        BadScreenPlace = 125, "a bad place of the screen: at 0, with an end above 2^52, or over a \
            usable byte";
        BadRsdp = 126, "a bad address of the RSDP: 0, with an end of its 36 bytes above 2^52, or \
            over a usable byte";
        BadSystemTable = 127, "a bad address of the UEFI system table: 0, with 32 bits at 4 GiB or \
            above, or with an end above 2^52";
        BadDescriptors = 128, "bad descriptors of the UEFI memory map: another version than 1, or \
            a size below 40 or no multiple of 8";
        BadEfiMapSize = 129, "a bad size of the UEFI memory map: no descriptor, a part of one, or \
            more than 64 KiB";
        BadEfiMapPlace = 130, "a bad place of the UEFI memory map: at 0, at no multiple of 8, with \
            an end above 4 GiB, or over a usable byte";
        BadSmbiosSize = 131, "bad tables of SMBIOS: no byte, or more than 64 KiB";
        TooManyAvoided = 132, "more than 128 ranges to avoid";
        BadAvoided = 133, "a range to avoid ends above 2^52, or before it begins";
        PoolAvoided = 134, "a range to avoid meets the pool";
        // <<<
    }
}

impl core::error::Error for Misuse {}

/// An entry of a menu that was refused.
#[derive(Clone, Copy, Debug, PartialEq, Eq, Hash)]
#[non_exhaustive]
pub struct RefusedEntry {
    /// Its index.
    pub entry: u32,
    /// Why.
    pub refusal: Refusal,
}

impl RefusedEntry {
    /// The entry of this index, and why it was refused.
    pub fn new(entry: u32, refusal: Refusal) -> RefusedEntry {
        RefusedEntry { entry, refusal }
    }
}

impl fmt::Display for RefusedEntry {
    fn fmt(&self, to: &mut fmt::Formatter<'_>) -> fmt::Result {
        write!(to, "entry {}: {}", self.entry, self.refusal)
    }
}

/// Why a call did not do what it is called for.
#[derive(Clone, Debug, PartialEq, Eq, Hash)]
#[non_exhaustive]
pub enum Error {
    /// The entry is refused: the kernel or the machine is at fault. An equal call is refused again.
    Refused(Refusal),
    /// No entry of a menu is left; each was refused, in this order.
    NoEntry(Vec<RefusedEntry>),
    /// The bytes are no image, or no kernel can be entered with it.
    BadImage(Fault),
    /// Memory for the call's tables ran out. Of a boot it may also be that a part begins below the
    /// memory that was given; bytes of the pool may have changed then.
    NoMemory,
    /// A part, or a step of a plan, does not lie in the memory that is given.
    Outside,
    /// The program is to be corrected, or the data that it passes on.
    Misuse(Misuse),
}

impl From<Refusal> for Error {
    fn from(refusal: Refusal) -> Error {
        Error::Refused(refusal)
    }
}

impl From<Fault> for Error {
    fn from(fault: Fault) -> Error {
        Error::BadImage(fault)
    }
}

impl From<Misuse> for Error {
    fn from(misuse: Misuse) -> Error {
        Error::Misuse(misuse)
    }
}

impl fmt::Display for Error {
    fn fmt(&self, to: &mut fmt::Formatter<'_>) -> fmt::Result {
        match self {
            Error::Refused(refusal) => refusal.fmt(to),
            Error::NoEntry(refusals) => {
                to.write_str("no entry is left")?;
                for (i, refused) in refusals.iter().enumerate() {
                    write!(to, "{}{}", if i == 0 { ": " } else { "; " }, refused)?;
                }
                Ok(())
            }
            Error::BadImage(fault) => fault.fmt(to),
            Error::NoMemory => to.write_str("memory ran out"),
            Error::Outside => to.write_str("a part does not lie in the memory that is given"),
            Error::Misuse(misuse) => misuse.fmt(to),
        }
    }
}

impl core::error::Error for Error {}
