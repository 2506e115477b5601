//! What a kernel sees in an image.

use alloc::vec::Vec;

use crate::entry::Protocol;
use crate::error::Error;
use crate::firmware::{EfiBits, Screen, SecureBoot, Smbios};
use crate::machine::Kind;
use crate::proved::bl_image::{IoSource, read_image};
use crate::proved::bl_walk;
use crate::shim::alloc::Global;
use crate::told;

/// A range of addresses.
#[derive(Clone, Copy, Debug, PartialEq, Eq, Hash)]
pub struct Range {
    /// Its first address.
    pub address: u64,
    /// Its bytes.
    pub length: u64,
}

/// A module that is seen.
#[derive(Clone, Debug, PartialEq, Eq, Hash)]
#[non_exhaustive]
pub struct SeenModule {
    /// Where its file lies.
    pub file: Range,
    /// Its line.
    pub line: Vec<u8>,
}

/// A run of the memory map that is seen.
#[derive(Clone, Copy, Debug, PartialEq, Eq, Hash)]
#[non_exhaustive]
pub struct Run {
    /// Its addresses.
    pub range: Range,
    /// Its number, as of an e820 entry.
    pub number: u32,
}

impl Run {
    /// Its kind, if its number is that of one.
    pub fn kind(&self) -> Option<Kind> {
        Kind::from_number(self.number)
    }
}

/// UEFI as a kernel that is seen is told of it.
#[derive(Clone, Debug, PartialEq, Eq, Hash)]
#[non_exhaustive]
pub struct SeenEfi {
    /// The bits of its addresses.
    pub bits: EfiBits,
    /// The address of its system table.
    pub system_table: u64,
    /// Where its memory map lies, as Linux is told; a Multiboot2 kernel is not.
    pub map_address: u64,
    /// The bytes of the map.
    pub map_length: u64,
    /// The copy of the map that a Multiboot2 kernel has.
    pub map: Option<Vec<u8>>,
    /// The bytes of a descriptor.
    pub descriptor_size: u32,
    /// Its version.
    pub descriptor_version: u32,
    /// What it says of Secure Boot; a Multiboot2 kernel is not told.
    pub secure_boot: SecureBoot,
}

/// What firmware tells a kernel that is seen, as its protocol tells it.
#[derive(Clone, Debug, PartialEq, Eq, Hash)]
#[non_exhaustive]
pub struct SeenFirmware {
    /// A screen.
    pub screen: Option<Screen>,
    /// The address of ACPI's root pointer: of Linux.
    pub rsdp: Option<u64>,
    /// UEFI.
    pub efi: Option<SeenEfi>,
    /// SMBIOS: of Multiboot2.
    pub smbios: Option<Smbios>,
}

/// What a kernel sees in an image. The bytes of modules and of an initial ramdisk lie in the image.
#[derive(Clone, Debug, PartialEq, Eq, Hash)]
#[non_exhaustive]
pub struct Seen {
    /// How it is entered.
    pub protocol: Protocol,
    /// Where it is entered.
    pub entry_address: u64,
    /// Its line.
    pub line: Vec<u8>,
    /// Its parts, by ascending address.
    pub kernel_parts: Vec<Range>,
    /// The modules, in the order in which it is told of them.
    pub modules: Vec<SeenModule>,
    /// The memory map, in its order.
    pub runs: Vec<Run>,
    /// Its initial ramdisk, if there is one.
    pub initrd: Option<Range>,
    /// A copy of the RSDP of ACPI 1.0, if there is one.
    pub rsdp_old: Option<Vec<u8>>,
    /// A copy of that of ACPI 2.0 or later, if there is one.
    pub rsdp_new: Option<Vec<u8>>,
    /// What firmware tells it.
    pub firmware: SeenFirmware,
}

/// Walks an image in memory, as a measured boot does before it trusts what an image hands over:
/// reads it, and follows the addresses in its registers as its kernel would.
pub fn walk(image: &[u8]) -> Result<Seen, Error> {
    let image = read_image(Global, &mut IoSource::new(image))?;
    told::seen_told(&bl_walk::walk(Global, &image)?)
}
