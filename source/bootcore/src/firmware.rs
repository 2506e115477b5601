//! What firmware tells of a machine beside its memory.

use alloc::vec::Vec;
use core::ops::Range;

/// Where a colour's bits lie in a pixel.
#[derive(Clone, Copy, Debug, Default, PartialEq, Eq, Hash)]
#[non_exhaustive]
pub struct Color {
    /// The lowest one.
    pub position: u8,
    /// How many they are; they lie within the pixel's depth.
    pub size: u8,
}

impl Color {
    /// A colour of so many bits from this one on.
    pub fn new(position: u8, size: u8) -> Color {
        Color { position, size }
    }
}

/// A screen with pixels of direct colour.
///
/// ```
/// use bootcore::{Color, Screen};
///
/// let color = |position| Color::new(position, 8);
/// let screen = Screen::new(0xE000_0000)
///     .size(1024, 768)
///     .pitch(4096)
///     .colors(color(16), color(8), color(0));
/// assert_eq!((screen.depth, screen.red.position), (32, 16));
/// ```
#[derive(Clone, Copy, Debug, PartialEq, Eq, Hash)]
#[non_exhaustive]
pub struct Screen {
    /// Where its memory begins, which ends at 2^52 at most, and of which no byte is usable. A
    /// screen at 0 is not told.
    pub base: u64,
    /// The bytes of a line, 1 to 65535: at least those of its pixels.
    pub pitch: u32,
    /// The pixels of a line, 1 to 65535.
    pub width: u32,
    /// The lines, 1 to 65535.
    pub height: u32,
    /// The bits of a pixel: 15, 16, 24 or 32.
    pub depth: u8,
    /// Red.
    pub red: Color,
    /// Green.
    pub green: Color,
    /// Blue.
    pub blue: Color,
}

impl Screen {
    /// One at this address with pixels of 32 bits, of which nothing else is said yet.
    pub fn new(base: u64) -> Screen {
        let none = Color::default();
        Screen { base, pitch: 0, width: 0, height: 0, depth: 32, red: none, green: none, blue: none }
    }

    /// With so many pixels in a line, and so many lines.
    pub fn size(mut self, width: u32, height: u32) -> Screen {
        (self.width, self.height) = (width, height);
        self
    }

    /// With lines of so many bytes.
    pub fn pitch(mut self, pitch: u32) -> Screen {
        self.pitch = pitch;
        self
    }

    /// With pixels of so many bits.
    pub fn depth(mut self, depth: u8) -> Screen {
        self.depth = depth;
        self
    }

    /// With these places of the colours in a pixel.
    pub fn colors(mut self, red: Color, green: Color, blue: Color) -> Screen {
        (self.red, self.green, self.blue) = (red, green, blue);
        self
    }
}

/// How many bits UEFI's addresses have.
#[derive(Clone, Copy, Debug, PartialEq, Eq, Hash)]
pub enum EfiBits {
    /// 32.
    Bits32,
    /// 64.
    Bits64,
}

/// What UEFI says of Secure Boot, and a Linux kernel is told.
#[derive(Clone, Copy, Debug, Default, PartialEq, Eq, Hash)]
#[non_exhaustive]
pub enum SecureBoot {
    /// Nothing is told.
    #[default]
    NotTold,
    /// It is told that it is not known.
    Unknown,
    /// It is disabled.
    Disabled,
    /// It is enabled.
    Enabled,
}

/// UEFI: its system table and its memory map.
#[derive(Clone, Debug, PartialEq, Eq, Hash)]
#[non_exhaustive]
pub struct Efi {
    /// The bits of its addresses.
    pub bits: EfiBits,
    /// The address of its system table, with 32 bits below 4 GiB. At 0 no UEFI is told.
    pub system_table: u64,
    /// Its memory map, whole descriptors, 64 KiB at most, of which a Multiboot2 kernel gets a copy.
    pub map: Vec<u8>,
    /// Where the map lies, for Linux: at a multiple of 8, below 4 GiB, where no byte is usable.
    pub map_address: u64,
    /// The bytes of a descriptor: 40 or more, a multiple of 8.
    pub descriptor_size: u32,
    /// 1.
    pub descriptor_version: u32,
    /// What it says of Secure Boot.
    pub secure_boot: SecureBoot,
}

impl Efi {
    /// UEFI with this system table, without a memory map, which it must be given.
    pub fn new(bits: EfiBits, system_table: u64) -> Efi {
        Efi {
            bits,
            system_table,
            map: Vec::new(),
            map_address: 0,
            descriptor_size: 0,
            descriptor_version: 1,
            secure_boot: SecureBoot::NotTold,
        }
    }

    /// With this memory map, of descriptors of so many bytes, which lies at this address too.
    pub fn map(mut self, map: impl Into<Vec<u8>>, descriptor_size: u32, address: u64) -> Efi {
        (self.map, self.descriptor_size, self.map_address) = (map.into(), descriptor_size, address);
        self
    }

    /// With what it says of Secure Boot.
    pub fn secure_boot(mut self, secure_boot: SecureBoot) -> Efi {
        self.secure_boot = secure_boot;
        self
    }
}

/// The tables of SMBIOS, and their version.
#[derive(Clone, Debug, PartialEq, Eq, Hash)]
#[non_exhaustive]
pub struct Smbios {
    /// Their major version.
    pub major: u8,
    /// Their minor version.
    pub minor: u8,
    /// 64 KiB at most; without a byte they are not told.
    pub tables: Vec<u8>,
}

impl Smbios {
    /// Tables of this version.
    pub fn new(major: u8, minor: u8, tables: impl Into<Vec<u8>>) -> Smbios {
        Smbios { major, minor, tables: tables.into() }
    }
}

/// What firmware tells beside memory, and the kernel is told in its protocol's form.
///
/// ```
/// use bootcore::{Efi, EfiBits, Firmware, Machine, SecureBoot};
///
/// let efi = Efi::new(EfiBits::Bits64, 0x7E9E_C018)
///     .map(vec![0; 96], 48, 0xF8000)
///     .secure_boot(SecureBoot::Enabled);
/// let firmware = Firmware::new().rsdp(0xE0000).efi(efi).avoid(0x8000..0x9000);
/// let machine = Machine::new(512 << 20).firmware(firmware);
/// assert_eq!(machine.firmware.rsdp, Some(0xE0000));
/// ```
#[derive(Clone, Debug, Default, PartialEq, Eq, Hash)]
#[non_exhaustive]
pub struct Firmware {
    /// A screen.
    pub screen: Option<Screen>,
    /// The address of ACPI's root pointer, of whose 36 bytes none is usable. It is not told at 0.
    /// Linux alone is told it: a Multiboot2 kernel gets copies, which its entry has
    /// ([`rsdp_old`](crate::Multiboot2::rsdp_old), [`rsdp_new`](crate::Multiboot2::rsdp_new)).
    pub rsdp: Option<u64>,
    /// UEFI.
    pub efi: Option<Efi>,
    /// SMBIOS. A Multiboot2 kernel alone is told it: Linux finds the tables by UEFI.
    pub smbios: Option<Smbios>,
    /// Ranges in which nothing is placed, at most [`MAX_AVOIDED`](crate::MAX_AVOIDED); the pool
    /// meets none. The kernel is told of them as what they are: they are for memory that is free
    /// once it runs.
    pub avoided: Vec<Range<u64>>,
}

impl Firmware {
    /// Firmware that tells nothing.
    pub fn new() -> Firmware {
        Firmware::default()
    }

    /// With this screen.
    pub fn screen(mut self, screen: Screen) -> Firmware {
        self.screen = Some(screen);
        self
    }

    /// With ACPI's root pointer at this address, which Linux is told.
    pub fn rsdp(mut self, address: u64) -> Firmware {
        self.rsdp = Some(address);
        self
    }

    /// With this UEFI.
    pub fn efi(mut self, efi: Efi) -> Firmware {
        self.efi = Some(efi);
        self
    }

    /// With these tables of SMBIOS.
    pub fn smbios(mut self, smbios: Smbios) -> Firmware {
        self.smbios = Some(smbios);
        self
    }

    /// With a range more in which nothing is placed.
    pub fn avoid(mut self, range: Range<u64>) -> Firmware {
        self.avoided.push(range);
        self
    }
}
