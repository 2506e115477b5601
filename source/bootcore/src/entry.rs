//! What is booted: entries and menus.

use alloc::vec::Vec;
use core::fmt;

use crate::MAX_LINE;
use crate::numbers::numbered;

numbered! {
    /// How a kernel is entered.
    Protocol {
        /// Multiboot2.
        Multiboot2 = 1,
        /// The Linux boot protocol, by its 32-bit entry.
        Linux = 2,
        /// The Linux boot protocol, by its 64-bit entry.
        Linux64 = 3,
    }
}

/// A file of an entry. Whatever gives bytes becomes one by its bytes, a text too: no call opens a
/// path.
#[derive(Clone, Copy, PartialEq, Eq, Hash)]
#[non_exhaustive]
pub enum File<'a> {
    /// Its bytes.
    Bytes(&'a [u8]),
    /// Its length alone. That is enough for the files beside the kernel in a plan, for each file in
    /// a session, and for an empty one; else the call ends by
    /// [`Misuse::NoBytes`](crate::Misuse::NoBytes).
    Length(u64),
    /// It can't be read: its entry in a menu is refused. One entry alone ends by
    /// [`Misuse::BadFile`](crate::Misuse::BadFile).
    Unreadable,
}

impl<'a> File<'a> {
    /// Its bytes, if they are at hand, as those of an empty file always are.
    pub(crate) fn bytes(self) -> Option<&'a [u8]> {
        match self {
            File::Bytes(bytes) => Some(bytes),
            File::Length(0) => Some(&[]),
            File::Length(_) | File::Unreadable => None,
        }
    }

    /// Whether its bytes are to come.
    pub(crate) fn is_to_come(self) -> bool {
        matches!(self, File::Length(1..))
    }

    /// Its length, if it can be read.
    pub(crate) fn length(self) -> Option<u64> {
        match self {
            File::Bytes(bytes) => Some(bytes.len() as u64),
            File::Length(length) => Some(length),
            File::Unreadable => None,
        }
    }
}

impl fmt::Debug for File<'_> {
    fn fmt(&self, to: &mut fmt::Formatter<'_>) -> fmt::Result {
        match self {
            File::Bytes(bytes) => write!(to, "Bytes({} bytes)", bytes.len()),
            File::Length(length) => write!(to, "Length({})", length),
            File::Unreadable => to.write_str("Unreadable"),
        }
    }
}

impl<'a, T: AsRef<[u8]> + ?Sized> From<&'a T> for File<'a> {
    fn from(bytes: &'a T) -> File<'a> {
        File::Bytes(bytes.as_ref())
    }
}

/// A module of a Multiboot2 kernel.
#[derive(Clone, Copy, Debug, PartialEq, Eq, Hash)]
#[non_exhaustive]
pub struct Module<'a> {
    /// Its file.
    pub file: File<'a>,
    /// Its line, without a zero byte.
    pub line: &'a [u8],
}

impl<'a> Module<'a> {
    /// A module with this line.
    pub fn new(file: impl Into<File<'a>>, line: &'a (impl AsRef<[u8]> + ?Sized)) -> Module<'a> {
        Module { file: file.into(), line: line.as_ref() }
    }
}

/// An entry that is entered by Multiboot2.
///
/// ```
/// use bootcore::{File, Multiboot2};
///
/// let kernel = std::fs::read("/proc/self/exe").unwrap();
/// let entry = Multiboot2::new(&kernel).line("verbose").module(File::Length(4096), "ramdisk");
/// assert_eq!(entry.modules.len(), 1);
/// ```
#[derive(Clone, Debug, PartialEq, Eq, Hash)]
#[non_exhaustive]
pub struct Multiboot2<'a> {
    /// The kernel: an ELF file, or a file with an address tag.
    pub kernel: File<'a>,
    /// Its line, without a zero byte; at most [`MAX_LINE`](crate::MAX_LINE) bytes.
    pub line: &'a [u8],
    /// Its modules, in the order in which the kernel is told of them; at most
    /// [`MAX_MODULES`](crate::MAX_MODULES).
    pub modules: Vec<Module<'a>>,
    /// A copy of the RSDP of ACPI 1.0; without bytes: none. At most [`MAX_RSDP`](crate::MAX_RSDP)
    /// bytes.
    pub rsdp_old: &'a [u8],
    /// A copy of that of ACPI 2.0 or later.
    pub rsdp_new: &'a [u8],
}

impl<'a> Multiboot2<'a> {
    /// A kernel with an empty line and nothing else.
    pub fn new(kernel: impl Into<File<'a>>) -> Multiboot2<'a> {
        Multiboot2 { kernel: kernel.into(), line: &[], modules: Vec::new(), rsdp_old: &[], rsdp_new: &[] }
    }

    /// With this line.
    pub fn line(mut self, line: &'a (impl AsRef<[u8]> + ?Sized)) -> Multiboot2<'a> {
        self.line = line.as_ref();
        self
    }

    /// With a module more.
    pub fn module(mut self, file: impl Into<File<'a>>, line: &'a (impl AsRef<[u8]> + ?Sized)) -> Multiboot2<'a> {
        self.modules.push(Module::new(file, line));
        self
    }

    /// With this copy of the RSDP of ACPI 1.0.
    pub fn rsdp_old(mut self, copy: &'a (impl AsRef<[u8]> + ?Sized)) -> Multiboot2<'a> {
        self.rsdp_old = copy.as_ref();
        self
    }

    /// With this copy of that of ACPI 2.0 or later.
    pub fn rsdp_new(mut self, copy: &'a (impl AsRef<[u8]> + ?Sized)) -> Multiboot2<'a> {
        self.rsdp_new = copy.as_ref();
        self
    }
}

/// By which entry a Linux kernel is entered.
#[derive(Clone, Copy, Debug, PartialEq, Eq, Hash)]
#[non_exhaustive]
pub enum LinuxEntry {
    /// The 32-bit entry: boot protocol 2.10 or later.
    Bits32,
    /// The 64-bit entry: boot protocol 2.12 with bit 0 of xloadflags.
    Bits64,
}

/// An entry that is entered by the Linux boot protocol.
///
/// ```
/// use bootcore::{File, Linux};
///
/// let kernel = std::fs::read("/proc/self/exe").unwrap();
/// let entry = Linux::new64(&kernel).line("console=ttyS0").initrd(File::Length(1 << 20));
/// assert!(entry.initrd.is_some());
/// ```
#[derive(Clone, Debug, PartialEq, Eq, Hash)]
#[non_exhaustive]
pub struct Linux<'a> {
    /// The kernel: a bzImage, never a vmlinux.
    pub kernel: File<'a>,
    /// By which entry.
    pub entry: LinuxEntry,
    /// Its line, without a zero byte; at most [`MAX_LINE`](crate::MAX_LINE) bytes, a kernel may
    /// take fewer.
    pub line: &'a [u8],
    /// Its initial ramdisk, if there is one.
    pub initrd: Option<File<'a>>,
}

impl<'a> Linux<'a> {
    /// A kernel by its 32-bit entry, with an empty line and without an initial ramdisk.
    pub fn new(kernel: impl Into<File<'a>>) -> Linux<'a> {
        Linux { kernel: kernel.into(), entry: LinuxEntry::Bits32, line: &[], initrd: None }
    }

    /// The same by its 64-bit entry.
    pub fn new64(kernel: impl Into<File<'a>>) -> Linux<'a> {
        Linux { entry: LinuxEntry::Bits64, ..Linux::new(kernel) }
    }

    /// With this line.
    pub fn line(mut self, line: &'a (impl AsRef<[u8]> + ?Sized)) -> Linux<'a> {
        self.line = line.as_ref();
        self
    }

    /// With this initial ramdisk.
    pub fn initrd(mut self, file: impl Into<File<'a>>) -> Linux<'a> {
        self.initrd = Some(file.into());
        self
    }
}

impl Linux<'_> {
    /// How many bytes its line may have.
    fn line_limit(&self) -> usize {
        let Some(kernel) = self.kernel.bytes() else {
            return MAX_LINE;
        };
        match (kernel.get(0x202..0x206), kernel.get(0x238..0x23C)) {
            // the field cmdline_size of a bzImage
            (Some(b"HdrS"), Some(&[a, b, c, d])) => MAX_LINE.min(u32::from_le_bytes([a, b, c, d]) as usize),
            _ => MAX_LINE,
        }
    }
}

/// An entry: a kernel, and what it is handed.
#[derive(Clone, Debug, PartialEq, Eq, Hash)]
#[non_exhaustive]
pub enum Entry<'a> {
    /// Entered by Multiboot2.
    Multiboot2(Multiboot2<'a>),
    /// Entered by the Linux boot protocol.
    Linux(Linux<'a>),
}

/// A line that has more bytes than it may have.
#[derive(Clone, Copy, Debug, PartialEq, Eq, Hash)]
#[non_exhaustive]
pub struct LongLine {
    /// Whose it is: 0 is the kernel, k module k - 1.
    pub file: usize,
    /// How many bytes it has.
    pub length: usize,
    /// How many it may have.
    pub limit: usize,
}

impl<'a> Entry<'a> {
    pub(crate) fn kernel(&self) -> File<'a> {
        match self {
            Entry::Multiboot2(entry) => entry.kernel,
            Entry::Linux(entry) => entry.kernel,
        }
    }

    /// Its files in order: the kernel, then the modules or the initial ramdisk.
    pub(crate) fn files(&self) -> impl Iterator<Item = File<'a>> + '_ {
        let (modules, initrd) = match self {
            Entry::Multiboot2(entry) => (entry.modules.as_slice(), None),
            Entry::Linux(entry) => (&[][..], entry.initrd),
        };
        core::iter::once(self.kernel()).chain(modules.iter().map(|module| module.file)).chain(initrd)
    }

    /// The first line with more bytes than it may have: that of
    /// [`Refusal::LineTooLong`](crate::Refusal::LineTooLong). The limit is [`MAX_LINE`], or what
    /// the header of a Linux kernel whose bytes are at hand names as its `cmdline_size`, if that is
    /// less.
    ///
    /// ```
    /// use bootcore::{Entry, Multiboot2, MAX_LINE};
    ///
    /// let long = "x".repeat(5000);
    /// let entry = Entry::from(Multiboot2::new(b"kernel").module(b"file", &long));
    /// let line = entry.long_line().unwrap();
    /// assert_eq!((line.file, line.length, line.limit), (1, 5000, MAX_LINE));
    /// ```
    pub fn long_line(&self) -> Option<LongLine> {
        let long =
            |(file, line): (usize, &[u8]), limit| (line.len() > limit).then_some(LongLine { file, length: line.len(), limit });
        match self {
            Entry::Multiboot2(entry) => {
                let lines = core::iter::once(entry.line).chain(entry.modules.iter().map(|module| module.line));
                lines.enumerate().find_map(|line| long(line, MAX_LINE))
            }
            Entry::Linux(entry) => long((0, entry.line), entry.line_limit()),
        }
    }

    /// How its kernel is entered.
    pub fn protocol(&self) -> Protocol {
        match self {
            Entry::Multiboot2(_) => Protocol::Multiboot2,
            Entry::Linux(Linux { entry: LinuxEntry::Bits32, .. }) => Protocol::Linux,
            Entry::Linux(Linux { entry: LinuxEntry::Bits64, .. }) => Protocol::Linux64,
        }
    }
}

impl<'a> From<Multiboot2<'a>> for Entry<'a> {
    fn from(entry: Multiboot2<'a>) -> Entry<'a> {
        Entry::Multiboot2(entry)
    }
}

impl<'a> From<Linux<'a>> for Entry<'a> {
    fn from(entry: Linux<'a>) -> Entry<'a> {
        Entry::Linux(entry)
    }
}

/// The entries of a menu, and the order in which they are attempted: the first, then the fallbacks,
/// each entry once.
///
/// ```
/// use bootcore::{File, Linux, Menu};
///
/// let (new, old) = (File::Unreadable, File::Length(8 << 20));
/// let menu = Menu::new().entry(Linux::new(new)).entry(Linux::new(old)).fallback(1);
/// assert_eq!((menu.first, menu.fallbacks.as_slice()), (0, &[1][..]));
/// ```
#[derive(Clone, Debug, Default, PartialEq, Eq, Hash)]
#[non_exhaustive]
pub struct Menu<'a> {
    /// The entries; at most [`MAX_ENTRIES`](crate::MAX_ENTRIES).
    pub entries: Vec<Entry<'a>>,
    /// The index of the entry that is attempted first.
    pub first: u32,
    /// The indices of those that are attempted then.
    pub fallbacks: Vec<u32>,
}

impl<'a> Menu<'a> {
    /// A menu without entries, which is to get one: its first is entry 0.
    pub fn new() -> Menu<'a> {
        Menu::default()
    }

    /// With an entry more.
    pub fn entry(mut self, entry: impl Into<Entry<'a>>) -> Menu<'a> {
        self.entries.push(entry.into());
        self
    }

    /// With the entry of this index as the first.
    pub fn first(mut self, index: u32) -> Menu<'a> {
        self.first = index;
        self
    }

    /// With the entry of this index as a fallback more.
    pub fn fallback(mut self, index: u32) -> Menu<'a> {
        self.fallbacks.push(index);
        self
    }
}
