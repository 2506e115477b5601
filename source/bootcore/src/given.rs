//! What a program gives, as the core takes it. What the core requires of it is kept here: what is
//! made here may be given to each call of the core that is made with it.

use alloc::vec::Vec;

use crate::entry::{Entry, File, LinuxEntry, Menu, Multiboot2};
use crate::error::{Error, Misuse};
use crate::firmware::{Color, Efi, EfiBits, Firmware, Screen, SecureBoot, Smbios};
use crate::lists::{checked_list, list};
use crate::machine::{Kind, Machine, Region};
use crate::proved::bl_load as core_load;
use crate::proved::bl_map as core_map;
use crate::proved::bl_mem::{Bytes, SliceView};
use crate::proved::bl_session as core_session;
use crate::shim::alloc::{AllocError, Global};
use crate::shim::vec::Vec as CoreVec;
use crate::{MAX_ENTRIES, MAX_MODULES};

impl From<AllocError> for Error {
    fn from(_: AllocError) -> Error {
        Error::NoMemory
    }
}

// ---- machines

fn region_of(region: &Region) -> core_map::Region {
    let kind = match region.kind {
        Kind::Usable => core_map::Kind::Usable,
        Kind::Reserved => core_map::Kind::Reserved,
        Kind::Acpi => core_map::Kind::Acpi,
        Kind::Nvs => core_map::Kind::Nvs,
        Kind::Unusable => core_map::Kind::Bad,
    };
    core_map::Region { base: region.base, length: region.length, kind }
}

fn screen_of(screen: &Screen) -> core_map::Screen {
    let color = |color: Color| core_map::ColorField { position: color.position, size: color.size };
    core_map::Screen {
        base: screen.base,
        pitch: screen.pitch,
        width: screen.width,
        height: screen.height,
        depth: screen.depth,
        red: color(screen.red),
        green: color(screen.green),
        blue: color(screen.blue),
    }
}

fn efi_of(efi: &Efi) -> core_map::Efi<'_> {
    core_map::Efi {
        bits: match efi.bits {
            EfiBits::Bits32 => core_map::EfiBits::Efi32,
            EfiBits::Bits64 => core_map::EfiBits::Efi64,
        },
        system_table: efi.system_table,
        map_address: efi.map_address,
        map: &efi.map,
        descriptor_size: efi.descriptor_size,
        descriptor_version: efi.descriptor_version,
        secure_boot: match efi.secure_boot {
            SecureBoot::NotTold => core_map::SecureBoot::Unset,
            SecureBoot::Unknown => core_map::SecureBoot::Unknown,
            SecureBoot::Disabled => core_map::SecureBoot::Disabled,
            SecureBoot::Enabled => core_map::SecureBoot::Enabled,
        },
    }
}

fn smbios_of(smbios: &Smbios) -> core_map::Smbios<'_> {
    core_map::Smbios { major: smbios.major, minor: smbios.minor, tables: &smbios.tables }
}

/// What is at 0, or has no byte, is not told.
fn firmware_of(told: &Firmware) -> core_map::Firmware<'_> {
    core_map::Firmware {
        screen: told.screen.as_ref().filter(|screen| screen.base != 0).map(screen_of),
        rsdp: told.rsdp.filter(|address| *address != 0),
        efi: told.efi.as_ref().filter(|efi| efi.system_table != 0).map(efi_of),
        smbios: told.smbios.as_ref().filter(|smbios| !smbios.tables.is_empty()).map(smbios_of),
        avoided: &told.avoided,
    }
}

impl From<core_map::MapFault> for Error {
    fn from(fault: core_map::MapFault) -> Error {
        use core_map::MapFault;
        Error::Misuse(match fault {
            MapFault::NoMemory => return Error::NoMemory,
            MapFault::BadSize => Misuse::BadSize,
            MapFault::TooManyRegions => Misuse::TooManyRegions,
            MapFault::BadRegion(_) => Misuse::BadRegion,
            MapFault::BadPool => Misuse::BadPool,
            MapFault::BadScreenSize => Misuse::BadScreenSize,
            MapFault::BadScreenDepth => Misuse::BadScreenDepth,
            MapFault::BadScreenColor => Misuse::BadScreenColor,
            MapFault::BadScreenPitch => Misuse::BadScreenPitch,
            MapFault::BadScreenPlace => Misuse::BadScreenPlace,
            MapFault::BadRsdp => Misuse::BadRsdp,
            MapFault::BadSystemTable => Misuse::BadSystemTable,
            MapFault::BadDescriptors => Misuse::BadDescriptors,
            MapFault::BadEfiMapSize => Misuse::BadEfiMapSize,
            MapFault::BadEfiMapPlace => Misuse::BadEfiMapPlace,
            MapFault::BadSmbiosSize => Misuse::BadSmbiosSize,
            MapFault::TooManyAvoided => Misuse::TooManyAvoided,
            MapFault::BadAvoided(_) => Misuse::BadAvoided,
            MapFault::PoolAvoided => Misuse::PoolAvoided,
        })
    }
}

pub(crate) fn machine_of(machine: &Machine) -> Result<core_map::Machine<Global>, Error> {
    let regions = list(machine.regions.iter().map(region_of))?;
    // a sum that wraps would be the end of another pool; the greatest number is the end of none
    let pool = machine.pool_base..machine.pool_base.saturating_add(machine.pool_length);
    let firmware = firmware_of(&machine.firmware);
    Ok(core_map::Machine::with_firmware(Global, machine.size, &regions, pool, &firmware)?)
}

// ---- entries

fn copy_of(copy: &[u8]) -> Result<Option<Bytes<Global>>, AllocError> {
    if copy.is_empty() { Ok(None) } else { Bytes::copy(Global, copy).map(Some) }
}

fn multiboot2_of(entry: &Multiboot2<'_>, before: u32) -> Result<core_load::Entry<Global>, Error> {
    if entry.modules.len() > MAX_MODULES {
        return Err(Misuse::TooManyModules.into());
    }
    let mut modules = CoreVec::with_capacity(Global, entry.modules.len())?;
    for (file, module) in (before + 1..).zip(&entry.modules) {
        let module = core_load::Module::new(Global, file, module.line)?;
        modules.push(module).map_err(AllocError::from)?;
    }
    Ok(core_load::Entry::Multiboot2 {
        kernel: before,
        line: Bytes::copy(Global, entry.line)?,
        modules,
        rsdp_old: copy_of(entry.rsdp_old)?,
        rsdp_new: copy_of(entry.rsdp_new)?,
    })
}

/// An entry within the core's limits, whose files are numbered from `before` on.
fn entry_of(entry: &Entry<'_>, before: u32) -> Result<core_load::Entry<Global>, Error> {
    let made = match entry {
        Entry::Multiboot2(entry) => multiboot2_of(entry, before)?,
        Entry::Linux(entry) => core_load::Entry::Linux {
            kernel: before,
            line: Bytes::copy(Global, entry.line)?,
            initrd: entry.initrd.map(|_| before + 1),
            wide: entry.entry == LinuxEntry::Bits64,
        },
    };
    if made.is_within_limits() { Ok(made) } else { Err(Misuse::LongRsdp.into()) }
}

/// A machine, an entry, and of its files the kernel, and the lengths of the others.
pub(crate) struct ByLengths<'a> {
    machine: core_map::Machine<Global>,
    entry: core_load::Entry<Global>,
    kernel: SliceView<'a>,
    lengths: Vec<u64>,
}

impl<'a> ByLengths<'a> {
    pub(crate) fn of(machine: &Machine, entry: &Entry<'a>) -> Result<ByLengths<'a>, Error> {
        if entry.kernel().is_to_come() {
            return Err(Misuse::NoBytes.into());
        }
        let lengths = entry.files().skip(1).map(|file| file.length().ok_or(Misuse::BadFile.into()));
        let lengths = checked_list(lengths)?;
        let kernel = SliceView::new(entry.kernel().bytes().ok_or(Misuse::BadFile)?);
        let (machine, entry) = (machine_of(machine)?, entry_of(entry, 0)?);
        Ok(ByLengths { machine, entry, kernel, lengths })
    }

    pub(crate) fn plan(&self) -> Result<core_load::Plan<Global>, Error> {
        Ok(core_load::prepare_by_lengths(Global, &self.machine, &self.entry, &self.kernel, &self.lengths)?)
    }

    pub(crate) fn unplaced(&self) -> Result<Option<crate::proved::bl_plan::Row>, Error> {
        Ok(core_load::unplaced_by_lengths(Global, &self.machine, &self.entry, &self.kernel, &self.lengths)?)
    }
}

/// A machine, an entry, and its files.
pub(crate) struct Whole<'a> {
    pub(crate) machine: core_map::Machine<Global>,
    entry: core_load::Entry<Global>,
    pub(crate) views: Vec<SliceView<'a>>,
}

impl<'a> Whole<'a> {
    /// `check` looks at the machine before the entry is looked at.
    pub(crate) fn of(
        machine: &Machine,
        entry: &Entry<'a>,
        check: impl FnOnce(&core_map::Machine<Global>) -> Result<(), Misuse>,
    ) -> Result<Whole<'a>, Error> {
        if entry.files().any(File::is_to_come) {
            return Err(Misuse::NoBytes.into());
        }
        let views = entry.files().map(|file| file.bytes().map(SliceView::new).ok_or(Misuse::BadFile.into()));
        let views = checked_list(views)?;
        let machine = machine_of(machine)?;
        check(&machine)?;
        Ok(Whole { machine, entry: entry_of(entry, 0)?, views })
    }

    pub(crate) fn plan(&self) -> Result<core_load::Plan<Global>, Error> {
        Ok(core_load::prepare(Global, &self.machine, &self.entry, &self.views)?)
    }
}

// ---- menus

/// A menu whose files are numbered in order: those of the first entry, then those of the next.
pub(crate) fn menu_of(menu: &Menu<'_>) -> Result<core_session::Menu<Global>, Error> {
    // the core looks at the number of entries and then into each; here modules come before copies
    // of an RSDP
    if menu.entries.len() > MAX_ENTRIES {
        return Err(Misuse::TooManyEntries.into());
    }
    let has_many = |entry: &Entry<'_>| match entry {
        Entry::Multiboot2(entry) => entry.modules.len() > MAX_MODULES,
        Entry::Linux(_) => false,
    };
    if menu.entries.iter().any(has_many) {
        return Err(Misuse::TooManyModules.into());
    }
    let mut entries = CoreVec::with_capacity(Global, menu.entries.len())?;
    let mut before = 0;
    for entry in &menu.entries {
        let entry = entry_of(entry, before)?;
        before += entry.file_count() as u32;
        entries.push(entry).map_err(AllocError::from)?;
    }
    core_session::Menu::new(Global, entries, menu.first, &menu.fallbacks).map_err(|fault| match fault {
        core_session::MenuFault::TooMany => Misuse::TooManyEntries.into(),
        core_session::MenuFault::BadIndex => Misuse::BadIndex.into(),
        core_session::MenuFault::NoMemory => Error::NoMemory,
    })
}
