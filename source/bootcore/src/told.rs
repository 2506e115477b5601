//! What the core tells, as a program is told it.

use alloc::vec::Vec;

use crate::boot::Booted;
use crate::entry::Protocol;
use crate::error::{Error, RefusedEntry};
use crate::firmware::{Color, EfiBits, Screen, SecureBoot, Smbios};
use crate::handoff::{Handoff, Place, Registers, Role};
use crate::image::{Range, Run, Seen, SeenEfi, SeenFirmware, SeenModule};
use crate::lists::{checked_list, copy, list};
use crate::proved::bl_image::ImageFault;
use crate::proved::bl_load as core_load;
use crate::proved::bl_load::{PrepFault, Registers as CoreRegisters};
use crate::proved::bl_map as core_map;
use crate::proved::bl_mbi::SmbiosCopy;
use crate::proved::bl_mem::Bytes;
use crate::proved::bl_plan::{Choice as CoreChoice, Place as CorePlace, Row};
use crate::proved::bl_session::{BootFault, Outcome};
use crate::proved::bl_walk as core_walk;
use crate::proved::bl_walk::WalkFault;
use crate::refusal::{Fault, Refusal};
use crate::shim::alloc::Global;
use crate::unplaced::{Choice, Unplaced};

// ---- refusals

/// What a refusal carries first.
fn first_of(refusal: core_load::Refusal) -> u64 {
    use core_load::Refusal;
    match refusal {
        // >>> tools/refusals: first carried of Refusal
        Refusal::NoFile(first) => first as u64,
        Refusal::FileFault(first) => first as u64,
        Refusal::FileTooLong(first) => first as u64,
        Refusal::BadTag(first) => first,
        Refusal::UnsupportedTag(first) => first as u64,
        Refusal::UnsupportedRequest(first) => first as u64,
        Refusal::SegmentCut(first) => first as u64,
        Refusal::AddressTooHigh(first) => first as u64,
        Refusal::SegmentsOverlap(first, _) => first as u64,
        // <<<
        _ => 0,
    }
}

fn second_of(refusal: core_load::Refusal) -> u64 {
    use core_load::Refusal;
    match refusal {
        // >>> tools/refusals: second carried of Refusal
        Refusal::SegmentsOverlap(_, second) => second as u64,
        // <<<
        _ => 0,
    }
}

fn refusal_told(refusal: core_load::Refusal) -> Refusal {
    Refusal::from_number(refusal.number(), first_of(refusal), second_of(refusal))
}

impl From<PrepFault> for Error {
    fn from(fault: PrepFault) -> Error {
        match fault {
            PrepFault::Refused(refusal) => Error::Refused(refusal_told(refusal)),
            PrepFault::NoMemory => Error::NoMemory,
        }
    }
}

impl From<ImageFault> for Error {
    fn from(fault: ImageFault) -> Error {
        let part = match fault {
            ImageFault::NoMemory => return Error::NoMemory,
            ImageFault::BadPart(part) => part.into(),
            _ => 0,
        };
        Error::BadImage(Fault::from_number(fault.number(), part, 0))
    }
}

impl From<WalkFault> for Error {
    fn from(fault: WalkFault) -> Error {
        match fault {
            WalkFault::NoMemory => Error::NoMemory,
            fault => Error::BadImage(Fault::from_number(fault.number(), 0, 0)),
        }
    }
}

// ---- handoffs

pub(crate) fn registers_told(registers: &CoreRegisters) -> Registers {
    match registers {
        CoreRegisters::Bits32(r) => Registers {
            bits: 32,
            rip: r.eip.into(),
            rax: r.eax.into(),
            rbx: r.ebx.into(),
            rcx: r.ecx.into(),
            rdx: r.edx.into(),
            rsi: r.esi.into(),
            rdi: r.edi.into(),
            rbp: r.ebp.into(),
            rsp: r.esp.into(),
            rflags: r.eflags.into(),
            cr0: r.cr0.into(),
            cs: r.cs.into(),
            ds: r.ds.into(),
            es: r.es.into(),
            fs: r.fs.into(),
            gs: r.gs.into(),
            ss: r.ss.into(),
            gdt_base: r.gdt_base.into(),
            gdt_limit: r.gdt_limit.into(),
            a20: r.a20.into(),
            ..Registers::default()
        },
        CoreRegisters::Bits64(r) => Registers {
            bits: 64,
            rip: r.rip,
            rax: r.rax,
            rbx: r.rbx,
            rcx: r.rcx,
            rdx: r.rdx,
            rsi: r.rsi,
            rdi: r.rdi,
            rbp: r.rbp,
            rsp: r.rsp,
            r8: r.r8,
            r9: r.r9,
            r10: r.r10,
            r11: r.r11,
            r12: r.r12,
            r13: r.r13,
            r14: r.r14,
            r15: r.r15,
            rflags: r.rflags,
            cr0: r.cr0,
            cr3: r.cr3,
            cr4: r.cr4,
            efer: r.efer,
            cs: r.cs,
            ds: r.ds,
            es: r.es,
            fs: r.fs,
            gs: r.gs,
            ss: r.ss,
            gdt_base: r.gdt_base,
            gdt_limit: r.gdt_limit,
            a20: r.a20,
        },
    }
}

pub(crate) fn place_told(place: &CorePlace) -> Place {
    Place::new(Role::from_number(place.role.number()), place.index, place.address, place.length)
}

pub(crate) fn protocol_told(protocol: core_load::Protocol) -> Protocol {
    Protocol::from_number(protocol.number())
}

fn handoff_of_parts(
    protocol: core_load::Protocol,
    registers: &CoreRegisters,
    parts: &[core_load::PlannedPart<Global>],
) -> Result<Handoff, Error> {
    let places = list(parts.iter().map(|part| place_told(&part.place)))?;
    Ok(Handoff { entry: 0, protocol: protocol_told(protocol), registers: registers_told(registers), places })
}

pub(crate) fn handoff_told(handoff: &core_load::Handoff<Global>) -> Result<Handoff, Error> {
    handoff_of_parts(handoff.protocol(), &handoff.registers(), handoff.parts())
}

pub(crate) fn handoff_of_plan(plan: &core_load::Plan<Global>) -> Result<Handoff, Error> {
    handoff_of_parts(plan.protocol, &plan.registers, &plan.parts)
}

fn refused_told(refused: &[core_load::RefusedEntry]) -> Result<Vec<RefusedEntry>, Error> {
    list(refused.iter().map(|one| RefusedEntry::new(one.entry, refusal_told(one.refusal))))
}

pub(crate) fn booted_told(end: Result<&Outcome<Global>, &BootFault<Global>>) -> Result<Booted, Error> {
    match end {
        Ok(outcome) => Ok(Booted {
            handoff: Handoff { entry: outcome.entry, ..handoff_told(&outcome.handoff)? },
            refusals: refused_told(&outcome.refused)?,
        }),
        Err(BootFault::NoEntryLeft(refused)) => Err(Error::NoEntry(refused_told(refused)?)),
        Err(BootFault::NoMemory) => Err(Error::NoMemory),
    }
}

pub(crate) fn unplaced_told(row: &Row) -> Unplaced {
    let (choice, address, (alignment, low, high)) = match row.choice {
        CoreChoice::Fixed(at) => (Choice::Fixed, at, (0, 0, 0)),
        CoreChoice::Lowest { align, low, high } => (Choice::Lowest, 0, (align, low, high)),
        CoreChoice::Highest { align, low, high } => (Choice::Highest, 0, (align, low, high)),
        CoreChoice::Preferred { at, align, low, high } => (Choice::Preferred, at, (align, low, high)),
    };
    Unplaced {
        role: Role::from_number(row.role.number()),
        index: row.index,
        length: if row.length <= core_map::MAX_SIZE { row.length } else { u64::MAX },
        alignment,
        low,
        high,
        address,
        choice,
    }
}

// ---- what is seen

fn screen_told(screen: &core_map::Screen) -> Screen {
    let color = |color: core_map::ColorField| Color::new(color.position, color.size);
    Screen {
        base: screen.base,
        pitch: screen.pitch,
        width: screen.width,
        height: screen.height,
        depth: screen.depth,
        red: color(screen.red),
        green: color(screen.green),
        blue: color(screen.blue),
    }
}

fn efi_bits_told(bits: core_map::EfiBits) -> EfiBits {
    match bits {
        core_map::EfiBits::Efi32 => EfiBits::Bits32,
        core_map::EfiBits::Efi64 => EfiBits::Bits64,
    }
}

fn secure_boot_told(secure_boot: core_map::SecureBoot) -> SecureBoot {
    match secure_boot {
        core_map::SecureBoot::Unset => SecureBoot::NotTold,
        core_map::SecureBoot::Unknown => SecureBoot::Unknown,
        core_map::SecureBoot::Disabled => SecureBoot::Disabled,
        core_map::SecureBoot::Enabled => SecureBoot::Enabled,
    }
}

/// Linux is told where the map lies; a Multiboot2 kernel has a copy of it.
fn efi_told(told: &core_walk::SeenFirmware<Global>) -> Result<Option<SeenEfi>, Error> {
    if let Some(efi) = &told.efi_info {
        return Ok(Some(SeenEfi {
            bits: efi_bits_told(efi.bits),
            system_table: efi.system_table,
            map_address: efi.map_address,
            map_length: efi.map_size,
            map: None,
            descriptor_size: efi.descriptor_size,
            descriptor_version: efi.descriptor_version,
            secure_boot: secure_boot_told(efi.secure_boot),
        }));
    }
    let Some(efi) = &told.efi_tables else {
        return Ok(None);
    };
    Ok(Some(SeenEfi {
        bits: efi_bits_told(efi.bits),
        system_table: efi.system_table,
        map_address: 0,
        map_length: efi.map.len() as u64,
        map: Some(copy(efi.map.as_slice())?),
        descriptor_size: efi.descriptor_size,
        descriptor_version: efi.descriptor_version,
        secure_boot: SecureBoot::NotTold,
    }))
}

fn firmware_told(told: &core_walk::SeenFirmware<Global>) -> Result<SeenFirmware, Error> {
    let smbios = |smbios: &SmbiosCopy<Global>| -> Result<Smbios, Error> {
        Ok(Smbios { major: smbios.major, minor: smbios.minor, tables: copy(smbios.tables.as_slice())? })
    };
    Ok(SeenFirmware {
        screen: told.screen.as_ref().map(screen_told),
        rsdp: told.rsdp,
        efi: efi_told(told)?,
        smbios: told.smbios.as_ref().map(smbios).transpose()?,
    })
}

pub(crate) fn seen_told(seen: &core_walk::Seen<'_, Global>) -> Result<Seen, Error> {
    let range = |address: u32, bytes: &[u8]| Range { address: address.into(), length: bytes.len() as u64 };
    let rsdp = |told: &Option<Bytes<Global>>| told.as_ref().map(|told| copy(told.as_slice())).transpose();
    let module = |module: &core_walk::SeenModule<'_, Global>| -> Result<SeenModule, Error> {
        Ok(SeenModule { file: range(module.mod_start, module.bytes), line: copy(module.line.as_slice())? })
    };
    let run = |run: &core_map::Region| Run { range: Range { address: run.base, length: run.length }, number: run.kind.number() };
    Ok(Seen {
        protocol: protocol_told(seen.protocol),
        entry_address: seen.entry,
        line: copy(seen.line.as_slice())?,
        kernel_parts: list(seen.kernel.iter().map(|part| Range { address: part.address, length: part.length }))?,
        modules: checked_list(seen.modules.iter().map(module))?,
        runs: list(seen.map.iter().map(run))?,
        initrd: seen.initrd.as_ref().map(|file| range(file.address, file.bytes)),
        rsdp_old: rsdp(&seen.rsdp_old)?,
        rsdp_new: rsdp(&seen.rsdp_new)?,
        firmware: firmware_told(&seen.firmware)?,
    })
}
