//! What is handed over.

use alloc::vec::Vec;

use crate::entry::Protocol;
use crate::error::Error;
use crate::lists::list;
use crate::numbers::numbered;
use crate::proved::bl_image::{IoSource, read_front};
use crate::shim::alloc::Global;
use crate::told;

/// The registers as the kernel begins. With 32 bits `rip` is what EIP is to hold, and so on; `r8`
/// to `r15`, `cr3`, `cr4` and `efer` are 0 then, and to be chosen. TR, LDTR, IDTR and the debug
/// registers are to be chosen too: no kernel may count on them.
#[derive(Clone, Copy, Debug, Default, PartialEq, Eq, Hash)]
#[non_exhaustive]
pub struct Registers {
    /// 32 or 64.
    pub bits: u64,
    /// Where the kernel is entered.
    pub rip: u64,
    /// RAX.
    pub rax: u64,
    /// RBX.
    pub rbx: u64,
    /// RCX.
    pub rcx: u64,
    /// RDX.
    pub rdx: u64,
    /// RSI.
    pub rsi: u64,
    /// RDI.
    pub rdi: u64,
    /// RBP.
    pub rbp: u64,
    /// RSP.
    pub rsp: u64,
    /// R8.
    pub r8: u64,
    /// R9.
    pub r9: u64,
    /// R10.
    pub r10: u64,
    /// R11.
    pub r11: u64,
    /// R12.
    pub r12: u64,
    /// R13.
    pub r13: u64,
    /// R14.
    pub r14: u64,
    /// R15.
    pub r15: u64,
    /// RFLAGS.
    pub rflags: u64,
    /// CR0.
    pub cr0: u64,
    /// CR3.
    pub cr3: u64,
    /// CR4.
    pub cr4: u64,
    /// The register EFER.
    pub efer: u64,
    /// The selector of CS; [`Registers::segments`] has the rest.
    pub cs: u64,
    /// The selector of DS.
    pub ds: u64,
    /// The selector of ES.
    pub es: u64,
    /// The selector of FS.
    pub fs: u64,
    /// The selector of GS.
    pub gs: u64,
    /// The selector of SS.
    pub ss: u64,
    /// Where the table of descriptors lies; 0 where there is none.
    pub gdt_base: u64,
    /// The offset of its last byte; 0 where there is none.
    pub gdt_limit: u64,
    /// 1 if the gate A20 is to be open.
    pub a20: u64,
}

impl Registers {
    /// The segment registers whole.
    pub fn segments(&self) -> Segments {
        let wide = self.bits == 64;
        let flat = |selector: u64, type_, l: bool| Segment {
            base: 0,
            limit: u32::MAX,
            selector: selector as u16,
            type_,
            s: 1,
            dpl: 0,
            p: 1,
            avl: 0,
            l: l.into(),
            db: (!l).into(),
            g: 1,
        };
        let data = |selector| flat(selector, 3, false);
        let (ds, es, fs, gs, ss) = (data(self.ds), data(self.es), data(self.fs), data(self.gs), data(self.ss));
        Segments { cs: flat(self.cs, 11, wide), ds, es, fs, gs, ss }
    }
}

/// A segment register whole, as a virtual processor is given it without loading a descriptor.
#[derive(Clone, Copy, Debug, Default, PartialEq, Eq, Hash)]
#[non_exhaustive]
pub struct Segment {
    /// Where the segment begins.
    pub base: u64,
    /// The offset of its last byte, in bytes.
    pub limit: u32,
    /// The selector.
    pub selector: u16,
    /// The type of the descriptor.
    pub type_: u8,
    /// 1: a segment of code or data.
    pub s: u8,
    /// The privilege level.
    pub dpl: u8,
    /// 1: present.
    pub p: u8,
    /// A bit for the system's use.
    pub avl: u8,
    /// 1: 64-bit code.
    pub l: u8,
    /// 1: 32-bit code or data.
    pub db: u8,
    /// 1: the descriptor counts its limit in pages.
    pub g: u8,
}

/// All segment registers.
#[derive(Clone, Copy, Debug, Default, PartialEq, Eq, Hash)]
pub struct Segments {
    /// CS.
    pub cs: Segment,
    /// DS.
    pub ds: Segment,
    /// ES.
    pub es: Segment,
    /// FS.
    pub fs: Segment,
    /// GS.
    pub gs: Segment,
    /// SS.
    pub ss: Segment,
}

numbered! {
    /// What a part in memory is. One that is not known is memory that the kernel owns, as any
    /// other.
    Role {
        /// A part of the kernel.
        Kernel = 1,
        /// A module.
        Module = 2,
        /// The boot information of Multiboot2.
        Information = 3,
        /// The boot parameters of Linux.
        BootParams = 4,
        /// The line of a Linux kernel.
        CommandLine = 5,
        /// The table of descriptors.
        Gdt = 6,
        /// The initial ramdisk.
        Initrd = 7,
        /// Page tables.
        PageTables = 8,
    }
}

/// A part in memory. What a part has no bytes for is zero.
#[derive(Clone, Copy, Debug, PartialEq, Eq, Hash)]
#[non_exhaustive]
pub struct Place {
    /// What it is.
    pub role: Role,
    /// Its index among the parts of its role.
    pub index: u32,
    /// Where it begins.
    pub address: u64,
    /// Its bytes; of all but a kernel's part a multiple of 4096.
    pub length: u64,
}

impl Place {
    /// A part of this role.
    pub fn new(role: Role, index: u32, address: u64, length: u64) -> Place {
        Place { role, index, address, length }
    }
}

/// What a kernel is handed: registers and parts.
#[derive(Clone, Debug, PartialEq, Eq, Hash)]
#[non_exhaustive]
pub struct Handoff {
    /// The index of the entry in its menu; 0 where there is no menu.
    pub entry: u32,
    /// How its kernel is entered.
    pub protocol: Protocol,
    /// The registers as it begins.
    pub registers: Registers,
    /// The parts, by ascending address.
    pub places: Vec<Place>,
}

impl Handoff {
    /// The head of an image of this handoff: all that stands before the bytes of the parts, which
    /// follow in the order of the places.
    pub fn image_head(&self) -> Result<Vec<u8>, Error> {
        let r = &self.registers;
        let registers = [r.rip, r.rax, r.rbx, r.rcx, r.rdx, r.rsi, r.rdi, r.rbp, r.rsp]
            .into_iter()
            .chain([r.r8, r.r9, r.r10, r.r11, r.r12, r.r13, r.r14, r.r15])
            .chain([r.rflags, r.cr0, r.cr3, r.cr4, r.efer])
            .chain([r.cs, r.ds, r.es, r.fs, r.gs, r.ss, r.gdt_base, r.gdt_limit, r.a20]);
        let pair = |low: u32, high: u32| u64::from(low) | u64::from(high) << 32;
        let numbers = core::iter::once(u64::from_le_bytes(*b"BLIMAGE\0"))
            .chain([pair(2, self.protocol.number())])
            .chain(registers)
            .chain([self.places.len() as u64])
            .chain(self.places.iter().flat_map(|place| [pair(place.role.number(), place.index), place.address, place.length]));
        list(numbers.flat_map(u64::to_le_bytes))
    }

    /// Reads the head of an image, by which its kernel is entered. The bytes of the parts need not
    /// follow; of an image that has them it takes the beginning. What is read has 0 as its entry.
    pub fn from_image_head(head: &[u8]) -> Result<Handoff, Error> {
        let front = read_front(Global, &mut IoSource::new(head))?;
        Ok(Handoff {
            entry: 0,
            protocol: told::protocol_told(front.protocol),
            registers: told::registers_told(&front.registers),
            places: list(front.places.iter().map(told::place_told))?,
        })
    }
}
