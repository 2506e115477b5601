//! A reader of a Linux kernel's setup header in plain Rust, with the checks of the proved one in the same order.

use crate::words::{u16_at, u32_at, u64_at};

const LEAST_SIZE: usize = 1024;
const LEAST_VERSION: u16 = 0x020A;
const LOADED_HIGH: u8 = 1;
const SECTOR: u64 = 512;
pub const HEADER_START: usize = 0x1F1;
const LEAST_HEADER_END: usize = 0x264;
const MAX_HEADER_END: usize = 0x290;
const PREFERRED: std::ops::RangeInclusive<u64> = 0x10_0000..=0xFFFF_FFFF;

#[derive(Clone, Copy, Debug, PartialEq, Eq)]
pub enum SetupFault {
    NotBzImage,
    OldProtocol,
    NotHigh,
    SetupCut,
    BadAlign,
    BadPreferred,
}

/// The fields that loading needs, the header's bytes, of which the first `header_size` count, and
/// where the payload begins; it runs to the file's end.
#[derive(Clone, Copy, Debug, PartialEq, Eq)]
pub struct Setup {
    pub is_relocatable: bool,
    pub initrd_addr_max: u32,
    pub kernel_alignment: u32,
    pub cmdline_size: u32,
    pub pref_address: u64,
    pub init_size: u32,
    pub header: [u8; MAX_HEADER_END - HEADER_START],
    pub header_size: usize,
    pub payload_offset: u64,
    pub payload_size: u64,
}

fn header_of(file: &[u8], end: usize) -> [u8; MAX_HEADER_END - HEADER_START] {
    let mut header = [0; MAX_HEADER_END - HEADER_START];
    header[..end - HEADER_START].copy_from_slice(&file[HEADER_START..end]);
    header
}

/// Whether the kernel lies at 1 MiB, and where it needs its room is not told well.
fn is_badly_preferred(is_relocatable: bool, pref_address: u64) -> bool {
    !is_relocatable && !PREFERRED.contains(&pref_address)
}

/// What the setup header of a kernel file says.
pub fn read_setup(file: &[u8]) -> Result<Setup, SetupFault> {
    if file.len() < LEAST_SIZE || u16_at(file, 0x1FE) != 0xAA55 || &file[0x202..0x206] != b"HdrS" {
        return Err(SetupFault::NotBzImage);
    }
    if u16_at(file, 0x206) < LEAST_VERSION {
        return Err(SetupFault::OldProtocol);
    }
    if file[0x211] & LOADED_HIGH == 0 {
        return Err(SetupFault::NotHigh);
    }
    let sectors = if file[0x1F1] == 0 { 4 } else { file[0x1F1] };
    let payload_offset = (sectors as u64 + 1) * SECTOR;
    let end = (0x202 + file[0x201] as usize).min(MAX_HEADER_END);
    if end < LEAST_HEADER_END || file.len() as u64 <= payload_offset {
        return Err(SetupFault::SetupCut);
    }
    let is_relocatable = file[0x234] != 0;
    let kernel_alignment = u32_at(file, 0x230);
    if is_relocatable && !kernel_alignment.is_power_of_two() {
        return Err(SetupFault::BadAlign);
    }
    let pref_address = u64_at(file, 0x258);
    if is_badly_preferred(is_relocatable, pref_address) {
        return Err(SetupFault::BadPreferred);
    }
    Ok(Setup {
        is_relocatable,
        initrd_addr_max: u32_at(file, 0x22C),
        kernel_alignment,
        cmdline_size: u32_at(file, 0x238),
        pref_address,
        init_size: u32_at(file, 0x260),
        header: header_of(file, end),
        header_size: end - HEADER_START,
        payload_offset,
        payload_size: file.len() as u64 - payload_offset,
    })
}
