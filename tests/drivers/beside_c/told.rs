//! What calls tell, in one form, whoever is called.

pub fn hex(bytes: &[u8]) -> String {
    bytes.iter().map(|byte| format!("{byte:02x}")).collect()
}

pub fn booted(entry: u32, head: &[u8], refused: &[(u32, String)]) -> String {
    format!("entry {entry} {} after {refused:?}", hex(head))
}

pub fn no_entry(refused: &[(u32, String)]) -> String {
    format!("none after {refused:?}")
}

/// Role, index, length, alignment, the least address, the end, an address of its own, choice.
pub fn unplaced(part: [u64; 8]) -> String {
    format!("no place for {part:x?}")
}

/// Of a file from an offset on, or bytes of the plan's own, or zeros.
pub fn step(address: u64, length: u64, file: Option<(usize, u64)>, own: &[u8]) -> String {
    format!("{address:x} {length:x} {file:x?} {}", hex(own))
}

pub fn plan(head: &[u8], steps: impl Iterator<Item = String>) -> String {
    format!("{} {:?}", hex(head), steps.collect::<Vec<_>>())
}

#[derive(Debug)]
#[allow(dead_code)] // they are shown
pub struct Screen {
    /// Address, pitch, width, height, depth.
    pub numbers: [u64; 5],
    pub colors: [(u8, u8); 3],
}

#[derive(Debug)]
#[allow(dead_code)]
pub struct Efi {
    /// Bits, system table, the map's address and length, size and version of descriptors, secure boot.
    pub numbers: [u64; 7],
    pub map: Option<Vec<u8>>,
}

#[derive(Debug)]
#[allow(dead_code)]
pub struct Seen {
    pub protocol: u32,
    pub entry_address: u64,
    pub line: Vec<u8>,
    pub kernel_parts: Vec<(u64, u64)>,
    pub modules: Vec<(u64, u64, Vec<u8>)>,
    pub runs: Vec<(u64, u64, u32)>,
    pub initrd: Option<(u64, u64)>,
    pub rsdp: [Option<Vec<u8>>; 2],
    pub screen: Option<Screen>,
    pub rsdp_address: Option<u64>,
    pub efi: Option<Efi>,
    pub smbios: Option<(u8, u8, Vec<u8>)>,
}

/// Of each part: role, index, address, length, SHA-256.
pub fn digests(
    image_length: u64,
    image: &[u8],
    head_length: u64,
    head: &[u8],
    parts: impl Iterator<Item = (u32, u32, u64, u64, [u8; 32])>,
) -> String {
    let parts: Vec<_> = parts.map(|part| format!("{part:x?}")).collect();
    format!("{image_length} {} {head_length} {} {parts:?}", hex(image), hex(head))
}
