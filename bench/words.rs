//! Little-endian numbers in a file, and sums that may not fit.

fn array_at<const N: usize>(file: &[u8], at: u64) -> [u8; N] {
    let at = at as usize;
    file[at..at + N].try_into().expect("N bytes")
}

pub fn u16_at(file: &[u8], at: u64) -> u16 {
    u16::from_le_bytes(array_at(file, at))
}

pub fn u32_at(file: &[u8], at: u64) -> u32 {
    u32::from_le_bytes(array_at(file, at))
}

pub fn u64_at(file: &[u8], at: u64) -> u64 {
    u64::from_le_bytes(array_at(file, at))
}

/// Whether `start + size` is at most `end`, where the sum may not fit.
pub fn ends_within(start: u64, size: u64, end: u64) -> bool {
    start <= end && size <= end - start
}

/// Whether `a` lies in the `size` bytes from `start` on.
pub fn holds(start: u64, size: u64, a: u64) -> bool {
    start <= a && a - start < size
}
