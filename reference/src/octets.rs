//! Big-endian numbers in octets.

pub fn u16_at(octets: &[u8], at: usize) -> u16 {
    u16::from_be_bytes(array_at(octets, at))
}

pub fn u32_at(octets: &[u8], at: usize) -> u32 {
    u32::from_be_bytes(array_at(octets, at))
}

pub fn u64_at(octets: &[u8], at: usize) -> u64 {
    u64::from_be_bytes(array_at(octets, at))
}

/// Copies `N` octets as one slice, so that their bounds are checked once.
fn array_at<const N: usize>(octets: &[u8], at: usize) -> [u8; N] {
    let mut array = [0; N];
    array.copy_from_slice(&octets[at..at + N]);
    array
}
