//! What the proved code does, in plain safe Rust without contracts: the same arrays and the same order of work. Each function
//! that is measured has a name of its own that callgrind sees.

pub mod check;
pub mod file;
pub mod judge;
pub mod plan;
pub mod quick;
pub mod searches;
pub mod walk;

/// The next value of each node: a node, 512 for nothing, 513 for handed off.
pub type Table = [u16; 512];
/// For each node 0 old only, 1 new only, 2 either.
pub type Choice = [u8; 512];
/// Number, where, place.
pub type Refusal = (usize, usize, usize);

pub fn entry(list: &[u8], i: usize) -> u16 {
    u16::from_le_bytes([list[2 * i], list[2 * i + 1]])
}

pub fn entries(list: &[u8]) -> impl Iterator<Item = u16> + '_ {
    list.chunks_exact(2).map(|pair| u16::from_le_bytes([pair[0], pair[1]]))
}

pub fn put_entry(list: &mut [u8], i: usize, x: u16) {
    list[2 * i..2 * i + 2].copy_from_slice(&x.to_le_bytes());
}

/// The set that 64 bytes are, as eight words.
pub fn words(set: &[u8]) -> [u64; 8] {
    std::array::from_fn(|i| u64::from_le_bytes(set[8 * i..8 * i + 8].try_into().unwrap()))
}

/// A reply of the C calls: four lanes of 16 bits, lowest first.
pub fn lanes(reply: Result<[usize; 4], Refusal>) -> u64 {
    let lanes = reply.unwrap_or_else(|(number, site, place)| [number, site, place, 0]);
    lanes.iter().rev().fold(0, |reply, lane| reply << 16 | (*lane).min(65_535) as u64)
}

/// A reply of the reader or the writer: six numbers in 4, 10, 10, 12, 12 and 16 bits, lowest first.
pub fn packed(reply: Result<[usize; 6], Refusal>) -> u64 {
    let six = reply.unwrap_or_else(|(number, site, place)| [number, site, 0, place, 0, 0]);
    let widths = [4, 10, 10, 12, 12, 16];
    six.iter().zip(widths).rev().fold(0, |reply, (x, width)| reply << width | (*x).min((1 << width) - 1) as u64)
}
