//! The check: one search from the source and one peeling for each round, and the named subset by one test for each id.

use super::searches::{cyclic, reach};
use super::{entry, judge, lanes, Choice, Refusal, Table};

fn alive(seen: &[bool; 514], mode: u16) -> [bool; 512] {
    let mut nodes = [true; 512];
    if mode == 1 {
        nodes.copy_from_slice(&seen[..512]);
    }
    nodes
}

/// The fault that the choices allow, as its refusal number: a drop before a loop.
pub fn fault(old: &Table, new: &Table, choice: &Choice, source: usize, mode: u16) -> Option<usize> {
    let seen = reach(old, new, choice, source);
    if seen[512] {
        return Some(16);
    }
    cyclic(old, new, choice, &alive(&seen, mode)).then_some(17)
}

/// Whether the choices allow the fault of this number.
fn shows(old: &Table, new: &Table, choice: &Choice, source: usize, mode: u16, number: usize) -> bool {
    let seen = reach(old, new, choice, source);
    if number == 16 {
        return seen[512];
    }
    cyclic(old, new, choice, &alive(&seen, mode))
}

/// The rounds and the due nodes, or the refusal; 16 and 17 write the subset.
fn checked(old: &[u8], new: &[u8], mode: u16, ids: &[u8], sizes: &[u8], set: &mut [u8]) -> Result<[usize; 4], Refusal> {
    if set.len() < 64 {
        return Err((1, 0, 0));
    }
    let (a, b) = judge::change(old, new, mode, ids, sizes)?;
    let source = entry(old, 0) as usize;
    let mut choice = [0; 512];
    let mut from = 0;
    for t in 0..sizes.len() / 2 {
        let to = from + entry(sizes, t) as usize;
        for i in from..to {
            choice[entry(ids, i) as usize] = 2;
        }
        if let Some(number) = fault(&a, &b, &choice, source, mode) {
            let mut subset = [0u64; 8];
            for i in from..to {
                let id = entry(ids, i) as usize;
                choice[id] = 0;
                if !shows(&a, &b, &choice, source, mode, number) {
                    choice[id] = 1;
                    subset[id / 64] |= 1 << (id % 64);
                }
            }
            let size = subset.iter().map(|word| word.count_ones() as usize).sum();
            if size == 0 {
                return Err((15, t + 1, 0));
            }
            for (bytes, word) in set.chunks_exact_mut(8).zip(subset) {
                bytes.copy_from_slice(&word.to_le_bytes());
            }
            return Err((number, t + 1, size));
        }
        for i in from..to {
            choice[entry(ids, i) as usize] = 1;
        }
        from = to;
    }
    Ok([0, sizes.len() / 2, ids.len() / 2, 0])
}

#[no_mangle]
#[inline(never)]
pub fn plain_check(old: &[u8], new: &[u8], mode: u16, ids: &[u8], sizes: &[u8], set: &mut [u8]) -> u64 {
    lanes(checked(old, new, mode, ids, sizes, set))
}
