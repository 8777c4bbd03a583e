//! The walk in one state.

use super::{entry, judge, lanes, words, Refusal};

fn walked(old: &[u8], new: &[u8], set: &[u8]) -> Result<[usize; 4], Refusal> {
    if set.len() != 64 {
        return Err((1, 0, 0));
    }
    judge::routes(old, new)?;
    let changed = words(set);
    let member = |id: usize| changed[id / 64] >> (id % 64) & 1 == 1;
    let (a, b) = (judge::next_values(old), judge::next_values(new));
    let due = judge::due(&a, &b);
    if let Some(id) = (0..512).find(|id| member(*id) && !due[*id]) {
        return Err((12, 0, id));
    }
    let mut seen = [false; 512];
    let mut at = entry(old, 0) as usize;
    let mut hops = 0;
    while !seen[at] {
        seen[at] = true;
        match if member(at) { b[at] } else { a[at] } {
            513 => return Ok([0, 0, hops, 0]),
            512 => return Ok([0, 1, hops, at]),
            to => at = to as usize,
        }
        hops += 1;
    }
    Ok([0, 2, hops, at])
}

#[no_mangle]
#[inline(never)]
pub fn plain_walk(old: &[u8], new: &[u8], set: &[u8]) -> u64 {
    lanes(walked(old, new, set))
}
