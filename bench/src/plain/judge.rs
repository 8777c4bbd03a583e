//! Judging a pair of routes and a schedule, refusals 1 and 4 to 14, and the tables of next values.

use super::{entries, entry, Refusal, Table};

fn repeat(route: &[u8]) -> Option<usize> {
    let mut met = [false; 512];
    entries(route).position(|id| std::mem::replace(&mut met[id as usize], true))
}

/// Refusals 1 and 4 to 7.
pub fn routes(old: &[u8], new: &[u8]) -> Result<(), Refusal> {
    let routes = [(1, old), (2, new)];
    if routes.iter().any(|(_, route)| route.len() % 2 != 0) {
        return Err((1, 0, 0));
    }
    for (no, route) in routes {
        if !(2..=256).contains(&(route.len() / 2)) {
            return Err((4, no, 0));
        }
    }
    for (no, route) in routes {
        if let Some(i) = entries(route).position(|id| id > 511) {
            return Err((5, no, i));
        }
    }
    for (no, route) in routes {
        if let Some(i) = repeat(route) {
            return Err((6, no, i));
        }
    }
    if entry(old, 0) != entry(new, 0) {
        return Err((7, 0, 0));
    }
    if entry(old, old.len() / 2 - 1) != entry(new, new.len() / 2 - 1) {
        return Err((7, 0, 1));
    }
    Ok(())
}

pub fn next_values(route: &[u8]) -> Table {
    let mut values = [512; 512];
    let mut after = 513;
    for i in (0..route.len() / 2).rev() {
        let id = entry(route, i);
        values[id as usize] = after;
        after = id;
    }
    values
}

/// The marks of the due nodes.
pub fn due(a: &Table, b: &Table) -> [bool; 512] {
    std::array::from_fn(|v| a[v] != b[v])
}

fn sums_to(sizes: &[u8], total: usize) -> bool {
    let mut left = total;
    for size in entries(sizes) {
        match left.checked_sub(size as usize) {
            Some(rest) => left = rest,
            None => return false,
        }
    }
    left == 0
}

fn round_of(sizes: &[u8], i: usize) -> usize {
    let mut end = 0;
    let round = entries(sizes).position(|size| {
        end += size as usize;
        i < end
    });
    round.unwrap_or(sizes.len() / 2) + 1
}

fn first_fall(ids: &[u8], sizes: &[u8]) -> Option<usize> {
    let mut from = 0;
    for size in entries(sizes) {
        let to = from + size as usize;
        for i in from + 1..to {
            if entry(ids, i) <= entry(ids, i - 1) {
                return Some(i);
            }
        }
        from = to;
    }
    None
}

/// Refusals 8 to 14, for the tables of a good pair of routes.
fn schedule(a: &Table, b: &Table, mode: u16, ids: &[u8], sizes: &[u8]) -> Result<(), Refusal> {
    if mode > 1 {
        return Err((8, 0, 0));
    }
    if !sums_to(sizes, ids.len() / 2) {
        return Err((9, 0, 0));
    }
    if let Some(t) = entries(sizes).position(|size| size == 0) {
        return Err((10, t + 1, 0));
    }
    if let Some(i) = first_fall(ids, sizes) {
        return Err((11, round_of(sizes, i), i));
    }
    let mut left = due(a, b);
    if let Some(i) = entries(ids).position(|id| 512 <= id || !left[id as usize]) {
        return Err((12, round_of(sizes, i), i));
    }
    if let Some(i) = repeat(ids) {
        return Err((13, round_of(sizes, i), i));
    }
    for id in entries(ids) {
        left[id as usize] = false;
    }
    match left.iter().position(|mark| *mark) {
        Some(id) => Err((14, 0, id)),
        None => Ok(()),
    }
}

/// Refusals 1 and 4 to 14; the tables of a change that is sound.
pub fn change(old: &[u8], new: &[u8], mode: u16, ids: &[u8], sizes: &[u8]) -> Result<(Table, Table), Refusal> {
    if ids.len() % 2 != 0 || sizes.len() % 2 != 0 {
        return Err((1, 0, 0));
    }
    routes(old, new)?;
    let (a, b) = (next_values(old), next_values(new));
    schedule(&a, &b, mode, ids, sizes)?;
    Ok((a, b))
}
