//! The quick planner: the switches in two rounds, by the sign of their old-order jump.

use super::plan::{fit, Out};
use super::{entries, entry, judge, lanes, Choice, Refusal, Table};

/// The position of each node on a route, 512 where it is not on it.
fn positions(route: &[u8]) -> Table {
    let mut at = [512; 512];
    for (i, id) in entries(route).enumerate() {
        at[id as usize] = i as u16;
    }
    at
}

/// The marks of the nodes whose jump in the order of `order` is positive: one pass from the end of the other route, with the
/// position on `order` of the next meeting node, 0 where there is none.
fn forward(order: &[u8], along: &[u8]) -> [bool; 512] {
    let at = positions(order);
    let mut marks = [false; 512];
    let mut last = 0;
    for i in (0..along.len() / 2).rev() {
        let v = entry(along, i) as usize;
        if at[v] < 512 {
            marks[v] = at[v] < last;
            last = at[v];
        }
    }
    marks
}

/// Writes the round of all nodes that join.
fn round(out: &mut Out, choice: &mut Choice, joins: impl Fn(usize) -> bool) {
    for v in 0..512 {
        if joins(v) {
            choice[v] = 2;
        }
    }
    out.round(choice);
}

/// The rounds and the ids written, or the refusal.
fn quick(old: &[u8], new: &[u8], mode: u16, ids: &mut [u8], sizes: &mut [u8]) -> Result<[usize; 4], Refusal> {
    fit(old, new, mode, ids, sizes)?;
    let (a, b) = (judge::next_values(old), judge::next_values(new));
    let (marks, others) = (forward(old, new), forward(new, old));
    let switch = |v: usize| a[v] != b[v] && a[v] < 512 && b[v] < 512;
    if let Some(id) = (0..512).find(|v| switch(*v) && !marks[*v] && !others[*v]) {
        return Err((19, 0, id));
    }
    let mut out = Out { ids, sizes, rounds: 0, count: 0 };
    let mut choice = [0; 512];
    round(&mut out, &mut choice, |v| a[v] == 512 && b[v] < 512);
    round(&mut out, &mut choice, |v| switch(v) && marks[v]);
    round(&mut out, &mut choice, |v| switch(v) && !marks[v]);
    round(&mut out, &mut choice, |v| a[v] < 512 && b[v] == 512);
    Ok([0, out.rounds, out.count, 0])
}

#[no_mangle]
#[inline(never)]
pub fn plain_quick(old: &[u8], new: &[u8], mode: u16, ids: &mut [u8], sizes: &mut [u8]) -> u64 {
    lanes(quick(old, new, mode, ids, sizes))
}
