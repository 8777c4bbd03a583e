//! The searches over two tables and a choice.

use super::{Choice, Table};

fn one(old: &Table, new: &Table, choice: &Choice, v: usize) -> usize {
    if choice[v] == 1 { new[v] as usize } else { old[v] as usize }
}

fn other(old: &Table, new: &Table, choice: &Choice, v: usize) -> usize {
    if choice[v] == 0 { old[v] as usize } else { new[v] as usize }
}

fn visit(seen: &mut [bool; 514], queue: &mut [u16; 514], tail: usize, w: usize) -> usize {
    if 514 <= w || seen[w] {
        return tail;
    }
    seen[w] = true;
    queue[tail] = w as u16;
    tail + 1
}

/// Marks what is come to from `start`, until there is no more or `enough`.
#[inline(always)]
fn search(old: &Table, new: &Table, choice: &Choice, start: usize, seen: &mut [bool; 514], enough: impl Fn(&[bool; 514]) -> bool) {
    let mut queue = [0; 514];
    let mut tail = visit(seen, &mut queue, 0, start);
    let mut head = 0;
    while head < tail && !enough(seen) {
        let v = queue[head] as usize;
        if v < 512 {
            tail = visit(seen, &mut queue, tail, one(old, new, choice, v));
            tail = visit(seen, &mut queue, tail, other(old, new, choice, v));
        }
        head += 1;
    }
}

/// The marks of all that a path from `start` leads to.
pub fn reach(old: &Table, new: &Table, choice: &Choice, start: usize) -> [bool; 514] {
    let mut seen = [false; 514];
    search(old, new, choice, start, &mut seen, |_| false);
    seen
}

/// Whether a path leads from `from` to `to`.
pub fn leads(old: &Table, new: &Table, choice: &Choice, from: usize, to: usize) -> bool {
    let mut seen = [false; 514];
    search(old, new, choice, from, &mut seen, |seen| seen[to]);
    seen[to]
}

fn offer(rest: &mut [bool; 512], count: &[u16; 512], queue: &mut [u16; 512], tail: usize, w: usize) -> usize {
    if 512 <= w || !rest[w] || 0 < count[w] {
        return tail;
    }
    rest[w] = false;
    queue[tail] = w as u16;
    tail + 1
}

/// Whether a closed path lies within the set: nodes that no step of the rest enters are taken away until there is none.
pub fn cyclic(old: &Table, new: &Table, choice: &Choice, alive: &[bool; 512]) -> bool {
    let all = alive.iter().filter(|mark| **mark).count();
    let mut count = [0u16; 512];
    for v in 0..512 {
        if alive[v] {
            for w in [one(old, new, choice, v), other(old, new, choice, v)] {
                if w < 512 {
                    count[w] += 1;
                }
            }
        }
    }
    let mut rest = *alive;
    let mut queue = [0; 512];
    let mut tail = 0;
    for w in 0..512 {
        tail = offer(&mut rest, &count, &mut queue, tail, w);
    }
    let mut head = 0;
    while head < tail {
        let v = queue[head] as usize;
        let steps = [one(old, new, choice, v), other(old, new, choice, v)];
        for w in steps {
            if w < 512 {
                count[w] -= 1;
            }
        }
        for w in steps {
            tail = offer(&mut rest, &count, &mut queue, tail, w);
        }
        head += 1;
    }
    tail < all
}

#[no_mangle]
#[inline(never)]
pub fn plain_reach(old: &Table, new: &Table, choice: &Choice, start: usize, marks: &mut [bool; 514]) {
    *marks = reach(old, new, choice, start);
}

#[no_mangle]
#[inline(never)]
pub fn plain_cyclic(old: &Table, new: &Table, choice: &Choice, alive: &[bool; 512]) -> bool {
    cyclic(old, new, choice, alive)
}
