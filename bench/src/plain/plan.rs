//! The planner in two versions: one with the algorithm of the proved one, and one that tests the whole round again for each node
//! that would join it.

use super::check::fault;
use super::searches::{cyclic, leads, reach};
use super::{entry, judge, lanes, put_entry, Choice, Refusal, Table};

/// How a node is tried for the present round.
trait Joining {
    /// Begins a round.
    fn begin(a: &Table, b: &Table, mode: u16, choice: &Choice, source: usize) -> Self;
    /// Whether the node may join; its choice is old yet.
    fn may_join(&mut self, a: &Table, b: &Table, mode: u16, choice: &mut Choice, source: usize, v: usize) -> bool;
}

/// As the proved one: only what the node adds is searched.
struct Added {
    seen: [bool; 514],
}

impl Joining for Added {
    fn begin(a: &Table, b: &Table, mode: u16, choice: &Choice, source: usize) -> Added {
        Added { seen: if mode == 1 { reach(a, b, choice, source) } else { [false; 514] } }
    }

    fn may_join(&mut self, a: &Table, b: &Table, mode: u16, choice: &mut Choice, _: usize, v: usize) -> bool {
        let w = b[v] as usize;
        if mode == 0 {
            return !leads(a, b, choice, w, v);
        }
        if !self.seen[v] {
            return true;
        }
        let more = reach(a, b, choice, w);
        if more[v] {
            return false;
        }
        let mut fresh = [false; 512];
        let mut any = false;
        for u in 0..512 {
            if more[u] && !self.seen[u] {
                fresh[u] = true;
                any = true;
            }
        }
        if any && cyclic(a, b, choice, &fresh) {
            return false;
        }
        for (mark, also) in self.seen.iter_mut().zip(more) {
            *mark |= also;
        }
        true
    }
}

/// The whole round again, as the check tests it.
struct Whole;

impl Joining for Whole {
    fn begin(_: &Table, _: &Table, _: u16, _: &Choice, _: usize) -> Whole {
        Whole
    }

    fn may_join(&mut self, a: &Table, b: &Table, mode: u16, choice: &mut Choice, source: usize, v: usize) -> bool {
        choice[v] = 2;
        let good = fault(a, b, choice, source, mode).is_none();
        choice[v] = 0;
        good
    }
}

/// What is written so far.
pub struct Out<'a> {
    pub ids: &'a mut [u8],
    pub sizes: &'a mut [u8],
    pub rounds: usize,
    pub count: usize,
}

impl Out<'_> {
    /// Writes the present round and places it; a round of no node is none.
    pub fn round(&mut self, choice: &mut Choice) {
        let first = self.count;
        for v in 0..512 {
            if choice[v] == 2 {
                choice[v] = 1;
                put_entry(self.ids, self.count, v as u16);
                self.count += 1;
            }
        }
        if self.count > first {
            put_entry(self.sizes, self.rounds, (self.count - first) as u16);
            self.rounds += 1;
        }
    }
}

/// The refusals that both planners give, 1 and 4 to 8.
pub fn fit(old: &[u8], new: &[u8], mode: u16, ids: &[u8], sizes: &[u8]) -> Result<(), Refusal> {
    if ids.len() < 1024 || sizes.len() < 1024 {
        return Err((1, 0, 0));
    }
    judge::routes(old, new)?;
    if mode > 1 {
        return Err((8, 0, 0));
    }
    Ok(())
}

/// The rounds and the ids written, or the refusal.
fn planned<J: Joining>(old: &[u8], new: &[u8], mode: u16, ids: &mut [u8], sizes: &mut [u8]) -> Result<[usize; 4], Refusal> {
    fit(old, new, mode, ids, sizes)?;
    let (a, b) = (judge::next_values(old), judge::next_values(new));
    let source = entry(old, 0) as usize;
    let mut out = Out { ids, sizes, rounds: 0, count: 0 };
    let mut choice = [0; 512];
    for v in 0..512 {
        if a[v] == 512 && b[v] < 512 {
            choice[v] = 2;
        }
    }
    out.round(&mut choice);
    let mut left = [0; 256];
    let mut many = 0;
    for i in (0..new.len() / 2).rev() {
        let id = entry(new, i);
        let (x, y) = (a[id as usize], b[id as usize]);
        if x != y && x < 512 && y < 512 {
            left[many] = id;
            many += 1;
        }
    }
    while many > 0 {
        let mut joining = J::begin(&a, &b, mode, &choice, source);
        let mut kept = 0;
        for i in 0..many {
            let v = left[i] as usize;
            if joining.may_join(&a, &b, mode, &mut choice, source, v) {
                choice[v] = 2;
            } else {
                left[kept] = v as u16;
                kept += 1;
            }
        }
        many = kept;
        out.round(&mut choice);
    }
    for v in 0..512 {
        if a[v] < 512 && b[v] == 512 {
            choice[v] = 2;
        }
    }
    out.round(&mut choice);
    Ok([0, out.rounds, out.count, 0])
}

#[no_mangle]
#[inline(never)]
pub fn plain_plan(old: &[u8], new: &[u8], mode: u16, ids: &mut [u8], sizes: &mut [u8]) -> u64 {
    lanes(planned::<Added>(old, new, mode, ids, sizes))
}

#[no_mangle]
#[inline(never)]
pub fn plain_whole(old: &[u8], new: &[u8], mode: u16, ids: &mut [u8], sizes: &mut [u8]) -> u64 {
    lanes(planned::<Whole>(old, new, mode, ids, sizes))
}
