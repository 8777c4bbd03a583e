//! Compares the calls for C with the second program: `jiwasampu_check`, `jiwasampu_plan`, `jiwasampu_quick` and `jiwasampu_walk`,
//! on memory that ends at a guard page, on the written cases and on random ones. Each plan that is given back is also checked.

use crate::changes;
use crate::guarded::Guarded;
use crate::model::{self, refusal, Refusal, Walk};
use crate::quick;
use crate::random::Random;
use crate::seen::Seen;
use crate::workers::two_at_a_time;
use crate::written;
use crate::{bytes, entries};
use std::collections::BTreeMap;

#[link(name = "jiwasampu", kind = "static")]
extern "C" {
    fn jiwasampu_check(
        old: *const u8, old_size: usize,
        new: *const u8, new_size: usize,
        mode: u16,
        ids: *const u8, ids_size: usize,
        sizes: *const u8, sizes_size: usize,
        set: *mut u8, set_size: usize,
    ) -> u64;
    fn jiwasampu_plan(
        old: *const u8, old_size: usize,
        new: *const u8, new_size: usize,
        mode: u16,
        ids: *mut u8, ids_size: usize,
        sizes: *mut u8, sizes_size: usize,
    ) -> u64;
    fn jiwasampu_quick(
        old: *const u8, old_size: usize,
        new: *const u8, new_size: usize,
        mode: u16,
        ids: *mut u8, ids_size: usize,
        sizes: *mut u8, sizes_size: usize,
    ) -> u64;
    fn jiwasampu_walk(
        old: *const u8, old_size: usize,
        new: *const u8, new_size: usize,
        set: *const u8, set_size: usize,
    ) -> u64;
}

/// The two planners. They take and lend the same.
#[derive(Clone, Copy, Debug, PartialEq, Eq)]
pub enum Planner {
    Ordinary,
    Quick,
}

/// A call with its bytes.
#[derive(Clone, Debug)]
pub enum Call {
    Check { old: Vec<u8>, new: Vec<u8>, mode: u16, ids: Vec<u8>, sizes: Vec<u8>, set: Vec<u8> },
    Plan { planner: Planner, old: Vec<u8>, new: Vec<u8>, mode: u16, ids: Vec<u8>, sizes: Vec<u8> },
    Walk { old: Vec<u8>, new: Vec<u8>, set: Vec<u8> },
}

/// Room for the slices of one call.
pub type Memory = [Guarded; 5];

/// What comes of a call: the four lanes of the reply (number, where, place, node), and what each slice holds then.
#[derive(Clone, Debug, PartialEq, Eq)]
pub struct Outcome {
    pub lanes: [u16; 4],
    pub slices: Vec<Vec<u8>>,
}

/// What should come of a call, and the refusals that apply to it, each taken by itself.
pub struct Expected {
    pub outcome: Outcome,
    applying: Vec<u64>,
}

impl Call {
    fn name(&self) -> &'static str {
        match self {
            Call::Check { .. } => "check",
            Call::Plan { planner: Planner::Ordinary, .. } => "plan",
            Call::Plan { planner: Planner::Quick, .. } => "quick",
            Call::Walk { .. } => "walk",
        }
    }

    pub fn slices(&self) -> Vec<Vec<u8>> {
        match self {
            Call::Check { old, new, mode: _, ids, sizes, set } => [old, new, ids, sizes, set].map(Vec::clone).to_vec(),
            Call::Plan { planner: _, old, new, mode: _, ids, sizes } => [old, new, ids, sizes].map(Vec::clone).to_vec(),
            Call::Walk { old, new, set } => [old, new, set].map(Vec::clone).to_vec(),
        }
    }

    /// Calls the library.
    pub fn call(&self, memory: &mut Memory, null: bool) -> Outcome {
        let slices = self.slices();
        for (held, slice) in memory.iter_mut().zip(&slices) {
            held.hold(slice, null);
        }
        let (p, n) = (memory.each_ref().map(Guarded::pointer), memory.each_ref().map(Guarded::size));
        let reply = unsafe {
            match self {
                Call::Check { mode, .. } => {
                    jiwasampu_check(p[0], n[0], p[1], n[1], *mode, p[2], n[2], p[3], n[3], p[4], n[4])
                }
                Call::Plan { planner, mode, .. } => {
                    let of = if *planner == Planner::Quick { jiwasampu_quick } else { jiwasampu_plan };
                    of(p[0], n[0], p[1], n[1], *mode, p[2], n[2], p[3], n[3])
                }
                Call::Walk { .. } => jiwasampu_walk(p[0], n[0], p[1], n[1], p[2], n[2]),
            }
        };
        let held = &memory[..slices.len()];
        assert!(held.iter().all(Guarded::margin_kept), "bytes before a slice were written");
        let lanes = [0, 16, 32, 48].map(|shift| (reply >> shift) as u16);
        Outcome { lanes, slices: held.iter().map(Guarded::bytes).collect() }
    }

    /// What the second program says. Rounds of up to `force` nodes are tried by going through all their states.
    pub fn expected(&self, force: usize) -> Expected {
        let mut slices = self.slices();
        let whole = |lists: &[&Vec<u8>]| lists.iter().all(|list| list.len() % 2 == 0);
        let (told, applying) = match self {
            Call::Check { old, new, mode, ids, sizes, set } => {
                let fits = whole(&[old, new, ids, sizes]) && set.len() >= 64;
                let checked = model::check(&entries(old), &entries(new), *mode, &entries(ids), &entries(sizes), force);
                if let (true, Some(subset)) = (fits, checked.subset) {
                    slices[4][..64].fill(0);
                    for id in subset {
                        slices[4][id as usize / 8] |= 1 << (id % 8);
                    }
                }
                let told = checked.told.map(|(rounds, due)| [0, rounds, due, 0]);
                fitting(fits, told, checked.applying)
            }
            Call::Plan { planner, old, new, mode, ids, sizes } => {
                let fits = whole(&[old, new]) && ids.len() >= 1024 && sizes.len() >= 1024;
                let (old, new) = (entries(old), entries(new));
                let (planned, applying) = match planner {
                    Planner::Ordinary => (model::plan(&old, &new, *mode), model::applying_to_plan(&old, &new, *mode)),
                    Planner::Quick => (model::quick(&old, &new, *mode), model::applying_to_quick(&old, &new, *mode)),
                };
                if let (true, Ok(rounds)) = (fits, &planned) {
                    for (k, list) in [(2, bytes(&rounds.concat())), (3, bytes(&model::sizes(rounds)))] {
                        slices[k][..list.len()].copy_from_slice(&list);
                    }
                }
                let told = planned.map(|rounds| [0, rounds.len() as u64, rounds.concat().len() as u64, 0]);
                fitting(fits, told, applying)
            }
            Call::Walk { old, new, set } => {
                let fits = whole(&[old, new]) && set.len() == 64;
                let told = model::walk(&entries(old), &entries(new), set).map(|walk| match walk {
                    Walk::Arrived(hops) => [0, 0, hops, 0],
                    Walk::Dropped(node, hops) => [0, 1, hops, node as u64],
                    Walk::Looped(node, hops) => [0, 2, hops, node as u64],
                });
                fitting(fits, told, model::applying_to_walk(&entries(old), &entries(new), set))
            }
        };
        let lanes = told.unwrap_or_else(|r| [r.number, r.site, r.place, 0]).map(|x| x.min(65_535) as u16);
        Expected { outcome: Outcome { lanes, slices }, applying }
    }
}

type Told = Result<[u64; 4], Refusal>;

/// Refusal 1 comes before all others.
fn fitting(fits: bool, told: Told, mut applying: Vec<u64>) -> (Told, Vec<u64>) {
    if fits {
        return (told, applying);
    }
    applying.insert(0, 1);
    (Err(refusal(1, 0, 0)), applying)
}

/// How two outcomes of a call differ, where they do.
pub fn difference(call: &Call, got: &Outcome, expected: &Outcome) -> Option<String> {
    let said = format!("{} gives {:?}, expected is {:?}", call.name(), got.lanes, expected.lanes);
    if got.lanes != expected.lanes {
        return Some(said);
    }
    let k = got.slices.iter().zip(&expected.slices).position(|(a, b)| a != b)?;
    Some(format!("{said}; slice {k} then holds {:?}, expected is {:?}", got.slices[k], expected.slices[k]))
}

/// The bytes of a set of ids.
pub fn set_of(ids: &[u16]) -> Vec<u8> {
    let mut set = vec![0; 64];
    for id in ids {
        set[*id as usize / 8] |= 1 << (id % 8);
    }
    set
}

/// Takes away or adds a byte of one of the lists, in one case of thirty.
fn make_odd(random: &mut Random, mut lists: Vec<&mut Vec<u8>>) {
    if random.chance(30) {
        let k = random.below(lists.len() as u64) as usize;
        if random.chance(2) {
            lists[k].push(0);
        } else {
            lists[k].pop();
        }
    }
}

/// A check of a random change. What is lent is filled with any bytes; now and then it is too short, or longer than needed.
fn random_check(random: &mut Random) -> Call {
    let lists = changes::change(random);
    let [mut old, mut new, mut ids, mut sizes] = [&lists.old, &lists.new, &lists.ids, &lists.sizes].map(|list| bytes(list));
    make_odd(random, vec![&mut old, &mut new, &mut ids, &mut sizes]);
    let size = match random.below(30) {
        0 => random.one(&[0, 1, 8, 32, 62, 63]),
        1..=9 => random.one(&[65, 66, 67, 72, 128, 129, 200]),
        _ => 64,
    };
    let set = (0..size).map(|_| random.next() as u8).collect();
    Call::Check { old, new, mode: lists.mode, ids, sizes, set }
}

/// A plan of a random pair of routes. What is lent is filled with any bytes; now and then it is too short, or longer than needed.
fn random_plan(random: &mut Random, planner: Planner) -> Call {
    let (old, new, mode) = match planner {
        Planner::Ordinary => changes::wish(random, changes::pair),
        Planner::Quick => changes::wish(random, changes::pair_for_quick),
    };
    let [mut old, mut new] = [&old, &new].map(|list| bytes(list));
    make_odd(random, vec![&mut old, &mut new]);
    let [ids, sizes] = std::array::from_fn(|_| {
        let size = match random.below(40) {
            0 => random.one(&[0, 1, 2, 64, 512, 1022, 1023]),
            1..=12 => random.one(&[1025, 1026, 1027, 1100, 2048, 2049]),
            _ => 1024,
        };
        (0..size).map(|_| random.next() as u8).collect()
    });
    Call::Plan { planner, old, new, mode, ids, sizes }
}

/// Has the library check the plan that it gave back: the check must say yes, with the same two numbers; to a quick plan in both
/// modes.
fn check_again(call: &Call, got: &Outcome, memory: &mut Memory) {
    let (Call::Plan { planner, old, new, mode, .. }, [0, rounds, count, 0]) = (call, got.lanes) else { return };
    let front = |k: usize, n: u16| got.slices[k][..2 * n as usize].to_vec();
    for mode in if *planner == Planner::Quick { vec![0, 1] } else { vec![*mode] } {
        let (ids, sizes) = (front(2, count), front(3, rounds));
        let again = Call::Check { old: old.clone(), new: new.clone(), mode, ids, sizes, set: vec![0x3c; 64] };
        let checked = again.call(memory, true);
        assert_eq!(checked.lanes, got.lanes, "the check of the plan\n {again:?}");
        assert_eq!(checked.slices, again.slices(), "the check of the plan keeps all slices");
    }
}

/// A walk in a random state of a random change, now and then with nodes that aren't due.
fn random_walk(random: &mut Random) -> Call {
    let lists = changes::change(random);
    let part = 1 + random.below(4);
    let mut changed = model::due(&lists.old, &lists.new);
    changed.retain(|_| random.chance(part));
    while random.chance(5) {
        changed.extend([random.below(512) as u16, random.below(512) as u16]);
    }
    let mut set = set_of(&changed);
    if random.chance(20) {
        set.resize(random.one(&[0, 1, 8, 56, 63, 65, 72, 128]), 0);
    }
    let [mut old, mut new] = [&lists.old, &lists.new].map(|list| bytes(list));
    make_odd(random, vec![&mut old, &mut new]);
    Call::Walk { old, new, set }
}

/// What came up, how often each end of a walk (0 arrived, 1 dropped, 2 looped), the largest subset that was named for each fault,
/// the most rounds of a plan, and the pairs of routes that the quick planner's purpose was tried on.
#[derive(Default)]
struct Came {
    seen: Seen,
    ends: BTreeMap<u16, u64>,
    largest: BTreeMap<u64, u16>,
    longest: u16,
    tried: quick::Tried,
}

impl Came {
    fn count(&mut self, call: &Call, expected: &Expected) {
        let [given, site, place, _] = expected.outcome.lanes;
        let given = given as u64;
        self.seen.count(call.name(), given, &expected.applying);
        match (given, call) {
            (0, Call::Walk { .. }) => *self.ends.entry(site).or_default() += 1,
            (0, Call::Plan { planner: Planner::Ordinary, .. }) => self.longest = site.max(self.longest),
            (16 | 17, _) => {
                let largest = self.largest.entry(given).or_default();
                *largest = place.max(*largest);
            }
            _ => {}
        }
    }

    fn join(&mut self, other: Came) {
        self.seen.join(other.seen);
        for (end, times) in other.ends {
            *self.ends.entry(end).or_default() += times;
        }
        for (fault, size) in other.largest {
            let largest = self.largest.entry(fault).or_default();
            *largest = size.max(*largest);
        }
        self.longest = self.longest.max(other.longest);
        self.tried.join(other.tried);
    }

    /// Each refusal came, each pair of them that can be, and each kind of quick plan.
    fn all(&self) -> Result<(), String> {
        REFUSALS.iter().try_for_each(|(name, refusals)| self.seen.all(name, refusals))?;
        self.tried.all()
    }

    fn print(&self) {
        for (name, refusals) in REFUSALS {
            self.seen.print(name, refusals);
        }
        println!("walks arrived {}, dropped {}, looped {}", self.ends[&0], self.ends[&1], self.ends[&2]);
        println!("most rounds of a plan: {}", self.longest);
        println!("quick plans that pass in both modes and are the plan: {} {:?}", self.tried.given, self.tried.shapes);
        println!("changes without one: {}, small ones, all schedules gone through: {}", self.tried.refused, self.tried.by_force);
        println!("largest subsets named: {} for a drop, {} for a loop", self.largest[&16], self.largest[&17]);
    }
}

/// The refusals of each call.
const REFUSALS: [(&str, &[u64]); 4] = [
    ("check", &[1, 4, 5, 6, 7, 8, 9, 10, 11, 12, 13, 14, 16, 17]),
    ("plan", &[1, 4, 5, 6, 7, 8]),
    ("quick", &[1, 4, 5, 6, 7, 8, 19]),
    ("walk", &[1, 4, 5, 6, 7, 12]),
];

/// Who is called: the library, or a stand-in for it.
type Library = fn(&Call, &mut Memory, bool) -> Outcome;

fn memory() -> Memory {
    std::array::from_fn(|_| Guarded::new())
}

/// Compares the library with what is written by hand and with the second program.
fn compare_written(library: Library) -> Result<usize, String> {
    let mut memory = memory();
    let cases = written::cases();
    for case in &cases {
        for (who, outcome) in [
            ("the second program", case.call.expected(12).outcome),
            ("the library", library(&case.call, &mut memory, true)),
            ("the library", library(&case.call, &mut memory, false)),
        ] {
            if let Some(text) = difference(&case.call, &outcome, &case.outcome) {
                return Err(format!("{}: {who}: {text}", case.name));
            }
        }
        check_again(&case.call, &case.outcome, &mut memory);
    }
    Ok(cases.len())
}

/// Compares the library with the second program on one call. A pair of good routes that a quick plan is asked for is also tried
/// for what the quick planner is for.
fn compare_one(library: Library, call: &Call, random: &mut Random, memory: &mut Memory, came: &mut Came) -> Result<(), String> {
    let expected = call.expected(random.one(&[4, 10, 10]));
    let got = library(call, memory, random.chance(2));
    if let Some(text) = difference(call, &got, &expected.outcome) {
        return Err(format!("{text}\n {call:?}"));
    }
    check_again(call, &got, memory);
    if let Call::Plan { planner: Planner::Quick, old, new, .. } = call {
        let (old, new) = (entries(old), entries(new));
        if model::judge(&old, &new).is_ok() {
            came.tried.on(model::quick, &old, &new).map_err(|text| format!("{text}\n {call:?}"))?;
        }
    }
    came.count(call, &expected);
    Ok(())
}

fn random_call(random: &mut Random) -> Call {
    match random.below(14) {
        0 | 1 => random_walk(random),
        2 | 3 => random_plan(random, Planner::Ordinary),
        4 | 5 => random_plan(random, Planner::Quick),
        _ => random_check(random),
    }
}

/// Compares the library with the second program on so many random calls.
fn compare_random(library: Library, count: u64, seed: u64) -> Result<Came, String> {
    let [mut all, other] = two_at_a_time(count, seed, |row| {
        let (mut memory, mut came) = (memory(), Came::default());
        for (i, mut random) in row {
            let call = random_call(&mut random);
            compare_one(library, &call, &mut random, &mut memory, &mut came)
                .map_err(|text| format!("case {i} of seed {seed}: {text}"))?;
        }
        Ok(came)
    })?;
    all.join(other);
    Ok(all)
}

/// Compares the library with the second program on the written cases and on so many random ones.
pub fn compare_and_print(count: u64, seed: u64) {
    let written = compare_written(Call::call).unwrap_or_else(|text| panic!("{text}"));
    println!("{written} written cases agree");
    let start = std::time::Instant::now();
    let came = compare_random(Call::call, count, seed).unwrap_or_else(|text| panic!("{text}"));
    println!("{count} random calls (seed {seed}) agree, in {} seconds", start.elapsed().as_secs());
    came.all().unwrap_or_else(|text| panic!("{text}"));
    came.print();
}

#[cfg(test)]
mod tests {
    use super::*;

    /// A wrong bit in a reply, or in any byte of any slice, is seen.
    #[test]
    fn what_is_wrong_is_seen() {
        let mut memory = memory();
        let mut random = Random(1);
        for i in 0..60 {
            let call = match i {
                0..40 => random_check(&mut random),
                40..50 => random_plan(&mut random, Planner::Ordinary),
                _ => random_plan(&mut random, Planner::Quick),
            };
            let (got, expected) = (call.call(&mut memory, false), call.expected(7).outcome);
            assert_eq!(difference(&call, &got, &expected), None);
            let mut wrong = got.clone();
            for bit in 0..64 {
                wrong.lanes[bit / 16] ^= 1 << (bit % 16);
                assert!(difference(&call, &wrong, &expected).is_some());
                wrong.lanes[bit / 16] ^= 1 << (bit % 16);
            }
            for k in 0..got.slices.len() {
                for at in 0..got.slices[k].len() {
                    wrong.slices[k][at] ^= 1;
                    assert!(difference(&call, &wrong, &expected).is_some());
                    wrong.slices[k][at] ^= 1;
                }
            }
        }
    }

    /// The right answer to a quick call with something else in it, given the call's routes.
    fn quick_but(call: &Call, change: fn(&mut Outcome, &Call, &[u16], &[u16])) -> Outcome {
        let mut outcome = call.expected(2).outcome;
        if let Call::Plan { planner: Planner::Quick, old, new, .. } = call {
            change(&mut outcome, call, &entries(old), &entries(new));
        }
        outcome
    }

    /// The answer of this plan.
    fn answer(call: &Call, rounds: &[Vec<u16>]) -> Outcome {
        let mut outcome = Outcome { lanes: [0, rounds.len() as u16, rounds.concat().len() as u16, 0], slices: call.slices() };
        for (k, list) in [(2, bytes(&rounds.concat())), (3, bytes(&model::sizes(rounds)))] {
            outcome.slices[k][..list.len()].copy_from_slice(&list);
        }
        outcome
    }

    /// The switches that go backward in both orders, along a route.
    fn backward_along(route: &[u16], old: &[u16], new: &[u16]) -> Vec<u16> {
        let backward = |id: &u16| {
            model::rule(old, *id) != model::rule(new, *id) && model::jumps(old, new, *id).is_ok_and(|(a, b)| a < 0 && b < 0)
        };
        route.iter().copied().filter(backward).collect()
    }

    type Fault = (&'static str, Library);

    #[rustfmt::skip]
    const QUICK: &[Fault] = &[
        ("never refuses by 19", |call, _, _| quick_but(call, |outcome, call, old, new| {
            if outcome.lanes[0] == 19 { *outcome = answer(call, &model::plan(old, new, 0).unwrap()) }
        })),
        ("refuses what has a switch that goes backward at all", |call, _, _| quick_but(call, |outcome, call, old, new| {
            let backward = |id: &u16| model::jumps(old, new, *id).is_ok_and(|(a, b)| a < 0 || b < 0);
            if let (0, Some(id)) = (outcome.lanes[0], model::due(old, new).into_iter().find(backward)) {
                *outcome = Outcome { lanes: [19, 0, id, 0], slices: call.slices() }
            }
        })),
        ("the rest first", |call, _, _| quick_but(call, |outcome, call, old, new| {
            let planned = model::quick(old, new, 0);
            let forward = |id: &u16| model::jumps(old, new, *id).is_ok_and(|(a, _)| a > 0);
            let middle = |round: &[u16]| round.iter().all(|id| old.contains(id) && new.contains(id));
            if let (0, Ok(mut rounds)) = (outcome.lanes[0], planned) {
                let t = rounds.windows(2).position(|two| middle(&two[0]) && middle(&two[1]) && two[0].iter().all(forward));
                if let Some(t) = t { rounds.swap(t, t + 1); *outcome = answer(call, &rounds) }
            }
        })),
        ("an empty round is kept", |call, _, _| quick_but(call, |outcome, call, old, new| {
            if let ([0, 1..=3, ..], Ok(mut rounds)) = (outcome.lanes, model::quick(old, new, 0)) {
                rounds.push(vec![]);
                *outcome = answer(call, &rounds)
            }
        })),
        ("no round at all is one", |call, _, _| quick_but(call, |outcome, call, _, _| {
            if outcome.lanes == [0; 4] { *outcome = answer(call, &[vec![]]) }
        })),
        ("the place is the first along the old route", |call, _, _| quick_but(call, |outcome, _, old, new| {
            if outcome.lanes[0] == 19 { outcome.lanes[2] = backward_along(old, old, new)[0] }
        })),
        ("the place is the first along the new route", |call, _, _| quick_but(call, |outcome, _, old, new| {
            if outcome.lanes[0] == 19 { outcome.lanes[2] = backward_along(new, old, new)[0] }
        })),
        ("the place is the highest", |call, _, _| quick_but(call, |outcome, _, old, new| {
            if outcome.lanes[0] == 19 { outcome.lanes[2] = *backward_along(old, old, new).iter().max().unwrap() }
        })),
        ("the place is in the node's lane", |call, _, _| quick_but(call, |outcome, _, _, _| {
            if outcome.lanes[0] == 19 { outcome.lanes.swap(2, 3) }
        })),
        ("the where of 19 is 1", |call, _, _| quick_but(call, |outcome, _, _, _| {
            if outcome.lanes[0] == 19 { outcome.lanes[1] = 1 }
        })),
        ("19 comes before 8", |call, _, _| quick_but(call, |outcome, _, old, new| {
            if let (8, Some(id)) = (outcome.lanes[0], backward_along(old, old, new).into_iter().min()) {
                outcome.lanes = [19, 0, id, 0]
            }
        })),
        ("19 comes before 1", |call, _, _| quick_but(call, |outcome, _, old, new| {
            if let (1, Some(id)) = (outcome.lanes[0], backward_along(old, old, new).into_iter().min()) {
                outcome.lanes = [19, 0, id, 0]
            }
        })),
        ("a refusal by 19 has written ids", |call, _, _| quick_but(call, |outcome, _, _, _| {
            if outcome.lanes[0] == 19 { outcome.slices[2][1] ^= 1 }
        })),
        ("a refusal by 19 has written the last size", |call, _, _| quick_but(call, |outcome, _, _, _| {
            if outcome.lanes[0] == 19 { *outcome.slices[3].last_mut().unwrap() ^= 1 }
        })),
        ("a refusal by 19 has written the installs", |call, _, _| quick_but(call, |outcome, _, old, new| {
            let installs: Vec<u16> = model::due(old, new).into_iter().filter(|id| !old.contains(id)).collect();
            if outcome.lanes[0] == 19 { outcome.slices[2][..2 * installs.len()].copy_from_slice(&bytes(&installs)) }
        })),
        ("another refusal has written ids", |call, _, _| quick_but(call, |outcome, _, _, _| {
            if (4..9).contains(&outcome.lanes[0]) { outcome.slices[2][0] ^= 128 }
        })),
        ("a yes writes past the ids", |call, _, _| quick_but(call, |outcome, _, _, _| {
            if let [0, _, count @ 0..=511, _] = outcome.lanes { outcome.slices[2][2 * count as usize] ^= 4 }
        })),
        ("a yes writes past the sizes", |call, _, _| quick_but(call, |outcome, _, _, _| {
            if outcome.lanes[0] == 0 { outcome.slices[3][2 * outcome.lanes[1] as usize] ^= 4 }
        })),
        ("a round falls", |call, _, _| quick_but(call, |outcome, call, old, new| {
            if let (0, Ok(mut rounds)) = (outcome.lanes[0], model::quick(old, new, 0)) {
                rounds.iter_mut().for_each(|round| round.reverse());
                *outcome = answer(call, &rounds)
            }
        })),
        ("mode 1 is refused", |call, _, _| {
            let right = call.expected(2).outcome;
            match call {
                Call::Plan { planner: Planner::Quick, mode: 1, .. } if right.lanes[0] == 0 => {
                    Outcome { lanes: [8, 0, 0, 0], slices: call.slices() }
                }
                _ => right,
            }
        }),
        ("the ordinary plan in place of the quick one", |call, _, _| match call.clone() {
            Call::Plan { old, new, mode, ids, sizes, .. } => {
                Call::Plan { planner: Planner::Ordinary, old, new, mode, ids, sizes }.expected(2).outcome
            }
            _ => call.expected(2).outcome,
        }),
    ];

    /// Each of these faults of the quick planner is seen in random calls, and in the written cases as well.
    #[test]
    fn each_fault_of_the_quick_planner_is_seen() {
        assert_eq!(compare_random(|call, _, _| call.expected(2).outcome, 2_000, 1).map(drop), Ok(()));
        assert_eq!(compare_written(|call, _, _| call.expected(2).outcome).map(drop), Ok(()));
        for (name, library) in QUICK {
            assert!(compare_random(*library, 20_000, 1).is_err(), "{name}: random calls");
            assert!(compare_written(*library).is_err(), "{name}: written cases");
        }
    }
}
