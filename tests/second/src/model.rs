//! The rules of a change, written a second time, straight from the paper that the library is built to: plain loops over
//! plain lists, nothing shared with the library. What it says is compared with what the library says.

use std::collections::{HashMap, HashSet};

/// A refusal: its number, where and place.
#[derive(Clone, Copy, Debug, PartialEq, Eq)]
pub struct Refusal {
    pub number: u64,
    pub site: u64,
    pub place: u64,
}

pub fn refusal(number: u64, site: u64, place: u64) -> Refusal {
    Refusal { number, site, place }
}

/// Refusals 4 to 7: each test over both routes before the next, old before new, then the first place.
pub fn judge(old: &[u16], new: &[u16]) -> Result<(), Refusal> {
    let routes = [(1, old), (2, new)];
    for (no, route) in routes {
        if route.len() < 2 || route.len() > 256 {
            return Err(refusal(4, no, 0));
        }
    }
    for (no, route) in routes {
        for (i, id) in route.iter().enumerate() {
            if *id > 511 {
                return Err(refusal(5, no, i as u64));
            }
        }
    }
    for (no, route) in routes {
        let mut met = HashSet::new();
        for (i, id) in route.iter().enumerate() {
            if !met.insert(*id) {
                return Err(refusal(6, no, i as u64));
            }
        }
    }
    if old.first() != new.first() {
        return Err(refusal(7, 0, 0));
    }
    if old.last() != new.last() {
        return Err(refusal(7, 0, 1));
    }
    Ok(())
}

/// The rule of a node: the id after it on the route.
pub fn rule(route: &[u16], node: u16) -> Option<u16> {
    route.windows(2).find(|pair| pair[0] == node).map(|pair| pair[1])
}

pub fn is_due(old: &[u16], new: &[u16], node: u16) -> bool {
    rule(old, node) != rule(new, node)
}

/// The old-order and the new-order jump of a node that is on both of two good routes, other than the destination.
fn jumps_of(old: &[u16], new: &[u16], node: u16) -> (i64, i64) {
    let position = |route: &[u16], id: u16| route.iter().position(|x| *x == id).unwrap() as i64;
    let next_meeting = |route: &[u16]| {
        let from = position(route, node) as usize + 1;
        *route[from..].iter().find(|id| old.contains(id) && new.contains(id)).unwrap()
    };
    (position(old, next_meeting(new)) - position(old, node), position(new, next_meeting(old)) - position(new, node))
}

/// The old-order and the new-order jump of a node, with the refusals: 4 to 7 and 18.
pub fn jumps(old: &[u16], new: &[u16], node: u16) -> Result<(i64, i64), Refusal> {
    judge(old, new)?;
    if !old.contains(&node) || !new.contains(&node) || old.last() == Some(&node) {
        return Err(refusal(18, 0, node as u64));
    }
    Ok(jumps_of(old, new, node))
}

/// The rules of all ids: the old and the new one of each.
type Rules = Vec<[Option<u16>; 2]>;

/// What `rule` says of all ids. In a route that has an id twice, its first place counts.
fn rules(old: &[u16], new: &[u16]) -> Rules {
    let mut rules = vec![[None; 2]; 512];
    for (k, route) in [old, new].into_iter().enumerate() {
        for pair in route.windows(2).rev().filter(|pair| pair[0] < 512) {
            rules[pair[0] as usize][k] = Some(pair[1]);
        }
    }
    rules
}

/// The due nodes of a pair of routes, rising.
pub fn due(old: &[u16], new: &[u16]) -> Vec<u16> {
    let rules = rules(old, new);
    (0..512).filter(|id| rules[*id as usize][0] != rules[*id as usize][1]).collect()
}

#[derive(Clone, Copy, Debug, PartialEq, Eq)]
pub enum Walk {
    Arrived(u64),
    Dropped(u16, u64),
    Looped(u16, u64),
}

/// The walk from the source in the state in which exactly the nodes that are `changed` use their new rule.
fn walk_state(rules: &Rules, source: u16, end: u16, changed: &dyn Fn(u16) -> bool) -> Walk {
    let mut at = source;
    let mut hops = 0;
    let mut met = [false; 512];
    met[at as usize] = true;
    loop {
        if at == end {
            return Walk::Arrived(hops);
        }
        match rules[at as usize][usize::from(changed(at))] {
            None => return Walk::Dropped(at, hops),
            Some(next) => at = next,
        }
        hops += 1;
        if met[at as usize] {
            return Walk::Looped(at, hops);
        }
        met[at as usize] = true;
    }
}

/// The walk, with its refusals: 1 (a set that isn't 64 bytes), 4 to 7 and 12.
pub fn walk(old: &[u16], new: &[u16], set: &[u8]) -> Result<Walk, Refusal> {
    if set.len() != 64 {
        return Err(refusal(1, 0, 0));
    }
    judge(old, new)?;
    let holds = |id: u16| set[id as usize / 8] >> (id % 8) & 1 == 1;
    for id in 0..512 {
        if holds(id) && !is_due(old, new, id) {
            return Err(refusal(12, 0, id as u64));
        }
    }
    Ok(walk_state(&rules(old, new), old[0], old[old.len() - 1], &holds))
}

/// Refusals 4 to 14 of a change: a pair of routes, a mode and a schedule.
pub fn judge_change(old: &[u16], new: &[u16], mode: u16, ids: &[u16], sizes: &[u16]) -> Result<(), Refusal> {
    judge(old, new)?;
    if mode > 1 {
        return Err(refusal(8, 0, 0));
    }
    if sizes.iter().map(|size| *size as u64).sum::<u64>() != ids.len() as u64 {
        return Err(refusal(9, 0, 0));
    }
    for (t, size) in sizes.iter().enumerate() {
        if *size == 0 {
            return Err(refusal(10, t as u64 + 1, 0));
        }
    }
    let round_of: Vec<u64> =
        sizes.iter().enumerate().flat_map(|(t, size)| std::iter::repeat_n(t as u64 + 1, *size as usize)).collect();
    for i in 1..ids.len() {
        if round_of[i] == round_of[i - 1] && ids[i] <= ids[i - 1] {
            return Err(refusal(11, round_of[i], i as u64));
        }
    }
    let due = due(old, new);
    for (i, id) in ids.iter().enumerate() {
        if !due.contains(id) {
            return Err(refusal(12, round_of[i], i as u64));
        }
    }
    for (i, id) in ids.iter().enumerate() {
        if ids[..i].contains(id) {
            return Err(refusal(13, round_of[i], i as u64));
        }
    }
    for id in due {
        if !ids.contains(&id) {
            return Err(refusal(14, 0, id as u64));
        }
    }
    Ok(())
}

fn numbers<const N: usize>(tests: [(u64, bool); N]) -> Vec<u64> {
    tests.into_iter().filter(|(_, applies)| *applies).map(|(number, _)| number).collect()
}

/// Which of the refusals 4 to 7 apply to a pair of routes, each taken by itself.
fn applying_to_pair(old: &[u16], new: &[u16]) -> Vec<u64> {
    let either = |wrong: &dyn Fn(&[u16]) -> bool| wrong(old) || wrong(new);
    numbers([
        (4, either(&|route| route.len() < 2 || route.len() > 256)),
        (5, either(&|route| route.iter().any(|id| *id > 511))),
        (6, either(&|route| route.iter().collect::<HashSet<_>>().len() < route.len())),
        (7, old.first() != new.first() || old.last() != new.last()),
    ])
}

/// Which of the refusals 4 to 7 and 12 apply to a walk, each taken by itself.
pub fn applying_to_walk(old: &[u16], new: &[u16], set: &[u8]) -> Vec<u64> {
    let stray = |id: u16| set.get(id as usize / 8).is_some_and(|byte| byte >> (id % 8) & 1 == 1) && !is_due(old, new, id);
    [applying_to_pair(old, new), numbers([(12, (0..512).any(stray))])].concat()
}

/// Which of the refusals 4 to 8 apply to a plan, each taken by itself.
pub fn applying_to_plan(old: &[u16], new: &[u16], mode: u16) -> Vec<u64> {
    [applying_to_pair(old, new), numbers([(8, mode > 1)])].concat()
}

/// Which of the refusals 4 to 8 and 19 apply to a quick plan, each taken by itself. Jumps are known only of good routes.
pub fn applying_to_quick(old: &[u16], new: &[u16], mode: u16) -> Vec<u64> {
    let backward = applying_to_pair(old, new).is_empty() && lowest_backward(old, new).is_some();
    [applying_to_plan(old, new, mode), numbers([(19, backward)])].concat()
}

/// Which of the refusals 4 to 14 apply to a change, each taken by itself. Ids beyond the sum of the sizes are in no round.
fn applying_to_change(old: &[u16], new: &[u16], mode: u16, ids: &[u16], sizes: &[u16]) -> Vec<u64> {
    let round_of: Vec<usize> =
        sizes.iter().enumerate().flat_map(|(t, size)| std::iter::repeat_n(t, *size as usize)).take(ids.len()).collect();
    let mut first_round = HashMap::new();
    let again = ids.iter().zip(&round_of).any(|(id, t)| *first_round.entry(id).or_insert(t) != t);
    let total: u64 = sizes.iter().map(|size| *size as u64).sum();
    let due: HashSet<u16> = due(old, new).into_iter().collect();
    let of_schedule = numbers([
        (8, mode > 1),
        (9, total != ids.len() as u64),
        (10, sizes.contains(&0)),
        (11, round_of.windows(2).zip(ids.windows(2)).any(|(t, id)| t[0] == t[1] && id[0] >= id[1])),
        (12, ids.iter().any(|id| !due.contains(id))),
        (13, again),
        (14, due.iter().any(|id| !ids.contains(id))),
    ]);
    [applying_to_pair(old, new), of_schedule].concat()
}

/// What a node may use in a round.
#[derive(Clone, Copy, PartialEq, Eq)]
enum Choice {
    Old,
    New,
    Either,
}

/// A change: the rules of all nodes, and the nodes that have one.
struct Change {
    source: u16,
    end: u16,
    rules: Rules,
    nodes: Vec<u16>,
    mode: u16,
    // choices of up to so many nodes are also tried by going through all states
    force: usize,
}

#[derive(Clone, Copy, Debug, PartialEq, Eq)]
enum Fault {
    Drop,
    Loop,
}

impl Change {
    fn new(old: &[u16], new: &[u16], mode: u16, force: usize) -> Change {
        let rules = rules(old, new);
        let nodes = (0..512).filter(|id| rules[*id as usize] != [None, None]).collect();
        Change { source: old[0], end: old[old.len() - 1], rules, nodes, mode, force }
    }

    /// Whether one state shows the fault: the definition itself.
    fn shows(&self, changed: &[bool; 512], fault: Fault) -> bool {
        if fault == Fault::Loop && self.mode == 0 {
            // the walk on which a node was met last
            let mut met = [512u16; 512];
            return self.nodes.iter().any(|from| {
                let mut at = Some(*from);
                while let Some(node) = at {
                    if met[node as usize] != 512 {
                        return met[node as usize] == *from;
                    }
                    met[node as usize] = *from;
                    at = self.rules[node as usize][usize::from(changed[node as usize])];
                }
                false
            });
        }
        match walk_state(&self.rules, self.source, self.end, &|id| changed[id as usize]) {
            Walk::Arrived(_) => false,
            Walk::Dropped(..) => fault == Fault::Drop,
            Walk::Looped(..) => fault == Fault::Loop,
        }
    }

    /// The first of the states that the choices allow which shows the fault, as the free nodes that are changed in it: going
    /// through all of them, in the order in which the lowest free node that differs is unchanged.
    fn first_by_force(&self, choices: &[Choice], free: &[u16], fault: Fault) -> Option<Vec<u16>> {
        let mut changed = [false; 512];
        for (id, choice) in choices.iter().enumerate() {
            changed[id] = *choice == Choice::New;
        }
        (0..1u64 << free.len()).find_map(|bits| {
            for (k, id) in free.iter().rev().enumerate() {
                changed[*id as usize] = bits >> k & 1 == 1;
            }
            let subset = || free.iter().copied().filter(|id| changed[*id as usize]).collect();
            self.shows(&changed, fault).then(subset)
        })
    }

    /// Whether some state that the choices allow shows one of the faults, by a search that goes deep, with colours: there is a
    /// path from the source to a node without a rule, or back to a node on the way.
    fn possible_by_search(&self, choices: &[Choice], faults: &[Fault]) -> bool {
        let steps = |id: u16| {
            let [old, new] = self.rules[id as usize];
            match choices[id as usize] {
                Choice::Old => [old, old],
                Choice::New => [new, new],
                Choice::Either => [old, new],
            }
        };
        let (drops, loops) = (faults.contains(&Fault::Drop), faults.contains(&Fault::Loop));
        let anywhere: &[u16] = if loops && self.mode == 0 { &self.nodes } else { &[] };
        // 0 not met, 1 on the way, 2 left for good
        let mut colour = [0u8; 512];
        let mut way = Vec::with_capacity(512);
        for (k, start) in std::iter::once(&self.source).chain(anywhere).enumerate() {
            if colour[*start as usize] == 0 {
                colour[*start as usize] = 1;
                way.push((*start, 0u8));
            }
            while let Some((at, tried)) = way.last_mut() {
                if *tried == 2 {
                    colour[*at as usize] = 2;
                    way.pop();
                    continue;
                }
                let step = steps(*at)[*tried as usize];
                *tried += 1;
                match step {
                    None if k == 0 && drops && *at != self.end => return true,
                    None => {}
                    Some(next) => match colour[next as usize] {
                        0 => {
                            colour[next as usize] = 1;
                            way.push((next, 0));
                        }
                        1 if loops => return true,
                        _ => {}
                    },
                }
            }
        }
        false
    }

    fn possible(&self, choices: &[Choice], faults: &[Fault]) -> bool {
        let found = self.possible_by_search(choices, faults);
        if choices.iter().filter(|choice| **choice == Choice::Either).count() <= self.force {
            let free: Vec<u16> = (0..512).filter(|id| choices[*id as usize] == Choice::Either).collect();
            let shown = faults.iter().any(|fault| self.first_by_force(choices, &free, *fault).is_some());
            assert_eq!(found, shown, "the search finds what all states show");
        }
        found
    }

    /// The first of the subsets of `round` that show the fault, in the order in which the lowest id that differs is out. Some
    /// subset shows it.
    fn named(&self, choices: &[Choice], round: &[u16], fault: Fault) -> Vec<u16> {
        if round.len() <= 12 {
            return self.first_by_force(choices, round, fault).expect("some subset shows the fault");
        }
        let mut choices = choices.to_vec();
        let mut subset = vec![];
        for id in round {
            choices[*id as usize] = Choice::Old;
            if !self.possible(&choices, &[fault]) {
                choices[*id as usize] = Choice::New;
                subset.push(*id);
            }
        }
        subset
    }

    /// The first bad round: its index, the faults that its states show, and the subset named for the first of these.
    fn first_bad(&self, ids: &[u16], sizes: &[u16]) -> Option<(usize, Vec<Fault>, Vec<u16>)> {
        let mut choices = vec![Choice::Old; 512];
        let mut from = 0;
        for (t, size) in sizes.iter().enumerate() {
            let round = &ids[from..from + *size as usize];
            from += round.len();
            for id in round {
                choices[*id as usize] = Choice::Either;
            }
            if self.possible(&choices, &[Fault::Drop, Fault::Loop]) {
                let faults: Vec<Fault> =
                    [Fault::Drop, Fault::Loop].into_iter().filter(|fault| self.possible(&choices, &[*fault])).collect();
                let subset = self.named(&choices, round, faults[0]);
                return Some((t, faults, subset));
            }
            for id in round {
                choices[*id as usize] = Choice::New;
            }
        }
        None
    }
}

/// What the check says of a change.
pub struct Checked {
    /// the rounds and the due nodes, or the refusal
    pub told: Result<(u64, u64), Refusal>,
    /// the named subset, after 16 and 17
    pub subset: Option<Vec<u16>>,
    /// the refusals that apply, each taken by itself; 15 to 17 where none below 14 does
    pub applying: Vec<u64>,
}

/// The check. Rounds of up to `force` nodes are tried by going through all their states.
pub fn check(old: &[u16], new: &[u16], mode: u16, ids: &[u16], sizes: &[u16], force: usize) -> Checked {
    let mut applying = applying_to_change(old, new, mode, ids, sizes);
    let judged = judge_change(old, new, mode, ids, sizes);
    let mut told = judged.map(|()| (sizes.len() as u64, ids.len() as u64));
    let mut subset = None;
    if applying.is_empty() || applying == [14] {
        if let Some((t, faults, named)) = Change::new(old, new, mode, force).first_bad(ids, sizes) {
            let number = |fault: &Fault| if *fault == Fault::Drop { 16 } else { 17 };
            let numbers: Vec<u64> = if named.is_empty() { vec![15] } else { faults.iter().map(number).collect() };
            if applying.is_empty() {
                told = Err(refusal(numbers[0], t as u64 + 1, named.len() as u64));
                subset = (numbers[0] > 15).then_some(named);
            }
            applying.extend(numbers);
        }
    }
    assert_eq!(told.err().map(|r| r.number), applying.first().copied(), "the lowest number that applies is given");
    Checked { told, subset, applying }
}

/// The plan: its rounds, each rising.
pub fn plan(old: &[u16], new: &[u16], mode: u16) -> Result<Vec<Vec<u16>>, Refusal> {
    judge(old, new)?;
    if mode > 1 {
        return Err(refusal(8, 0, 0));
    }
    // a long plan has thousands of small rounds that are tried and fail
    let change = Change::new(old, new, mode, if new.len() <= 100 { 2 } else { 0 });
    let kind = |id: u16| (change.rules[id as usize][0].is_some(), change.rules[id as usize][1].is_some());
    let due = due(old, new);
    let installs: Vec<u16> = due.iter().copied().filter(|id| kind(*id) == (false, true)).collect();
    let removes: Vec<u16> = due.iter().copied().filter(|id| kind(*id) == (true, false)).collect();
    let mut left: Vec<u16> = new.iter().rev().copied().filter(|id| due.contains(id) && kind(*id) == (true, true)).collect();
    let mut choices = vec![Choice::Old; 512];
    for id in &installs {
        choices[*id as usize] = Choice::New;
    }
    let mut rounds = vec![installs];
    while !left.is_empty() {
        let mut round = vec![];
        let mut waiting = vec![];
        for id in left {
            choices[id as usize] = Choice::Either;
            if change.possible(&choices, &[Fault::Drop, Fault::Loop]) {
                choices[id as usize] = Choice::Old;
                waiting.push(id);
            } else {
                round.push(id);
            }
        }
        assert!(!round.is_empty(), "some switch joins each round");
        for id in &round {
            choices[*id as usize] = Choice::New;
        }
        round.sort();
        rounds.push(round);
        left = waiting;
    }
    rounds.push(removes);
    rounds.retain(|round| !round.is_empty());
    Ok(rounds)
}

/// The switches of two good routes: the nodes that go from one rule to another, rising.
fn switches(old: &[u16], new: &[u16]) -> Vec<u16> {
    due(old, new).into_iter().filter(|id| rule(old, *id).is_some() && rule(new, *id).is_some()).collect()
}

/// The lowest of the switches that go backward in both orders.
fn lowest_backward(old: &[u16], new: &[u16]) -> Option<u16> {
    switches(old, new).into_iter().find(|id| {
        let (old_order, new_order) = jumps_of(old, new, *id);
        old_order < 0 && new_order < 0
    })
}

/// The quick plan: its rounds, each rising.
pub fn quick(old: &[u16], new: &[u16], mode: u16) -> Result<Vec<Vec<u16>>, Refusal> {
    judge(old, new)?;
    if mode > 1 {
        return Err(refusal(8, 0, 0));
    }
    if let Some(id) = lowest_backward(old, new) {
        return Err(refusal(19, 0, id as u64));
    }
    let due = due(old, new);
    let installs: Vec<u16> = due.iter().copied().filter(|id| rule(old, *id).is_none()).collect();
    let removes: Vec<u16> = due.iter().copied().filter(|id| rule(new, *id).is_none()).collect();
    let (forward, rest) = switches(old, new).into_iter().partition(|id| jumps_of(old, new, *id).0 > 0);
    let mut rounds = vec![installs, forward, rest, removes];
    rounds.retain(|round| !round.is_empty());
    Ok(rounds)
}

/// Whether some schedule passes that has all installs in its first round, all removes in its last, and the switches in at most
/// two rounds between. It goes through all of them, and through all states of each.
pub fn two_are_enough(old: &[u16], new: &[u16], mode: u16) -> bool {
    let due = due(old, new);
    let switches = switches(old, new);
    let of = |pick: &dyn Fn(&u16) -> bool| due.iter().copied().filter(|id| pick(id)).collect::<Vec<u16>>();
    let (installs, removes) = (of(&|id| rule(old, *id).is_none()), of(&|id| rule(new, *id).is_none()));
    let change = Change::new(old, new, mode, due.len());
    (0..1u64 << switches.len()).any(|split| {
        let between = |second: bool| {
            let chosen = switches.iter().enumerate().filter(|(k, _)| (split >> k & 1 == 1) == second);
            chosen.map(|(_, id)| *id).collect::<Vec<u16>>()
        };
        let mut rounds = vec![installs.clone(), between(false), between(true), removes.clone()];
        rounds.retain(|round| !round.is_empty());
        change.first_bad(&rounds.concat(), &sizes(&rounds)).is_none()
    })
}

/// The sizes of the rounds of a schedule.
pub fn sizes(rounds: &[Vec<u16>]) -> Vec<u16> {
    rounds.iter().map(|round| round.len() as u16).collect()
}

#[cfg(test)]
mod tests {
    use super::*;

    fn schedule(rounds: &[&[u16]]) -> (Vec<u16>, Vec<u16>) {
        (rounds.concat(), rounds.iter().map(|r| r.len() as u16).collect())
    }

    fn told(old: &[u16], new: &[u16], mode: u16, rounds: &[&[u16]]) -> (u64, u64, u64, Vec<u16>) {
        let (ids, sizes) = schedule(rounds);
        let checked = check(old, new, mode, &ids, &sizes, 12);
        let subset = checked.subset.unwrap_or_default();
        match checked.told {
            Ok((rounds, due)) => (0, rounds, due, subset),
            Err(r) => (r.number, r.site, r.place, subset),
        }
    }

    #[test]
    fn known_answers() {
        let (k3o, k3n) = ([1, 2, 3], [1, 4, 3]);
        let (k6o, k6n) = ([1, 2, 3, 4, 5], [1, 4, 3, 2, 5]);
        let (k8o, k8n) = ([1, 2, 3, 4, 5, 6], [1, 5, 4, 3, 2, 6]);
        assert_eq!(plan(&[1, 2], &[1, 2], 0), Ok(vec![]));
        assert_eq!(plan(&[1, 2], &[1, 3, 2], 0), Ok(vec![vec![3], vec![1]]));
        assert_eq!(plan(&k3o, &k3n, 0), Ok(vec![vec![4], vec![1], vec![2]]));
        assert_eq!(told(&k3o, &k3n, 0, &[&[1, 4], &[2]]), (16, 1, 1, vec![1]));
        assert_eq!(told(&k3o, &k3n, 0, &[&[4], &[1, 2]]), (16, 2, 1, vec![2]));
        for mode in [0, 1] {
            assert_eq!(plan(&k6o, &k6n, mode), Ok(vec![vec![1, 2], vec![3], vec![4]]));
            assert_eq!(told(&k6o, &k6n, mode, &[&[2, 3], &[1], &[4]]), (17, 1, 1, vec![3]));
        }
        assert_eq!(plan(&k8o, &k8n, 0), Ok(vec![vec![1, 2], vec![3], vec![4], vec![5]]));
        assert_eq!(plan(&k8o, &k8n, 1), Ok(vec![vec![1, 2], vec![3, 4], vec![5]]));
        assert_eq!(told(&k8o, &k8n, 1, &[&[1, 2], &[3, 4], &[5]]), (0, 3, 5, vec![]));
        assert_eq!(told(&k8o, &k8n, 0, &[&[1, 2], &[3, 4], &[5]]), (17, 2, 1, vec![4]));
        assert_eq!(told(&k3o, &k3n, 0, &[&[4], &[1]]), (14, 0, 2, vec![]));
        assert_eq!(told(&k6o, &k6n, 0, &[&[1, 2], &[2, 3], &[4]]), (13, 2, 2, vec![]));
        assert_eq!(told(&[4, 3, 6, 2, 0, 8], &[4, 2, 3, 8], 0, &[&[4], &[0, 2, 3, 6]]), (16, 2, 2, vec![2, 6]));
        assert_eq!(plan(&[1, 2, 3, 4, 5, 6, 7], &[1, 5, 4, 3, 6, 2, 7], 0), Ok(vec![vec![1, 2, 3], vec![4, 6], vec![5]]));
        assert_eq!(plan(&[1, 2, 3, 4, 5, 6, 7], &[1, 5, 4, 3, 6, 2, 7], 1), Ok(vec![vec![1, 2, 3], vec![4, 6], vec![5]]));
        let reversal: Vec<u16> = std::iter::once(0).chain((1..255).rev()).chain([255]).collect();
        let straight: Vec<u16> = (0..256).collect();
        assert_eq!(plan(&straight, &reversal, 0).unwrap().len(), 254);
        assert_eq!(plan(&straight, &reversal, 1).unwrap().len(), 3);
    }
}
