//! What the quick planner is for, tried on each pair of routes by itself: what it gives passes in both modes and is what the
//! ordinary planner gives, and where it refuses a switch no schedule of its form passes, in either mode.

use crate::model::{self, Refusal};
use std::collections::BTreeMap;

pub type Quick = fn(&[u16], &[u16], u16) -> Result<Vec<Vec<u16>>, Refusal>;

/// Changes of up to so many due nodes are tried by going through all schedules of the form.
const SMALL: usize = 9;

/// How often each came up.
#[derive(Default)]
pub struct Tried {
    pub given: u64,
    pub refused: u64,
    /// the refused ones that were tried by going through all schedules
    pub by_force: u64,
    /// quick plans by the kinds of their rounds: i installs, f forward, r the rest, x removes
    pub shapes: BTreeMap<String, u64>,
}

/// All that a quick plan can be: nodes that are only on one route need a switch to come in, or fall out; and where no node does,
/// some switch has to go backward.
const SHAPES: [&str; 8] = ["", "fr", "frx", "fx", "if", "ifr", "ifrx", "ifx"];

impl Tried {
    pub fn join(&mut self, other: Tried) {
        self.given += other.given;
        self.refused += other.refused;
        self.by_force += other.by_force;
        for (shape, times) in other.shapes {
            *self.shapes.entry(shape).or_default() += times;
        }
    }

    /// Each shape of a quick plan came, no other one, and refusals that all schedules were gone through for.
    pub fn all(&self) -> Result<(), String> {
        let shapes: Vec<&String> = self.shapes.keys().collect();
        if shapes != SHAPES || self.by_force == 0 {
            return Err(format!("quick plans came as {shapes:?}, and {} small changes without one", self.by_force));
        }
        Ok(())
    }

    /// Tries a quick planner on a good pair of routes.
    pub fn on(&mut self, quick: Quick, old: &[u16], new: &[u16]) -> Result<(), String> {
        let told = quick(old, new, 0);
        if quick(old, new, 1) != told {
            return Err("the quick plan is not the same in both modes".into());
        }
        match told {
            Ok(rounds) => {
                self.given += 1;
                *self.shapes.entry(shape(old, new, &rounds)).or_default() += 1;
                [0, 1].into_iter().try_for_each(|mode| good(old, new, mode, &rounds))
            }
            Err(r) if r.number == 19 => {
                self.refused += 1;
                let small = model::due(old, new).len() <= SMALL;
                self.by_force += u64::from(small);
                match [0, 1].into_iter().find(|mode| small && model::two_are_enough(old, new, *mode)) {
                    Some(mode) => Err(format!("refused, but two rounds are enough in mode {mode}")),
                    None => Ok(()),
                }
            }
            Err(r) => Err(format!("good routes are refused by {}", r.number)),
        }
    }
}

/// The kinds of the rounds, by the first node of each and, for switches, by whether the round is the first of these.
fn shape(old: &[u16], new: &[u16], rounds: &[Vec<u16>]) -> String {
    let mut forward = true;
    let kind = |round: &Vec<u16>| match round.first() {
        Some(id) if !old.contains(id) => 'i',
        Some(id) if !new.contains(id) => 'x',
        _ => if std::mem::take(&mut forward) { 'f' } else { 'r' },
    };
    rounds.iter().map(kind).collect()
}

/// Whether a quick plan passes, and is the plan.
fn good(old: &[u16], new: &[u16], mode: u16, rounds: &[Vec<u16>]) -> Result<(), String> {
    if let Err(r) = model::check(old, new, mode, &rounds.concat(), &model::sizes(rounds), SMALL).told {
        return Err(format!("the quick plan is refused by {} in mode {mode}", r.number));
    }
    let planned = model::plan(old, new, mode).expect("a good pair of routes");
    if planned != rounds {
        return Err(format!("the quick plan is {rounds:?}, the plan {planned:?}, in mode {mode}"));
    }
    Ok(())
}

#[cfg(test)]
mod tests {
    use super::*;
    use crate::changes;
    use crate::model::{jumps, refusal, rule};
    use crate::random::Random;

    fn tried(quick: Quick) -> Result<Tried, String> {
        let mut random = Random(1);
        let mut tried = Tried::default();
        for _ in 0..2_000 {
            let (old, new) = changes::pair_for_quick(&mut random);
            tried.on(quick, &old, &new)?;
        }
        Ok(tried)
    }

    #[test]
    fn the_quick_planner_does_what_it_is_for() {
        let tried = tried(model::quick).unwrap();
        assert_eq!(tried.all(), Ok(()));
    }

    /// The quick planner does so on every pair with up to five inner nodes on the old route and, beside any of these, up to one of
    /// its own on the new one, in any order.
    #[test]
    fn it_does_so_on_all_small_pairs() {
        fn on_all(tried: &mut Tried, old: &[u16], inner: &mut Vec<u16>) {
            let new = [&[0], &inner[..], &[9]].concat();
            tried.on(model::quick, old, &new).unwrap_or_else(|text| panic!("{old:?} {new:?}: {text}"));
            for id in old[1..old.len() - 1].iter().chain(&[8]) {
                if !inner.contains(id) {
                    inner.push(*id);
                    on_all(tried, old, inner);
                    inner.pop();
                }
            }
        }
        let mut tried = Tried::default();
        for n in 0..6 {
            let old: Vec<u16> = (0..=n).chain([9]).collect();
            on_all(&mut tried, &old, &mut vec![]);
        }
        // the rows of distinct members of a set of 1 to 6: 2, 5, 16, 65, 326, 1957
        assert_eq!(tried.given + tried.refused, 2371);
        assert_eq!(tried.refused, tried.by_force);
    }

    fn is_switch(old: &[u16], new: &[u16], id: u16) -> bool {
        let (from, to) = (rule(old, id), rule(new, id));
        from.is_some() && to.is_some() && from != to
    }

    /// Installs, the switches that are picked, the others, removes.
    fn split(old: &[u16], new: &[u16], first: fn((i64, i64)) -> bool) -> Vec<Vec<u16>> {
        let mut rounds = vec![vec![]; 4];
        for id in model::due(old, new) {
            let t = match jumps(old, new, id) {
                Ok(jumps) if is_switch(old, new, id) => if first(jumps) { 1 } else { 2 },
                _ => if rule(old, id).is_none() { 0 } else { 3 },
            };
            rounds[t].push(id);
        }
        rounds
    }

    fn full(mut rounds: Vec<Vec<u16>>) -> Vec<Vec<u16>> {
        rounds.retain(|round| !round.is_empty());
        rounds
    }

    /// A quick plan where the right planner gives one, by another rule.
    fn instead(old: &[u16], new: &[u16], first: fn((i64, i64)) -> bool) -> Result<Vec<Vec<u16>>, Refusal> {
        model::quick(old, new, 0).map(|_| full(split(old, new, first)))
    }

    /// Refuses where some switch has jumps of the kind.
    fn refusing(old: &[u16], new: &[u16], kind: fn((i64, i64)) -> bool) -> Result<Vec<Vec<u16>>, Refusal> {
        let hit = model::due(old, new).into_iter().find(|id| is_switch(old, new, *id) && kind(jumps(old, new, *id).unwrap()));
        hit.map_or(Ok(full(split(old, new, |(a, _)| a > 0))), |id| Err(refusal(19, 0, id as u64)))
    }

    #[rustfmt::skip]
    const FAULTS: &[(&str, Quick)] = &[
        ("never refuses", |old, new, _| Ok(full(split(old, new, |(a, _)| a > 0)))),
        ("refuses any switch that goes backward", |old, new, _| refusing(old, new, |(a, b)| a < 0 || b < 0)),
        ("refuses a switch that goes backward in the old order", |old, new, _| refusing(old, new, |(a, _)| a < 0)),
        ("refuses a switch that goes backward in the new order", |old, new, _| refusing(old, new, |(_, b)| b < 0)),
        ("always refuses", |_, _, _| Err(refusal(19, 0, 0))),
        ("refuses equal routes", |old, new, mode| if old == new { Err(refusal(19, 0, 0)) } else { model::quick(old, new, mode) }),
        ("the rest first", |old, new, _| instead(old, new, |(a, _)| a < 0)),
        ("by the new order", |old, new, _| instead(old, new, |(_, b)| b > 0)),
        ("forward in both orders goes last", |old, new, _| instead(old, new, |(a, b)| a > 0 && b < 0)),
        ("all switches in one round", |old, new, _| instead(old, new, |_| true)),
        ("an empty round is kept", |old, new, mode| model::quick(old, new, mode).map(|_| split(old, new, |(a, _)| a > 0))),
        ("removes first", |old, new, mode| model::quick(old, new, mode).map(|mut rounds| { rounds.reverse(); rounds })),
        ("no rounds", |_, _, _| Ok(vec![])),
        ("another plan in mode 1", |old, new, mode| if mode == 0 { model::quick(old, new, 0) } else { model::plan(old, new, 1) }),
    ];

    /// A planner with a fault is found out without the right one beside it.
    #[test]
    fn each_fault_is_seen() {
        for (name, quick) in FAULTS {
            assert!(tried(*quick).is_err(), "{name}");
        }
    }
}
