//! Cases of the calls with replies written by hand, from the paper that the library is built to.

use crate::bytes;
use crate::calls::{set_of, Call, Outcome, Planner};

/// A call and what must come of it.
pub struct Written {
    pub name: String,
    pub call: Call,
    pub outcome: Outcome,
}

/// What the lent set holds before each call; it is longer than needed, by an odd number.
const LENT: [u8; 67] = [0xc3; 67];

/// The reply's first three lanes; the node lane is 0 in all but a walk.
type Reply = [u16; 3];

type Pair = (&'static [u16], &'static [u16]);

const K1: Pair = (&[1, 2], &[1, 2]);
const K2: Pair = (&[1, 2], &[1, 3, 2]);
const K3: Pair = (&[1, 2, 3], &[1, 4, 3]);
const K6: Pair = (&[1, 2, 3, 4, 5], &[1, 4, 3, 2, 5]);
const K8: Pair = (&[1, 2, 3, 4, 5, 6], &[1, 5, 4, 3, 2, 6]);
const MIXED: Pair = (&[4, 3, 6, 2, 0, 8], &[4, 2, 3, 8]);

/// Checks of good schedules and of schedules with a bad round: routes, mode, rounds, reply, subset.
#[rustfmt::skip]
const SCHEDULES: &[(&str, Pair, u16, &[&[u16]], Reply, &[u16])] = &[
    ("K1, no rounds", K1, 0, &[], [0, 0, 0], &[]),
    ("K2, its plan", K2, 0, &[&[3], &[1]], [0, 2, 2], &[]),
    ("K3, its plan", K3, 0, &[&[4], &[1], &[2]], [0, 3, 3], &[]),
    ("K4", K3, 0, &[&[1, 4], &[2]], [16, 1, 1], &[1]),
    ("K5", K3, 0, &[&[4], &[1, 2]], [16, 2, 1], &[2]),
    ("K6, its plan, strong", K6, 0, &[&[1, 2], &[3], &[4]], [0, 3, 4], &[]),
    ("K6, its plan, relaxed", K6, 1, &[&[1, 2], &[3], &[4]], [0, 3, 4], &[]),
    ("K7, strong", K6, 0, &[&[2, 3], &[1], &[4]], [17, 1, 1], &[3]),
    ("K7, relaxed", K6, 1, &[&[2, 3], &[1], &[4]], [17, 1, 1], &[3]),
    ("K8, strong", K8, 0, &[&[1, 2], &[3], &[4], &[5]], [0, 4, 5], &[]),
    ("K9", K8, 1, &[&[1, 2], &[3, 4], &[5]], [0, 3, 5], &[]),
    ("K10", K8, 0, &[&[1, 2], &[3, 4], &[5]], [17, 2, 1], &[4]),
    ("a subset of two", MIXED, 0, &[&[4], &[0, 2, 3, 6]], [16, 2, 2], &[2, 6]),
    ("the highest id", (&[511, 0], &[511, 1, 0]), 0, &[&[1], &[511]], [0, 2, 2], &[]),
];

/// Refusals 4 to 14: routes, mode, ids, sizes, reply. Most have a later fault as well.
#[rustfmt::skip]
const REFUSALS: &[(&str, Pair, u16, &[u16], &[u16], Reply)] = &[
    ("4, old of one id", (&[1], &[1, 600, 600]), 2, &[], &[1], [4, 1, 0]),
    ("4, old of none", (&[], &[1]), 0, &[], &[], [4, 1, 0]),
    ("4, new of one id", (&[1, 2], &[1]), 0, &[], &[], [4, 2, 0]),
    ("5, old", (&[1, 512, 1], &[513, 2]), 0, &[], &[], [5, 1, 1]),
    ("5, new", (&[1, 2, 2], &[1, 3, 3, 65_535]), 0, &[], &[], [5, 2, 3]),
    ("6, old", (&[1, 2, 2, 1], &[1, 1]), 0, &[], &[], [6, 1, 2]),
    ("6, new", (&[1, 2], &[3, 5, 4, 5, 3]), 0, &[], &[], [6, 2, 3]),
    ("7, both ends", (&[1, 2], &[2, 1]), 2, &[], &[], [7, 0, 0]),
    ("7, the last ids", (&[1, 2], &[1, 3]), 2, &[], &[], [7, 0, 1]),
    ("8", K3, 2, &[4, 1, 2], &[1, 1], [8, 0, 0]),
    ("8, low byte 0", K3, 256, &[4, 1, 2], &[1, 1, 1], [8, 0, 0]),
    ("9, too few", K3, 0, &[4, 1, 2], &[0, 1, 1], [9, 0, 0]),
    ("9, too many", K3, 0, &[4, 1, 2], &[1, 1, 2, 0], [9, 0, 0]),
    ("9, ids and no sizes", K3, 0, &[4, 1, 2], &[], [9, 0, 0]),
    ("10", K3, 0, &[4, 4, 2], &[2, 0, 1, 0], [10, 2, 0]),
    ("10, of no ids", K1, 1, &[], &[0], [10, 1, 0]),
    ("11, equal", K3, 0, &[4, 9, 9, 2], &[1, 3], [11, 2, 2]),
    ("11, lower", K3, 0, &[9, 4, 2], &[3], [11, 1, 1]),
    ("12", K3, 0, &[4, 1, 1, 3], &[1, 1, 2], [12, 3, 3]),
    ("12, over 511", K3, 0, &[4, 4, 512], &[1, 1, 1], [12, 3, 2]),
    ("12, of equal routes", K1, 0, &[1], &[1], [12, 1, 0]),
    ("13", K3, 0, &[4, 1, 4], &[1, 1, 1], [13, 3, 2]),
    ("K13", K6, 0, &[1, 2, 2, 3, 4], &[2, 2, 1], [13, 2, 2]),
    ("K12", K3, 0, &[4, 1], &[1, 1], [14, 0, 2]),
    ("14, before a drop", K3, 0, &[1], &[1], [14, 0, 2]),
    ("14, no rounds", K6, 0, &[], &[], [14, 0, 1]),
];

/// Walks: routes, set, reply, node.
#[rustfmt::skip]
const WALKS: &[(&str, Pair, &[u16], Reply, u16)] = &[
    ("walk, nothing changed", K6, &[], [0, 0, 4], 0),
    ("walk, all changed", K6, &[1, 2, 3, 4], [0, 0, 4], 0),
    ("K14", K3, &[1], [0, 1, 1], 4),
    ("K6, set {3}", K6, &[3], [0, 2, 3], 2),
    ("walk, dropped at a remove", K3, &[2], [0, 1, 1], 2),
    ("walk, 4", (&[1], &[2]), &[], [4, 1, 0], 0),
    ("walk, 5", (&[1, 2], &[1, 1, 512]), &[], [5, 2, 2], 0),
    ("walk, 6", (&[1, 2, 1], &[1, 1]), &[], [6, 1, 2], 0),
    ("walk, 7", (&[1, 2], &[1, 3]), &[9], [7, 0, 1], 0),
    ("walk, 12", K3, &[1, 3, 511], [12, 0, 3], 0),
    ("walk, 12 at the highest id", K1, &[511], [12, 0, 511], 0),
];

const SEVEN: Pair = (&[1, 2, 3, 4, 5, 6, 7], &[1, 5, 4, 3, 6, 2, 7]);

/// Plans: routes, mode, rounds.
#[rustfmt::skip]
const PLANS: &[(&str, Pair, u16, &[&[u16]])] = &[
    ("plan, K1, strong", K1, 0, &[]),
    ("plan, K1, relaxed", K1, 1, &[]),
    ("plan, K2", K2, 0, &[&[3], &[1]]),
    ("plan, K3", K3, 0, &[&[4], &[1], &[2]]),
    ("plan, K6, strong", K6, 0, &[&[1, 2], &[3], &[4]]),
    ("plan, K6, relaxed", K6, 1, &[&[1, 2], &[3], &[4]]),
    ("plan, K8", K8, 0, &[&[1, 2], &[3], &[4], &[5]]),
    ("plan, K9", K8, 1, &[&[1, 2], &[3, 4], &[5]]),
    ("plan, seven nodes, strong", SEVEN, 0, &[&[1, 2, 3], &[4, 6], &[5]]),
    ("plan, seven nodes, relaxed", SEVEN, 1, &[&[1, 2, 3], &[4, 6], &[5]]),
    ("plan, the highest id", (&[511, 0], &[511, 1, 0]), 0, &[&[1], &[511]]),
    ("plan, equal routes", (&[5, 511, 0, 9], &[5, 511, 0, 9]), 0, &[]),
];

/// Refusals of both planners: routes, mode, reply. Most have a later fault as well.
#[rustfmt::skip]
const REFUSED_PLANS: &[(&str, Pair, u16, Reply)] = &[
    ("4, old", (&[1], &[1, 600, 600]), 2, [4, 1, 0]),
    ("4, new", (&[1, 512], &[1]), 0, [4, 2, 0]),
    ("5, old", (&[1, 512, 1], &[513, 2]), 2, [5, 1, 1]),
    ("5, new", (&[1, 2, 2], &[1, 3, 3, 65_535]), 0, [5, 2, 3]),
    ("6, old", (&[1, 2, 2, 1], &[1, 1]), 0, [6, 1, 2]),
    ("6, new", (&[1, 2], &[3, 5, 4, 5, 3]), 2, [6, 2, 3]),
    ("7, both ends", (&[1, 2], &[2, 1]), 2, [7, 0, 0]),
    ("7, the last ids", (&[1, 2], &[1, 3]), 2, [7, 0, 1]),
    ("8", K3, 2, [8, 0, 0]),
    ("8, low byte 0", K3, 256, [8, 0, 0]),
    ("8, a switch that goes backward in both orders", K6, 2, [8, 0, 0]),
];

/// Quick plans: routes, rounds, the same in both modes.
#[rustfmt::skip]
const QUICK_PLANS: &[(&str, Pair, &[&[u16]])] = &[
    ("K1", K1, &[]),
    ("K2", K2, &[&[3], &[1]]),
    ("K3", K3, &[&[4], &[1], &[2]]),
    // jumps (old-order, new-order): 1 +2 +2, 2 +2 -1, 3 -1 +2
    ("no install and no remove", (&[1, 2, 3, 4], &[1, 3, 2, 4]), &[&[1, 2], &[3]]),
    // as before, between an install and a remove
    ("four rounds", (&[1, 2, 3, 8, 4], &[1, 3, 2, 9, 4]), &[&[9], &[1, 2], &[3], &[8]]),
    // 7 keeps its rule, and is in no round
    ("all switches forward", (&[1, 2, 3, 7, 4], &[1, 5, 3, 6, 7, 4]), &[&[5, 6], &[1, 3], &[2]]),
    ("no install, one switch", (&[6, 5, 4], &[6, 4]), &[&[6], &[5]]),
    // 1 has +1 +3
    ("a jump over installs", (&[1, 9], &[1, 4, 3, 9]), &[&[3, 4], &[1]]),
    // 8 5 6 7 to 8 6 5 7, and 7 4 3 0 to 7 3 4 0: 8, 5, 7 and 4 go forward in the old order, 6 and 3 backward
    ("two turns of two", (&[8, 5, 6, 7, 4, 3, 0], &[8, 6, 5, 7, 3, 4, 0]), &[&[4, 5, 7, 8], &[3, 6]]),
    // 2 keeps its rule; 3 has +2 -2, 4 has -2 +3
    ("a row of nodes moves", (&[1, 2, 3, 4, 5], &[1, 4, 2, 3, 5]), &[&[1, 3], &[4]]),
    ("the highest id", (&[511, 0], &[511, 1, 0]), &[&[1], &[511]]),
    ("equal routes", (&[5, 511, 0, 9], &[5, 511, 0, 9]), &[]),
];

/// Pairs of routes without a quick plan, in either mode: routes, place.
#[rustfmt::skip]
const NO_QUICK_PLAN: &[(&str, Pair, u16)] = &[
    // K11: 3 has -1 -1
    ("K6", K6, 3),
    // 3 and 4 have -1 -1
    ("K8", K8, 3),
    ("K8 with other ids", (&[1, 2, 4, 3, 5, 6], &[1, 5, 3, 4, 2, 6]), 3),
    ("seven nodes", SEVEN, 4),
    // 21 and 7 have -1 -1, and 21 stands first on both routes; 2 and 30 have a backward jump in the new order, 3 and 32 in the old
    ("the lowest stands last on both routes", (&[1, 2, 21, 3, 30, 7, 32, 40], &[1, 3, 21, 2, 32, 7, 30, 40]), 7),
    // the same with nodes of its own on each route
    ("installs and removes", (&[1, 2, 0, 21, 3, 30, 7, 5, 32, 40], &[1, 9, 3, 21, 2, 32, 6, 7, 30, 8, 40]), 7),
    // 7, 6 and 9 have -1 -1; the old route has 7 first, the new one has 9
    ("the lowest stands in the middle", (&[1, 5, 7, 6, 9, 8, 2], &[1, 8, 9, 6, 7, 5, 2]), 6),
    ("the highest id", (&[0, 1, 511, 2, 3], &[0, 2, 511, 1, 3]), 511),
    ("the lowest id", (&[9, 1, 0, 2, 3], &[9, 2, 0, 1, 3]), 0),
];

pub fn cases() -> Vec<Written> {
    let mut cases = vec![];
    for (name, pair, mode, rounds, reply, subset) in SCHEDULES {
        let sizes: Vec<u16> = rounds.iter().map(|round| round.len() as u16).collect();
        cases.push(check(name, *pair, *mode, &rounds.concat(), &sizes, *reply, subset));
    }
    for (name, pair, mode, ids, sizes, reply) in REFUSALS {
        cases.push(check(name, *pair, *mode, ids, sizes, *reply, &[]));
    }
    for (name, (old, new), changed, [number, site, place], node) in WALKS {
        let call = Call::Walk { old: bytes(old), new: bytes(new), set: set_of(changed) };
        cases.push(kept(name, call, [*number, *site, *place, *node]));
    }
    let lists = |rounds: &[&[u16]]| rounds.iter().map(|round| round.to_vec()).collect::<Vec<Vec<u16>>>();
    for (name, pair, mode, rounds) in PLANS {
        cases.push(plan(name, Planner::Ordinary, *pair, *mode, &lists(rounds)));
    }
    for (name, pair, rounds) in QUICK_PLANS {
        cases.extend([0, 1].map(|mode| plan(&format!("quick, {name}, mode {mode}"), Planner::Quick, *pair, mode, &lists(rounds))));
    }
    for (name, (old, new), place) in NO_QUICK_PLAN {
        for mode in [0, 1] {
            let call = lent_plan(Planner::Quick, bytes(old), bytes(new), mode, [1025, 1024]);
            cases.push(kept(&format!("quick, 19, {name}, mode {mode}"), call, [19, 0, *place, 0]));
        }
    }
    for planner in [Planner::Ordinary, Planner::Quick] {
        for (name, (old, new), mode, [number, site, place]) in REFUSED_PLANS {
            let call = lent_plan(planner, bytes(old), bytes(new), *mode, [1024, 1025]);
            cases.push(kept(&format!("{planner:?}, {name}"), call, [*number, *site, *place, 0]));
        }
        cases.extend(unfit_plans(planner));
    }
    cases.extend(unfit());
    cases.extend(long_plans());
    cases.extend(lengths());
    cases.extend(long());
    cases
}

/// A call that leaves all slices as they were.
fn kept(name: &str, call: Call, lanes: [u16; 4]) -> Written {
    let slices = call.slices();
    Written { name: name.into(), call, outcome: Outcome { lanes, slices } }
}

/// A check; 16 and 17 write the subset to the front of the lent set.
fn check(name: &str, pair: (&[u16], &[u16]), mode: u16, ids: &[u16], sizes: &[u16], reply: Reply, subset: &[u16]) -> Written {
    let [old, new, ids, sizes] = [pair.0, pair.1, ids, sizes].map(bytes);
    let call = Call::Check { old, new, mode, ids, sizes, set: LENT.to_vec() };
    let [number, site, place] = reply;
    let mut case = kept(name, call, [number, site, place, 0]);
    if !subset.is_empty() {
        case.outcome.slices[4][..64].copy_from_slice(&set_of(subset));
    }
    case
}

/// The call of a plan that is lent so many bytes for the ids and for the sizes.
fn lent_plan(planner: Planner, old: Vec<u8>, new: Vec<u8>, mode: u16, [ids, sizes]: [usize; 2]) -> Call {
    Call::Plan { planner, old, new, mode, ids: vec![0xc3; ids], sizes: vec![0x96; sizes] }
}

/// A plan; its ids and sizes are written to the front of what is lent, which is longer than needed, once by an odd number.
fn plan(name: &str, planner: Planner, pair: (&[u16], &[u16]), mode: u16, rounds: &[Vec<u16>]) -> Written {
    let call = lent_plan(planner, bytes(pair.0), bytes(pair.1), mode, [1027, 1024]);
    let (ids, sizes) = (rounds.concat(), rounds.iter().map(|round| round.len() as u16).collect::<Vec<u16>>());
    let mut case = kept(name, call, [0, sizes.len() as u16, ids.len() as u16, 0]);
    case.outcome.slices[2][..2 * ids.len()].copy_from_slice(&bytes(&ids));
    case.outcome.slices[3][..2 * sizes.len()].copy_from_slice(&bytes(&sizes));
    case
}

/// Refusal 1 of both planners. All have a later fault as well, one of them 19.
fn unfit_plans(planner: Planner) -> Vec<Written> {
    let of = |name, [old, new]: [&[u8]; 2], mode, lent| {
        let call = lent_plan(planner, old.to_vec(), new.to_vec(), mode, lent);
        kept(&format!("{planner:?}, 1, {name}"), call, [1, 0, 0, 0])
    };
    let (two, three) = (&[1; 2], &[2; 3]);
    let k6 = [bytes(K6.0), bytes(K6.1)];
    vec![
        of("old odd", [three, two], 2, [1024, 1024]),
        of("new odd", [two, three], 2, [1024, 1024]),
        of("lent 1,023 bytes for ids", [two, two], 2, [1023, 1024]),
        of("lent 1,023 bytes for sizes", [two, two], 2, [1024, 1023]),
        of("nothing at all", [&[], &[]], 2, [0, 0]),
        of("K6, lent 1,023 bytes for sizes", k6.each_ref().map(Vec::as_slice), 0, [1024, 1023]),
    ]
}

/// Plans of routes of 256 ids, and routes that are too long.
fn long_plans() -> Vec<Written> {
    let up: Vec<u16> = (0..256).collect();
    // 0, then 254 down to 1, then 255
    let down: Vec<u16> = std::iter::once(0).chain((1..255).rev()).chain([255]).collect();
    // 0, then the even ids and the odd ids
    let even_then_odd: Vec<u16> = (0..256).step_by(2).chain((1..256).step_by(2)).collect();
    let far: Vec<u16> = std::iter::once(0).chain(256..510).chain([255]).collect();
    let longer: Vec<u16> = (0..257).collect();
    // in both modes 0 and 1 go first and 254 last; between, strong mode takes one node after the other, relaxed all at once
    let ends = |between: Vec<Vec<u16>>| [vec![vec![0, 1]], between, vec![vec![254]]].concat();
    let one_by_one = ends((2..254).map(|id| vec![id]).collect());
    let at_once = ends(vec![(2..254).collect()]);
    let apart = [(256..510).collect(), vec![0], (1..255).collect()];
    // to rising ids: an even id goes to the odd one after it, forward; an odd one back to the even one after it; but 254 is even
    // and goes to the end. From rising ids: an even id goes on by two; 254 back to 1, and an odd one on by two.
    let mixed = [(0..256).step_by(2).collect(), (1..254).step_by(2).collect::<Vec<u16>>()];
    let parted = [(0..254).collect(), vec![254]];
    let quick = |name, pair: (&[u16], &[u16]), rounds: &[Vec<u16>]| {
        [0, 1].map(|mode| plan(name, Planner::Quick, pair, mode, rounds))
    };
    let lent = |planner, old: &[u16], new: &[u16]| lent_plan(planner, bytes(old), bytes(new), 1, [1024, 1024]);
    let refused = |name, old: &[u16], new: &[u16], route| {
        [Planner::Ordinary, Planner::Quick].map(|planner| kept(name, lent(planner, old, new), [4, route, 0, 0]))
    };
    let mut cases = vec![
        plan("plan, a reversal, strong: 254 rounds", Planner::Ordinary, (&up, &down), 0, &one_by_one),
        plan("plan, a reversal, relaxed: 3 rounds", Planner::Ordinary, (&up, &down), 1, &at_once),
        plan("plan, 509 nodes, strong", Planner::Ordinary, (&up, &far), 0, &apart),
        plan("plan, 509 nodes, relaxed", Planner::Ordinary, (&up, &far), 1, &apart),
        plan("plan, equal routes of 256 ids", Planner::Ordinary, (&up, &up), 1, &[]),
        kept("quick, a reversal", lent(Planner::Quick, &up, &down), [19, 0, 2, 0]),
    ];
    cases.extend(quick("quick, 509 nodes", (&up, &far), &apart));
    cases.extend(quick("quick, equal routes of 256 ids", (&up, &up), &[]));
    cases.extend(quick("quick, even and odd ids are mixed", (&even_then_odd, &up), &mixed));
    cases.extend(quick("quick, even and odd ids are parted", (&up, &even_then_odd), &parted));
    cases.extend(refused("4, old of 257 ids", &longer, &up, 1));
    cases.extend(refused("4, new of 257 ids", &up, &longer, 2));
    cases
}

/// Refusal 1: an odd byte in each list, and lent or given sets of the wrong length. All have a later fault as well.
fn unfit() -> Vec<Written> {
    let even = || vec![1, 0];
    let odd = || vec![1, 0, 2];
    let check = |name, [old, new, ids, sizes]: [Vec<u8>; 4], set: usize| {
        kept(name, Call::Check { old, new, mode: 2, ids, sizes, set: vec![9; set] }, [1, 0, 0, 0])
    };
    let walk = |name, [old, new]: [Vec<u8>; 2], set: usize| kept(name, Call::Walk { old, new, set: vec![255; set] }, [1, 0, 0, 0]);
    vec![
        check("1, old odd", [odd(), even(), even(), even()], 64),
        check("1, new odd", [even(), odd(), even(), even()], 64),
        check("1, ids odd", [even(), even(), odd(), even()], 64),
        check("1, sizes odd", [even(), even(), even(), odd()], 64),
        check("1, lent 63 bytes", [even(), even(), even(), even()], 63),
        check("1, nothing at all", [vec![], vec![], vec![], vec![]], 0),
        walk("walk, 1, old odd", [odd(), even()], 64),
        walk("walk, 1, new odd", [even(), odd()], 64),
        walk("walk, 1, 63 bytes of set", [even(), even()], 63),
        walk("walk, 1, 65 bytes of set", [even(), even()], 65),
        walk("walk, 1, nothing at all", [vec![], vec![]], 0),
    ]
}

/// Both sides of the lengths of a route and of a schedule: routes of 256 ids are good, of 257 they are not.
fn lengths() -> Vec<Written> {
    // 256 ids, 0 to 255, and 256 that share only the ends with them
    let up: Vec<u16> = (0..256).collect();
    let far: Vec<u16> = std::iter::once(0).chain(256..510).chain([255]).collect();
    let longer: Vec<u16> = (0..257).collect();
    let installs: Vec<u16> = (256..510).collect();
    let removes: Vec<u16> = (1..255).collect();
    let singles: Vec<u16> = [&installs[..], &[0], &removes[..]].concat();
    let all: Vec<u16> = (0..510).filter(|id| *id != 255).collect();
    vec![
        check("4, old of 257 ids", (&longer, &up), 0, &[], &[], [4, 1, 0], &[]),
        check("4, new of 257 ids", (&up, &longer), 0, &[], &[], [4, 2, 0], &[]),
        check("equal routes of 256 ids", (&up, &up), 0, &[], &[], [0, 0, 0], &[]),
        check("509 rounds of one", (&up, &far), 0, &singles, &[1; 509], [0, 509, 509], &[]),
        check("509 nodes in three rounds", (&up, &far), 1, &singles, &[254, 1, 254], [0, 3, 509], &[]),
        // 1 to 254 lose their rules one by one: the highest of them alone drops
        check("509 nodes in one round", (&up, &far), 0, &all, &[509], [16, 1, 1], &[254]),
        check("removes before the source", (&up, &far), 0, &[&installs[..], &removes, &[0]].concat(), &[254, 254, 1], [16, 2, 1], &[254]),
    ]
}

/// Lists that no good change has. Lanes that do not fit hold 65,535; sums are sums of numbers.
fn long() -> Vec<Written> {
    // K3's plan again and again: each id is due, each round of one rises
    let again = |n: usize| [4, 1, 2].into_iter().cycle().take(n).collect::<Vec<u16>>();
    let ones = |n: usize| vec![1; n];
    let with = |mut list: Vec<u16>, at: usize, x: u16| {
        list[at] = x;
        list
    };
    let joined = |a: &[u16], b: &[u16]| [a, b].concat();
    let of = |name, ids: &[u16], sizes: &[u16], reply| check(name, K3, 0, ids, sizes, reply, &[]);
    let hollow = |n: usize| joined(&ones(n - 1), &[0, 0]);
    let rising: Vec<u16> = (0..65_535).collect();
    let route = vec![7; 100_000];
    vec![
        of("100,000 rounds of one", &again(100_000), &ones(100_000), [13, 4, 3]),
        of("100,000 ids in no round", &again(100_000), &[], [9, 0, 0]),
        of("100,000 ids and a size of 2^16 less", &again(100_000), &[34_464], [9, 0, 0]),
        of("100,000 sizes and no ids", &[], &ones(100_000), [9, 0, 0]),
        of("100,000 empty rounds", &[], &vec![0; 100_000], [10, 1, 0]),
        of("100,000 empty rounds before three", &[4, 1, 2], &joined(&vec![0; 100_000], &ones(3)), [10, 1, 0]),
        of("100,000 empty rounds after three", &[4, 1, 2], &joined(&ones(3), &vec![0; 100_000]), [10, 4, 0]),
        of("a sum of 3 + 2^16", &[4, 1, 2], &[65_535, 4], [9, 0, 0]),
        of("a sum of 3 + 2^32", &[4, 1, 2], &joined(&vec![65_535; 65_537], &[4]), [9, 0, 0]),
        of("a sum of 100,000 times 65,535", &[4, 1, 2], &vec![65_535; 100_000], [9, 0, 0]),
        of("a sum that falls short by one", &again(100_000), &ones(99_999), [9, 0, 0]),
        of("an empty round 65,534", &again(65_533), &hollow(65_534), [10, 65_534, 0]),
        of("an empty round 65,535", &again(65_534), &hollow(65_535), [10, 65_535, 0]),
        of("an empty round 65,536", &again(65_535), &hollow(65_536), [10, 65_535, 0]),
        of("an empty round 70,000", &again(69_999), &hollow(70_000), [10, 65_535, 0]),
        of("not rising at index 65,533", &again(65_535), &joined(&ones(65_532), &[3]), [11, 65_533, 65_533]),
        of("not rising at index 70,000", &again(70_002), &joined(&ones(69_999), &[3]), [11, 65_535, 65_535]),
        of("not rising in round 2", &joined(&rising, &again(9)), &[65_535, 9], [11, 2, 65_535]),
        of("not due at index 65,533", &with(again(100_000), 65_533, 3), &ones(100_000), [12, 65_534, 65_533]),
        of("not due at index 65,535", &with(again(100_000), 65_535, 512), &ones(100_000), [12, 65_535, 65_535]),
        of("not due at index 99,999", &with(again(100_000), 99_999, 3), &ones(100_000), [12, 65_535, 65_535]),
        of("a round of 65,535 ids", &rising, &[65_535], [12, 1, 0]),
        check("an old route of 100,000 ids", (&route, &[1]), 0, &again(3), &ones(3), [4, 1, 0], &[]),
        check("a new route of 100,000 ids", (&[1, 2], &route), 0, &again(3), &ones(3), [4, 2, 0], &[]),
    ]
}
