//! The worst cases of each call, for any number of nodes on a route up to 256. A change's ids are 0 to 511.

use crate::calls::{plain, planner, whole, Answer, Change, Graph, Input};
use crate::plain::{lanes, packed};
use crate::random::Random;

/// A row of the table.
pub struct Row {
    pub call: &'static str,
    pub case: String,
    /// The input for routes of so many nodes.
    pub at: Box<dyn Fn(u16) -> Input>,
    /// Whether it has more than one size.
    pub sized: bool,
    /// What the call replies at 256 nodes.
    pub reply: u64,
    /// What the proved call is measured against.
    pub other: Answer,
}

impl Row {
    pub fn name(&self) -> String {
        format!("{}, {}", self.call, self.case)
    }

    /// The numbers of nodes for which it is made.
    pub fn nodes(&self) -> &'static [u16] {
        if self.sized { &NODES } else { &NODES[3..] }
    }
}

/// The nodes on a route.
pub const NODES: [u16; 4] = [32, 64, 128, 256];

pub fn bytes(list: &[u16]) -> Vec<u8> {
    list.iter().flat_map(|x| x.to_le_bytes()).collect()
}

/// A set of ids as 64 bytes.
pub fn set(ids: impl IntoIterator<Item = u16>) -> Vec<u8> {
    let mut set = vec![0; 64];
    for id in ids {
        set[id as usize / 8] |= 1 << (id % 8);
    }
    set
}

pub fn change(old: &[u16], new: &[u16], mode: u16, rounds: &[Vec<u16>]) -> Change {
    let sizes: Vec<u16> = rounds.iter().map(|round| round.len() as u16).collect();
    Change { old: bytes(old), new: bytes(new), mode, ids: bytes(&rounds.concat()), sizes: bytes(&sizes), set: vec![] }
}

/// The plan file of a change.
pub fn file(x: &Change) -> Vec<u8> {
    let record = |kind: u16, body: &[u8]| [&bytes(&[body.len() as u16, kind]), body].concat();
    let mut file = [record(1, &x.old), record(2, &x.new), record(3, &x.mode.to_le_bytes())].concat();
    let mut from = 0;
    for size in x.sizes.chunks_exact(2) {
        let to = from + 2 * u16::from_le_bytes([size[0], size[1]]) as usize;
        file.extend(record(4, &x.ids[from..to]));
        from = to;
    }
    file
}

/// Two routes that share only the ends, and a schedule that passes, with at most `size` nodes in a round: the installs, the
/// source, the removes.
fn apart(n: u16, size: usize, mode: u16) -> Change {
    let (installs, removes): (Vec<u16>, Vec<u16>) = ((256..254 + n).collect(), (1..n - 1).collect());
    let old: Vec<u16> = (0..n).collect();
    let new = [&[0], &installs[..], &[n - 1]].concat();
    let rounds: Vec<Vec<u16>> =
        installs.chunks(size).chain([&[0][..]]).chain(removes.chunks(size)).map(|round| round.to_vec()).collect();
    change(&old, &new, mode, &rounds)
}

/// Two routes that share only the ends, with all due nodes in one round, where every state with the source and not the first
/// install drops. The source has the highest id, and the installs fall along the new route, so that until the last id is decided
/// much is reached.
fn dropping(n: u16) -> Change {
    let (s, d) = (510, 511);
    let old: Vec<u16> = [s].into_iter().chain(0..n - 2).chain([d]).collect();
    let new: Vec<u16> = [s].into_iter().chain((n - 2..2 * n - 4).rev()).chain([d]).collect();
    change(&old, &new, 0, &[(0..2 * n - 4).chain([s]).collect()])
}

/// One round of n - 2 switches that passes, after a round of one. The new route is 0 to n - 1, the old one takes the even ids
/// first and then the odd ones.
fn riffled(n: u16, mode: u16) -> Change {
    let new: Vec<u16> = (0..n).collect();
    let old: Vec<u16> = (0..n).step_by(2).chain((1..n).step_by(2)).collect();
    change(&old, &new, mode, &[vec![n - 2], (0..n - 2).collect()])
}

/// 0 to n - 1, and the same with all inner nodes in the other order; all due nodes in one round.
fn reversal(n: u16, mode: u16) -> Change {
    let old: Vec<u16> = (0..n).collect();
    let new: Vec<u16> = [0].into_iter().chain((1..n - 1).rev()).chain([n - 1]).collect();
    change(&old, &new, mode, &[(0..n - 1).collect()])
}

/// 0 to n - 1, and the same with the inner nodes in a random order.
fn permutation(n: u16, mode: u16) -> Change {
    let old: Vec<u16> = (0..n).collect();
    let new = [vec![0], Random(7).shuffled((1..n - 1).collect()), vec![n - 1]].concat();
    change(&old, &new, mode, &[])
}

/// A loop in the second round that needs all of its k + 1 nodes, k = (n - 5) / 2. The old route is s x u z u z .. u w d; the new
/// one takes all u, then x, then all z, then w. Once the z have changed, only a walk that leaves every u by its new rule comes to
/// x again.
fn winding(n: u16, mode: u16) -> Change {
    let k = (n - 5) / 2;
    let (s, x, w, d) = (500, 501, 502, 503);
    let us: Vec<u16> = (0..=k).map(|i| 2 * i).collect();
    let zs: Vec<u16> = (0..k).map(|i| 2 * i + 1).collect();
    let between: Vec<u16> = (0..2 * k + 1).collect();
    let old = [&[s, x], &between[..], &[w, d]].concat();
    let new = [&[s], &us[..], &[x], &zs, &[w, d]].concat();
    change(&old, &new, mode, &[zs, us, vec![s, x]])
}

/// A walk through all nodes of both routes: the old one is s a .. a c d, the new one s c b .. b d, and c and the b have changed.
fn longest(n: u16) -> Change {
    let (s, c, d) = (509, 510, 511);
    let (olds, news): (Vec<u16>, Vec<u16>) = ((0..n - 3).collect(), (n - 3..2 * n - 6).collect());
    let old = [&[s], &olds[..], &[c, d]].concat();
    let new = [&[s, c], &news[..], &[d]].concat();
    Change { set: set(news.into_iter().chain([c])), ..change(&old, &new, 0, &[]) }
}

/// A walk through all nodes but d that ends in a loop: the old route is s e a .. a c d, the new one s c b .. b e d, and c and the
/// b have changed.
fn round_about(n: u16) -> Change {
    let (s, e, c, d) = (508, 509, 510, 511);
    let (olds, news): (Vec<u16>, Vec<u16>) = ((0..n - 4).collect(), (n - 4..2 * n - 8).collect());
    let old = [&[s, e], &olds[..], &[c, d]].concat();
    let new = [&[s, c], &news[..], &[e, d]].concat();
    Change { set: set(news.into_iter().chain([c])), ..change(&old, &new, 0, &[]) }
}

/// Two routes of two ids, and so many rounds of no node: the reader takes them.
fn hollow(rounds: u16) -> Vec<u8> {
    file(&change(&[1, 2], &[1, 2], 0, &vec![vec![]; rounds as usize]))
}

/// Rules for as many nodes as two routes have, every choice "either", and those nodes in the set.
fn graph(n: u16, steps: impl Fn(usize, &mut Random) -> usize) -> Box<Graph> {
    let mut random = Random(7);
    let nodes = 2 * n as usize;
    let mut g = Graph { old: [512; 512], new: [512; 512], choice: [2; 512], alive: [false; 512], start: 0 };
    for v in 0..nodes {
        let mut next = || Some(v + steps(v, &mut random)).filter(|w| *w < nodes).map_or(513, |w| w as u16);
        g.old[v] = next();
        g.new[v] = next();
        g.alive[v] = true;
    }
    Box::new(g)
}

fn chain(n: u16) -> Box<Graph> {
    graph(n, |_, _| 1)
}

fn onward(n: u16) -> Box<Graph> {
    graph(n, |_, random| 1 + random.below(8) as usize)
}

fn row(call: &'static str, case: impl Into<String>, reply: u64, at: impl Fn(u16) -> Input + 'static) -> Row {
    Row { call, case: case.into(), at: Box::new(at), sized: true, reply, other: plain }
}

fn searches() -> Vec<Row> {
    vec![
        row("reach", "a chain of 512 nodes", 0, |n| Input::Reach(chain(n))),
        row("reach", "512 nodes, steps of 1 to 8", 0, |n| Input::Reach(onward(n))),
        row("cyclic", "a chain of 512 nodes", 0, |n| Input::Cyclic(chain(n))),
        row("cyclic", "512 nodes, steps of 1 to 8", 0, |n| Input::Cyclic(onward(n))),
    ]
}

fn checks(m: u16, mode: &str) -> Vec<Row> {
    let passes = |rounds, due| lanes(Ok([0, rounds, due, 0]));
    vec![
        row("check", format!("509 rounds of one, {mode}"), passes(509, 509), move |n| Input::Check(apart(n, 1, m))),
        row("check", format!("509 nodes in 3 rounds, {mode}"), passes(3, 509), move |n| Input::Check(apart(n, 254, m))),
        row("check", format!("a round of 254 switches, {mode}"), passes(2, 255), move |n| Input::Check(riffled(n, m))),
    ]
}

fn loops(m: u16, mode: &str) -> Vec<Row> {
    let looped = |round, size| lanes(Err((17, round, size)));
    vec![
        row("refuse", format!("a first round of 255 loops, {mode}"), looped(1, 1), move |n| Input::Check(reversal(n, m))),
        row("refuse", format!("a loop of 126 named, {mode}"), looped(2, 126), move |n| Input::Check(winding(n, m))),
    ]
}

fn plans(m: u16, mode: &str) -> Vec<Row> {
    let planned = |rounds: [usize; 2], ids| lanes(Ok([0, rounds[m as usize], ids, 0]));
    vec![
        row("plan", format!("reversal, {mode}"), planned([254, 3], 255), move |n| Input::Plan(reversal(n, m))),
        row("plan", format!("a permutation, {mode}"), planned([5, 5], 255), move |n| Input::Plan(permutation(n, m))),
        row("plan", format!("disjoint interiors, {mode}"), planned([3, 3], 509), move |n| Input::Plan(apart(n, 1, m))),
    ]
}

/// The mode makes no difference.
fn quicks() -> Vec<Row> {
    let planned = |rounds, ids| lanes(Ok([0, rounds, ids, 0]));
    vec![
        row("quick", "255 switches in two rounds", planned(2, 255), |n| Input::Quick(riffled(n, 0))),
        row("quick", "disjoint interiors", planned(3, 509), |n| Input::Quick(apart(n, 1, 0))),
        row("quick", "reversal, refused", lanes(Err((19, 0, 2))), |n| Input::Quick(reversal(n, 0))),
    ]
}

fn files() -> Vec<Row> {
    let content = |route, ids, rounds| packed(Ok([0, route, route, ids, rounds, 0]));
    let written = |size| packed(Ok([0, 0, 0, size, 0, 0]));
    let short = |row| Row { sized: false, ..row };
    vec![
        row("read", "4,092 bytes, 509 rounds", content(256, 509, 509), |n| Input::Read(file(&apart(n, 1, 0)))),
        row("read", "4,090 bytes, 1,017 empty rounds", content(2, 0, 1017), |n| Input::Read(hollow(4 * n - 7))),
        short(row("read", "22 bytes", content(2, 0, 0), |_| Input::Read(hollow(0)))),
        row("write", "4,092 bytes, 509 rounds", written(4092), |n| Input::Write(apart(n, 1, 0))),
        short(row("write", "22 bytes", written(22), |_| Input::Write(change(&[1, 2], &[1, 2], 0, &[])))),
    ]
}

/// The strong reversal against plain code that tests the whole round again, and the quick planner against the planner.
pub fn against_others() -> [Row; 2] {
    let (reversed, quick) = (lanes(Ok([0, 254, 255, 0])), lanes(Ok([0, 2, 255, 0])));
    [
        Row { other: whole, ..row("plan", "reversal, strong, to whole rounds", reversed, |n| Input::Plan(reversal(n, 0))) },
        Row { other: planner, ..row("quick", "255 switches, strong, to the plan", quick, |n| Input::Quick(riffled(n, 0))) },
    ]
}

/// The rows in which both answers have the same algorithm.
pub fn rows() -> Vec<Row> {
    let each = |rows: fn(u16, &str) -> Vec<Row>| [rows(0, "strong"), rows(1, "relaxed")].into_iter().flatten();
    let dropped = lanes(Err((16, 1, 1)));
    let (arrived, looped) = (lanes(Ok([0, 0, 508, 0])), lanes(Ok([0, 2, 507, 509])));
    searches()
        .into_iter()
        .chain(each(checks))
        .chain(each(loops))
        .chain([row("refuse", "a first round of 509 drops", dropped, |n| Input::Check(dropping(n)))])
        .chain(each(plans))
        .chain(quicks())
        .chain([row("walk", "508 hops, all of both routes", arrived, |n| Input::Walk(longest(n)))])
        .chain([row("walk", "a loop after 507 hops", looped, |n| Input::Walk(round_about(n)))])
        .chain(files())
        .collect()
}
