//! Random changes: plans and other schedules of a pair of routes, good, bad and damaged.

use crate::model;
use crate::planfile::Content;
use crate::random::Random;

/// A change as lists: two routes, a mode, and a schedule's ids and sizes.
pub struct Lists {
    pub old: Vec<u16>,
    pub new: Vec<u16>,
    pub mode: u16,
    pub ids: Vec<u16>,
    pub sizes: Vec<u16>,
}

type Rounds = Vec<Vec<u16>>;

/// A change, sound in one case of two, else damaged.
pub fn change(random: &mut Random) -> Lists {
    let mode = random.below(2) as u16;
    let (old, new, rounds) = match random.below(12) {
        0 => winding(random),
        1 => riffled(random),
        _ => {
            let most = any_size(random);
            let (old, new) = random.pair_of(most);
            let rounds = rounds(random, &old, &new, mode);
            (old, new, rounds)
        }
    };
    let (ids, sizes) = (rounds.concat(), rounds.iter().map(|round| round.len() as u16).collect());
    let mut lists = Lists { old, new, mode, ids, sizes };
    if random.chance(2) {
        lists.damage(random);
        while random.chance(2) {
            lists.damage(random);
        }
    }
    lists
}

/// A change as a plan file holds it. Ids that the sizes leave over make one more round; a size that is too large takes what is
/// left.
pub fn content(random: &mut Random) -> Content {
    let lists = change(random);
    let mut left = &lists.ids[..];
    let mut rounds = vec![];
    for size in &lists.sizes {
        let (round, rest) = left.split_at(left.len().min(*size as usize));
        rounds.push(round.to_vec());
        left = rest;
    }
    if !left.is_empty() {
        rounds.push(left.to_vec());
    }
    Content { old: lists.old, new: lists.new, mode: lists.mode, rounds }
}

/// What a plan is asked for: two routes and a mode, sound in two cases of three, else damaged.
pub fn wish(random: &mut Random, pair: fn(&mut Random) -> (Vec<u16>, Vec<u16>)) -> (Vec<u16>, Vec<u16>, u16) {
    let mut mode = random.below(2) as u16;
    let (mut old, mut new) = pair(random);
    if random.chance(3) {
        for route in [&mut old, &mut new] {
            while random.chance(2) {
                random.damage(route);
            }
        }
        if random.chance(2) {
            mode = random.one(&[2, 3, 256, 257, 32_768, 65_535]);
        }
    }
    (old, new, mode)
}

/// A good pair of routes of any kind.
pub fn pair(random: &mut Random) -> (Vec<u16>, Vec<u16>) {
    let (old, new, _) = match random.below(40) {
        0 => winding(random),
        1 => riffled(random),
        _ => {
            let most = any_size(random);
            return random.pair_of(most);
        }
    };
    (old, new)
}

/// A good pair of routes, of any kind or one in which few switches go backward in both orders.
pub fn pair_for_quick(random: &mut Random) -> (Vec<u16>, Vec<u16>) {
    if random.chance(2) { pair(random) } else { gentle(random) }
}

/// A good pair of routes in which no switch goes backward in both orders, or, in one case of three, few do. The nodes that are on
/// both routes are cut into pieces, and each piece is riffled: on one route it has two rows one after the other, on the other one
/// these two are mixed, each in its order. In one case of three some neighbours are then turned round.
fn gentle(random: &mut Random) -> (Vec<u16>, Vec<u16>) {
    let most = any_size(random);
    let ids = random.ids();
    let (ends, ids) = ids.split_at(2);
    let (both, ids) = ids.split_at(random.below(most + 1) as usize);
    let mut mixed = vec![];
    let mut left = both;
    while !left.is_empty() {
        let (piece, rest) = left.split_at(1 + random.below(left.len() as u64) as usize);
        let (mut a, mut b) = piece.split_at(random.below(piece.len() as u64 + 1) as usize);
        while !a.is_empty() || !b.is_empty() {
            let row = if b.is_empty() || (!a.is_empty() && random.chance(2)) { &mut a } else { &mut b };
            mixed.push(row[0]);
            *row = &row[1..];
        }
        left = rest;
    }
    while random.chance(3) && mixed.len() > 2 {
        let size = 3 + random.below(2).min(mixed.len() as u64 - 3) as usize;
        let from = random.below((mixed.len() - size) as u64 + 1) as usize;
        mixed[from..from + size].reverse();
    }
    let (own_a, own_b) = ids.split_at(random.below(most + 1 - both.len() as u64) as usize);
    let own_b = &own_b[..random.below(most + 1 - both.len() as u64) as usize];
    let pair = [(both, own_a), (&mixed, own_b)].map(|(shared, own)| {
        let mut inner = shared.to_vec();
        for id in own {
            inner.insert(random.below(inner.len() as u64 + 1) as usize, *id);
        }
        [&ends[..1], &inner, &ends[1..]].concat()
    });
    let [old, new] = pair;
    if random.chance(2) { (old, new) } else { (new, old) }
}

/// So many inner nodes at most.
fn any_size(random: &mut Random) -> u64 {
    match random.below(100) {
        0..=19 => 3,
        20..=44 => 6,
        45..=74 => 10,
        75..=91 => 40,
        _ => 254,
    }
}

/// A change whose fault needs many nodes. With s = 0, d = 1, x = 2 and w = 3, the old route is s x u z u z .. u w d. The new
/// one takes all u, then x, then all z, then w. Once the z have changed, only a walk that leaves every u by its new rule comes
/// to x again; or, where a node that is installed stands before x, to that node.
fn winding(random: &mut Random) -> (Vec<u16>, Vec<u16>, Rounds) {
    let k = random.one(&[2, 4, 5, 8, 10, 30, 125]);
    let k = 1 + random.below(k) as u16;
    let ids = random.ids();
    let id = |node: u16| ids[node as usize];
    let us: Vec<u16> = (0..=k).map(|i| id(10 + 2 * i)).collect();
    let zs: Vec<u16> = (0..k).map(|i| id(11 + 2 * i)).collect();
    let (s, d, x, w) = (id(0), id(1), id(2), id(3));
    let installed = if random.chance(3) { vec![id(4)] } else { vec![] };
    let between: Vec<u16> = (10..11 + 2 * k).map(id).collect();
    let old = [&[s, x], &between[..], &[w, d]].concat();
    let new = [&[s], &us[..], &installed, &[x], &zs, &[w, d]].concat();
    let mut rounds = if random.chance(2) { vec![zs, us, installed, vec![x, s]] } else { vec![installed, zs, us, vec![x, s]] };
    while random.chance(4) {
        disturb(random, &mut rounds);
    }
    (old, new, tidied(rounds))
}

/// A change with a round of nearly all nodes that passes: the new route is rising, the old one takes every second node and
/// then the others.
fn riffled(random: &mut Random) -> (Vec<u16>, Vec<u16>, Rounds) {
    let half = random.one(&[2, 4, 6, 20, 128]);
    let half = 2 + random.below(half - 1) as u16;
    let ids = random.ids();
    let new: Vec<u16> = ids[..2 * half as usize].to_vec();
    let old: Vec<u16> = new.iter().step_by(2).chain(new.iter().skip(1).step_by(2)).copied().collect();
    let (first, rest) = (new[new.len() - 2], &new[..new.len() - 2]);
    let mut rounds = vec![vec![first], rest.to_vec()];
    while random.chance(3) {
        disturb(random, &mut rounds);
    }
    (old, new, tidied(rounds))
}

/// The rounds that are not empty, each rising.
fn tidied(mut rounds: Rounds) -> Rounds {
    for round in &mut rounds {
        round.sort();
    }
    rounds.retain(|round| !round.is_empty());
    rounds
}

/// A schedule that holds each due node once: a plan, one that is changed a little, or any partition.
fn rounds(random: &mut Random, old: &[u16], new: &[u16], mode: u16) -> Rounds {
    let due = model::due(old, new);
    tidied(match random.below(12) {
        0..=7 => {
            let mut rounds = if due.len() > 80 { one_by_one(old, new, &due) } else { planned(random, old, new, mode) };
            while !random.chance(3) && !rounds.is_empty() {
                disturb(random, &mut rounds);
            }
            rounds
        }
        8 => vec![due],
        9 => {
            let mut singles: Rounds = due.iter().map(|id| vec![*id]).collect();
            random.shuffle(&mut singles);
            singles
        }
        _ => {
            let parts = 1 + random.below(due.len() as u64 + 1);
            let mut rounds = vec![vec![]; parts as usize];
            for id in due {
                rounds[random.below(parts) as usize].push(id);
            }
            rounds
        }
    })
}

/// The plan in this mode, or now and then in the other one.
fn planned(random: &mut Random, old: &[u16], new: &[u16], mode: u16) -> Rounds {
    let mode = if random.chance(4) { 1 - mode } else { mode };
    model::plan(old, new, mode).expect("a good pair of routes")
}

/// A schedule that passes, whatever the routes: installs, then each switch by itself, from the destination backward along the
/// new route, then removes.
fn one_by_one(old: &[u16], new: &[u16], due: &[u16]) -> Rounds {
    let has = |route: &[u16], id: u16| model::rule(route, id).is_some();
    let of = |pick: &dyn Fn(u16) -> bool| due.iter().copied().filter(|id| pick(*id)).collect::<Vec<u16>>();
    let mut rounds = vec![of(&|id| !has(old, id))];
    rounds.extend(new.iter().rev().filter(|id| due.contains(id) && has(old, **id)).map(|id| vec![*id]));
    rounds.push(of(&|id| !has(new, id)));
    rounds
}

/// Merges two rounds, swaps two, splits one, or moves one node to another round.
fn disturb(random: &mut Random, rounds: &mut Rounds) {
    let a = random.below(rounds.len() as u64) as usize;
    let b = if random.chance(2) { (a + 1) % rounds.len() } else { random.below(rounds.len() as u64) as usize };
    match random.below(4) {
        0 if a != b => {
            let taken = std::mem::take(&mut rounds[b]);
            rounds[a].extend(taken);
        }
        1 => rounds.swap(a, b),
        2 => {
            let (mut left, mut right) = (vec![], vec![]);
            for id in rounds[a].drain(..) {
                if random.chance(2) { left.push(id) } else { right.push(id) }
            }
            rounds[a] = left;
            rounds.insert(a, right);
        }
        _ if !rounds[a].is_empty() => {
            let at = random.below(rounds[a].len() as u64) as usize;
            let id = rounds[a].remove(at);
            rounds[b].push(id);
        }
        _ => {}
    }
}

impl Lists {
    /// Puts one thing wrong, perhaps.
    fn damage(&mut self, random: &mut Random) {
        let rounds = self.sizes.len() as u64;
        let ids = self.ids.len() as u64;
        match random.below(14) {
            0 => random.damage(&mut self.old),
            1 => random.damage(&mut self.new),
            2 => self.mode = random.one(&[2, 3, 256, 257, 32_768, 65_535]),
            3 if rounds > 0 => self.sizes[random.below(rounds) as usize] = random.one(&[0, 1, 2, 3, 65_535]),
            4 => {
                let more: &[u16] = random.one(&[&[0], &[1], &[2], &[65_535, 1]]);
                self.sizes.extend(more);
            }
            5 => self.sizes.insert(random.below(rounds + 1) as usize, 0),
            6 if rounds > 1 => {
                // two rounds become one, and their ids stay where they are
                let t = random.below(rounds - 1) as usize;
                let size = self.sizes.remove(t);
                self.sizes[t] = self.sizes[t].wrapping_add(size);
            }
            7 if ids > 1 => {
                let (i, j) = (random.below(ids) as usize, random.below(ids) as usize);
                self.ids.swap(i, j);
            }
            8 if ids > 1 => {
                let (i, j) = (random.below(ids) as usize, random.below(ids) as usize);
                self.ids[i] = self.ids[j];
            }
            9 if ids > 0 => {
                let id = random.below(520) as u16;
                self.ids[random.below(ids) as usize] = random.one(&[id, id, 511, 512, 65_535]);
            }
            10 if ids > 0 => {
                // a node that is in a round is put, at the end, into one more
                self.ids.push(self.ids[random.below(ids) as usize]);
                self.sizes.push(1);
            }
            11 => {
                self.ids.push(random.below(520) as u16);
                self.sizes.push(1);
            }
            12 => {
                self.ids.pop();
                self.sizes.pop();
            }
            13 if ids > 0 => self.lose(random.below(ids) as usize),
            _ => {}
        }
    }

    /// Takes the id at the index out of its round.
    fn lose(&mut self, index: usize) {
        let mut left = index;
        for t in 0..self.sizes.len() {
            let size = self.sizes[t] as usize;
            if left < size {
                self.sizes[t] -= 1;
                if self.sizes[t] == 0 {
                    self.sizes.remove(t);
                }
                self.ids.remove(index);
                return;
            }
            left -= size;
        }
    }
}
