//! Random inputs: of each call, many that it takes and some that it refuses.

use crate::calls::{Change, Graph, Input};
use crate::worst::{change, file, set};

/// Random numbers (splitmix64).
pub struct Random(pub u64);

/// The id after this one on the route.
fn rule(route: &[u16], id: u16) -> Option<u16> {
    route.windows(2).find(|pair| pair[0] == id).map(|pair| pair[1])
}

impl Random {
    pub fn below(&mut self, n: u64) -> u64 {
        self.0 = self.0.wrapping_add(0x9e37_79b9_7f4a_7c15);
        let mut z = self.0;
        z = (z ^ (z >> 30)).wrapping_mul(0xbf58_476d_1ce4_e5b9);
        z = (z ^ (z >> 27)).wrapping_mul(0x94d0_49bb_1331_11eb);
        (z ^ (z >> 31)) % n
    }

    fn one_in(&mut self, n: u64) -> bool {
        self.below(n) == 0
    }

    pub fn shuffled(&mut self, mut list: Vec<u16>) -> Vec<u16> {
        for i in (1..list.len()).rev() {
            list.swap(i, self.below(i as u64 + 1) as usize);
        }
        list
    }

    /// Routes from one pool, any mode, all due nodes in random rounds, and any state; now and then a route is too short, an id is
    /// changed or missing, or a round is empty.
    fn change(&mut self) -> Change {
        let pool = [6, 12, 12, 40, 40, 120, 500][self.below(7) as usize];
        let ids = self.shuffled((0..512).collect());
        let route = |random: &mut Random| {
            let mut inner = random.shuffled(ids[2..2 + pool].to_vec());
            inner.truncate(random.below(pool.min(254) as u64 + 1) as usize);
            let mut route = [&ids[..1], &inner, &ids[1..2]].concat();
            if random.one_in(100) {
                route.truncate(1);
            }
            if random.one_in(80) {
                let at = random.below(route.len() as u64) as usize;
                route[at] = random.below(520) as u16;
            }
            route
        };
        let (old, new) = (route(self), route(self));
        let due: Vec<u16> = (0..512).filter(|id| rule(&old, *id) != rule(&new, *id)).collect();
        let mut rounds = vec![vec![]; 1 + self.below(6) as usize];
        let wild = [4, 40, 4000][self.below(3) as usize];
        for id in &due {
            // installs, switches, removes, but for the wild ones
            let kind = usize::from(rule(&old, *id).is_some()) + usize::from(rule(&new, *id).is_none());
            let t = if self.one_in(wild) { self.below(rounds.len() as u64) as usize } else { kind * (rounds.len() - 1) / 2 };
            match self.below(2000) {
                0 => rounds[t].push(self.below(520) as u16),
                1 => {}
                _ => rounds[t].push(*id),
            }
        }
        rounds.retain(|round| !round.is_empty() || self.one_in(40));
        let mode = [0, 1, 2][(self.below(41) / 20) as usize];
        let mut x = change(&old, &new, mode, &rounds);
        let bits = 1 + self.below(4);
        x.set = set(due.into_iter().filter(|_| self.below(4) < bits).collect::<Vec<u16>>());
        if self.one_in(20) {
            x.set[self.below(64) as usize] ^= 1 << self.below(8);
        }
        x
    }

    /// A change between near routes: along the new one, parts of the old one are rotated and some of its nodes are others. It
    /// mostly has a quick plan; now and then two nodes far apart are exchanged, and it has none.
    fn near(&mut self) -> Change {
        let ids = self.shuffled((0..512).collect());
        let (inner, size) = (self.below(255) as usize, [2, 3, 8, 64][self.below(4) as usize]);
        let mut new = ids[..inner].to_vec();
        for part in new.chunks_mut(size) {
            part.rotate_left(self.below(part.len() as u64) as usize);
        }
        if self.one_in(3) && inner > 0 {
            new.swap(self.below(inner as u64) as usize, self.below(inner as u64) as usize);
        }
        let others = 2 + self.below(20);
        for at in 0..inner {
            if self.one_in(others) {
                new[at] = ids[256 + at];
            }
        }
        let route = |inner: &[u16]| [&ids[510..511], inner, &ids[511..]].concat();
        change(&route(&ids[..inner]), &route(&new), self.below(2) as u16, &[])
    }

    /// A change, now and then with a list that lacks a byte or an entry.
    fn marred(&mut self) -> Change {
        let mut x = self.change();
        if self.one_in(20) {
            let lists = [&mut x.old, &mut x.new, &mut x.ids, &mut x.sizes, &mut x.set];
            let list: &mut Vec<u8> = lists.into_iter().nth(self.below(5) as usize).unwrap();
            list.truncate(list.len().saturating_sub(1 + self.below(2) as usize));
        }
        x
    }

    /// The file of a change, now and then with a byte changed or the end missing.
    fn file(&mut self) -> Vec<u8> {
        let mut file = file(&Change { mode: self.below(65536) as u16, ..self.change() });
        if self.one_in(4) {
            let at = self.below(file.len() as u64) as usize;
            file[at] = self.below(256) as u8;
        }
        if self.one_in(4) {
            file.truncate(self.below(file.len() as u64 + 1) as usize);
        }
        if self.one_in(20) {
            file.extend([0, 0, 4, 0].repeat(self.below(1100) as usize));
        }
        file
    }

    /// Tables of any values, in one of several densities.
    fn graph(&mut self) -> Box<Graph> {
        let mut g = Graph { old: [0; 512], new: [0; 512], choice: [0; 512], alive: [false; 512], start: 0 };
        let (ends, kinds, members) = (self.below(4), self.below(4), self.below(3));
        for v in 0..512 {
            let mut value = || match ends {
                0 => self.below(512) as u16,
                1 => self.below(514) as u16,
                2 if self.one_in(2) => 512 + self.below(3) as u16,
                2 => self.below(65536) as u16,
                _ => v + self.below(5) as u16 + u16::from(!self.one_in(300)),
            };
            let at = v as usize;
            (g.old[at], g.new[at]) = (value(), value());
            g.choice[at] = match kinds {
                0 => 2,
                1 => self.below(3) as u8,
                2 => self.below(256) as u8,
                _ => self.one_in(40) as u8,
            };
            g.alive[at] = match members {
                0 => true,
                1 => self.one_in(2),
                _ => !self.one_in(20),
            };
        }
        g.start = [self.below(512), 512, 513, 514, self.below(u64::MAX)][self.below(5) as usize] as usize;
        Box::new(g)
    }

    /// An input of this call.
    pub fn input(&mut self, call: &str) -> Input {
        match call {
            "reach" => Input::Reach(self.graph()),
            "cyclic" => Input::Cyclic(self.graph()),
            "check" => Input::Check(self.marred()),
            "plan" => Input::Plan(self.marred()),
            "quick" => Input::Quick(if self.one_in(3) { self.near() } else { self.marred() }),
            "walk" => Input::Walk(self.marred()),
            "read" => Input::Read(self.file()),
            "write" => Input::Write(self.marred()),
            _ => panic!("no such call"),
        }
    }

    /// What is lent: now and then a byte more or less.
    pub fn room(&mut self, input: &Input) -> [usize; 4] {
        let mut room = input.room();
        if self.one_in(40) {
            let at = &mut room[self.below(4) as usize];
            *at = (*at + self.below(3) as usize).saturating_sub(1);
        }
        room
    }
}
