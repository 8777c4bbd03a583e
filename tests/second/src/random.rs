//! Random numbers (splitmix64), and random routes of all sizes and overlaps, good and damaged.

pub struct Random(pub u64);

impl Random {
    pub fn next(&mut self) -> u64 {
        self.0 = self.0.wrapping_add(0x9e37_79b9_7f4a_7c15);
        let mut z = self.0;
        z = (z ^ (z >> 30)).wrapping_mul(0xbf58_476d_1ce4_e5b9);
        z = (z ^ (z >> 27)).wrapping_mul(0x94d0_49bb_1331_11eb);
        z ^ (z >> 31)
    }

    /// A number below n.
    pub fn below(&mut self, n: u64) -> u64 {
        self.next() % n
    }

    pub fn chance(&mut self, one_in: u64) -> bool {
        self.below(one_in) == 0
    }

    pub fn shuffle<T>(&mut self, list: &mut [T]) {
        for i in (1..list.len()).rev() {
            let j = self.below(i as u64 + 1) as usize;
            list.swap(i, j);
        }
    }

    /// One of the list.
    pub fn one<T: Copy>(&mut self, list: &[T]) -> T {
        list[self.below(list.len() as u64) as usize]
    }

    /// The ids in any order.
    pub fn ids(&mut self) -> Vec<u16> {
        let mut ids: Vec<u16> = (0..512).collect();
        self.shuffle(&mut ids);
        ids
    }

    /// A good pair of routes of any size.
    pub fn pair(&mut self) -> (Vec<u16>, Vec<u16>) {
        let most = self.one(&[3, 6, 10, 40, 254]);
        self.pair_of(most)
    }

    /// A good pair of routes of at most so many inner nodes, which are drawn from a pool, some shared, in any order.
    pub fn pair_of(&mut self, most: u64) -> (Vec<u16>, Vec<u16>) {
        let pool = (most + 2 + self.below(most * 2)).min(512);
        let mut ids = self.ids();
        ids.truncate(pool as usize);
        let (s, d) = (ids[0], ids[1]);
        let route = |inner: &[u16]| [&[s], inner, &[d]].concat();
        let drawn = |random: &mut Random| {
            let mut inner = ids[2..].to_vec();
            if !random.chance(3) {
                random.shuffle(&mut inner);
            }
            inner.truncate(if random.chance(6) { most } else { random.below(most + 1) } as usize);
            inner
        };
        let old = drawn(self);
        let mut new = drawn(self);
        if self.chance(4) {
            new = old.clone();
            let half = new.len() / 2;
            match self.below(3) {
                0 => new.reverse(),
                1 => self.shuffle(&mut new),
                _ => new.rotate_left(half),
            }
        } else if self.chance(10) {
            new = ids[2..].iter().copied().filter(|id| !old.contains(id)).take(most as usize).collect();
        }
        (route(&old), route(&new))
    }

    /// A route with something wrong in it, perhaps.
    pub fn damage(&mut self, route: &mut Vec<u16>) {
        let n = route.len() as u64;
        match self.below(7) {
            0 => {
                let n = self.below(2) as usize;
                route.truncate(n)
            }
            1 => {
                let from = self.below(512) as u16;
                route.clear();
                route.extend((0..257 + self.below(40) as u16).map(|i| (from + i) % 512));
            }
            2 if n > 0 => route[self.below(n) as usize] = 512 + self.below(3) as u16 * 30_000,
            3 if n > 1 => {
                let (a, b) = (self.below(n) as usize, self.below(n) as usize);
                route[a] = route[b];
            }
            4 if n > 0 => route[0] = self.below(512) as u16,
            5 if n > 0 => route[n as usize - 1] = self.below(512) as u16,
            _ => route.push(self.below(600) as u16),
        }
    }
}
