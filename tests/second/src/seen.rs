//! What came up in a comparison.

use std::collections::BTreeMap;

/// How often each reply was given by whoever was asked (0 is a yes), and how often each pair of a refusal that was given and one
/// that applied as well.
#[derive(Default)]
pub struct Seen {
    replies: BTreeMap<(&'static str, u64), u64>,
    pairs: BTreeMap<(&'static str, u64, u64), u64>,
}

impl Seen {
    pub fn count(&mut self, name: &'static str, given: u64, applying: &[u64]) {
        *self.replies.entry((name, given)).or_default() += 1;
        for other in applying.iter().filter(|number| **number > given) {
            *self.pairs.entry((name, given, *other)).or_default() += 1;
        }
    }

    pub fn join(&mut self, other: Seen) {
        for (key, times) in other.replies {
            *self.replies.entry(key).or_default() += times;
        }
        for (key, times) in other.pairs {
            *self.pairs.entry(key).or_default() += times;
        }
    }

    /// Whether each of the refusals was given, also where each later one that can be known applied, and no other refusal was
    /// given. Whether a round is bad is known only where none of 4 to 13 applies, a jump only where none of 4 to 7 does.
    pub fn all(&self, name: &'static str, refusals: &[u64]) -> Result<(), String> {
        for number in 0..100 {
            let came = self.replies.contains_key(&(name, number));
            if came != (number == 0 || refusals.contains(&number)) {
                return Err(format!("{name} {} {number}", if came { "answers" } else { "never answers" }));
            }
        }
        for (k, a) in refusals.iter().enumerate() {
            let known = |b: &&u64| match b {
                15..=17 => !(4..14).contains(a),
                18.. => !(4..8).contains(a),
                _ => true,
            };
            for b in refusals[k + 1..].iter().filter(known) {
                if !self.pairs.contains_key(&(name, *a, *b)) {
                    return Err(format!("{name}: no case to which {a} and {b} apply"));
                }
            }
        }
        Ok(())
    }

    pub fn print(&self, name: &'static str, refusals: &[u64]) {
        let times = |number| self.replies[&(name, number)];
        let each: Vec<String> = refusals.iter().map(|number| format!("{number}: {}", times(*number))).collect();
        let next: Vec<String> =
            refusals.windows(2).map(|pair| format!("{}+{}: {}", pair[0], pair[1], self.pairs[&(name, pair[0], pair[1])])).collect();
        println!("{name}: yes {}; refused {}; two at once {}", times(0), each.join(", "), next.join(", "));
    }
}

#[cfg(test)]
mod tests {
    use super::*;

    /// A reply or a pair that never came is missed, and a reply that may not come is seen.
    #[test]
    fn what_is_missing_is_seen() {
        let of = |cases: &[(u64, &[u64])]| {
            let mut seen = Seen::default();
            for (given, applying) in cases {
                seen.count("it", *given, applying);
            }
            seen.all("it", &[4, 5, 14, 16])
        };
        let all: [(u64, &[u64]); 6] = [(0, &[]), (4, &[4, 5]), (4, &[4, 14]), (5, &[5, 14]), (14, &[14, 16]), (16, &[16])];
        assert_eq!(of(&all), Ok(()));
        for k in 0..all.len() {
            let mut fewer = all.to_vec();
            fewer.remove(k);
            assert!(of(&fewer).is_err(), "without {:?}", all[k]);
        }
        for number in [1, 9, 15] {
            assert_eq!(of(&[&all[..], &[(number, &[number])]].concat()), Err(format!("it answers {number}")));
        }
    }

    /// 19 can apply where 1 or 8 is given, and must have.
    #[test]
    fn a_missing_pair_with_19_is_seen() {
        let of = |cases: &[(u64, &[u64])]| {
            let mut seen = Seen::default();
            for (given, applying) in cases {
                seen.count("it", *given, applying);
            }
            seen.all("it", &[1, 7, 8, 19])
        };
        let all: [(u64, &[u64]); 6] = [(0, &[]), (1, &[1, 7]), (1, &[1, 8, 19]), (7, &[7, 8]), (8, &[8, 19]), (19, &[19])];
        assert_eq!(of(&all), Ok(()));
        for k in 0..all.len() {
            let mut fewer = all.to_vec();
            fewer.remove(k);
            assert!(of(&fewer).is_err(), "without {:?}", all[k]);
        }
    }
}
