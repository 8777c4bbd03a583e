//! Random plan files: of random changes, sound and damaged, and bytes that were never a file.

use crate::changes;
use crate::planfile::{self, written_record, Content, LIMIT};
use crate::random::Random;

/// A file, sound in two cases of three.
pub fn file(random: &mut Random) -> Vec<u8> {
    let mut file = match random.below(240) {
        0..=3 => noise(random),
        4..=7 => loose_records(random),
        8 => largest(random),
        _ => planfile::write(&content(random)),
    };
    if random.chance(3) {
        damage(random, &mut file);
        while random.chance(3) {
            damage(random, &mut file);
        }
    }
    file
}

/// A random change. Large ones, whose plans take long, come less often.
fn content(random: &mut Random) -> Content {
    let content = changes::content(random);
    let large = content.old.len() + content.new.len() > 100;
    if large && !random.chance(8) { changes::content(random) } else { content }
}

/// Bytes of any kind, also none.
fn noise(random: &mut Random) -> Vec<u8> {
    let size = random.one(&[0, 1, 4, 10, 60, 5000]);
    let size = random.below(size + 1);
    let most = random.one(&[2, 8, 256]);
    (0..size).map(|_| random.below(most) as u8).collect()
}

/// Whole records, of any kind in any order.
fn loose_records(random: &mut Random) -> Vec<u8> {
    let mut file = vec![];
    while !random.chance(5) {
        let body: Vec<u16> = (0..random.below(4)).map(|_| random.below(6) as u16).collect();
        file.extend(written_record(random.below(6) as u16, &body));
    }
    file
}

/// A file of exactly the limit: routes of 256 ids that share only their ends, and a round for each of 509 due nodes.
fn largest(random: &mut Random) -> Vec<u8> {
    let ids = random.ids();
    let (s, d, far, near) = (ids[0], ids[1], &ids[2..256], &ids[256..510]);
    let route = |inner: &[u16]| [&[s], inner, &[d]].concat();
    let rounds = [far, &[s], near].concat().into_iter().map(|id| vec![id]).collect();
    let file = planfile::write(&Content { old: route(near), new: route(far), mode: random.below(2) as u16, rounds });
    assert_eq!(file.len(), LIMIT);
    file
}

/// Where the records begin, as far as their lengths say.
fn starts(file: &[u8]) -> Vec<usize> {
    let mut starts = vec![];
    let mut at = 0;
    while at + 4 <= file.len() {
        starts.push(at);
        at += 4 + u16::from_le_bytes([file[at], file[at + 1]]) as usize;
    }
    starts
}

fn put(file: &mut [u8], at: usize, number: u16) {
    file[at..at + 2].copy_from_slice(&number.to_le_bytes());
}

/// Puts one thing wrong, perhaps.
fn damage(random: &mut Random, file: &mut Vec<u8>) {
    let size = file.len() as u64;
    let starts = starts(file);
    if random.chance(6) {
        return grow(random, file);
    }
    match random.below(8) {
        0 if size > 0 => {
            let at = random.below(size) as usize;
            let byte = random.next() as u8;
            file[at] = random.one(&[byte, file[at] ^ 1, file[at] ^ 2, file[at].wrapping_add(1), file[at].wrapping_sub(1)]);
        }
        1 => file.truncate(random.below(size + 1) as usize),
        2 => {
            let more = 1 + random.below(6);
            file.extend((0..more).map(|_| random.next() as u8 & 7));
        }
        3 if !starts.is_empty() => {
            let at = random.one(&starts);
            let to_end = (file.len() - at - 4) as u16;
            let length = u16::from_le_bytes([file[at], file[at + 1]]);
            let [less, more] = [length.wrapping_sub(2), length.wrapping_add(2)];
            let length = random.one(&[less, more, length ^ 1, 0, 1, 4, to_end, to_end + 1, to_end + 2, length ^ 256, 65_535, 65_534]);
            put(file, at, length);
        }
        4 if !starts.is_empty() => {
            let at = random.one(&starts) + 2;
            let kind = u16::from_le_bytes([file[at], file[at + 1]]);
            put(file, at, random.one(&[0, 1, 2, 3, 4, 5, kind.wrapping_add(1), kind ^ 256, kind ^ 32_768, 65_535]));
        }
        5 if starts.len() > 2 => {
            // another body of the mode, whole
            let body: Vec<u16> = (0..random.one(&[0, 2, 2, 3])).map(|_| random.below(2) as u16).collect();
            let end = starts.get(3).copied().unwrap_or(file.len()).min(file.len());
            file.splice(starts[2]..end, written_record(3, &body));
        }
        6 if starts.len() > 1 => {
            // a record is lost, comes twice, or comes again later
            let k = random.below(starts.len() as u64 - 1) as usize;
            let record = file[starts[k]..starts[k + 1]].to_vec();
            match random.below(3) {
                0 => drop(file.splice(starts[k]..starts[k + 1], [])),
                1 => drop(file.splice(starts[k]..starts[k], record)),
                _ => file.extend(record),
            }
        }
        7 if size > 0 => {
            let at = random.below(size) as usize;
            if random.chance(2) {
                file.insert(at, random.below(4) as u8);
            } else {
                file.remove(at);
            }
        }
        _ => {}
    }
}

/// Makes the file nearly as long as the limit, as long, or longer, by rounds or by any bytes.
fn grow(random: &mut Random, file: &mut Vec<u8>) {
    let size = random.one(&[LIMIT - 1, LIMIT, LIMIT, LIMIT + 1, LIMIT + 1, LIMIT + 2, LIMIT + 4, 5_000, 9_000]);
    let rounds = random.chance(2);
    while file.len() < size {
        let left = size - file.len();
        if !rounds || left < 4 {
            file.push(random.next() as u8 & 7);
        } else {
            let id = random.below(520) as u16;
            let body = if left < 12 { vec![id; (left - 4) / 2] } else { [id, 600][..random.below(3) as usize].to_vec() };
            file.extend(written_record(4, &body));
        }
    }
}
