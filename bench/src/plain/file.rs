//! The reader and the writer of the plan file.

use super::{entries, entry, judge, packed, put_entry, Refusal};

/// The body of the record at `at`, where one of this kind is expected, or nothing where it is wrong.
fn body(file: &[u8], at: usize, kind: u16) -> Option<&[u8]> {
    let record = &file[at..];
    if record.len() < 4 {
        return None;
    }
    let size = entry(record, 0) as usize;
    if size % 2 != 0 || record.len() < 4 + size || entry(record, 1) != kind || kind == 3 && size != 2 {
        return None;
    }
    Some(&record[4..4 + size])
}

/// The bodies of the first three records, and where the rounds begin: all records are gone through.
fn bodies(file: &[u8]) -> Result<([&[u8]; 3], usize), Refusal> {
    let mut at = 0;
    let mut bodies: [&[u8]; 3] = [&[]; 3];
    for (kind, part) in (1..).zip(&mut bodies) {
        *part = body(file, at, kind).ok_or((3, 0, at))?;
        at += 4 + part.len();
    }
    let rounds = at;
    while at < file.len() {
        at += 4 + body(file, at, 4).ok_or((3, 0, at))?.len();
    }
    Ok((bodies, rounds))
}

/// The lengths of the routes, the schedule ids, the rounds and the mode.
fn read(file: &[u8], old: &mut [u8], new: &mut [u8], ids: &mut [u8], sizes: &mut [u8]) -> Result<[usize; 6], Refusal> {
    if old.len() < 512 || new.len() < 512 || ids.len() < 4096 || sizes.len() < 2048 {
        return Err((1, 0, 0));
    }
    if file.len() > 4092 {
        return Err((2, 0, 0));
    }
    let ([a, b, mode], mut at) = bodies(file)?;
    for (no, route) in [(1, a), (2, b)] {
        if !(2..=256).contains(&(route.len() / 2)) {
            return Err((4, no, 0));
        }
    }
    old[..a.len()].copy_from_slice(a);
    new[..b.len()].copy_from_slice(b);
    let (mut written, mut rounds) = (0, 0);
    while at < file.len() {
        let size = entry(&file[at..], 0) as usize;
        ids[written..written + size].copy_from_slice(&file[at + 4..at + 4 + size]);
        put_entry(sizes, rounds, (size / 2) as u16);
        written += size;
        rounds += 1;
        at += 4 + size;
    }
    Ok([0, a.len() / 2, b.len() / 2, written / 2, rounds, entry(mode, 0) as usize])
}

fn put_record(file: &mut [u8], at: usize, kind: u16, body: &[u8]) -> usize {
    let next = at + 4 + body.len();
    let record = &mut file[at..next];
    record[..2].copy_from_slice(&(body.len() as u16).to_le_bytes());
    record[2..4].copy_from_slice(&kind.to_le_bytes());
    record[4..].copy_from_slice(body);
    next
}

/// The bytes written.
fn write(old: &[u8], new: &[u8], mode: u16, ids: &[u8], sizes: &[u8], file: &mut [u8]) -> Result<[usize; 6], Refusal> {
    if file.len() < 4092 {
        return Err((1, 0, 0));
    }
    judge::change(old, new, mode, ids, sizes)?;
    let mut at = put_record(file, 0, 1, old);
    at = put_record(file, at, 2, new);
    at = put_record(file, at, 3, &mode.to_le_bytes());
    let mut left = ids;
    for size in entries(sizes) {
        let (round, rest) = left.split_at(2 * size as usize);
        at = put_record(file, at, 4, round);
        left = rest;
    }
    Ok([0, 0, 0, at, 0, 0])
}

#[no_mangle]
#[inline(never)]
pub fn plain_read(file: &[u8], old: &mut [u8], new: &mut [u8], ids: &mut [u8], sizes: &mut [u8]) -> u64 {
    packed(read(file, old, new, ids, sizes))
}

#[no_mangle]
#[inline(never)]
pub fn plain_write(old: &[u8], new: &[u8], mode: u16, ids: &[u8], sizes: &[u8], file: &mut [u8]) -> u64 {
    packed(write(old, new, mode, ids, sizes, file))
}
