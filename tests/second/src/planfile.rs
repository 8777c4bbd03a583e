//! The plan file, read and written a second time, straight from the paper that the library is built to.

use crate::model::{refusal, Refusal};
use crate::{bytes, entries};

/// The most bytes that a file has.
pub const LIMIT: usize = 4092;

/// What a file holds: two routes, a mode, and rounds.
#[derive(Clone, Debug, PartialEq, Eq)]
pub struct Content {
    pub old: Vec<u16>,
    pub new: Vec<u16>,
    pub mode: u16,
    pub rounds: Vec<Vec<u16>>,
}

/// The bodies of a file's records up to the first that is wrong, and the offset of that one.
pub struct Records {
    pub bodies: Vec<Vec<u16>>,
    pub wrong: Option<usize>,
}

/// The body of the record that the bytes begin with, if nothing is wrong with it.
fn record(rest: &[u8], expected_kind: u16) -> Option<Vec<u16>> {
    let head = entries(rest.get(..4)?);
    let (length, kind) = (head[0], head[1]);
    if length % 2 == 1 || kind != expected_kind || (kind == 3 && length != 2) {
        return None;
    }
    Some(entries(rest.get(4..4 + length as usize)?))
}

/// The records: kinds 1, 2 and 3, then kind 4 to the end. A file that ends before kind 3 is wrong at its end.
pub fn records(file: &[u8]) -> Records {
    let mut bodies: Vec<Vec<u16>> = vec![];
    let mut at = 0;
    while at < file.len() || bodies.len() < 3 {
        let kind = 4.min(bodies.len() as u16 + 1);
        let Some(body) = record(&file[at..], kind) else { return Records { bodies, wrong: Some(at) } };
        at += 4 + 2 * body.len();
        bodies.push(body);
    }
    Records { bodies, wrong: None }
}

/// What the records hold, where the first three are there.
pub fn content(bodies: &[Vec<u16>]) -> Option<Content> {
    let [old, new, mode, rounds @ ..] = bodies else { return None };
    Some(Content { old: old.clone(), new: new.clone(), mode: mode[0], rounds: rounds.to_vec() })
}

/// Reads a file; refusals 2 and 3. The lengths of the routes (4) are left to whoever judges them.
pub fn read(file: &[u8]) -> Result<Content, Refusal> {
    if file.len() > LIMIT {
        return Err(refusal(2, 0, 0));
    }
    let Records { bodies, wrong } = records(file);
    match wrong {
        Some(offset) => Err(refusal(3, 0, offset as u64)),
        None => Ok(content(&bodies).expect("kind 3 has come")),
    }
}

/// One record.
pub fn written_record(kind: u16, body: &[u16]) -> Vec<u8> {
    [bytes(&[2 * body.len() as u16, kind]), bytes(body)].concat()
}

/// Writes a file, whatever the content.
pub fn write(content: &Content) -> Vec<u8> {
    let mut file = [written_record(1, &content.old), written_record(2, &content.new), written_record(3, &[content.mode])].concat();
    for round in &content.rounds {
        file.extend(written_record(4, round));
    }
    file
}

#[cfg(test)]
mod tests {
    use super::*;
    use crate::changes;
    use crate::random::Random;

    /// The example of the paper: 44 bytes.
    #[rustfmt::skip]
    const EXAMPLE: [u8; 44] = [
        6, 0, 1, 0, 1, 0, 2, 0, 3, 0, 6, 0, 2, 0, 1, 0, 4, 0, 3, 0, 2, 0, 3, 0, 0, 0, 2, 0, 4, 0, 4, 0, 2, 0, 4, 0, 1, 0, 2, 0, 4,
        0, 2, 0,
    ];

    fn example() -> Content {
        Content { old: vec![1, 2, 3], new: vec![1, 4, 3], mode: 0, rounds: vec![vec![4], vec![1], vec![2]] }
    }

    #[test]
    fn the_example_is_read_and_written() {
        assert_eq!(read(&EXAMPLE), Ok(example()));
        assert_eq!(write(&example()), EXAMPLE);
    }

    #[test]
    fn a_record_is_wrong_at_its_own_offset() {
        let wrong_at = |file: &[u8]| read(file).unwrap_err();
        assert_eq!(wrong_at(&[]), refusal(3, 0, 0));
        for size in 0..44 {
            let start = [0, 10, 20, 26, 32, 38].into_iter().rfind(|at| *at <= size).unwrap();
            match read(&EXAMPLE[..size]) {
                Ok(content) => assert!(size == start && size >= 26 && content.rounds.len() == (size - 26) / 6),
                Err(r) => assert_eq!(r, refusal(3, 0, start as u64)),
            }
        }
        let with = |at: usize, byte: u8| {
            let mut file = EXAMPLE;
            file[at] = byte;
            wrong_at(&file)
        };
        // an odd length, a length past the end, wrong kinds, a mode body of 4
        assert_eq!(with(0, 7), refusal(3, 0, 0));
        assert_eq!(with(38, 4), refusal(3, 0, 38));
        assert_eq!(with(39, 1), refusal(3, 0, 38));
        assert_eq!(with(2, 2), refusal(3, 0, 0));
        assert_eq!(with(12, 3), refusal(3, 0, 10));
        assert_eq!(with(22, 4), refusal(3, 0, 20));
        assert_eq!(with(23, 1), refusal(3, 0, 20));
        assert_eq!(with(34, 5), refusal(3, 0, 32));
        assert_eq!(with(20, 4), refusal(3, 0, 20));
        assert_eq!(with(20, 0), refusal(3, 0, 20));
    }

    #[test]
    fn a_file_over_the_limit_is_refused() {
        let file = vec![0; LIMIT + 1];
        assert_eq!(read(&file), Err(refusal(2, 0, 0)));
        assert_eq!(read(&file[1..]), Err(refusal(3, 0, 0)));
    }

    /// What is written is read back as it was given, and what is read is written again with the same bytes.
    #[test]
    fn reading_undoes_writing() {
        let mut random = Random(1);
        let mut read_back = 0;
        for _ in 0..20_000 {
            let given = changes::content(&mut random);
            let file = write(&given);
            if file.len() <= LIMIT {
                read_back += 1;
                assert_eq!(read(&file), Ok(given));
            }
            let again = read(&file).map(|content| write(&content));
            assert!(again.is_err() || again == Ok(file));
        }
        assert!(read_back > 18_000);
    }
}
