//! Faults that a program could have, each put into a stand-in for the two programs: the comparison sees every one of them. A
//! fault in the second program would be seen in the same way, since the two are compared byte for byte.

use crate::model;
use crate::planfile::{self, written_record, Content, LIMIT};
use crate::programs::Program::{self, Checker, Planner};
use crate::programs::{compare, Paths, Run};

/// What the programs should write.
fn right(program: Program, file: &[u8]) -> Vec<u8> {
    program.expected(file, 2).written
}

struct StandIn(fn(Program, &[u8]) -> Vec<u8>);

impl Run for StandIn {
    fn run(&self, program: Program, file: &[u8]) -> Result<Vec<u8>, String> {
        Ok((self.0)(program, file))
    }
}

fn line(program: Program, file: &[u8]) -> String {
    String::from_utf8_lossy(&right(program, file)).into_owned()
}

/// The numbers after the word of a line.
fn numbers(line: &str) -> Vec<u64> {
    line.split_whitespace().skip(1).map(|x| x.parse().unwrap()).collect()
}

/// The answer with the numbers after NO changed.
fn with_numbers(program: Program, file: &[u8], change: fn(&mut Vec<u64>)) -> Vec<u8> {
    let expected = program.expected(file, 2);
    if expected.given == 0 {
        return expected.written;
    }
    let mut numbers = numbers(&line(program, file));
    change(&mut numbers);
    let fields: Vec<String> = numbers.iter().map(u64::to_string).collect();
    format!("NO {}\n", fields.join(" ")).into()
}

/// The answer to a file that holds something else.
fn with_content(program: Program, file: &[u8], change: fn(&mut Content)) -> Vec<u8> {
    let Ok(mut content) = planfile::read(file) else { return right(program, file) };
    change(&mut content);
    right(program, &planfile::write(&content))
}

/// The planner's yes with something else in it.
fn with_plan(program: Program, file: &[u8], change: fn(&mut Content)) -> Vec<u8> {
    let written = right(program, file);
    match planfile::read(&written) {
        Ok(mut content) if program == Planner => {
            change(&mut content);
            planfile::write(&content)
        }
        _ => written,
    }
}

/// The answer to a file whose records' heads (length, kind) are changed, the expected kind at hand.
fn with_heads(program: Program, file: &[u8], change: fn(&mut [u8], u8)) -> Vec<u8> {
    let mut file = file.to_vec();
    let (mut at, mut kind) = (0, 1);
    while at + 4 <= file.len() {
        change(&mut file[at..at + 4], kind);
        at += 4 + u16::from_le_bytes([file[at], file[at + 1]]) as usize;
        kind = 4.min(kind + 1);
    }
    right(program, &file)
}

type Fault = (&'static str, fn(Program, &[u8]) -> Vec<u8>);

const READING: &[Fault] = &[
    ("4,092 bytes are too many", |p, file| if file.len() == LIMIT { b"NO 2 0 0\n".into() } else { right(p, file) }),
    ("the 4,093rd byte is never read", |p, file| right(p, &file[..file.len().min(LIMIT)])),
    ("a wrong record comes before a file too long", |p, file| match planfile::records(file).wrong {
        Some(at) => format!("NO 3 0 {at}\n").into(),
        None => right(p, file),
    }),
    ("the routes come before a wrong record", |p, file| {
        let expected = p.expected(file, 2);
        let later = expected.applying.iter().any(|number| (4..9).contains(number));
        let records = planfile::records(file);
        if expected.given == 3 && later { right(p, &file[..records.wrong.unwrap()]) } else { expected.written }
    }),
    ("an empty file has no answer", |p, file| if file.is_empty() { vec![] } else { right(p, file) }),
    ("an odd byte at the end is left out", |p, file| right(p, &file[..file.len() & !1])),
    ("a round that is cut off is left out", |p, file| match planfile::records(file) {
        records if records.bodies.len() > 2 && file.len() <= LIMIT => right(p, &file[..records.wrong.unwrap_or(file.len())]),
        _ => right(p, file),
    }),
    ("a record may run past the end by one", |p, file| {
        let longer = [file, &[0]].concat();
        if planfile::read(&longer).is_ok() { right(p, &longer) } else { right(p, file) }
    }),
    ("a wrong record has the offset of its body", |p, file| {
        with_numbers(p, file, |numbers| if numbers[0] == 3 { numbers[2] += 4 })
    }),
    ("a wrong record has the offset of the end", |p, file| match planfile::read(file) {
        Err(r) if r.number == 3 => format!("NO 3 0 {}\n", file.len()).into(),
        _ => right(p, file),
    }),
    ("a wrong record has its index", |p, file| match planfile::read(file) {
        Err(r) if r.number == 3 => format!("NO 3 0 {}\n", planfile::records(file).bodies.len()).into(),
        _ => right(p, file),
    }),
    ("a file without rounds is wrong", |p, file| match planfile::read(file) {
        Ok(content) if content.rounds.is_empty() => format!("NO 3 0 {}\n", file.len()).into(),
        _ => right(p, file),
    }),
    ("kinds are not looked at", |p, file| with_heads(p, file, |head, kind| head[2..].copy_from_slice(&[kind, 0]))),
    ("the kind of a round is not looked at", |p, file| {
        with_heads(p, file, |head, kind| if kind == 4 { head[2..].copy_from_slice(&[4, 0]) })
    }),
    ("the higher byte of a kind is not looked at", |p, file| with_heads(p, file, |head, _| head[3] = 0)),
    ("the higher byte of a length is not looked at", |p, file| with_heads(p, file, |head, _| head[1] = 0)),
    ("an odd length is rounded down", |p, file| with_heads(p, file, |head, _| head[0] &= !1)),
    ("a mode body of 4 is taken by its front", |p, file| {
        let records = planfile::records(file);
        match records.wrong {
            Some(at) if records.bodies.len() == 2 && file[at..].starts_with(&[4, 0, 3, 0]) && file.len() >= at + 8 => {
                right(p, &[&file[..at], &[2, 0, 3, 0], &file[at + 4..at + 6], &file[at + 8..]].concat())
            }
            _ => right(p, file),
        }
    }),
    ("the higher byte of the mode is not looked at", |p, file| with_content(p, file, |content| content.mode &= 255)),
    ("the higher byte of a route's ids is not looked at", |p, file| {
        with_content(p, file, |content| content.old.iter_mut().for_each(|id| *id &= 511))
    }),
    ("an empty round is passed over", |p, file| with_content(p, file, |content| content.rounds.retain(|round| !round.is_empty()))),
    ("rounds are made rising", |p, file| with_content(p, file, |content| content.rounds.iter_mut().for_each(|round| round.sort()))),
    ("the routes are exchanged", |p, file| {
        with_content(p, file, |content| std::mem::swap(&mut content.old, &mut content.new))
    }),
    ("the modes are exchanged", |p, file| with_content(p, file, |content| content.mode ^= 1)),
];

const LINES: &[Fault] = &[
    ("no line feed", |p, file| line(p, file).trim_end_matches('\n').into()),
    ("a line ends as elsewhere", |p, file| match p {
        Checker => line(p, file).replace('\n', "\r\n").into(),
        Planner => right(p, file),
    }),
    ("a space before the line feed", |p, file| match p {
        Checker => line(p, file).replace('\n', " \n").into(),
        Planner => right(p, file),
    }),
    ("OK has its numbers exchanged", |p, file| match p.expected(file, 2) {
        expected if p == Checker && expected.given == 0 => {
            let numbers = numbers(&line(p, file));
            format!("OK {} {}\n", numbers[1], numbers[0]).into()
        }
        expected => expected.written,
    }),
    ("no subset", |p, file| with_numbers(p, file, |numbers| numbers.truncate(3))),
    ("the subset falls", |p, file| with_numbers(p, file, |numbers| if numbers.len() > 3 { numbers[3..].reverse() })),
    ("the subset's last id is missing", |p, file| with_numbers(p, file, |numbers| if numbers.len() > 4 { numbers.truncate(numbers.len() - 1) })),
    ("rounds count from 0", |p, file| {
        with_numbers(p, file, |numbers| if numbers[0] > 9 && numbers[1] > 0 { numbers[1] -= 1 })
    }),
    ("routes count from 0", |p, file| {
        with_numbers(p, file, |numbers| if (4..7).contains(&numbers[0]) { numbers[1] -= 1 })
    }),
    ("indexes count from 1", |p, file| {
        with_numbers(p, file, |numbers| if [5, 6, 11, 12, 13].contains(&numbers[0]) { numbers[2] += 1 })
    }),
    ("7 does not say which end", |p, file| with_numbers(p, file, |numbers| if numbers[0] == 7 { numbers[2] = 0 })),
    ("14 does not say which id", |p, file| with_numbers(p, file, |numbers| if numbers[0] == 14 { numbers[2] = 0 })),
    ("16 for 17", |p, file| with_numbers(p, file, |numbers| if numbers[0] == 17 { numbers[0] = 16 })),
];

const PLANS: &[Fault] = &[
    ("the planner keeps the rounds", |p, file| match p.expected(file, 2) {
        expected if p == Planner && expected.given == 0 => file.to_vec(),
        expected => expected.written,
    }),
    ("the planner judges the rounds", |p, file| match Checker.expected(file, 2) {
        expected if p == Planner && (10..15).contains(&expected.given) => expected.written,
        _ => right(p, file),
    }),
    ("the planner writes the mode 0", |p, file| with_plan(p, file, |plan| plan.mode = 0)),
    ("the planner exchanges the routes", |p, file| with_plan(p, file, |plan| std::mem::swap(&mut plan.old, &mut plan.new))),
    ("the planner writes falling rounds", |p, file| {
        with_plan(p, file, |plan| plan.rounds.iter_mut().for_each(|round| round.reverse()))
    }),
    ("the planner writes no rounds", |p, file| with_plan(p, file, |plan| plan.rounds.clear())),
    ("the planner writes an empty round of installs", |p, file| {
        with_plan(p, file, |plan| {
            let installs = plan.new.iter().any(|id| model::rule(&plan.new, *id).is_some() && model::rule(&plan.old, *id).is_none());
            if !installs && !plan.rounds.is_empty() {
                plan.rounds.insert(0, vec![]);
            }
        })
    }),
    ("the planner leaves out the last round of many", |p, file| {
        with_plan(p, file, |plan| if plan.rounds.len() > 40 { drop(plan.rounds.pop()) })
    }),
    ("the planner's output is cut at 2,048 bytes", |p, file| {
        let mut written = right(p, file);
        written.truncate(2048);
        written
    }),
    ("the planner ends its file by a line feed", |p, file| match p {
        Planner => [right(p, file), b"\n".to_vec()].concat(),
        Checker => right(p, file),
    }),
    ("the planner ends its file by a record", |p, file| match p.expected(file, 2) {
        expected if p == Planner && expected.given == 0 => [expected.written, written_record(0, &[])].concat(),
        expected => expected.written,
    }),
];

/// Without a fault nothing is seen, and all refusals and pairs of them come.
#[test]
fn what_is_right_passes() {
    let came = compare(&StandIn(right), 10_000, 1).unwrap();
    assert_eq!(came.all(), Ok(()));
}

#[test]
fn each_fault_is_seen() {
    for (name, fault) in [READING, LINES, PLANS].concat() {
        assert!(compare(&StandIn(fault), 20_000, 1).is_err(), "{name}");
    }
}

/// What is compared is all that a program writes, also to standard error, and that it ends well.
#[test]
fn programs_that_do_something_else_are_seen() {
    let folder = std::env::temp_dir().join(format!("second-{}", std::process::id()));
    std::fs::create_dir(&folder).unwrap();
    let program = |name: &str, text: &str| {
        use std::os::unix::fs::PermissionsExt;
        let path = folder.join(name);
        std::fs::write(&path, format!("#!/bin/sh\n{text}\n")).unwrap();
        std::fs::set_permissions(&path, std::fs::Permissions::from_mode(0o755)).unwrap();
        path.to_str().unwrap().to_string()
    };
    // the answer to an empty file is known
    let answer = |name, text| {
        let path = program(name, text);
        Paths { checker: path.clone(), planner: path }.run(Checker, &[])
    };
    let expected = Checker.expected(&[], 2).written;
    assert_eq!(answer("good", "cat; echo NO 3 0 0"), Ok(expected.clone()));
    assert!(answer("fails", "echo NO 3 0 0; exit 1").is_err());
    assert!(answer("killed", "echo NO 3 0 0; kill -9 $$").is_err());
    assert_ne!(answer("says more", "echo NO 3 0 0; echo more >&2"), Ok(expected.clone()));
    assert_ne!(answer("says nothing", "cat"), Ok(expected.clone()));
    std::fs::remove_dir_all(&folder).unwrap();
}
