//! One table of all that is measured.
//!
//!     bench compare          the same answers on 10,000 random inputs of each call and on the rows of the table
//!     bench count            each answer of each row once, for callgrind
//!     bench table [COUNTS]   the table; COUNTS is a file with the instructions that callgrind counted, in order

mod calls;
mod measure;
mod plain;
mod random;
mod table;
mod worst;

use calls::{plain, planner, proved, same, whole, Lent};
use measure::{measured, stack, Measured};
use random::Random;
use std::collections::BTreeMap;
use std::hint::black_box;
use worst::{against_others, rows, Row};

const CALLS: [&str; 8] = ["reach", "cyclic", "check", "plan", "quick", "walk", "read", "write"];

/// All rows; the last two are against another algorithm.
fn all_rows() -> impl Iterator<Item = Row> {
    rows().into_iter().chain(against_others())
}

fn compare() {
    const INPUTS: usize = 10_000;
    for call in CALLS {
        let mut random = Random(1);
        let mut seen = BTreeMap::new();
        for _ in 0..INPUTS {
            let input = random.input(call);
            let room = random.room(&input);
            let reply = same(call, &input, room, [proved, plain]);
            if call == "plan" {
                same(call, &input, room, [proved, whole]);
            }
            if call == "quick" && reply & 65_535 != 19 {
                same(call, &input, room, [proved, planner]);
            }
            let number = reply & if call == "read" || call == "write" { 15 } else { 65_535 };
            *seen.entry(number).or_insert(0) += 1;
        }
        println!("{call}: the same answers on {INPUTS} random inputs; by their number {seen:?}");
    }
    for row in all_rows() {
        let name = row.name();
        for n in row.nodes() {
            let input = (row.at)(*n);
            let reply = same(&name, &input, input.room(), [proved, row.other]);
            assert!(*n < 256 || reply == row.reply, "{name}: the reply is {reply:#x}, not {:#x}", row.reply);
        }
    }
}

/// Callgrind writes down what it counted whenever this is called.
#[no_mangle]
#[inline(never)]
fn counted() {
    black_box(());
}

fn count() {
    for row in all_rows() {
        for n in row.nodes() {
            let input = (row.at)(*n);
            for answer in [proved, row.other] {
                black_box(answer(black_box(&input), &mut Lent::new(input.room())));
                counted();
            }
        }
    }
}

/// The deepest stack of each call, over the rows and 500 random inputs.
fn deepest(all: &[(Row, Measured)]) -> String {
    let of_call = |call: &str| {
        let mut random = Random(2);
        let any = (0..500).map(|_| stack(proved, &random.input(call))).max().unwrap();
        let rows = all.iter().filter(|(row, _)| row.call.replace("refuse", "check") == call);
        let bytes = rows.map(|(_, x)| x.stack).max().unwrap().max(any);
        format!("{call} {}", table::grouped(bytes as u64))
    };
    CALLS.map(of_call).join(", ")
}

fn table(counts: &[u64]) {
    let mut left = counts.iter();
    let mut pairs = |row: &Row| {
        let pair = |_| Some([*left.next()?, *left.next()?]);
        row.nodes().iter().map_while(pair).collect::<Vec<[u64; 2]>>()
    };
    let mut all: Vec<(Row, Measured)> = vec![];
    for row in all_rows() {
        let measured = measured(&row, pairs(&row));
        all.push((row, measured));
    }
    assert!(left.next().is_none(), "a count for each answer");
    table::print(&all);
    println!();
    let (same, others) = all.split_at(all.len() - 2);
    table::targets(same, &others[0].1);
    println!("stack in bytes over these and 500 random inputs, target below 16,384:\n  {}", deepest(&all));
}

fn main() {
    let args: Vec<String> = std::env::args().skip(1).collect();
    match args.iter().map(String::as_str).collect::<Vec<&str>>()[..] {
        ["compare"] => compare(),
        ["count"] => count(),
        ["table"] => table(&[]),
        ["table", counts] => {
            let text = std::fs::read_to_string(counts).expect("the file of counts");
            table(&text.lines().map(|line| line.parse().expect("a count")).collect::<Vec<u64>>())
        }
        _ => panic!("bench compare | count | table [COUNTS]"),
    }
}
