//! Compares the library with the second program on many random requests.
//!
//! second answer: answers the requests on standard input itself, a line each.
//! second ask PROGRAM COUNT SEED: asks PROGRAM (crate `cases`) about the judgement, the jumps and the walk of random routes.
//! second calls COUNT SEED: calls what the archive offers to C on written and random cases.
//! second programs CHECKER PLANNER COUNT SEED: runs the two programs on random plan files.

mod calls;
mod changes;
#[cfg(test)]
mod faults;
mod files;
mod guarded;
mod model;
mod planfile;
mod programs;
mod quick;
mod random;
mod seen;
mod workers;
mod written;

use model::{refusal, Refusal, Walk};
use random::Random;
use std::io::{BufRead, BufReader, Read, Write};
use std::process::{Command, Stdio};

const FRAME: usize = 2048;
const OLD: usize = 16;
const NEW: usize = 640;
const SET: usize = 1264;

/// A request to the program: what to ask, a node, two routes and a set, as bytes.
struct Request {
    what: u16,
    node: u16,
    old: Vec<u8>,
    new: Vec<u8>,
    set: Vec<u8>,
}

fn bytes(list: &[u16]) -> Vec<u8> {
    list.iter().flat_map(|x| x.to_le_bytes()).collect()
}

fn entries(bytes: &[u8]) -> Vec<u16> {
    bytes.chunks_exact(2).map(|b| u16::from_le_bytes([b[0], b[1]])).collect()
}

impl Request {
    fn frame(&self) -> Vec<u8> {
        let mut frame = vec![0; FRAME];
        let head = [self.what, self.node, self.old.len() as u16, self.new.len() as u16, self.set.len() as u16];
        for (i, x) in head.iter().enumerate() {
            frame[2 * i..2 * i + 2].copy_from_slice(&x.to_le_bytes());
        }
        frame[OLD..OLD + self.old.len()].copy_from_slice(&self.old);
        frame[NEW..NEW + self.new.len()].copy_from_slice(&self.new);
        frame[SET..SET + self.set.len()].copy_from_slice(&self.set);
        frame
    }

    fn of_frame(frame: &[u8]) -> Request {
        let head = entries(&frame[..10]);
        let part = |at: usize, size: u16| frame[at..at + size as usize].to_vec();
        Request { what: head[0], node: head[1], old: part(OLD, head[2]), new: part(NEW, head[3]), set: part(SET, head[4]) }
    }

    /// What the second program says.
    fn reply(&self) -> String {
        let (old, new) = (entries(&self.old), entries(&self.new));
        let whole = self.old.len() % 2 == 0 && self.new.len() % 2 == 0;
        let form = if whole { Ok(()) } else { Err(refusal(1, 0, 0)) };
        let told: Result<String, Refusal> = match self.what {
            1 => form.and_then(|()| model::judge(&old, &new)).map(|()| "good".to_string()),
            2 => form.and_then(|()| model::jumps(&old, &new, self.node)).map(|(a, b)| {
                let letter = |jump: i64| if jump < 0 { 'B' } else { 'F' };
                assert!((-253..=255).contains(&a) && a != 0 && (-253..=255).contains(&b) && b != 0);
                format!("jumps {a} {b} {}{}", letter(a), letter(b))
            }),
            _ => form.and_then(|()| model::walk(&old, &new, &self.set)).map(|walk| match walk {
                Walk::Arrived(hops) => format!("arrived {hops}"),
                Walk::Dropped(node, hops) => format!("dropped {node} {hops}"),
                Walk::Looped(node, hops) => format!("looped {node} {hops}"),
            }),
        };
        told.unwrap_or_else(|r| format!("NO {} {} {}", r.number, r.site, r.place))
    }
}

fn request(random: &mut Random) -> Request {
    let (mut old, mut new) = random.pair();
    while random.chance(4) {
        if random.chance(2) {
            random.damage(&mut old);
        } else {
            random.damage(&mut new);
        }
    }
    let node = match random.below(4) {
        0 => random.below(65_536) as u16,
        1 if !new.is_empty() => new[random.below(new.len() as u64) as usize],
        _ if !old.is_empty() => old[random.below(old.len() as u64) as usize],
        _ => random.below(512) as u16,
    };
    let mut set = vec![0u8; 64];
    let part = 1 + random.below(4);
    for id in 0..512u16 {
        if model::is_due(&old, &new, id) && random.chance(part) {
            set[id as usize / 8] |= 1 << (id % 8);
        }
    }
    if random.chance(8) {
        let id = random.below(512);
        set[id as usize / 8] |= 1 << (id % 8);
    }
    if random.chance(20) {
        set.resize([0, 1, 63, 65, 128][random.below(5) as usize], 0);
    }
    let (mut old, mut new) = (bytes(&old), bytes(&new));
    for list in [&mut old, &mut new] {
        if random.chance(25) {
            list.pop();
        }
        list.truncate(NEW - OLD);
    }
    Request { what: 1 + random.below(3) as u16, node, old, new, set }
}

fn ask(program: &str, count: u64, seed: u64) {
    let mut random = Random(seed);
    let requests: Vec<Request> = (0..count).map(|_| request(&mut random)).collect();
    let mut child = Command::new(program).stdin(Stdio::piped()).stdout(Stdio::piped()).spawn().expect("the program starts");
    let mut input = child.stdin.take().unwrap();
    let mut lines = BufReader::new(child.stdout.take().unwrap()).lines();
    let mut seen = std::collections::BTreeMap::new();
    std::thread::scope(|scope| {
        scope.spawn(|| {
            for request in &requests {
                input.write_all(&request.frame()).expect("the program reads");
            }
            drop(input);
        });
        for (i, request) in requests.iter().enumerate() {
            let expected = request.reply();
            let got = lines.next().expect("a line for each request").expect("a line");
            if got != expected {
                panic!(
                    "request {i} of seed {seed}: the library says '{got}', the second program '{expected}'\n what {} node {} old {:?} new {:?} set {:?}",
                    request.what, request.node, entries(&request.old), entries(&request.new), request.set
                );
            }
            let kind: Vec<&str> = expected.split(' ').collect();
            let kind = if kind[0] == "NO" { format!("NO {}", kind[1]) } else { kind[0].to_string() };
            *seen.entry(kind).or_insert(0u64) += 1;
        }
    });
    assert!(lines.next().is_none(), "no line more than requests");
    assert!(child.wait().unwrap().success());
    for kind in ["NO 1", "NO 4", "NO 5", "NO 6", "NO 7", "NO 12", "NO 18", "good", "jumps", "arrived", "dropped", "looped"] {
        assert!(seen.contains_key(kind), "no request was answered by {kind}");
    }
    println!("{count} requests (seed {seed}) agree: {seen:?}");
}

fn answer() {
    let mut input = Vec::new();
    std::io::stdin().read_to_end(&mut input).expect("standard input");
    for frame in input.chunks_exact(FRAME) {
        println!("{}", Request::of_frame(frame).reply());
    }
}

fn main() {
    let words: Vec<String> = std::env::args().collect();
    let number = |i: usize| words[i].parse::<u64>().expect("a number");
    match words.get(1).map(String::as_str) {
        Some("answer") => answer(),
        Some("ask") if words.len() == 5 => ask(&words[2], number(3), number(4)),
        Some("calls") if words.len() == 4 => calls::compare_and_print(number(2), number(3)),
        Some("programs") if words.len() == 6 => {
            let paths = programs::Paths { checker: words[2].clone(), planner: words[3].clone() };
            programs::compare_and_print(&paths, number(4), number(5))
        }
        _ => {
            eprintln!("usage: second answer | second ask PROGRAM COUNT SEED | second calls COUNT SEED");
            eprintln!("       second programs CHECKER PLANNER COUNT SEED");
            std::process::exit(2);
        }
    }
}
