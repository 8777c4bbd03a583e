//! The one way of measuring: two answers take turns in one run, the stack is moved from turn to turn, and the median counts.

use crate::calls::{proved, Answer, Input, Lent};
use crate::worst::Row;
use std::hint::black_box;
use std::time::Instant;

fn median(mut times: Vec<f64>) -> f64 {
    times.sort_by(f64::total_cmp);
    times[times.len() / 2]
}

/// Runs f with the stack so many frames of 80 bytes or more further down: what lies where in the caches varies from turn to
/// turn, alike for both answers, and not only from run to run.
#[inline(never)]
fn deeper(frames: usize, f: &mut dyn FnMut() -> f64) -> f64 {
    let pad = black_box([0u8; 64]);
    let took = if frames == 0 { f() } else { deeper(frames - 1, f) };
    black_box(&pad);
    took
}

/// One turn of so many calls, in nanoseconds to a call.
fn turn(answer: Answer, input: &Input, lent: &mut Lent, calls: usize) -> f64 {
    let began = Instant::now();
    for _ in 0..calls {
        black_box(answer(black_box(input), lent));
    }
    began.elapsed().as_nanos() as f64 / calls as f64
}

/// The median times of two answers, in nanoseconds: a turn is at least 20 microseconds long, and there are 1,001 turns of each, or
/// as many as there is time for in ten seconds, but at least nine.
fn times(input: &Input, answers: [Answer; 2]) -> [f64; 2] {
    let mut lent = Lent::new(input.room());
    let [a, b] = answers.map(|answer| turn(answer, input, &mut lent, 1).max(turn(answer, input, &mut lent, 1)));
    let calls = (20e3 / a.min(b)) as usize + 1;
    let turns = ((10e9 / (a + b) / calls as f64) as usize).clamp(9, 1001);
    let mut took = [vec![], vec![]];
    for at in 0..turns {
        for (list, answer) in took.iter_mut().zip(answers) {
            list.push(deeper(at % 61, &mut || turn(answer, input, &mut lent, calls)));
        }
    }
    took.map(median)
}

/// How far below its caller's stack pointer an answer writes.
#[inline(never)]
pub fn stack(answer: Answer, input: &Input) -> usize {
    const SPAN: usize = 64 * 1024;
    const NEAR: usize = 256;
    let mut lent = Lent::new(input.room());
    let top: usize;
    unsafe { std::arch::asm!("mov {}, rsp", out(reg) top) };
    for at in (top - SPAN)..(top - NEAR) {
        unsafe { (at as *mut u8).write_volatile(0xa5) };
    }
    black_box(answer(input, &mut lent));
    let deepest = ((top - SPAN)..(top - NEAR)).find(|at| unsafe { (*at as *const u8).read_volatile() } != 0xa5);
    top - deepest.unwrap_or(top - NEAR)
}

/// What is known of a row: the two times at 256 nodes, the two counts of instructions for each number of nodes (none where they
/// were not counted), and the stack of the proved call.
pub struct Measured {
    pub times: [f64; 2],
    pub counts: Vec<[u64; 2]>,
    pub stack: usize,
}

pub fn measured(row: &Row, counts: Vec<[u64; 2]>) -> Measured {
    let input = (row.at)(256);
    Measured { times: times(&input, [proved, row.other]), counts, stack: stack(proved, &input) }
}
