//! The calls that are measured: what each is given and lent, and its two answers, the proved one and the plain one.

use crate::plain::{check::*, file::*, plan::*, quick::*, searches::*, walk::*, Choice, Table};

#[link(name = "jiwasampu", kind = "static")]
extern "C" {
    fn jiwasampu_check(
        old: *const u8, old_size: usize, new: *const u8, new_size: usize, mode: u16,
        ids: *const u8, ids_size: usize, sizes: *const u8, sizes_size: usize, set: *mut u8, set_size: usize,
    ) -> u64;
    fn jiwasampu_plan(
        old: *const u8, old_size: usize, new: *const u8, new_size: usize, mode: u16,
        ids: *mut u8, ids_size: usize, sizes: *mut u8, sizes_size: usize,
    ) -> u64;
    fn jiwasampu_quick(
        old: *const u8, old_size: usize, new: *const u8, new_size: usize, mode: u16,
        ids: *mut u8, ids_size: usize, sizes: *mut u8, sizes_size: usize,
    ) -> u64;
    fn jiwasampu_walk(
        old: *const u8, old_size: usize, new: *const u8, new_size: usize, set: *const u8, set_size: usize,
    ) -> u64;
}

#[link(name = "bench_calls", kind = "static")]
extern "C" {
    fn bench_reach(old: &Table, new: &Table, choice: &Choice, start: usize, marks: &mut [bool; 514]);
    fn bench_cyclic(old: &Table, new: &Table, choice: &Choice, alive: &[bool; 512]) -> bool;
    fn bench_read(
        file: *const u8, file_size: usize, old: *mut u8, old_size: usize, new: *mut u8, new_size: usize,
        ids: *mut u8, ids_size: usize, sizes: *mut u8, sizes_size: usize,
    ) -> u64;
    fn bench_write(
        old: *const u8, old_size: usize, new: *const u8, new_size: usize, mode: u16,
        ids: *const u8, ids_size: usize, sizes: *const u8, sizes_size: usize, file: *mut u8, file_size: usize,
    ) -> u64;
}

/// Two tables, a choice for each node, a set of nodes and a start.
pub struct Graph {
    pub old: Table,
    pub new: Table,
    pub choice: Choice,
    pub alive: [bool; 512],
    pub start: usize,
}

/// A change as bytes: routes, mode, schedule; and the set of one state.
pub struct Change {
    pub old: Vec<u8>,
    pub new: Vec<u8>,
    pub mode: u16,
    pub ids: Vec<u8>,
    pub sizes: Vec<u8>,
    pub set: Vec<u8>,
}

/// A call with what it is given.
pub enum Input {
    Reach(Box<Graph>),
    Cyclic(Box<Graph>),
    Check(Change),
    Plan(Change),
    Quick(Change),
    Walk(Change),
    Read(Vec<u8>),
    Write(Change),
}

/// What is lent to a call: up to four slices, and the marks of a search.
#[derive(PartialEq)]
pub struct Lent {
    parts: [Vec<u8>; 4],
    marks: [bool; 514],
}

/// One way to answer.
pub type Answer = fn(&Input, &mut Lent) -> u64;

impl Input {
    /// The lengths that the call wants to be lent.
    pub fn room(&self) -> [usize; 4] {
        match self {
            Input::Reach(_) | Input::Cyclic(_) | Input::Walk(_) => [0; 4],
            Input::Check(_) => [64, 0, 0, 0],
            Input::Plan(_) | Input::Quick(_) => [1024, 1024, 0, 0],
            Input::Read(_) => [512, 512, 4096, 2048],
            Input::Write(_) => [4092, 0, 0, 0],
        }
    }
}

impl Lent {
    pub fn new(room: [usize; 4]) -> Lent {
        Lent { parts: room.map(|size| vec![0xa5; size]), marks: [true; 514] }
    }
}

pub fn proved(input: &Input, lent: &mut Lent) -> u64 {
    let [a, b, c, d] = &mut lent.parts;
    unsafe {
        match input {
            Input::Reach(g) => {
                bench_reach(&g.old, &g.new, &g.choice, g.start, &mut lent.marks);
                0
            }
            Input::Cyclic(g) => bench_cyclic(&g.old, &g.new, &g.choice, &g.alive) as u64,
            Input::Check(x) => jiwasampu_check(
                x.old.as_ptr(), x.old.len(), x.new.as_ptr(), x.new.len(), x.mode,
                x.ids.as_ptr(), x.ids.len(), x.sizes.as_ptr(), x.sizes.len(), a.as_mut_ptr(), a.len(),
            ),
            Input::Plan(x) => jiwasampu_plan(
                x.old.as_ptr(), x.old.len(), x.new.as_ptr(), x.new.len(), x.mode,
                a.as_mut_ptr(), a.len(), b.as_mut_ptr(), b.len(),
            ),
            Input::Quick(x) => jiwasampu_quick(
                x.old.as_ptr(), x.old.len(), x.new.as_ptr(), x.new.len(), x.mode,
                a.as_mut_ptr(), a.len(), b.as_mut_ptr(), b.len(),
            ),
            Input::Walk(x) => jiwasampu_walk(
                x.old.as_ptr(), x.old.len(), x.new.as_ptr(), x.new.len(), x.set.as_ptr(), x.set.len(),
            ),
            Input::Read(file) => bench_read(
                file.as_ptr(), file.len(), a.as_mut_ptr(), a.len(), b.as_mut_ptr(), b.len(),
                c.as_mut_ptr(), c.len(), d.as_mut_ptr(), d.len(),
            ),
            Input::Write(x) => bench_write(
                x.old.as_ptr(), x.old.len(), x.new.as_ptr(), x.new.len(), x.mode,
                x.ids.as_ptr(), x.ids.len(), x.sizes.as_ptr(), x.sizes.len(), a.as_mut_ptr(), a.len(),
            ),
        }
    }
}

pub fn plain(input: &Input, lent: &mut Lent) -> u64 {
    let [a, b, c, d] = &mut lent.parts;
    match input {
        Input::Reach(g) => {
            plain_reach(&g.old, &g.new, &g.choice, g.start, &mut lent.marks);
            0
        }
        Input::Cyclic(g) => plain_cyclic(&g.old, &g.new, &g.choice, &g.alive) as u64,
        Input::Check(x) => plain_check(&x.old, &x.new, x.mode, &x.ids, &x.sizes, a),
        Input::Plan(x) => plain_plan(&x.old, &x.new, x.mode, a, b),
        Input::Quick(x) => plain_quick(&x.old, &x.new, x.mode, a, b),
        Input::Walk(x) => plain_walk(&x.old, &x.new, &x.set),
        Input::Read(file) => plain_read(file, a, b, c, d),
        Input::Write(x) => plain_write(&x.old, &x.new, x.mode, &x.ids, &x.sizes, a),
    }
}

/// As `plain`, but a plan is made by testing the whole round again for each node.
pub fn whole(input: &Input, lent: &mut Lent) -> u64 {
    let [a, b, _, _] = &mut lent.parts;
    match input {
        Input::Plan(x) => plain_whole(&x.old, &x.new, x.mode, a, b),
        _ => plain(input, lent),
    }
}

/// As `proved`, but the planner answers in place of the quick one.
pub fn planner(input: &Input, lent: &mut Lent) -> u64 {
    let [a, b, _, _] = &mut lent.parts;
    match input {
        Input::Quick(x) => unsafe {
            jiwasampu_plan(
                x.old.as_ptr(), x.old.len(), x.new.as_ptr(), x.new.len(), x.mode,
                a.as_mut_ptr(), a.len(), b.as_mut_ptr(), b.len(),
            )
        },
        _ => proved(input, lent),
    }
}

/// The reply of two answers, after seeing that the replies and what is lent are the same.
pub fn same(name: &str, input: &Input, room: [usize; 4], answers: [Answer; 2]) -> u64 {
    let [(reply, lent), (other, also)] = answers.map(|answer| {
        let mut lent = Lent::new(room);
        (answer(input, &mut lent), lent)
    });
    assert!(reply == other && lent == also, "{name}: the answers differ, replies {reply:#x} and {other:#x}");
    reply
}
