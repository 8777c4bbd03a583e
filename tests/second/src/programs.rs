//! Compares the two programs, checker and planner, with the second program on random plan files: what they write, byte for byte.

use crate::files;
use crate::model::{self, Refusal};
use crate::planfile::{self, Content, Records, LIMIT};
use crate::random::Random;
use crate::seen::Seen;
use crate::workers::two_at_a_time;
use std::io::{ErrorKind, Read, Write};
use std::process::{Command, Stdio};

#[derive(Clone, Copy, Debug, PartialEq, Eq)]
pub enum Program {
    Checker,
    Planner,
}

use Program::{Checker, Planner};

/// What a program should write, whether it is a yes (0) or which refusal, and the refusals that apply, each taken by itself. The
/// size is that of the named subset, or the rounds of a plan.
pub struct Expected {
    pub written: Vec<u8>,
    pub given: u64,
    pub applying: Vec<u64>,
    pub size: u64,
}

/// The NO line.
fn refused(r: Refusal, subset: &[u16], applying: Vec<u64>) -> Expected {
    let fields: Vec<String> =
        [r.number, r.site, r.place].into_iter().chain(subset.iter().map(|id| *id as u64)).map(|x| x.to_string()).collect();
    Expected { written: format!("NO {}\n", fields.join(" ")).into(), given: r.number, applying, size: subset.len() as u64 }
}

fn checked(content: &Content, force: usize) -> Expected {
    let sizes: Vec<u16> = content.rounds.iter().map(|round| round.len() as u16).collect();
    let checked = model::check(&content.old, &content.new, content.mode, &content.rounds.concat(), &sizes, force);
    match checked.told {
        Ok((rounds, due)) => Expected { written: format!("OK {rounds} {due}\n").into(), given: 0, applying: vec![], size: 0 },
        Err(r) => refused(r, &checked.subset.unwrap_or_default(), checked.applying),
    }
}

fn planned(content: &Content) -> Expected {
    match model::plan(&content.old, &content.new, content.mode) {
        Ok(rounds) => {
            let size = rounds.len() as u64;
            Expected { written: planfile::write(&Content { rounds, ..content.clone() }), given: 0, applying: vec![], size }
        }
        Err(r) => refused(r, &[], Planner.applying(content, 0)),
    }
}

impl Program {
    pub fn name(self) -> &'static str {
        match self {
            Checker => "checker",
            Planner => "planner",
        }
    }

    /// The refusals that it can give. 1 cannot come, since what the programs lend is long enough; nor 9, since a file has each
    /// round's size beside its ids; nor 15, since the first round begins in the old route, and each later one in a state of the
    /// round before, which passed.
    fn refusals(self) -> &'static [u64] {
        match self {
            Checker => &[2, 3, 4, 5, 6, 7, 8, 10, 11, 12, 13, 14, 16, 17],
            Planner => &[2, 3, 4, 5, 6, 7, 8],
        }
    }

    /// The refusals from 4 on that apply to a content, each taken by itself.
    fn applying(self, content: &Content, force: usize) -> Vec<u64> {
        match self {
            Checker => checked(content, force).applying,
            Planner => model::applying_to_plan(&content.old, &content.new, content.mode),
        }
    }

    /// What the second program says. Where a record is wrong, the refusals that apply are also those of the records before it.
    pub fn expected(self, file: &[u8], force: usize) -> Expected {
        match (planfile::read(file), self) {
            (Ok(content), Checker) => checked(&content, force),
            (Ok(content), Planner) => planned(&content),
            (Err(r), _) => {
                let Records { bodies, wrong } = planfile::records(file);
                let of_file = [(2, file.len() > LIMIT), (3, wrong.is_some())].into_iter().filter(|(_, applies)| *applies);
                let later = planfile::content(&bodies).map(|content| self.applying(&content, force)).unwrap_or_default();
                refused(r, &[], of_file.map(|(number, _)| number).chain(later).collect())
            }
        }
    }
}

/// Runs a program on a file, and gives what it wrote.
pub trait Run: Sync {
    fn run(&self, program: Program, file: &[u8]) -> Result<Vec<u8>, String>;
}

/// The programs, each at its path.
pub struct Paths {
    pub checker: String,
    pub planner: String,
}

impl Run for Paths {
    /// What the program wrote, also to standard error. It must end well.
    fn run(&self, program: Program, file: &[u8]) -> Result<Vec<u8>, String> {
        let path = if program == Checker { &self.checker } else { &self.planner };
        let (mut from, to) = std::io::pipe().expect("a pipe");
        let mut command = Command::new(path);
        command.stdin(Stdio::piped()).stdout(to.try_clone().expect("a pipe's end")).stderr(to);
        let mut child = command.spawn().unwrap_or_else(|error| panic!("{path}: {error}"));
        drop(command);
        // a program that has read as much as it wants may be gone before the end
        match child.stdin.take().expect("a pipe").write_all(file) {
            Err(error) if error.kind() != ErrorKind::BrokenPipe || file.len() <= LIMIT => return Err(format!("it does not read: {error}")),
            _ => {}
        }
        let mut written = vec![];
        from.read_to_end(&mut written).expect("what the program writes");
        let status = child.wait().expect("the program ends");
        if status.success() { Ok(written) } else { Err(format!("it ends with {status}")) }
    }
}

/// What came up, the largest subset that was named, the most rounds of a plan, and the plans that were checked and planned again.
#[derive(Default)]
pub struct Came {
    pub seen: Seen,
    largest: u64,
    longest: u64,
    again: u64,
}

impl Came {
    fn count(&mut self, program: Program, expected: &Expected) {
        self.seen.count(program.name(), expected.given, &expected.applying);
        let most = if program == Checker { &mut self.largest } else { &mut self.longest };
        *most = expected.size.max(*most);
    }

    fn join(&mut self, other: Came) {
        self.seen.join(other.seen);
        self.largest = self.largest.max(other.largest);
        self.longest = self.longest.max(other.longest);
        self.again += other.again;
    }

    /// Each refusal came, and each pair of them that can be.
    pub fn all(&self) -> Result<(), String> {
        [Checker, Planner].into_iter().try_for_each(|program| self.seen.all(program.name(), program.refusals()))
    }

    fn print(&self) {
        for program in [Checker, Planner] {
            self.seen.print(program.name(), program.refusals());
        }
        println!("largest subset named: {}; most rounds of a plan: {}; plans checked: {}", self.largest, self.longest, self.again);
    }
}

fn shown(bytes: &[u8]) -> String {
    match std::str::from_utf8(bytes) {
        Ok(text) if bytes.starts_with(b"OK") || bytes.starts_with(b"NO") => format!("{text:?}"),
        _ => bytes.iter().map(|byte| format!("{byte:02x}")).collect::<Vec<String>>().join(" "),
    }
}

/// How what a program writes differs from what it should, where it does.
fn difference(run: &dyn Run, program: Program, file: &[u8], expected: &Expected) -> Result<(), String> {
    let told = run.run(program, file);
    if told.as_deref() == Ok(&expected.written) {
        return Ok(());
    }
    let got = told.map_or_else(|text| text, |written| format!("it writes {}", shown(&written)));
    Err(format!("{}: {got}, expected is {}\n the file: {}", program.name(), shown(&expected.written), shown(file)))
}

/// Runs both programs on one random file. Now and then a plan that was written is given to both again: the checker says yes, and
/// the planner writes it once more.
fn compare_one(run: &dyn Run, random: &mut Random, came: &mut Came) -> Result<(), String> {
    let file = files::file(random);
    // the states of rounds of large changes are gone through in the comparison of the calls
    let force = if file.len() < 400 { 4 } else { 1 };
    for program in [Checker, Planner] {
        let expected = program.expected(&file, force);
        difference(run, program, &file, &expected)?;
        came.count(program, &expected);
        if program == Planner && expected.given == 0 && random.chance(10) {
            let plan = &expected.written;
            let checked = Checker.expected(plan, force);
            assert_eq!(checked.given, 0, "the second program's own plan passes");
            difference(run, Checker, plan, &checked)?;
            difference(run, Planner, plan, &expected)?;
            came.again += 1;
        }
    }
    Ok(())
}

/// Compares the programs with the second program on so many random files.
pub fn compare(run: &dyn Run, count: u64, seed: u64) -> Result<Came, String> {
    let [mut all, other] = two_at_a_time(count, seed, |row| {
        let mut came = Came::default();
        for (i, mut random) in row {
            compare_one(run, &mut random, &mut came).map_err(|text| format!("file {i} of seed {seed}: {text}"))?;
        }
        Ok(came)
    })?;
    all.join(other);
    Ok(all)
}

/// The comparison, and what came up in it.
pub fn compare_and_print(run: &dyn Run, count: u64, seed: u64) {
    let start = std::time::Instant::now();
    let came = compare(run, count, seed).unwrap_or_else(|text| panic!("{text}"));
    println!("{count} random plan files (seed {seed}) agree, in {} seconds", start.elapsed().as_secs());
    came.all().unwrap_or_else(|text| panic!("{text}"));
    came.print();
}
