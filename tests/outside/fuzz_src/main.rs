//! Mutates rows and samples, gives each to plain Rust, of `uefi_list` to the package in rust/programs,
//! and some to a proved program and to the package's, and compares what is printed, the messages and
//! the exit statuses.
//!
//! `fuzz TOP ROOM SECONDS SEED THREADS` gives each thread inputs that follow from SEED and its
//! number, for so many seconds. TOP is the folder of the repository, and ROOM one for the files of
//! runs. It ends at the first difference, which it prints with the input, with exit status 1. For
//! each command it prints how many inputs ended with status 0, with 1 and with another.

mod audit;
mod commands;
mod formats;
mod input;
#[path = "../../../bench/src/listings.rs"]
mod listings;
mod mutate;
mod program;
#[allow(dead_code, reason = "the bench makes its inputs with them too")]
#[path = "../../../bench/src/random.rs"]
mod random;
#[allow(dead_code, reason = "the bench makes its inputs with them too")]
#[path = "../../../bench/src/readers/mod.rs"]
mod readers;

use commands::{COMMANDS, Command, Program};
use input::Input;
use mutate::{MAX_LENGTH, Mutator};
use program::{Ending, FILE, Kind};
use random::Random;
use std::collections::HashSet;
use std::fs;
use std::hash::{DefaultHasher, Hash, Hasher};
use std::io;
use std::panic::{AssertUnwindSafe, catch_unwind};
use std::path::Path;
use std::process::ExitCode;
use std::sync::atomic::{AtomicBool, Ordering};
use std::thread;
use std::time::{Duration, Instant};

/// The most inputs that a command's pool grows to.
const POOL: usize = 400;
/// Of so many inputs, one is given to a program. The start of a process takes far more time than a
/// call of the package.
const INPUTS_A_RUN: usize = 64;
/// How many lines of a listing make its shape.
const SHAPE_LINES: usize = 40;

/// The inputs that mutations of a command begin with.
struct Pool {
    command: &'static Command,
    inputs: Vec<Input>,
    /// What was listed so far, by the first words of its lines.
    shapes: HashSet<u64>,
    /// How many inputs ended with status 0, with 1 and with another.
    counts: [u64; 3],
}

fn hash(it: &impl Hash) -> u64 {
    let mut hasher = DefaultHasher::new();
    it.hash(&mut hasher);
    hasher.finish()
}

/// A number for the first words of the first lines of a listing.
fn shape(listing: &[u8]) -> u64 {
    let lines = listing.split(|c| *c == b'\n').take(SHAPE_LINES);
    let word = |line: &'_ [u8]| line.split(|c| *c == b' ').find(|it| !it.is_empty()).map(Vec::from);
    hash(&lines.map(word).collect::<Vec<_>>())
}

impl Pool {
    /// The seeds and the samples of a command.
    fn new(command: &'static Command, top: &Path) -> io::Result<Pool> {
        let mut inputs = command.format.seeds.clone();
        if let Some((extension, third_word)) = command.format.samples {
            let entries = fs::read_dir(top.join("samples"))?;
            let mut paths = entries.map(|it| Ok(it?.path())).collect::<io::Result<Vec<_>>>()?;
            paths.retain(|path| path.extension().is_some_and(|it| it == extension));
            paths.sort();
            for path in paths {
                let third_word = third_word.map(Vec::from);
                inputs.push(Input { third_word, ..Input::new(fs::read(path)?) });
            }
        }
        if command.takes_two {
            let alone = inputs.iter_mut().filter(|input| input.other.is_empty());
            alone.for_each(|input| input.other = input.bytes.clone());
        }
        Ok(Pool { command, inputs, shapes: HashSet::new(), counts: [0; 3] })
    }

    /// Runs one input by the package, and one in [`INPUTS_A_RUN`] by both programs. Returns the input
    /// with the endings if one is another than plain Rust expects, or the programs' aren't the same.
    fn difference(&mut self, random: &mut Random, top: &Path, room: &Path) -> io::Result<Option<String>> {
        let command = self.command;
        let wants_program = random.index(INPUTS_A_RUN) == 0;
        if command.program == Program::Audit && !wants_program {
            return Ok(None);
        }
        let input = Mutator { command, pool: &self.inputs, random }.input();
        let expected = command.expected(&input, FILE);
        let mut endings = Vec::new();
        if wants_program {
            let run = |kind| program::run(kind, command, &input, top, room);
            let (proved, packaged) = (run(Kind::Proved)?, run(Kind::Packaged)?);
            if proved != packaged {
                let name = command.name;
                return Ok(Some(format!("command: {name}\n{input}proved: {proved}packaged: {packaged}")));
            }
            endings.push(("the program", program::compared(command, proved)));
        }
        if command.program == Program::List {
            let ending = catch_unwind(AssertUnwindSafe(|| command.of_package(&input)));
            endings.push(("the package", ending.unwrap_or_default()));
        }
        if let Some((who, ending)) = endings.iter().find(|it| it.1 != expected) {
            let name = command.name;
            return Ok(Some(format!("command: {name}\n{input}plain Rust: {expected}{who}: {ending}")));
        }
        self.keep(input, &expected);
        Ok(None)
    }

    /// Counts an input, and takes it up if its listing has another shape than those before. A
    /// command that takes two files lists where they differ, with status 1.
    fn keep(&mut self, input: Input, ending: &Ending) {
        self.counts[usize::try_from(ending.status).unwrap_or(2).min(2)] += 1;
        let is_listed = ending.status == 0 || self.command.takes_two && ending.status == 1;
        let length = input.bytes.len().max(input.other.len());
        let is_wanted = is_listed && length <= MAX_LENGTH && self.inputs.len() < POOL;
        if is_wanted && self.shapes.insert(shape(&ending.output)) {
            self.inputs.push(input);
        }
    }
}

/// Runs inputs in a folder until the time is over, or a thread has found a difference. Returns for
/// each command how many there were.
fn work(
    top: &Path,
    room: &Path,
    mut random: Random,
    end: Instant,
    is_found: &AtomicBool,
) -> io::Result<Vec<[u64; 3]>> {
    fs::create_dir(room)?;
    let pools = COMMANDS.iter().map(|command| Pool::new(command, top));
    let mut pools = pools.collect::<io::Result<Vec<_>>>()?;
    while Instant::now() < end && !is_found.load(Ordering::Relaxed) {
        let index = random.index(pools.len());
        if let Some(difference) = pools[index].difference(&mut random, top, room)? {
            println!("fuzz: DIFFERENCE\n{difference}");
            is_found.store(true, Ordering::Relaxed);
        }
    }
    Ok(pools.iter().map(|pool| pool.counts).collect())
}

fn main() -> io::Result<ExitCode> {
    let words: Vec<String> = std::env::args().skip(1).collect();
    let [top, room, seconds, seed, threads] = words.as_slice() else {
        return Err(io::Error::other("usage: fuzz TOP ROOM SECONDS SEED THREADS"));
    };
    let [seconds, threads]: [u64; 2] = [seconds, threads].map(|it| it.parse().expect("a number"));
    let (end, is_found) = (Instant::now() + Duration::from_secs(seconds), AtomicBool::new(false));
    let counts = thread::scope(|scope| {
        let run = |number: u64| {
            let (room, is_found) = (Path::new(room).join(number.to_string()), &is_found);
            let random = Random(hash(&(seed, number)) | 1);
            scope.spawn(move || work(Path::new(top), &room, random, end, is_found))
        };
        let runs: Vec<_> = (0..threads).map(run).collect();
        let counts = runs.into_iter().map(|it| it.join().expect("a thread's end"));
        counts.collect::<io::Result<Vec<_>>>()
    })?;
    let mut all = 0;
    for (index, Command { name, .. }) in COMMANDS.iter().enumerate() {
        let sum = |status: usize| counts.iter().map(|it| it[index][status]).sum::<u64>();
        let [listed, refused, other] = [0, 1, 2].map(sum);
        println!("fuzz: {name:<10} {listed:>10} with status 0, {refused:>9} 1, {other:>8} another");
        all += listed + refused + other;
    }
    println!("fuzz: {all} inputs, seed {seed}");
    Ok(ExitCode::from(u8::from(is_found.into_inner())))
}
