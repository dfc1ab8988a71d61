//! Gives texts of device paths to a plain reader and to the package in rust/, and compares the
//! paths that they return, or the offsets of their errors.
//!
//! `text_fuzz SECONDS SEED THREADS` gives each thread texts that follow from SEED and its number,
//! for so many seconds. It ends at the first difference, which it prints with the text, with exit
//! status 1. For each source of texts it prints how many were right and wrong, and how many of them
//! are distinct from all texts before.

mod compare;
mod complete;
mod counts;
mod form;
mod forms;
mod kind;
mod limits;
mod mutate;
#[allow(dead_code, reason = "the bench makes its inputs with them too")]
#[path = "../../../bench/src/random.rs"]
mod random;
mod reader;
mod spell;
mod written;

use compare::Comparison;
use counts::{Counts, Distinct};
use random::Random;
use std::hash::{DefaultHasher, Hash, Hasher};
use std::io;
use std::panic::{AssertUnwindSafe, catch_unwind};
use std::process::ExitCode;
use std::sync::atomic::{AtomicBool, Ordering};
use std::thread;
use std::time::{Duration, Instant};

/// Of so many texts one is at the limits of lengths. Such a text takes far more time than others.
const TEXTS_A_LIMIT: usize = 80;

/// How texts are made.
#[derive(Clone, Copy)]
enum Source {
    Spelled,
    Written,
    Mutated,
    Limits,
}

/// The names of the sources, in their order.
const SOURCES: [&str; 4] = ["spelled", "written", "mutated", "limits"];

/// What is wrong with a text.
#[derive(Clone, Copy, PartialEq, Eq, Debug)]
pub enum Error {
    UnknownNode,
    Argument,
    Missing,
    TooLong,
}

/// An error, and the length of the longest prefix that a right text begins with.
#[derive(Clone, Copy, PartialEq, Eq, Debug)]
pub struct Fault {
    pub at: usize,
    pub error: Error,
}

fn hash(it: &impl Hash) -> u64 {
    let mut hasher = DefaultHasher::new();
    it.hash(&mut hasher);
    hasher.finish()
}

/// Makes a text of a node that is as long as one can be, or nearly, or longer.
fn limit(random: &mut Random) -> (Source, String, Option<Vec<u8>>) {
    if random.index(6) > 0 {
        return (Source::Limits, limits::path(random), None);
    }
    let path = written::long_path(random);
    let (text, is_exact) = compare::text_of(random, &path);
    (Source::Limits, text, Some(path).filter(|_| is_exact))
}

/// Makes a text. Returns also the path whose exact text it is, if there is one.
fn text(random: &mut Random) -> (Source, String, Option<Vec<u8>>) {
    if random.index(TEXTS_A_LIMIT) == 0 {
        return limit(random);
    }
    let (kind, is_written) = (random.index(2), random.index(3) == 0);
    let (text, path) = if is_written {
        let path = written::path(random);
        let (text, is_exact) = compare::text_of(random, &path);
        (text, Some(path).filter(|_| is_exact))
    } else {
        (spell::path(random), None)
    };
    match kind {
        0 => (Source::Mutated, mutate::mutated(random, text), None),
        _ if is_written => (Source::Written, text, path),
        _ => (Source::Spelled, text, None),
    }
}

/// Compares texts until the end, or until a difference is found. Returns counts by sources.
fn work(mut random: Random, end: Instant, found: &AtomicBool, distinct: &Distinct) -> [Counts; 4] {
    let (mut counts, mut comparison) = ([Counts::default(); 4], Comparison::default());
    while Instant::now() < end && !found.load(Ordering::Relaxed) {
        let (source, text, path) = text(&mut random);
        let compare = || comparison.compare(&mut random, &text, path.as_deref());
        let compared = catch_unwind(AssertUnwindSafe(compare));
        match compared.unwrap_or_else(|_| Err("a panic, see standard error".into())) {
            Ok(outcome) => counts[source as usize].add(outcome, distinct.is_new(hash(&text))),
            Err(difference) => {
                if !found.swap(true, Ordering::Relaxed) {
                    println!("text_fuzz: DIFFERENCE\ntext: {text:?}\n{difference}");
                }
            }
        }
    }
    counts
}

fn main() -> io::Result<ExitCode> {
    let words: Vec<String> = std::env::args().skip(1).collect();
    let [seconds, seed, threads] = words.as_slice() else {
        return Err(io::Error::other("usage: text_fuzz SECONDS SEED THREADS"));
    };
    let [seconds, threads]: [u64; 2] = [seconds, threads].map(|it| it.parse().expect("a number"));
    let end = Instant::now() + Duration::from_secs(seconds);
    let (found, distinct) = (AtomicBool::new(false), Distinct::default());
    let counts = thread::scope(|scope| {
        let run = |number: u64| {
            let (random, found, distinct) = (Random(hash(&(seed, number)) | 1), &found, &distinct);
            scope.spawn(move || work(random, end, found, distinct))
        };
        let runs: Vec<_> = (0..threads).map(run).collect();
        runs.into_iter().map(|it| it.join().expect("a thread's end")).collect::<Vec<_>>()
    });
    let mut all = Counts::default();
    for (source, name) in SOURCES.iter().enumerate() {
        let sum = counts.iter().map(|it| it[source]).fold(Counts::default(), Counts::plus);
        println!("text_fuzz: {name:<8} {sum}");
        all = all.plus(sum);
    }
    println!("text_fuzz: all      {all}");
    println!(
        "text_fuzz: seed {seed}, {} errors of other kinds at the same offset",
        all.other_errors
    );
    Ok(ExitCode::from(u8::from(found.into_inner())))
}
