//! Each allocation of one call of each command is refused in turn, alone and with all after it: no program aborts. It ends
//! with status 3 and a message of memory, and has printed no line but those of a whole run, or in JSON that a file
//! wasn't read.
//!
//! The test calls itself as the program, with an allocator that counts the requests from the start of the program's `main`
//! function on. Excepted is what Rust makes before it: for its handler of stack overflows the name of the thread and a node
//! of a map, and a stack for signals.
//!
//! The calls are golden cases, which `tests/case_table.py` reads: this needs python3.

use std::alloc::{GlobalAlloc, Layout, System};
use std::fs::{self, File};
use std::path::{Path, PathBuf};
use std::process::{Command, ExitCode, Output};
use std::sync::atomic::{AtomicBool, AtomicUsize, Ordering::Relaxed};
use std::{env, ptr};

/// What the JSON of `verify` has where a file wasn't read.
const UNREAD: &[u8] = br#""failed":["unread"]"#;

/// The variable with the program that the test is called as.
const PROGRAM: &str = "UEFI_TOOLS_PROGRAM";
/// The variable with the number of the request that is refused, from 1, and `..` if those after it are too.
const REFUSED: &str = "UEFI_TOOLS_REFUSED";

/// The system's allocator, which refuses what [`FIRST`] and [`LAST`] say once it [`COUNTS`].
struct Refusing;

/// Whether requests are counted.
static COUNTS: AtomicBool = AtomicBool::new(false);
/// How many requests there were.
static COUNT: AtomicUsize = AtomicUsize::new(0);
/// The first request that is refused.
static FIRST: AtomicUsize = AtomicUsize::new(usize::MAX);
/// The last one.
static LAST: AtomicUsize = AtomicUsize::new(0);

/// Counts a request, and returns whether it is refused.
fn is_refused() -> bool {
    COUNTS.load(Relaxed) && {
        let number = 1 + COUNT.fetch_add(1, Relaxed);
        FIRST.load(Relaxed) <= number && number <= LAST.load(Relaxed)
    }
}

// SAFETY: what isn't refused is the system's, and null is the answer to what is.
unsafe impl GlobalAlloc for Refusing {
    unsafe fn alloc(&self, layout: Layout) -> *mut u8 {
        // SAFETY: the caller's promises are those of the system's allocator.
        if is_refused() { ptr::null_mut() } else { unsafe { System.alloc(layout) } }
    }

    unsafe fn realloc(&self, memory: *mut u8, layout: Layout, size: usize) -> *mut u8 {
        // SAFETY: as above.
        if is_refused() { ptr::null_mut() } else { unsafe { System.realloc(memory, layout, size) } }
    }

    unsafe fn dealloc(&self, memory: *mut u8, layout: Layout) {
        // SAFETY: as above.
        unsafe { System.dealloc(memory, layout) }
    }
}

#[global_allocator]
static ALLOCATOR: Refusing = Refusing;

/// A golden case: one call of a program, in a folder with the case's files.
struct Case {
    program: &'static str,
    name: String,
    words: Vec<String>,
    folder: PathBuf,
    input: PathBuf,
}

/// The golden cases, with one call of each command or more.
const CASES: [(&str, &[&str]); 3] = [
    ("uefi_audit", &[
        "events-two-logs", "events-text", "bank", "replay-json", "verify-stated-locality", "verify-differs-json",
        "registers-folder", "quote-agrees", "diff", "diff-json", "check", "check-json", "help-all",
        "arguments-unknown-bank", "arguments-no-registers",
    ]),
    ("uefi_list", &[
        "path-one-record", "log1-one-record", "log2-one-record", "log2after-one-record", "config-one-record",
        "pci-one-record", "time-one-record", "map-one-record", "info-one-record", "other-no-arguments",
    ]),
    ("uefi_boot", &[
        "list", "list-refused-options", "list-option-twice", "list-description-with-controls", "list-empty-folder",
        "list-missing-folder", "list-option-that-is-a-folder", "list-name-not-utf8", "option-one-record", "text-one-record",
        "path-of-two-instances", "path-unknown-node", "missing-file", "arguments-none",
    ]),
];

/// The repository's folder.
fn top() -> PathBuf {
    Path::new(env!("CARGO_MANIFEST_DIR")).join("../..")
}

/// Returns cases of a program, each with its files in a folder of its own, as the script writes them that reads their
/// tables.
fn cases_of(program: &'static str, names: &[&str]) -> Vec<Case> {
    let tests = top().join("tests");
    let folder = match program {
        "uefi_audit" => "audit",
        "uefi_boot" => "boot",
        _ => "program",
    };
    let tables = tests.join(folder).join("cases");
    let room = Path::new(env!("CARGO_TARGET_TMPDIR")).join("memory").join(program);
    let mut script = Command::new("python3");
    script.arg(tests.join("case_table.py")).args([&tables, &room]).args(names);
    assert!(script.status().unwrap().success(), "{script:?}");
    names.iter().map(|name| Case::new(program, name, &room.join(name))).collect()
}

impl Case {
    /// Returns a case that a folder has.
    fn new(program: &'static str, name: &str, room: &Path) -> Case {
        let words = fs::read_to_string(room.join("words")).unwrap();
        let words = words.split_terminator('\0').map(str::to_owned).collect();
        Case { program, name: name.to_owned(), words, folder: room.join("files"), input: room.join("stdin") }
    }

    /// Runs the program, and refuses requests.
    fn run(&self, refused: &str) -> Output {
        let mut command = Command::new(env::current_exe().unwrap());
        command.args(&self.words).current_dir(&self.folder).stdin(File::open(&self.input).unwrap());
        command.env(PROGRAM, self.program).env(REFUSED, refused).output().unwrap()
    }

    /// Returns what is wrong with the end of a run of which requests were refused.
    fn fault(&self, refused: &str, whole: &Output) -> Option<String> {
        let end = self.run(refused);
        let told = String::from_utf8_lossy(&end.stderr);
        let last = told.lines().last().unwrap_or("");
        let says_memory = last.ends_with(": memory") || last.ends_with(": out of memory") || last == "uefi_list: file";
        let mut lines = whole.stdout.split_inclusive(|byte| *byte == b'\n');
        let is_unread = |line: &[u8]| line.windows(UNREAD.len()).any(|part| part == UNREAD);
        let is_part = end
            .stdout
            .split_inclusive(|byte| *byte == b'\n')
            .all(|line| is_unread(line) || lines.any(|other| other == line));
        let is_expected = end.status.code() == Some(3) && says_memory && is_part;
        let shown = String::from_utf8_lossy(&end.stdout);
        (!is_expected).then(|| format!("{} {} {refused}: {}\n{shown}{told}", self.program, self.name, end.status))
    }

    /// Refuses each request of the program in turn, alone and with those after it. Returns what is wrong.
    fn faults(&self) -> Vec<String> {
        let whole = self.run("0");
        let told = String::from_utf8_lossy(&whole.stderr);
        let count: usize = told.lines().last().unwrap().strip_prefix("requests: ").unwrap().parse().unwrap();
        println!("{} {}: {count} requests", self.program, self.name);
        let forms = (1..=count).flat_map(|number| [format!("{number}"), format!("{number}..")]);
        forms.filter_map(|refused| self.fault(&refused, &whole)).collect()
    }
}

/// Runs a program, and counts its requests.
fn run_as(program: &str) -> ExitCode {
    let refused = env::var(REFUSED).unwrap();
    let first: usize = refused.trim_end_matches('.').parse().unwrap();
    FIRST.store(if first == 0 { usize::MAX } else { first }, Relaxed);
    LAST.store(if refused.ends_with("..") { usize::MAX } else { first }, Relaxed);
    COUNTS.store(true, Relaxed);
    let end = match program {
        "uefi_audit" => uefi_tools::uefi_audit::main(),
        "uefi_boot" => uefi_tools::uefi_boot::main(),
        _ => uefi_tools::uefi_list::main(),
    };
    COUNTS.store(false, Relaxed);
    if first == 0 {
        eprintln!("requests: {}", COUNT.load(Relaxed));
    }
    end
}

fn main() -> ExitCode {
    if let Ok(program) = env::var(PROGRAM) {
        return run_as(&program);
    }
    let cases = CASES.iter().flat_map(|(program, names)| cases_of(program, names));
    let faults: Vec<String> = cases.flat_map(|case| case.faults()).collect();
    faults.iter().for_each(|fault| println!("{fault}"));
    println!("{} ends not as expected", faults.len());
    ExitCode::from(u8::from(!faults.is_empty()))
}
