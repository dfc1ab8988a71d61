//! Runs of the programs, the proved ones and those of the package in rust/programs.

use crate::audit;
use crate::commands::{self, Program};
use crate::input::Input;
use std::ffi::OsStr;
use std::fmt::{self, Display, Formatter};
use std::fs;
use std::io;
use std::os::unix::ffi::OsStrExt;
use std::path::Path;
use std::process::{Command, Stdio};

/// What a run of the program ends with.
#[derive(PartialEq, Eq, Default)]
pub struct Ending {
    pub status: i32,
    pub output: Vec<u8>,
    pub message: Vec<u8>,
}

impl Display for Ending {
    fn fmt(&self, f: &mut Formatter<'_>) -> fmt::Result {
        let [output, message] = [&self.output, &self.message].map(|it| String::from_utf8_lossy(it));
        write!(f, "status {}\n{output}{message}", self.status)
    }
}

/// The name of a run's file.
pub const FILE: &str = "input";
/// `timeout` ends a run that takes more seconds.
const SECONDS: &str = "20";

/// The name of the other file of a command that takes two.
pub fn other_name(file: &str) -> String {
    format!("{file}-other")
}

/// The name of the program that has a command, and the words of a run after it.
fn words(command: &commands::Command, file: &str, input: &Input) -> (&'static str, Vec<Vec<u8>>) {
    let third_word = input.third_word.as_deref();
    if command.program == Program::Audit {
        return ("uefi_audit", audit::words(command.name, third_word, file));
    }
    let words = [command.name.as_bytes(), file.as_bytes()].into_iter().chain(third_word);
    ("uefi_list", words.map(Vec::from).collect())
}

/// Which programs there are.
#[derive(Clone, Copy)]
pub enum Kind {
    /// Those that are proved.
    Proved,
    /// Those of the package, which the script has built in the folder of the runs' folders.
    Packaged,
}

/// What plain Rust can expect of a run. Of the blocks of events these are the first lines. The message of other
/// words is partly that of `clap`.
pub fn compared(command: &commands::Command, mut ending: Ending) -> Ending {
    if command.program == Program::Audit && ending.status == 2 {
        ending.message.clear();
    }
    if command.name == "blocks" {
        let lines = ending.output.split_inclusive(|c| *c == b'\n');
        let is_head =
            |line: &&[u8]| !line.starts_with(b" ") && !line.ends_with(b": header at offset 0\n");
        ending.output = lines.filter(is_head).flatten().copied().collect();
    }
    ending
}

/// Runs a program, with the input in a file of a folder.
pub fn run(kind: Kind, command: &commands::Command, input: &Input, top: &Path, room: &Path) -> io::Result<Ending> {
    fs::write(room.join(FILE), &input.bytes)?;
    fs::write(room.join(other_name(FILE)), &input.other)?;
    let (name, words) = words(command, FILE, input);
    let folder = match kind {
        Kind::Proved => top.join("crates").join(name).join("out"),
        Kind::Packaged => room.join(".."),
    };
    let mut run = Command::new("timeout");
    run.arg(SECONDS).arg(folder.join(name));
    run.args(words.iter().map(|word| OsStr::from_bytes(word)));
    let ran = run.current_dir(room).stdin(Stdio::null()).output()?;
    // A signal isn't a status of the program.
    let status = ran.status.code().unwrap_or(-1);
    Ok(Ending { status, output: ran.stdout, message: ran.stderr })
}
