// @generated from proved source. It is not edited.

/// What the program is asked to list.
#[derive(Clone, Copy, PartialEq, Eq, Debug)]
pub enum Command {
    /// `path FILE`: the device path that is a prefix of the file.
    Path,
    /// `log1 FILE LAST`: the file as a version 1 event log, with LAST as its last entry, or without
    /// one if LAST is `-`.
    Log1(Option<usize>),
    /// `log2 FILE LAST`: the same of a version 2 event log.
    Log2(Option<usize>),
    /// `log2after FILE LAST`: the same, with the events that follow the header event.
    Log2After(Option<usize>),
    /// `config FILE`: the configurations of the file, which is a text.
    Config,
    /// `pci FILE`: the PCI resources that the file begins with.
    Pci,
    /// `time FILE`: the time in the first sixteen bytes of the file.
    Time,
    /// `map FILE DESC`: the file as a memory map with a descriptor every DESC bytes.
    Map(usize),
    /// `info FILE WRITTEN`: the file information record in the first WRITTEN bytes of the file.
    Info(usize),
}

impl Command {
    /// Returns the command that the words after the program's name ask for, or `None` if they ask
    /// for none.
    ///
    /// The words are the command's name, FILE, and a third one for some commands: for `map` and
    /// `info` a number, which is one or more digits 0 to 9 and at most 2^64 - 1; for `log1`, `log2`
    /// and `log2after` such a number, or `-`.
    pub fn from_words(words: &[String]) -> Option<Command> {
        let (command, _) = command_and_file(words)?;
        Some(command)
    }
}

/// Returns the command and the FILE that the words after the program's name ask for, or `None` if
/// they ask for none.
pub fn command_and_file(words: &[String]) -> Option<(Command, &str)> {
    match words {
        [name, file] => Some((command_alone(name.as_str())?, file.as_str())),
        [name, file, word] => Some((command_with(name.as_str(), word.as_str())?, file.as_str())),
        _ => None,
    }
}

/// Returns whether this is the name of a command that the program had, and `uefi_boot` has now.
pub fn is_moved(name: &str) -> bool {
    matches!(name, "option" | "pathtext" | "textpath")
}

/// Returns the command of this name that takes no word after FILE, or `None` if there is none.
fn command_alone(name: &str) -> Option<Command> {
    match name {
        "path" => Some(Command::Path),
        "config" => Some(Command::Config),
        "pci" => Some(Command::Pci),
        "time" => Some(Command::Time),
        _ => None,
    }
}

/// Returns the command of this name with the word after FILE, or `None` if there is none or it
/// wants another word.
fn command_with(name: &str, word: &str) -> Option<Command> {
    match (name, last_entry(word), decimal(word)) {
        ("log1", Some(last), _) => Some(Command::Log1(last)),
        ("log2", Some(last), _) => Some(Command::Log2(last)),
        ("log2after", Some(last), _) => Some(Command::Log2After(last)),
        ("map", _, Some(stride)) => Some(Command::Map(stride)),
        ("info", _, Some(written)) => Some(Command::Info(written)),
        _ => None,
    }
}

/// Returns the number that the word is in decimal, or `None` if it is none: it is empty, it has
/// another character than a digit, or the number is above 2^64 - 1.
fn decimal(word: &str) -> Option<usize> {
    // `parse` accepts a plus sign, which is no digit.
    if word.starts_with('+') {
        return None;
    }
    word.parse::<usize>().ok()
}

/// Returns the last entry that the word names, where `-` names none; or `None` if the word is
/// neither that nor a number.
fn last_entry(word: &str) -> Option<Option<usize>> {
    if word == "-" {
        return Some(None);
    }
    let last_entry = decimal(word)?;
    Some(Some(last_entry))
}
