//! What the plain reader and the package make of a text.

use crate::complete::completed;
use crate::counts::Outcome;
use crate::random::Random;
use crate::{Error, Fault, reader};
use std::fmt::Write;
use uefi_formats::proto::device_path::DevicePath;
use uefi_formats::proto::device_path::text::{
    AllowShortcuts, DisplayOnly, FromTextError, from_text_in, to_text, write_from_text,
};

/// How many bytes of a path a byte of its text says at most: `SAS()` says the most.
const BYTES_A_CHARACTER: usize = 16;
/// Of so many texts one is also read by the package's other calls.
const TEXTS_A_CALL: usize = 16;
/// Of so many wrong texts the prefix of one, before the error, is completed.
const TEXTS_A_COMPLETION: usize = 32;
const FILL: u8 = 0xee;

/// Returns the text of a path in a random style, and whether it is the exact one.
pub fn text_of(random: &mut Random, path: &[u8]) -> (String, bool) {
    let path = DevicePath::try_from(path).expect("a path");
    let [display_only, allow_shortcuts] = random.one_of(&[
        [false, false],
        [false, false],
        [false, false],
        [false, true],
        [true, false],
        [true, true],
    ]);
    let text = to_text(path, DisplayOnly(display_only), AllowShortcuts(allow_shortcuts));
    (text.to_string(), !display_only && !allow_shortcuts)
}

/// An error of the package as one of the reader, if it is about the text.
fn fault(error: FromTextError) -> Option<Fault> {
    let (at, error) = match error {
        FromTextError::UnknownNode(at) => (at, Error::UnknownNode),
        FromTextError::Argument(at) => (at, Error::Argument),
        FromTextError::Missing(at) => (at, Error::Missing),
        FromTextError::TooLong(at) => (at, Error::TooLong),
        _ => return None,
    };
    Some(Fault { at, error })
}

fn hex(bytes: &[u8]) -> String {
    bytes.iter().fold(String::new(), |mut text, byte| {
        write!(text, "{byte:02x}").expect("memory");
        text
    })
}

/// What is read, as text.
fn shown<E: std::fmt::Debug>(read: &Result<Vec<u8>, E>) -> String {
    match read {
        Ok(path) => format!("{} bytes {}", path.len(), hex(path)),
        Err(error) => format!("{error:?}"),
    }
}

/// Compares what the readers make of one text after another.
#[derive(Default)]
pub struct Comparison {
    /// The buffer for paths.
    buffer: Vec<u8>,
}

impl Comparison {
    /// Reads a text by both readers. Returns an error with both results if they differ, or if they
    /// aren't the path whose text it is.
    pub fn compare(
        &mut self,
        random: &mut Random,
        text: &str,
        path: Option<&[u8]>,
    ) -> Result<Outcome, String> {
        let (plain, package) = (reader::read(text), self.of_package(text));
        let both = || format!("plain: {}\nthe package: {}", shown(&plain), shown(&package));
        let outcome = match (&plain, &package) {
            (Ok(plain), Ok(package)) if plain == package => Outcome::Right,
            (Err(plain), Err(package)) => match fault(*package) {
                Some(package) if package == *plain => Outcome::Wrong,
                Some(package) if package.at == plain.at => Outcome::WrongOtherwise,
                _ => return Err(both()),
            },
            _ => return Err(both()),
        };
        if let Some(path) = path.filter(|it| plain.as_deref() != Ok(*it)) {
            return Err(format!("written of: {}\n{}", hex(path), both()));
        }
        if random.index(TEXTS_A_CALL) == 0 {
            let length = random.index(package.as_ref().map_or(1, Vec::len));
            check_other_calls(text, &package, length)?;
        }
        if let Err(Fault { at, .. }) = plain
            && random.index(TEXTS_A_COMPLETION) == 0
        {
            self.check_prefix(&text[..at])?;
        }
        Ok(outcome)
    }

    /// Checks that a right text begins with the prefix of a wrong one that is before its error.
    fn check_prefix(&mut self, prefix: &str) -> Result<(), String> {
        let text = completed(prefix).map_err(|it| format!("no right text begins with {it:?}"))?;
        let (plain, package) = (reader::read(&text), self.of_package(&text));
        if plain.is_ok() && plain.as_ref().ok() == package.as_ref().ok() {
            return Ok(());
        }
        let (plain, package) = (shown(&plain), shown(&package));
        Err(format!("the completed text: {text:?}\nplain: {plain}\nthe package: {package}"))
    }

    /// What the package reads.
    fn of_package(&mut self, text: &str) -> Result<Vec<u8>, FromTextError> {
        let longest = BYTES_A_CHARACTER * (text.len() + 1);
        self.buffer.resize(self.buffer.len().max(longest), FILL);
        let length = write_from_text(&mut self.buffer, text)?;
        Ok(self.buffer[..length].to_vec())
    }
}

/// Checks that the package reads the same into memory, and into a buffer of the path's length. If a
/// buffer is shorter, it must return the length of the path, or else the same error, and leave the
/// buffer as it is.
fn check_other_calls(
    text: &str,
    read: &Result<Vec<u8>, FromTextError>,
    length: usize,
) -> Result<(), String> {
    let in_memory = from_text_in(text).map(|it| it.as_path().as_bytes().to_vec());
    if in_memory != *read {
        return Err(format!("the package: {}\nin memory: {}", shown(read), shown(&in_memory)));
    }
    let mut exact = vec![FILL; read.as_ref().map_or(0, Vec::len)];
    let in_buffer = DevicePath::from_text(&mut exact, text).map(|it| it.as_bytes().to_vec());
    if in_buffer != *read {
        return Err(format!("the package: {}\nin a buffer: {}", shown(read), shown(&in_buffer)));
    }
    let expected =
        read.as_ref().map_or_else(|error| *error, |path| FromTextError::Buffer(path.len()));
    let mut buffer = vec![FILL; length];
    let found = write_from_text(&mut buffer, text);
    if found != Err(expected) || buffer.iter().any(|byte| *byte != FILL) {
        let buffer = hex(&buffer);
        return Err(format!(
            "a short buffer: {expected:?}\nthe package: {found:?}, buffer {buffer}"
        ));
    }
    Ok(())
}
