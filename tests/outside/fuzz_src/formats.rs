//! The formats of `formats.table`, which says what its lines are.

use crate::input::Input;
use std::sync::LazyLock;

/// The PCR of the table's events.
const EVENT: &[u8] = &[7, 0, 0, 0];

#[derive(Default)]
pub struct Format {
    names: Vec<&'static str>,
    /// What mutations begin with.
    pub seeds: Vec<Input>,
    /// The extension of the samples that are seeds too, and their third word.
    pub samples: Option<(&'static str, Option<&'static str>)>,
    /// Bytes that mutations put in.
    pub parts: Vec<Vec<u8>>,
    /// Numbers that mutations write, beside those that are at the edge in each format.
    pub numbers: Vec<u64>,
}

static FORMATS: LazyLock<Vec<Format>> = LazyLock::new(|| {
    let mut formats: Vec<Format> = Vec::new();
    for (kind, rest) in lines() {
        match (kind, formats.last_mut()) {
            ("format", _) => {
                formats.push(Format { names: rest.split(' ').collect(), ..Format::default() })
            }
            (_, Some(format)) => format.add(kind, rest),
            _ => (),
        }
    }
    // The first seeds of audits are events, each of which is a log too, as the seeds of logs are.
    let is_log = |it: &&Format| it.names[0].starts_with("log");
    let logs: Vec<Input> = formats.iter().filter(is_log).flat_map(|it| it.seeds.clone()).collect();
    let audit = formats.iter_mut().find(|it| it.names == ["audit"]).expect("a format of audits");
    let events = audit.seeds.iter().filter(|log| log.bytes.starts_with(EVENT));
    let all = Input::new(events.flat_map(|log| log.bytes.clone()).collect());
    audit.seeds.extend(logs.into_iter().chain([all]));
    formats
});

/// The lines of the table: the first word of each, and the rest.
fn lines() -> impl Iterator<Item = (&'static str, &'static str)> {
    let lines = include_str!("formats.table").lines();
    let lines = lines.filter(|line| !line.is_empty() && !line.starts_with('#'));
    lines.map(|line| line.split_once(' ').unwrap_or((line, "")))
}

/// The format of a command.
pub fn named(name: &str) -> &'static Format {
    FORMATS.iter().find(|it| it.names.contains(&name)).expect("a format of the command")
}

/// The bytes that a text of the table spells: texts between quotation marks, and words in hex.
pub fn bytes(text: &str) -> Vec<u8> {
    let spelled = text.split('"').enumerate().flat_map(|(i, part)| match i % 2 {
        0 => part.split_whitespace().flat_map(word).collect(),
        _ => part.as_bytes().to_vec(),
    });
    spelled.collect()
}

/// The bytes that one word spells.
fn word(word: &str) -> Vec<u8> {
    let (word, count) = word.split_once('*').unwrap_or((word, "1"));
    let one = match word.strip_prefix('$') {
        Some(name) => bytes(meaning(name)),
        None => (0..word.len()).step_by(2).map(|i| number(&word[i..i + 2], 16) as u8).collect(),
    };
    one.repeat(number(count, 10) as usize)
}

fn meaning(name: &str) -> &'static str {
    let mut names = lines().filter(|line| line.0 == "name").filter_map(|it| it.1.split_once(' '));
    names.find(|it| it.0 == name).expect("a name of the table").1
}

fn number(text: &str, radix: u32) -> u64 {
    u64::from_str_radix(text, radix).expect("a number of the table")
}

/// A log with an event of this type.
fn event(kind: &str, data: &[u8]) -> Input {
    let (kind, length) = ((number(kind, 16) as u32).to_le_bytes(), data.len() as u32);
    Input::new([EVENT, &kind, &[0x11; 20], &length.to_le_bytes(), data].concat())
}

/// The data of a variable: its GUID, the lengths, its name and its value.
fn variable(guid: &str, name: &str, value: &str) -> Vec<u8> {
    let (value, length) = (bytes(value), name.len() as u64);
    let lengths = [length, value.len() as u64].map(u64::to_le_bytes).concat();
    let name: Vec<u8> = name.encode_utf16().flat_map(u16::to_le_bytes).collect();
    [bytes(guid), lengths, name, value].concat()
}

impl Format {
    /// Adds what a line of the table says of the format.
    fn add(&mut self, kind: &str, rest: &'static str) {
        let (first, more) = rest.split_once(' ').unwrap_or((rest, ""));
        match kind {
            "samples" => self.samples = Some((first, Some(more).filter(|it| !it.is_empty()))),
            "seed" => self.seeds.push(seed(first, more)),
            "event" => self.seeds.push(event(first, &bytes(more))),
            "variable" => {
                let mut words = more.splitn(3, ' ');
                let [guid, name, value] = [(); 3].map(|()| words.next().unwrap_or(""));
                self.seeds.push(event(first, &variable(guid, name, value)));
            }
            "parts" => self.parts.extend(rest.split('|').map(bytes)),
            "numbers" => self.numbers.extend(rest.split(' ').map(|it| {
                it.strip_prefix("0x").map_or_else(|| number(it, 10), |digits| number(digits, 16))
            })),
            _ => panic!("{kind} begins no line of the table"),
        }
    }
}

fn seed(word: &str, text: &str) -> Input {
    let (text, other) = text.split_once(" / ").unwrap_or((text, ""));
    let (bytes, other) = (bytes(text), bytes(other));
    let third_word = match word {
        "none" => None,
        "LENGTH" => Some(bytes.len().to_string().into()),
        word => Some(word.into()),
    };
    Input { bytes, third_word, other }
}
