//! How the events of two logs differ, PCR by PCR (docs/AUDIT.md). Events of both logs with the same
//! data are counterparts, and of the others those whose data have the same name.

use super::UNJUDGED;
use super::block::printed_text;
use super::check::{has_forms, is_hash_of};
use super::events::{Said, said, shown_algorithm};
use super::json::{escaped, hex, more, shown_bytes};
use super::log::{Event, Log, PCR_COUNT, type_name};
use crate::program::Ending;
use std::collections::{HashMap, VecDeque};
use std::hash::Hash;

/// The types whose data are a text.
const TEXTS: [u32; 5] = [0x05, 0x0d, 0x12, 0x8000_0007, 0x8000_0010];
/// How many bytes that differ are shown.
const SHOWN_BYTES: usize = 32;
/// What GRUB writes before a command, and before the command line of a kernel or of a module.
const GRUB_WORDS: [&str; 3] = ["grub_cmd", "kernel_cmdline", "module_cmdline"];

/// An event with what its data say.
struct Entry<'a> {
    event: &'a Event<'a>,
    said: Option<Said<'a>>,
}

/// An event of the old log and its counterpart.
type Pair<'a> = (&'a Entry<'a>, &'a Entry<'a>);

/// The events of two logs by a key that counterparts share.
struct Paired<'a> {
    pairs: Vec<Pair<'a>>,
    only_old: Vec<&'a Entry<'a>>,
    only_new: Vec<&'a Entry<'a>>,
}

/// The algorithms of both logs, and the lines of each PCR that differs. Those of PCRs that no TPM has
/// are compared as one's.
pub fn lines(old: &Log<'_>, new: &Log<'_>, end: &mut Ending) -> String {
    let news = new.digest_algorithms();
    let mut algorithms = old.digest_algorithms();
    algorithms.retain(|number| news.contains(number));
    let [olds, news] = [old, new].map(entries);
    let pcr = |pcr| pcr_lines(&of_pcr(&olds, pcr), &of_pcr(&news, pcr), [old, new], &algorithms);
    let lines: String = (0..=PCR_COUNT).map(pcr).collect();
    let status = if algorithms.is_empty() { UNJUDGED } else { (!lines.is_empty()).into() };
    end.status = end.status.max(status);
    compared_line(&algorithms) + &lines
}

fn compared_line(algorithms: &[u16]) -> String {
    if algorithms.is_empty() {
        return "compared: data alone, since no bank to compare is in both logs\n".to_owned();
    }
    let names: String = algorithms.iter().map(|it| format!(" {}", shown_algorithm(*it))).collect();
    format!("compared:{names}\n")
}

fn entries<'a>(log: &'a Log<'a>) -> Vec<Entry<'a>> {
    log.events.iter().map(|event| Entry { event, said: said(event) }).collect()
}

fn of_pcr<'a>(entries: &'a [Entry<'a>], pcr: u32) -> Vec<&'a Entry<'a>> {
    entries.iter().filter(|entry| entry.event.pcr.min(PCR_COUNT) == pcr).collect()
}

/// The lines of the events of a PCR; none if all are the same.
fn pcr_lines<'a>(
    olds: &[&'a Entry<'a>],
    news: &[&'a Entry<'a>],
    [old_log, new_log]: [&Log<'_>; 2],
    algorithms: &[u16],
) -> String {
    let is_same = |(old, new): &Pair<'_>| identity(old, algorithms) == identity(new, algorithms);
    let pairs = || olds.iter().copied().zip(news.iter().copied());
    if olds.len() == news.len() && pairs().all(|pair| is_same(&pair)) {
        return String::new();
    }
    let by_data = paired(olds, news, |entry| (kind(entry), entry.event.data));
    let by_name = paired(&by_data.only_old, &by_data.only_new, |entry| (kind(entry), name(entry)));
    let all = by_data.pairs.iter().chain(&by_name.pairs);
    let changed = all.filter(|pair| !is_same(pair)).map(|pair| changed_line(pair, algorithms));
    let only_old = by_name.only_old.iter().map(|entry| only_line(entry, new_log, algorithms));
    let only_new = by_name.only_new.iter().map(|entry| only_line(entry, old_log, algorithms));
    let moved = first_moved(&by_data.pairs).map(|pair| moved_line(&pair, algorithms));
    changed.chain(only_old).chain(only_new).chain(moved).collect()
}

/// The line of an event that another log doesn't have.
fn only_line(entry: &Entry<'_>, other: &Log<'_>, algorithms: &[u16]) -> String {
    format!("{} isn't in {}\n", place(entry, algorithms), other.name)
}

/// The line of an event that the new log has earlier.
fn moved_line((old, new): &Pair<'_>, algorithms: &[u16]) -> String {
    let (log, there) = (new.event.log, new.event.place());
    format!("{} comes earlier in {log}, as {there}\n", place(old, algorithms))
}

/// The PCR of an event and its type, in which it agrees with its counterpart.
fn kind(entry: &Entry<'_>) -> (u32, u32) {
    (entry.event.pcr, entry.event.kind)
}

/// What makes events the same, wherever they are: of each algorithm the first digest counts.
fn identity<'a>(
    Entry { event, .. }: &Entry<'a>,
    algorithms: &[u16],
) -> (u32, u32, &'a [u8], Vec<Option<&'a [u8]>>) {
    let first = |number: &u16| event.digests.iter().find(|it| it.0 == *number).map(|it| it.1);
    (event.pcr, event.kind, event.data, algorithms.iter().map(first).collect())
}

/// The first event with a key is the counterpart of the first with it, the second of the second, and
/// so on.
fn paired<'a, K: Eq + Hash>(
    olds: &[&'a Entry<'a>],
    news: &[&'a Entry<'a>],
    key: impl Fn(&'a Entry<'a>) -> K,
) -> Paired<'a> {
    let mut waiting = HashMap::<K, VecDeque<&Entry<'_>>>::new();
    for new in news {
        waiting.entry(key(new)).or_default().push_back(new);
    }
    let (mut pairs, mut only_old) = (Vec::new(), Vec::new());
    for old in olds {
        match waiting.get_mut(&key(old)).and_then(VecDeque::pop_front) {
            Some(new) => pairs.push((*old, new)),
            None => only_old.push(*old),
        }
    }
    let mut only_new: Vec<_> = waiting.into_values().flatten().collect();
    only_new.sort_by_key(|entry| entry.event.index);
    Paired { pairs, only_old, only_new }
}

/// The first pair whose new event comes before that of an earlier pair.
fn first_moved<'a>(pairs: &[Pair<'a>]) -> Option<Pair<'a>> {
    let mut last = 0;
    pairs.iter().copied().find(|(_, new)| {
        let is_earlier = new.event.index < last;
        last = last.max(new.event.index);
        is_earlier
    })
}

/// The name that data have, after its namespace.
fn name<'a>(Entry { event, said }: &Entry<'a>) -> [&'a [u8]; 2] {
    match said {
        Some(_) if TEXTS.contains(&event.kind) => command(event.data).unwrap_or_default(),
        Some(said) => said.name,
        None => Default::default(),
    }
}

/// The word that GRUB writes before a command, and the first word of the command; that of a command
/// line doesn't count.
fn command(data: &[u8]) -> Option<[&[u8]; 2]> {
    let mut words = GRUB_WORDS.iter().map(|it| it.as_bytes());
    let rest = |word: &[u8]| data.strip_prefix(word)?.strip_prefix(b": ");
    let (word, rest) = words.find_map(|word| Some((word, rest(word)?)))?;
    let first = rest.split(|byte| matches!(*byte, b' ' | 0)).next().filter(|_| word == b"grub_cmd");
    Some([word, first.unwrap_or_default()])
}

fn at(Entry { event, .. }: &Entry<'_>) -> String {
    format!("{} of {}", event.place(), event.log)
}

/// The PCR and the type of an event.
fn start(Entry { event, .. }: &Entry<'_>) -> String {
    let kind = type_name(event.kind).unwrap_or_else(|| format!("type {:#x}", event.kind));
    format!("PCR {}: {kind}", event.pcr)
}

/// An event, what its data say, whether a digest covers that, and where it is.
fn place(entry: &Entry<'_>, algorithms: &[u16]) -> String {
    let mut words = entry.said.as_ref().map(|it| it.words.clone()).unwrap_or_default();
    if !words.is_empty() {
        words = format!(", {words}{}", cover(entry));
    }
    if !has_forms(entry.event.kind) {
        let name = |number: &u16| shown_algorithm(*number);
        let digests = |it: &u16| format!(", {}{}", name(it), digests(entry, *it));
        words.extend(algorithms.iter().map(digests));
    }
    format!("{}{words} ({})", start(entry), at(entry))
}

/// What no digest of an event covers, of what its data say.
fn cover(Entry { event, said }: &Entry<'_>) -> &'static str {
    let value = said.as_ref().and_then(|said| said.value);
    if !has_forms(event.kind) {
        ", which no digest covers"
    } else if value.is_some_and(|value| is_hash_of(event, value)) {
        ", whose name no digest covers"
    } else {
        ""
    }
}

/// The digests of an algorithm, each after a space.
fn digests(Entry { event, .. }: &Entry<'_>, algorithm: u16) -> String {
    let digests = event.digests.iter().filter(|it| it.0 == algorithm);
    let digests: String = digests.map(|it| format!(" {}", hex(it.1))).collect();
    if digests.is_empty() { " none".to_owned() } else { digests }
}

/// The line of an event that isn't the same as its counterpart.
fn changed_line((old, new): &Pair<'_>, algorithms: &[u16]) -> String {
    let mut name = changed_name(old, new);
    if !name.is_empty() {
        name = format!(", {name}");
    }
    let change = change(old, new, algorithms);
    format!("{}{name}: {change} ({}, {})\n", start(old), at(old), at(new))
}

/// What the line of an event that changed calls it, after its type: what its data say, if they are
/// those of its counterpart.
fn changed_name(entry @ Entry { event, said }: &Entry<'_>, other: &Entry<'_>) -> String {
    match said {
        Some(said) if event.data == other.event.data => said.words.clone(),
        Some(Said { key: "variable" | "image" | "tagged_events", words, .. }) => words.clone(),
        Some(_) if TEXTS.contains(&event.kind) => {
            let [word, first] = name(entry).map(shown_bytes);
            if first.is_empty() { word } else { format!("{word}: {first}") }
        }
        _ => String::new(),
    }
}

/// What changed between an event and its counterpart.
fn change(old: &Entry<'_>, new: &Entry<'_>, algorithms: &[u16]) -> String {
    let is_same = old.event.data == new.event.data;
    let is_uncovered = [old, new].iter().all(|entry| !has_forms(entry.event.kind));
    let mut parts = Vec::new();
    if !is_same {
        let remark = if is_uncovered { " (no digest covers this)" } else { "" };
        parts.push(data_change(old, new) + remark);
    }
    if is_same || is_uncovered {
        let changes = algorithms.iter().filter_map(|number| digest_change(old, new, *number));
        parts.push(changes.collect::<Vec<_>>().join(", "));
    }
    parts.retain(|part| !part.is_empty());
    parts.join("; ")
}

fn digest_change(old: &Entry<'_>, new: &Entry<'_>, algorithm: u16) -> Option<String> {
    let [old, new] = [old, new].map(|entry| digests(entry, algorithm));
    (old != new).then(|| format!("{}{old} ->{new}", shown_algorithm(algorithm)))
}

/// What changed in what the data say, or else in the bytes.
fn data_change(old: &Entry<'_>, new: &Entry<'_>) -> String {
    let change = match (&old.said, &new.said) {
        (Some(old), Some(new)) => said_change(old, new),
        _ => None,
    };
    change.unwrap_or_else(|| byte_change(old.event.data, new.event.data))
}

/// What changed in values of variables that aren't read, in texts, or in the lines of blocks.
fn said_change(old: &Said<'_>, new: &Said<'_>) -> Option<String> {
    if let (Some(old), Some(new)) = (old.unread_value(), new.unread_value()) {
        return value_change(old, new);
    }
    if let (Some(old), Some(new)) = (&old.text, &new.text) {
        return word_change(old, new);
    }
    let lines =
        |said: &'_ Said<'_>| said.lines.lines().map(|it| it.trim_start().to_owned()).collect();
    let [olds, news]: [Vec<String>; 2] = [old, new].map(lines);
    let only = |lines: &[String], others: &[String]| {
        let alone = lines.iter().filter(|line| !others.contains(line));
        alone.cloned().collect::<Vec<_>>().join("; ")
    };
    between(&only(&olds, &news), &only(&news, &olds))
}

fn value_change(old: &[u8], new: &[u8]) -> Option<String> {
    match (old, new) {
        ([0], [1]) => Some("0 -> 1".to_owned()),
        ([1], [0]) => Some("1 -> 0".to_owned()),
        _ => match (printed_text(old), printed_text(new)) {
            (Some(old), Some(new)) => word_change(&escaped(&old), &escaped(&new)),
            _ => Some(byte_change(old, new)).filter(|_| old != new),
        },
    }
}

/// The words of texts on a line, from the first that differs.
fn word_change(old: &str, new: &str) -> Option<String> {
    let [old, new] = [old, new].map(|text| text.split(' ').collect::<Vec<_>>());
    let same = common(&old, &new);
    let from = |words: &[&str]| {
        let rest = words[same..].join(" ");
        if same == 0 || rest.is_empty() { rest } else { format!(".. {rest}") }
    };
    between(&from(&old), &from(&new))
}

/// The bytes from the first that differs.
fn byte_change(old: &[u8], new: &[u8]) -> String {
    let same = common(old, new);
    let from = |bytes: &[u8]| {
        let rest = &bytes[same..];
        hex(&rest[..rest.len().min(SHOWN_BYTES)]) + &more(rest.len(), SHOWN_BYTES)
    };
    format!("from byte {same}: {}", between(&from(old), &from(new)).unwrap_or_default())
}

/// How many of the first items are the same.
fn common<T: PartialEq>(old: &[T], new: &[T]) -> usize {
    old.iter().zip(new).take_while(|(old, new)| old == new).count()
}

/// What the old side has and what the new one has, unless neither has anything.
fn between(old: &str, new: &str) -> Option<String> {
    let [old_side, new_side] =
        [old, new].map(|side| if side.is_empty() { "nothing" } else { side });
    (!old.is_empty() || !new.is_empty()).then(|| format!("{old_side} -> {new_side}"))
}
