//! What a journal records, in words.

use kveldrim::{Document, Edit, Edits, Person, Refusal};
use serde_json::{json, Value};

use crate::json::text;
use crate::persons::Persons;
use crate::report::is_harmful;

/// What an edit does to the entry of a key. Values are raw, as they stand in the file.
pub struct Told {
    group: Vec<u8>,
    key: Vec<u8>,
    old: Option<Vec<u8>>,
    new: Option<Vec<u8>>,
}

/// What a call does or has done, and whose edit that is.
pub struct Done {
    pub told: Told,
    /// What stands between the edit and its person.
    pub act: &'static str,
    pub person: Person,
}

/// An edit of a journal, and its state.
pub struct Recorded {
    pub state: State,
    pub done: Done,
}

/// What is or becomes of a recorded edit.
#[derive(Clone, Copy, PartialEq, Eq)]
pub enum State {
    Stands,
    WouldStand,
    Waits,
    Forgotten(Tense),
}

impl State {
    fn words(self) -> &'static str {
        match self {
            State::Stands => "stands",
            State::WouldStand => "would stand",
            State::Waits => "waits",
            State::Forgotten(Tense::Past) => "forgotten",
            State::Forgotten(Tense::Conditional) => "would be forgotten",
        }
    }
}

/// Whether something is done, or would be.
#[derive(Clone, Copy, PartialEq, Eq)]
pub enum Tense {
    Past,
    Conditional,
}

/// Every edit of a journal.
pub fn edits(document: Document) -> Result<Vec<Recorded>, Refusal> {
    edits_from(document, 0)
}

/// The edits of a journal from this byte of it on. The file is taken back to there and forth again, so an edit is told by the
/// file that it found.
pub fn edits_from(mut document: Document, start: u64) -> Result<Vec<Recorded>, Refusal> {
    let journal = document.journal().to_vec();
    let (before, rest) = journal.split_at(start as usize);
    let first = Edits::new(before).count() as u64;
    let standing = document.standing();
    while document.standing() > start {
        document.undo()?;
    }
    let mut recorded = Vec::new();
    for (number, edit) in (first..).zip(Edits::new(rest)) {
        let state = match document.standing() < standing {
            true => State::Stands,
            false => State::Waits,
        };
        let done = Done {
            told: Told::of(document.file(), &edit),
            act: "by",
            person: document.person(number)?,
        };
        document.redo()?;
        recorded.push(Recorded { state, done });
    }
    Ok(recorded)
}

impl Recorded {
    /// The edit in a line of words.
    pub fn line(&self, persons: &Persons) -> Vec<u8> {
        let done = self.done.line(Tense::Past, persons);
        [self.state.words().as_bytes(), b": ", &done, b"\n"].concat()
    }

    /// The edit as an object (docs/JSON.md).
    pub fn object(&self, persons: &Persons) -> Value {
        let Done { told, person, .. } = &self.done;
        let Told {
            group,
            key,
            old,
            new,
        } = told;
        let value = |raw: &Option<Vec<u8>>| raw.as_deref().map(text);
        json!({
            "person": person.0,
            "name": persons.name(*person),
            "state": self.state.words(),
            "group": text(group),
            "key": text(key),
            "old": value(old),
            "new": value(new),
        })
    }
}

impl Done {
    /// The edit and its person, if one is named, in words without a line's end.
    pub fn line(&self, tense: Tense, persons: &Persons) -> Vec<u8> {
        let whose = match self.person {
            Person::NOBODY => String::new(),
            person => format!(", {} {}", self.act, persons.words(person)),
        };
        [self.told.line(tense), whose.into_bytes()].concat()
    }
}

impl Told {
    /// What an edit does in the file that it finds.
    pub fn of(file: &[u8], edit: &Edit) -> Told {
        let Edit { place, old, new } = *edit;
        // Only a line that comes or goes has an LF.
        let (key, old, new) = match (old.contains(&b'\n'), new.contains(&b'\n')) {
            (false, true) => {
                let (key, value) = entry(new);
                (key, None, Some(value))
            }
            (true, false) => {
                let (key, value) = entry(old);
                (key, Some(value), None)
            }
            _ => {
                let start = file[..place].iter().rposition(|byte| *byte == b'\n');
                let line = &file[start.map_or(0, |at| at + 1)..];
                (parts(line).0, Some(old), Some(new))
            }
        };
        Told::new(group_at(&file[..place]), key, old, new)
    }

    /// What becomes of the entry of a key.
    pub fn new(group: &[u8], key: &[u8], old: Option<&[u8]>, new: Option<&[u8]>) -> Told {
        Told {
            group: group.to_vec(),
            key: key.to_vec(),
            old: old.map(<[u8]>::to_vec),
            new: new.map(<[u8]>::to_vec),
        }
    }

    /// The edit in words, without a line's end.
    pub fn line(&self, tense: Tense) -> Vec<u8> {
        let [become_, added, removed] = match tense {
            Tense::Past => ["became", "was added", "was removed"],
            Tense::Conditional => ["would become", "would be added", "would be removed"],
        };
        let change = match (&self.old, &self.new) {
            (Some(old), Some(new)) => format!("{} {become_} {}", quoted(old), quoted(new)),
            (Some(old), None) => format!("{} {removed}", quoted(old)),
            (None, Some(new)) => format!("{} {added}", quoted(new)),
            (None, None) => String::new(),
        };
        self.with(&change)
    }

    /// Words about the entry, after its key and group.
    pub fn with(&self, words: &str) -> Vec<u8> {
        [
            &self.key,
            &b" in "[..],
            &self.group,
            b": ",
            words.as_bytes(),
        ]
        .concat()
    }
}

/// The text of a raw value in quotes. A value whose escapes cannot be read is marked as raw.
pub fn quoted(raw: &[u8]) -> String {
    match kveldrim::read_text_vec(raw) {
        Ok(text) => in_quotes(&text),
        Err(_) => format!("raw {}", in_quotes(raw)),
    }
}

/// Text in quotes, in which a quote, a backslash, LF, tab, CR and what alters a terminal are escaped.
pub fn in_quotes(text: &[u8]) -> String {
    let mut words = String::from("\"");
    for character in String::from_utf8_lossy(text).chars() {
        match character {
            '"' | '\\' => words.extend(['\\', character]),
            '\n' => words.push_str("\\n"),
            '\t' => words.push_str("\\t"),
            '\r' => words.push_str("\\r"),
            _ if is_harmful(character) => words.extend(character.escape_unicode()),
            _ => words.push(character),
        }
    }
    words.push('"');
    words
}

/// The key and the value of an entry's line, which has its LF before or behind it.
fn entry(line: &[u8]) -> (&[u8], &[u8]) {
    let line = line.strip_suffix(b"\n").unwrap_or(line);
    parts(line.strip_prefix(b"\n").unwrap_or(line))
}

/// The key and the value of an entry's line.
fn parts(line: &[u8]) -> (&[u8], &[u8]) {
    let sign = line.iter().position(|byte| *byte == b'=');
    let (key, value) = line.split_at(sign.unwrap_or(line.len()));
    let value = value.strip_prefix(b"=").unwrap_or(value);
    (key.trim_ascii_end(), value.trim_ascii_start())
}

/// The group of the last header of these bytes.
fn group_at(before: &[u8]) -> &[u8] {
    let mut lines = before.rsplit(|byte| *byte == b'\n');
    let header = lines.find_map(|line| line.strip_prefix(b"["));
    header
        .and_then(|line| line.strip_suffix(b"]"))
        .unwrap_or_default()
}
