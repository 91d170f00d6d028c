//! What both copies changed in different ways, in words.

use std::ffi::OsStr;

use super::layout::Line;
use super::rule::{three_way, Entry};
use super::sequence::Which;
use crate::faults::{entry, plain};
use crate::log::{in_quotes, quoted, Tense, Told};
use crate::report::{shown, Trouble};

/// Something that the user has to decide.
#[derive(Debug)]
pub struct Conflict {
    /// The line in MINE and the one in THEIRS, as far as there are such.
    lines: [Option<usize>; 2],
    /// What was done in MINE, or in THEIRS if MINE has no line of it.
    done: Vec<u8>,
    /// What is in the other instead.
    other: String,
}

const REMOVED: &str = "was removed";
const OTHERWISE: &str = "in another way";
const SPACES: &str = "spaces around \"=\"";

impl Conflict {
    /// An entry that each copy changed in its own way, or that one changed and the other removed.
    pub fn of_entry(entry: &Entry) -> Conflict {
        let [_, mine, theirs] = entry.lines;
        let [old, in_mine, in_theirs] = entry.values();
        let (new, other) = match in_mine {
            Some(_) => (in_mine, in_theirs),
            None => (in_theirs, in_mine),
        };
        let told = Told::new(entry.group, entry.key, old, new);
        let is_of_value = three_way(entry.values()).is_none();
        let done = match old {
            Some(_) if !is_of_value => told.with(&format!("the {SPACES} were changed")),
            _ => told.line(Tense::Past),
        };
        let other = match other {
            Some(other) if is_of_value && new.map(quoted) == Some(quoted(other)) => {
                format!("{} with other escapes", quoted(other))
            }
            Some(other) if is_of_value => quoted(other),
            Some(_) if old.is_some() => OTHERWISE.into(),
            Some(_) => format!("with other {SPACES}"),
            None if is_of_value => REMOVED.into(),
            None => "the entry was removed".into(),
        };
        Conflict {
            lines: [mine, theirs].map(|line| line.map(|line| line.number)),
            done,
            other,
        }
    }

    /// A comment of BASE that both copies took away, with the first of the comments that each put there, and whether each still
    /// has it elsewhere.
    pub fn of_comment(old: &[u8], new: [Option<Line>; 2], is_left: [bool; 2]) -> Conflict {
        let other = match (new, is_left) {
            ([Some(_), Some(_)], _) => OTHERWISE,
            ([Some(_), None], [_, true]) | ([None, _], [true, _]) => "was moved",
            _ => REMOVED,
        };
        Conflict {
            lines: new.map(|line| line.map(|line| line.number)),
            done: format!("the comment {} was changed", in_quotes(old)).into(),
            other: other.into(),
        }
    }

    /// A group that one copy changed, with its line there, and the other removed.
    pub fn of_group(name: &[u8], lines: [Option<usize>; 2]) -> Conflict {
        Conflict {
            lines,
            done: [b"the group ", name, b" was changed"].concat(),
            other: REMOVED.into(),
        }
    }

    /// An entry with a postfix that one copy added, and whose plain key the other removed.
    pub fn of_postfix(group: &[u8], line: Line, which: Which) -> Conflict {
        let (key, value) = entry(line.bytes).unwrap_or_default();
        let told = Told::new(group, key, None, Some(value));
        let plain = plain(key).unwrap_or_default();
        Conflict {
            lines: [Which::Mine, Which::Theirs].map(|copy| (copy == which).then_some(line.number)),
            done: told.line(Tense::Past),
            other: format!("{} {REMOVED}", String::from_utf8_lossy(plain)),
        }
    }

    /// Where it stands: a line and the file that has it.
    pub fn place(&self) -> (usize, Which) {
        match self.lines {
            [Some(line), _] => (line, Which::Mine),
            [None, line] => (line.unwrap_or_default(), Which::Theirs),
        }
    }

    /// What a user is told, with the names of MINE and THEIRS.
    pub fn trouble(&self, [mine, theirs]: [&OsStr; 2]) -> Trouble {
        let (line, which) = self.place();
        let (file, other) = match which {
            Which::Theirs => (theirs, mine),
            _ => (mine, theirs),
        };
        let place = match self.lines {
            [Some(_), Some(line)] => format!(":{line}"),
            _ => String::new(),
        };
        let words = [
            &self.done[..],
            b", but ",
            self.other.as_bytes(),
            b" in ",
            &shown(other),
            place.as_bytes(),
        ];
        Trouble::conflict(file, line, &words.concat())
    }
}
