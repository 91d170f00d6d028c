//! A file as groups of lines.

use std::mem;

use crate::faults::{entry, header};

/// A line, without its LF.
#[derive(Debug, Clone, Copy)]
pub struct Line<'a> {
    /// Counted from 1.
    pub number: usize,
    pub bytes: &'a [u8],
}

/// What makes a line the same line in another file: for an entry its key with its postfix, whatever the value; for a comment or
/// blank line all its bytes.
#[derive(Debug, Clone, Copy, PartialEq, Eq, Hash, PartialOrd, Ord)]
pub enum Identity<'a> {
    Entry(&'a [u8]),
    Other(&'a [u8]),
}

impl<'a> Line<'a> {
    pub fn identity(&self) -> Identity<'a> {
        match entry(self.bytes) {
            Some((key, _)) => Identity::Entry(key),
            None => Identity::Other(self.bytes),
        }
    }

    /// An entry's line in two parts: the key with `=` and the spaces around it, and the value.
    pub fn parts(&self) -> (&'a [u8], &'a [u8]) {
        let value = entry(self.bytes).map_or(0, |(_, value)| value.len());
        self.bytes.split_at(self.bytes.len() - value)
    }
}

impl Identity<'_> {
    pub fn is_entry(&self) -> bool {
        matches!(self, Identity::Entry(_))
    }

    pub fn is_comment(&self) -> bool {
        matches!(self, Identity::Other(bytes) if bytes.starts_with(b"#"))
    }

    fn is_blank(&self) -> bool {
        !self.is_entry() && !self.is_comment()
    }
}

/// A header with the lines below it.
#[derive(Debug)]
pub struct Group<'a> {
    pub name: &'a [u8],
    pub header: Line<'a>,
    /// The comment and blank lines above the header that go with it.
    pub lead: Vec<Line<'a>>,
    pub lines: Vec<Line<'a>>,
}

impl<'a> Group<'a> {
    /// Whether all lines but blank ones are the same.
    pub fn is_like(&self, other: &Group) -> bool {
        self.filled().eq(other.filled())
    }

    fn filled(&self) -> impl Iterator<Item = &'a [u8]> + '_ {
        let filled = self.all().filter(|line| !line.identity().is_blank());
        filled.map(|line| line.bytes)
    }

    /// All lines but the header.
    pub fn all(&self) -> impl Iterator<Item = &Line<'a>> {
        self.lead.iter().chain(&self.lines)
    }
}

/// A well-formed file.
pub struct Layout<'a> {
    pub groups: Vec<Group<'a>>,
    pub ends_with_lf: bool,
}

impl<'a> Layout<'a> {
    /// Reads a file. All lines before the first header are its lead.
    pub fn of(file: &'a [u8]) -> Layout<'a> {
        let text = file.strip_suffix(b"\n");
        let lines = text.unwrap_or(file).split(|byte| *byte == b'\n');
        let mut groups: Vec<Group> = Vec::new();
        let mut first = Vec::new();
        for (at, bytes) in lines.enumerate() {
            let line = Line {
                number: at + 1,
                bytes,
            };
            match (header(bytes), groups.last_mut()) {
                (None, Some(group)) => group.lines.push(line),
                (None, None) => first.push(line),
                (Some(name), last) => {
                    let lead = match last {
                        Some(group) => take_lead(&mut group.lines),
                        None => mem::take(&mut first),
                    };
                    groups.push(Group {
                        name,
                        header: line,
                        lead,
                        lines: Vec::new(),
                    });
                }
            }
        }
        Layout {
            groups,
            ends_with_lf: text.is_some(),
        }
    }

    pub fn names(&self) -> Vec<&'a [u8]> {
        self.groups.iter().map(|group| group.name).collect()
    }
}

/// Takes the lead of the next header away from the lines of the group above it: the comments just above the header, and the blank
/// lines above these.
fn take_lead<'a>(lines: &mut Vec<Line<'a>>) -> Vec<Line<'a>> {
    let mut above = lines.iter().rev().map(Line::identity).peekable();
    while above.next_if(Identity::is_comment).is_some() {}
    while above.next_if(Identity::is_blank).is_some() {}
    let left = above.count();
    lines.split_off(left)
}
