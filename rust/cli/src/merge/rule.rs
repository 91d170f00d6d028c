//! What two changed copies of a file come to: entries by their keys, lines and groups by their places.

use std::collections::{BTreeMap, BTreeSet};

use kveldrim::{check, lookup, Kind};

use super::conflict::Conflict;
use super::layout::{Group, Identity, Layout, Line};
use super::sequence::{self, Change, Which};
use crate::faults;

/// What three states come to: what only one copy changed is as that copy has it. None if both changed it in different ways.
pub fn three_way<T: PartialEq>([base, mine, theirs]: [T; 3]) -> Option<T> {
    match () {
        () if mine == theirs || theirs == base => Some(mine),
        () if mine == base => Some(theirs),
        () => None,
    }
}

/// An entry, with its line in each file that has it.
pub struct Entry<'a> {
    pub group: &'a [u8],
    pub key: &'a [u8],
    pub lines: [Option<Line<'a>>; 3],
}

impl<'a> Entry<'a> {
    /// The value in each file.
    pub fn values(&self) -> [Option<&'a [u8]>; 3] {
        self.lines.map(|line| line.map(|line| line.parts().1))
    }

    /// What stands before the value in each file: the key, `=` and the spaces around it.
    fn heads(&self) -> [Option<&'a [u8]>; 3] {
        self.lines.map(|line| line.map(|line| line.parts().0))
    }
}

/// An entry that a copy changed, and the value that it is to have, if any.
struct Changed<'a> {
    group: &'a [u8],
    key: &'a [u8],
    value: Option<&'a [u8]>,
}

impl Changed<'_> {
    /// Whether the core finds the entry in a file with its value, or does not find it if it has none.
    fn is_in(&self, file: &[u8]) -> bool {
        match lookup(file, self.group, self.key) {
            Ok(value) => self.value == Some(value),
            Err(refusal) => self.value.is_none() && refusal.kind == Kind::Missing,
        }
    }
}

/// A line of the merged file, and the line that it is from.
struct Row<'a> {
    bytes: Vec<u8>,
    group: &'a [u8],
    which: Which,
    line: Line<'a>,
}

/// The merged file, and all that the copies do not agree on.
#[derive(Default)]
pub struct Merged<'a> {
    rows: Vec<Row<'a>>,
    ends_with_lf: bool,
    /// How often each comment stands in each file.
    comments: BTreeMap<&'a [u8], [usize; 3]>,
    pub conflicts: Vec<Conflict>,
    changed: Vec<Changed<'a>>,
}

/// What becomes of lines that stand once at most, wherever they stand; none if a line goes.
type Fates<'a> = BTreeMap<Identity<'a>, Option<Vec<u8>>>;

/// A group in each file that has it.
type Groups<'a, 'b> = [Option<&'b Group<'a>>; 3];

/// Merges three well-formed files: BASE, MINE and THEIRS.
pub fn merge([base, mine, theirs]: [&[u8]; 3]) -> Merged<'_> {
    let layouts = [base, mine, theirs].map(Layout::of);
    // Of two states one is BASE's where the copies differ, so there is no conflict.
    let ends = layouts.each_ref().map(|layout| layout.ends_with_lf);
    let mut merged = Merged {
        ends_with_lf: three_way(ends).unwrap_or(true),
        ..Merged::default()
    };
    let mut groups: BTreeMap<&[u8], Groups> = BTreeMap::new();
    for (at, layout) in layouts.iter().enumerate() {
        for group in &layout.groups {
            groups.entry(group.name).or_default()[at] = Some(group);
            for line in group.all().filter(is_comment) {
                merged.comments.entry(line.bytes).or_default()[at] += 1;
            }
        }
    }
    let names = layouts.each_ref().map(Layout::names);
    let order = sequence::merge(names.each_ref().map(Vec::as_slice), |_| true, |_| true).order;
    for (which, at) in order {
        let group = &layouts[which as usize].groups[at];
        let found = groups[group.name];
        if !is_removed(found) {
            merged.group(group, found);
        }
    }
    for found in groups.into_values().filter(|found| is_removed(*found)) {
        merged.remove(found);
    }
    merged.drop_moved_twice();
    merged
}

/// Whether a copy has removed the group.
fn is_removed([base, mine, theirs]: Groups) -> bool {
    base.is_some() && (mine.is_none() || theirs.is_none())
}

impl<'a> Merged<'a> {
    /// The merged file.
    pub fn bytes(&self) -> Vec<u8> {
        let rows: Vec<&[u8]> = self.rows.iter().map(|row| &row.bytes[..]).collect();
        let mut bytes = rows.join(&b'\n');
        // Without LF an empty line would be none.
        if self.ends_with_lf || rows.last().is_some_and(|row| row.is_empty()) {
            bytes.push(b'\n');
        }
        bytes
    }

    /// Whether the core finds in a file what a copy changed.
    pub fn is_in(&self, file: &[u8]) -> bool {
        self.changed.iter().all(|changed| changed.is_in(file))
    }

    /// Adds the keys with a postfix that the core finds without their plain key: one copy added them, the other removed that. Those
    /// that are told already stay as they are.
    pub fn find_postfixed(&mut self) {
        let told: Vec<_> = self.conflicts.iter().map(Conflict::place).collect();
        let faults = faults::all(&self.bytes(), check).into_iter();
        let lines = faults.filter(|fault| fault.kind == Kind::NoPlain);
        let rows = lines.filter_map(|fault| self.rows.get(fault.line? - 1));
        let conflicts = rows.map(|row| Conflict::of_postfix(row.group, row.line, row.which));
        let new = conflicts.filter(|conflict| !told.contains(&conflict.place()));
        let new: Vec<Conflict> = new.collect();
        self.conflicts.extend(new);
    }

    /// Whether a comment stays that BASE has once, and no copy more often; it may have been moved. None for other comments.
    fn is_kept(&self, comment: &[u8]) -> Option<bool> {
        let [base, mine, theirs] = self.comments.get(comment)?;
        let is_single = *base == 1 && *mine < 2 && *theirs < 2;
        is_single.then_some(mine + theirs == 2)
    }

    /// Such a comment that each copy moved to another group stands where MINE has it.
    fn drop_moved_twice(&mut self) {
        let is_moved = |row: &&Row| self.is_kept(row.line.bytes).is_some();
        let moved = self.rows.iter().filter(is_moved);
        let moved = moved.filter(|row| row.which == Which::Mine);
        let in_mine: BTreeSet<&[u8]> = moved.map(|row| row.line.bytes).collect();
        self.rows
            .retain(|row| row.which != Which::Theirs || !in_mine.contains(row.line.bytes));
    }

    /// A group that stays. In a file that does not have it, it counts as empty.
    fn group(&mut self, group: &Group<'a>, found: Groups<'a, '_>) {
        let lines = found.map(|group| group.map_or(&[][..], |group| &group.lead));
        self.lines(group.name, lines);
        self.rows.push(Row {
            bytes: group.header.bytes.to_vec(),
            group: group.name,
            which: Which::Base,
            line: group.header,
        });
        let lines = found.map(|group| group.map_or(&[][..], |group| &group.lines));
        self.lines(group.name, lines);
    }

    /// A group that a copy removed; the other must have left it as it was.
    fn remove(&mut self, [base, mine, theirs]: Groups<'a, '_>) {
        let Some(base) = base else {
            return;
        };
        if mine.or(theirs).is_some_and(|left| !left.is_like(base)) {
            let lines = [mine, theirs].map(|group| group.map(|group| group.header.number));
            self.conflicts.push(Conflict::of_group(base.name, lines));
        }
        for line in &base.lines {
            if let Identity::Entry(key) = line.identity() {
                self.changed.push(Changed {
                    group: base.name,
                    key,
                    value: None,
                });
            }
        }
    }

    /// The lines of a group, or those before its header.
    fn lines(&mut self, group: &'a [u8], lines: [&[Line<'a>]; 3]) {
        let fates = self.fates(group, lines);
        let identities = lines.map(|lines| lines.iter().map(Line::identity).collect::<Vec<_>>());
        let merged = sequence::merge(
            identities.each_ref().map(Vec::as_slice),
            |identity| fates.contains_key(identity),
            Identity::is_entry,
        );
        let changes = merged.changes.iter();
        let conflicts = changes.filter_map(|change| self.conflict(lines, change));
        let conflicts: Vec<Conflict> = conflicts.collect();
        self.conflicts.extend(conflicts);
        for (which, at) in merged.order {
            let line = lines[which as usize][at];
            let bytes = match fates.get(&identities[which as usize][at]) {
                Some(fate) => fate.clone(),
                None => Some(line.bytes.to_vec()),
            };
            self.rows.extend(bytes.map(|bytes| Row {
                bytes,
                group,
                which,
                line,
            }));
        }
    }

    /// The fates of entries, and of comments that may have been moved.
    fn fates(&mut self, group: &'a [u8], lines: [&[Line<'a>]; 3]) -> Fates<'a> {
        let mut found: BTreeMap<Identity, [Option<Line>; 3]> = BTreeMap::new();
        for (at, lines) in lines.iter().enumerate() {
            for line in *lines {
                found.entry(line.identity()).or_default()[at] = Some(*line);
            }
        }
        let mut fates = BTreeMap::new();
        for (identity, lines) in found {
            let fate = match identity {
                Identity::Entry(key) => self.entry(Entry { group, key, lines }),
                Identity::Other(bytes) => match self.is_kept(bytes) {
                    Some(is_kept) => is_kept.then(|| bytes.to_vec()),
                    None => continue,
                },
            };
            fates.insert(identity, fate);
        }
        fates
    }

    /// The line that an entry comes to, if it stays: its value, and in the same way what stands before the value.
    fn entry(&mut self, entry: Entry<'a>) -> Option<Vec<u8>> {
        let [_, mine, theirs] = entry.lines;
        let values = entry.values();
        let (Some(head), Some(value)) = (three_way(entry.heads()), three_way(values)) else {
            self.conflicts.push(Conflict::of_entry(&entry));
            // It stands for what the user decides.
            return mine.or(theirs).map(|line| line.bytes.to_vec());
        };
        if values.iter().any(|other| *other != value) {
            self.changed.push(Changed {
                group: entry.group,
                key: entry.key,
                value,
            });
        }
        Some([head?, value?].concat())
    }

    /// Both copies took away the same comment, not just to another place, and what they put there in its place differs.
    fn conflict(
        &self,
        [base, mine, theirs]: [&[Line<'a>]; 3],
        change: &Change,
    ) -> Option<Conflict> {
        let sides = [(&change.mine, mine), (&change.theirs, theirs)];
        let sides = sides.map(|(side, copy)| Comments {
            taken: self.comments_at(&side.taken, base, |is_kept| is_kept != Some(true)),
            put: self.comments_at(&side.put, copy, |is_kept| is_kept.is_none()),
        });
        let [mine, theirs] = &sides;
        let mut both = mine.taken.iter().filter(|line| theirs.took(line));
        let differs = |line: &&Line| {
            let new = [mine, theirs].map(|side| side.in_place_of(line));
            let [mine, theirs] = new.map(|line| line.map(|line| line.bytes));
            mine != theirs
        };
        let old = match both.clone().find(differs) {
            _ if mine.put_as(theirs) => return None,
            Some(old) => old,
            None if mine.is_one_by_one() && theirs.is_one_by_one() => return None,
            None => both.next()?,
        };
        let new = sides.each_ref().map(|side| side.in_place_of(old));
        let [_, mine, theirs] = self.comments.get(old.bytes)?;
        Some(Conflict::of_comment(
            old.bytes,
            new,
            [*mine > 0, *theirs > 0],
        ))
    }

    /// The comments at some places of lines, by what is known of their staying.
    fn comments_at(
        &self,
        places: &[usize],
        lines: &[Line<'a>],
        is_meant: impl Fn(Option<bool>) -> bool,
    ) -> Vec<Line<'a>> {
        let comments = places.iter().map(|at| &lines[*at]).filter(is_comment);
        let meant = comments.filter(|line| is_meant(self.is_kept(line.bytes)));
        meant.copied().collect()
    }
}

/// The comments that a copy took away at a place, and those that it put there.
struct Comments<'a> {
    taken: Vec<Line<'a>>,
    put: Vec<Line<'a>>,
}

impl<'a> Comments<'a> {
    fn took(&self, line: &Line) -> bool {
        self.taken.iter().any(|taken| taken.number == line.number)
    }

    /// Whether both put the same there.
    fn put_as(&self, other: &Comments) -> bool {
        let [put, other] = [self, other].map(|side| side.put.iter().map(|line| line.bytes));
        put.eq(other)
    }

    /// Whether each seems to have been changed on its own.
    fn is_one_by_one(&self) -> bool {
        self.taken.len() == self.put.len()
    }

    /// What was put in place of a comment: that at its place, or the first of all.
    fn in_place_of(&self, line: &Line) -> Option<Line<'a>> {
        let at = self
            .taken
            .iter()
            .position(|taken| taken.number == line.number);
        let at = at.filter(|_| self.is_one_by_one()).unwrap_or(0);
        self.put.get(at).copied()
    }
}

fn is_comment(line: &&Line) -> bool {
    line.identity().is_comment()
}
