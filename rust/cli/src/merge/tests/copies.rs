//! Two copies of a generated file, each changed in some places.

use std::collections::BTreeSet;

use compare::files;
use compare::pieces;
use compare::random::Random;

/// What may be changed: first what entries have, then the rest.
pub const KINDS: &[&str] = &[
    "a value",
    "the spaces around =",
    "an entry added",
    "a postfixed entry added",
    "an entry removed",
    "an entry moved",
    "the last LF",
    "a comment added",
    "a comment changed",
    "a comment removed",
    "a blank line added",
    "a blank line removed",
    "a group added",
    "a group removed",
    "a group moved",
];

/// The kinds that leave comments, blank lines and groups alone.
pub const OF_ENTRIES: &[&str] = KINDS.split_at(7).0;

/// The kinds that change a line and leave all others where they are.
pub const OF_LINES: &[&str] = &["a value", "a comment changed"];

/// Two changed copies, and what was changed in them.
pub struct Copies {
    pub mine: Vec<u8>,
    pub theirs: Vec<u8>,
    pub kinds: BTreeSet<&'static str>,
    /// Whether a change was made in both.
    pub has_shared: bool,
}

/// The key and the value of an entry's line.
pub fn entry(line: &[u8]) -> Option<(&[u8], &[u8])> {
    if line.is_empty() || b" \t#[".contains(&line[0]) {
        return None;
    }
    let sign = line.iter().position(|byte| *byte == b'=')?;
    Some((
        line[..sign].trim_ascii_end(),
        line[sign + 1..].trim_ascii_start(),
    ))
}

/// A well-formed file with some comments, each of its own.
pub fn base(random: &mut Random) -> Vec<u8> {
    let mut file = Copy::of(&files::sound(random, 3, 6), "base");
    for _ in 0..random.within(0, 5) {
        let kind = random.pick(&["a comment added", "a blank line added"]);
        file.change(kind, random);
    }
    file.bytes()
}

impl Copies {
    /// Copies of a file with up to six changes of these kinds in each; some are made in both.
    pub fn of(base: &[u8], kinds: &[&'static str], random: &mut Random) -> Copies {
        let mut made = BTreeSet::new();
        let mut shared = Copy::of(base, "both");
        if random.once_in(4) {
            made.extend(shared.change(random.pick(kinds), random));
        }
        let has_shared = !made.is_empty();
        let mut copies = ["mine", "theirs"].map(|owner| Copy {
            owner,
            ..shared.clone()
        });
        for copy in &mut copies {
            for _ in 0..random.within(0, 6) {
                made.extend(copy.change(random.pick(kinds), random));
            }
        }
        let [mine, theirs] = copies.map(|copy| copy.bytes());
        Copies {
            mine,
            theirs,
            kinds: made,
            has_shared,
        }
    }
}

/// A file that is being changed.
#[derive(Clone)]
struct Copy {
    lines: Vec<Vec<u8>>,
    ends_with_lf: bool,
    owner: &'static str,
}

impl Copy {
    fn of(file: &[u8], owner: &'static str) -> Copy {
        let text = file.strip_suffix(b"\n");
        let lines = text.unwrap_or(file).split(|byte| *byte == b'\n');
        Copy {
            lines: lines.map(<[u8]>::to_vec).collect(),
            ends_with_lf: text.is_some(),
            owner,
        }
    }

    fn bytes(&self) -> Vec<u8> {
        let mut bytes = self.lines.join(&b'\n');
        if self.ends_with_lf || self.lines.last().is_some_and(Vec::is_empty) {
            bytes.push(b'\n');
        }
        bytes
    }

    /// Makes a change of this kind, if it leaves the file well formed. Answers the kind if it was made.
    fn change(&mut self, kind: &'static str, random: &mut Random) -> Option<&'static str> {
        let before = self.clone();
        self.try_change(kind, random);
        if kveldrim::check(&self.bytes()).is_err() {
            *self = before;
            return None;
        }
        (self.bytes() != before.bytes()).then_some(kind)
    }

    fn try_change(&mut self, kind: &str, random: &mut Random) {
        match kind {
            "a value" => {
                if let Some(at) = self.pick(is_entry, random) {
                    let (_, value) = entry(&self.lines[at]).unwrap();
                    let head = self.lines[at].len() - value.len();
                    let value = random.pick(&["a", "b", "true", "a\\;b", "\\q", "x=y "]);
                    self.lines[at].truncate(head);
                    self.lines[at].extend(value.bytes());
                }
            }
            "the spaces around =" => {
                if let Some(at) = self.pick(is_entry, random) {
                    let (key, value) = entry(&self.lines[at]).unwrap();
                    let sign = random.pick(&["=", " =", "=  ", " = "]);
                    self.lines[at] = [key, sign.as_bytes(), value].concat();
                }
            }
            "an entry added" => {
                let line = [
                    &pieces::key(random)[..],
                    b"=",
                    random.pick(&["", "1"]).as_bytes(),
                ];
                self.insert(&line.concat(), random);
            }
            "a postfixed entry added" => {
                if let Some(at) = self.pick(is_entry, random) {
                    let (key, _) = entry(&self.lines[at]).unwrap();
                    let locale = random.pick(&["de", "fr", "it"]);
                    let line = [key, b"[", locale.as_bytes(), b"]=2"].concat();
                    let place = self.place_in_group(at, random);
                    self.lines.insert(place, line);
                }
            }
            "an entry removed" => self.remove(is_entry, random),
            "an entry moved" => {
                if let Some(at) = self.pick(is_entry, random) {
                    let line = self.lines[at].clone();
                    let place = self.place_in_group(at, random);
                    self.lines[at] = b"[".to_vec();
                    self.lines.insert(place, line);
                    self.lines.retain(|line| line != b"[");
                }
            }
            "the last LF" => self.ends_with_lf = !self.ends_with_lf,
            "a comment added" => {
                let comment = self.new_comment(random);
                self.insert(&comment, random);
            }
            "a comment changed" => {
                if let Some(at) = self.pick(is_comment, random) {
                    self.lines[at] = self.new_comment(random);
                }
            }
            "a comment removed" => self.remove(is_comment, random),
            "a blank line added" => self.insert(b"", random),
            "a blank line removed" => self.remove(|line| line.trim_ascii().is_empty(), random),
            "a group added" => {
                let name = [b"[", &pieces::group(random)[..], b"]"].concat();
                let place = self.place_of_group(random);
                let mut lines = vec![name, b"N=1".to_vec()];
                if random.once_in(2) {
                    lines.insert(0, Vec::new());
                }
                if random.once_in(2) {
                    lines.insert(0, self.new_comment(random));
                }
                self.lines.splice(place..place, lines);
            }
            "a group removed" => drop(self.take_group(random)),
            _ => {
                let group = self.take_group(random);
                let place = self.place_of_group(random);
                self.lines.splice(place..place, group);
            }
        }
    }

    /// A new comment, sometimes one that the other copy may make as well.
    fn new_comment(&self, random: &mut Random) -> Vec<u8> {
        match random.below(3) {
            0 => format!("# {}", random.below(1_000)).into(),
            _ => format!("# {} {}", self.owner, random.below(1_000_000)).into(),
        }
    }

    fn pick(&self, is_meant: impl Fn(&[u8]) -> bool, random: &mut Random) -> Option<usize> {
        let meant: Vec<usize> = (0..self.lines.len())
            .filter(|at| is_meant(&self.lines[*at]))
            .collect();
        (!meant.is_empty()).then(|| meant[random.below(meant.len())])
    }

    fn remove(&mut self, is_meant: impl Fn(&[u8]) -> bool, random: &mut Random) {
        if let Some(at) = self.pick(is_meant, random) {
            self.lines.remove(at);
        }
    }

    /// Puts a line anywhere.
    fn insert(&mut self, line: &[u8], random: &mut Random) {
        let at = random.below(self.lines.len() + 1);
        self.lines.insert(at, line.to_vec());
    }

    /// A place in the group of a line.
    fn place_in_group(&self, at: usize, random: &mut Random) -> usize {
        let from = self.lines[..at].iter().rposition(|line| is_header(line));
        let to = self.lines[at..].iter().position(|line| is_header(line));
        let to = to.map_or(self.lines.len(), |length| at + length);
        random.within(from.unwrap_or_default() + 1, to)
    }

    /// A place before a header or at the end.
    fn place_of_group(&self, random: &mut Random) -> usize {
        let headers = (0..self.lines.len()).filter(|at| is_header(&self.lines[*at]));
        let places: Vec<usize> = headers.chain([self.lines.len()]).collect();
        places[random.below(places.len())]
    }

    fn take_group(&mut self, random: &mut Random) -> Vec<Vec<u8>> {
        let Some(from) = self.pick(is_header, random) else {
            return Vec::new();
        };
        let to = self.lines[from + 1..]
            .iter()
            .position(|line| is_header(line));
        let to = to.map_or(self.lines.len(), |length| from + 1 + length);
        self.lines.drain(from..to).collect()
    }
}

fn is_entry(line: &[u8]) -> bool {
    entry(line).is_some()
}

fn is_comment(line: &[u8]) -> bool {
    line.starts_with(b"#")
}

fn is_header(line: &[u8]) -> bool {
    line.starts_with(b"[")
}
