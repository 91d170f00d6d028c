//! Every fault of a file. The core tells only the first, so parts of the file are asked as files of their own: each line, the
//! headers, each group. After a fault the part is mended and asked again. A bad line is read as what it was meant to be; that is
//! a guess, and nothing is told that follows from it.

use std::collections::HashSet;

use kveldrim::{check, Kind, Refusal, DESKTOP_ENTRY, FILE_BOUND};

use super::line::ends_with_cr;
use super::{
    bad_line, entry, header, is_parted_by_cr, missing, plain, Ask, Fault, Needed, BYTE_ORDER_MARK,
};

/// Every fault that the question finds, in the order of lines, those without a line last.
pub fn all(file: &[u8], ask: Ask) -> Vec<Fault> {
    if file.len() > FILE_BOUND || is_parted_by_cr(file) {
        let refusal = ask(file).err();
        return refusal
            .map(|refusal| Fault::of(file, refusal))
            .into_iter()
            .collect();
    }
    let mut search = Search::default();
    let rows = search.lines(file);
    search.read = join(&rows);
    let is_first = search.headers(file, &rows);
    let groups = search.groups(rows);
    search.plain_keys(&groups);
    if is_first {
        search.needs(entry_group(groups), ask);
    }
    search
        .faults
        .sort_by_key(|fault| fault.line.unwrap_or(usize::MAX));
    search.faults
}

/// A line as it was meant.
#[derive(Clone)]
struct Row {
    /// Its number in the file; 0 for one that is not there.
    number: usize,
    text: Vec<u8>,
    is_guess: bool,
}

impl Row {
    fn made(text: impl Into<Vec<u8>>) -> Row {
        Row {
            number: 0,
            text: text.into(),
            is_guess: false,
        }
    }

    fn is_header(&self) -> bool {
        self.text.starts_with(b"[")
    }

    fn key(&self) -> Option<&[u8]> {
        entry(&self.text).map(|(key, _)| key)
    }
}

/// Lines as a file.
fn join(rows: &[Row]) -> Vec<u8> {
    let lines: Vec<&[u8]> = rows.iter().map(|row| &row.text[..]).collect();
    lines.join(&b'\n')
}

/// What is told first of a file of these lines, with the index of the line.
fn first_fault(rows: &[Row], ask: Ask) -> Option<(Kind, Option<usize>)> {
    let refusal = ask(&join(rows)).err()?;
    Some((refusal.kind, (refusal.place as usize).checked_sub(1)))
}

/// The header of every part that is asked.
const HEADER: &[u8] = b"[Desktop Entry]";

/// What stands for a header whose name is not legible.
const ILLEGIBLE: &[u8] = b"[";

struct Group {
    /// None if it is not legible.
    name: Option<Vec<u8>>,
    /// A header and the entries.
    rows: Vec<Row>,
    /// Keys that stood more than once.
    repeated: HashSet<Vec<u8>>,
}

impl Group {
    fn named(name: Option<&[u8]>) -> Group {
        Group {
            name: name.map(<[u8]>::to_vec),
            rows: vec![Row::made(HEADER)],
            repeated: HashSet::new(),
        }
    }

    fn has(&self, key: &[u8]) -> bool {
        self.rows.iter().any(|row| row.key() == Some(key))
    }

    /// Whether the value of a key is sure, and so what it asks for.
    fn is_sure(&self, key: &str) -> bool {
        let key = key.as_bytes();
        let is_guess = |row: &Row| row.is_guess && row.key() == Some(key);
        !self.repeated.contains(key) && !self.rows.iter().any(is_guess)
    }

    /// Takes out one of two lines with one key: the one that is a guess, else the later one, which is answered.
    fn drop_repeated(&mut self, later: usize) -> Option<Row> {
        let key = self.rows[later].key()?.to_vec();
        let first = self.rows.iter().position(|row| row.key() == Some(&key))?;
        self.repeated.insert(key);
        match self.rows[first].is_guess {
            true => {
                self.rows.remove(first);
                None
            }
            false => Some(self.rows.remove(later)),
        }
    }
}

/// The group Desktop Entry, with the entries of all groups that have this name.
fn entry_group(groups: Vec<Group>) -> Group {
    let mut all = Group::named(Some(DESKTOP_ENTRY));
    for group in groups {
        if group.name == all.name {
            all.rows.extend(group.rows.into_iter().skip(1));
            all.repeated.extend(group.repeated);
        }
    }
    all
}

#[derive(Default)]
struct Search {
    faults: Vec<Fault>,
    /// The file as it was meant.
    read: Vec<u8>,
}

impl Search {
    /// Tells a fault of a line, unless what the line means is a guess.
    fn tell(&mut self, kind: Kind, row: &Row) {
        if !row.is_guess {
            let place = row.number as u64;
            let refusal = Refusal {
                kind,
                place,
                byte: 0,
            };
            self.faults.push(Fault::of(&self.read, refusal));
        }
    }

    /// Tells the bad lines, and answers all lines as they were meant.
    fn lines(&mut self, file: &[u8]) -> Vec<Row> {
        let lines: Vec<&[u8]> = file.split(|byte| *byte == b'\n').collect();
        let numbered = lines.iter().zip(1..);
        numbered
            .map(|(line, number)| self.line(number, line, number < lines.len()))
            .collect()
    }

    /// Tells what is wrong with a line. What is left without a byte order mark, or without a CR at the end, is asked again.
    fn line(&mut self, number: usize, line: &[u8], has_lf: bool) -> Row {
        let mut text = line;
        let mut dropped = 0;
        while let Some(at) = bad_byte(text) {
            self.faults.push(Fault {
                kind: Kind::BadLine,
                line: Some(number),
                byte: Some(dropped + at),
                words: bad_line(text, number, at, has_lf),
            });
            if number == 1 && dropped == 0 && text.starts_with(BYTE_ORDER_MARK) {
                dropped = BYTE_ORDER_MARK.len();
                text = &text[dropped..];
            } else if ends_with_cr(text, at) {
                text = &text[..at];
            } else {
                return Row {
                    number,
                    text: meant(text),
                    is_guess: true,
                };
            }
        }
        Row {
            number,
            text: text.to_vec(),
            is_guess: false,
        }
    }

    /// Tells what comes first if it is not Desktop Entry, unless a bad line before may have been meant so, and repeated headers.
    /// Answers whether Desktop Entry comes first.
    fn headers(&mut self, file: &[u8], rows: &[Row]) -> bool {
        let mut heads = heads(rows);
        let bad = rows.iter().find(|row| row.is_guess);
        let bad = bad.map_or(usize::MAX, |row| row.number);
        let mut is_first = heads.first().is_some_and(|row| row.text != ILLEGIBLE);
        give_name(&mut heads);
        while let Some((kind, index)) = first_fault(&heads, check) {
            match (kind, index) {
                (Kind::First, Some(index)) => {
                    if is_first && heads[index].number < bad {
                        self.tell(kind, &heads[index]);
                    }
                    is_first = false;
                    put_entry_first(&mut heads, index);
                }
                (Kind::GroupTwice, Some(index)) => {
                    let row = heads.remove(index);
                    let is_same = |other: &&Row| other.text == row.text;
                    if heads
                        .iter()
                        .find(is_same)
                        .is_some_and(|first| !first.is_guess)
                    {
                        self.tell(kind, &row);
                    }
                }
                (Kind::First, None) if self.faults.is_empty() => {
                    let refusal = Refusal {
                        kind,
                        place: 0,
                        byte: 0,
                    };
                    self.faults.push(Fault::of(file, refusal));
                }
                _ => break,
            }
        }
        is_first
    }

    /// Tells repeated keys, and answers the groups without them.
    fn groups(&mut self, rows: Vec<Row>) -> Vec<Group> {
        let mut groups: Vec<Group> = Vec::new();
        for row in rows {
            if row.is_header() {
                groups.push(Group::named(header(&row.text)));
            } else if let (Some(_), Some(group)) = (row.key(), groups.last_mut()) {
                group.rows.push(row);
            }
        }
        for group in &mut groups {
            while let Some((Kind::KeyTwice, Some(index))) = first_fault(&group.rows, check) {
                if let Some(row) = group.drop_repeated(index) {
                    self.tell(Kind::KeyTwice, &row);
                }
            }
        }
        groups
    }

    /// Tells keys with a postfix whose plain key stands in no group of the same name.
    fn plain_keys(&mut self, groups: &[Group]) {
        for group in groups {
            let mut rows = group.rows.clone();
            while let Some((Kind::NoPlain, Some(index))) = first_fault(&rows, check) {
                let row = rows.remove(index);
                let key = row.key().and_then(plain).unwrap_or_default();
                let is_same = |other: &&Group| other.name.is_some() && other.name == group.name;
                if !groups.iter().filter(is_same).any(|other| other.has(key)) {
                    self.tell(Kind::NoPlain, &row);
                }
            }
        }
    }

    /// Tells what the group Desktop Entry needs. Where Type is not sure, it is not known whether Exec or URL is needed.
    fn needs(&mut self, mut group: Group, ask: Ask) {
        for _ in 0..group.rows.len() + 10 {
            match first_fault(&group.rows, ask) {
                Some((Kind::KeyTwice, Some(index))) => {
                    group.drop_repeated(index);
                }
                Some((Kind::NoPlain, Some(index))) => {
                    group.rows.remove(index);
                }
                Some((Kind::Incomplete, Some(index))) => {
                    let row = &mut group.rows[index];
                    self.tell(Kind::Incomplete, row);
                    row.text = match row.key() {
                        Some(b"Type") => DIRECTORY.into(),
                        key => [key.unwrap_or_default(), b"=false"].concat(),
                    };
                }
                Some((Kind::Incomplete, None)) => {
                    let file = join(&group.rows);
                    let Some(needed) = missing(&file) else {
                        return;
                    };
                    let is_sure = match needed {
                        Needed::Type | Needed::Name => true,
                        Needed::Url => group.is_sure("Type"),
                        Needed::Exec => group.is_sure("Type") && group.is_sure("DBusActivatable"),
                    };
                    if is_sure {
                        let (kind, place) = (Kind::Incomplete, 0);
                        self.faults.push(Fault::of(
                            &file,
                            Refusal {
                                kind,
                                place,
                                byte: 0,
                            },
                        ));
                    }
                    group.rows.push(Row::made(match needed {
                        Needed::Type => DIRECTORY.into(),
                        _ => format!("{}=", needed.key()),
                    }));
                }
                _ => return,
            }
        }
    }
}

/// The Type that asks for nothing else.
const DIRECTORY: &str = "Type=Directory";

/// The byte at which a line is bad.
fn bad_byte(line: &[u8]) -> Option<usize> {
    let refusal = check(line).err()?;
    (refusal.kind == Kind::BadLine).then_some(refusal.byte as usize)
}

/// What a bad line was meant to be, as far as it is legible: a header, the plain key of an entry, else nothing.
fn meant(line: &[u8]) -> Vec<u8> {
    let blanks = line.iter().take_while(|byte| b" \t".contains(byte)).count();
    let line = &line[blanks..];
    if bad_byte(line).is_none() {
        return line.to_vec();
    }
    if let Some(rest) = line.strip_prefix(b"[") {
        let name = rest.split(|byte| *byte == b']').next().unwrap_or_default();
        let header = [b"[", name, b"]"].concat();
        return match bad_byte(&header) {
            None => header,
            Some(_) => ILLEGIBLE.into(),
        };
    }
    let is_key = |byte: &&u8| byte.is_ascii_alphanumeric() || **byte == b'-';
    let (key, rest) = line.split_at(line.iter().take_while(is_key).count());
    match rest.trim_ascii_start().first() {
        // The plain key may be missing.
        Some(b'[') => Vec::new(),
        _ if key.is_empty() => Vec::new(),
        _ => [key, b"="].concat(),
    }
}

/// The entries before the first header, and all headers.
fn heads(rows: &[Row]) -> Vec<Row> {
    let first = rows.iter().position(Row::is_header).unwrap_or(rows.len());
    let strays = rows[..first].iter().filter(|row| row.key().is_some());
    let headers = rows[first..].iter().filter(|row| row.is_header());
    strays.chain(headers).cloned().collect()
}

/// Takes the first header for Desktop Entry if it is not legible, and leaves the other such ones out.
fn give_name(heads: &mut Vec<Row>) {
    if let Some(first) = heads.iter_mut().find(|row| row.is_header()) {
        if first.text == ILLEGIBLE {
            first.text = HEADER.into();
        }
    }
    heads.retain(|row| row.text != ILLEGIBLE);
}

/// Mends a wrong first line: an entry goes, and before another header comes Desktop Entry if it is further down, else in its place.
fn put_entry_first(heads: &mut Vec<Row>, index: usize) {
    if !heads[index].is_header() {
        heads.remove(index);
        return;
    }
    match heads.iter().position(|row| row.text == HEADER) {
        Some(further) => {
            let entry = heads.remove(further);
            heads.insert(index, entry);
        }
        None => heads[index].text = HEADER.into(),
    }
}

#[cfg(test)]
mod tests;
