//! Paper 01, "Lines of a file" and "What the caller is told": well-formed and complete files, and lookup.

use crate::classes::Part;
use crate::lines::{is_group, read_line, split_key, split_lines, Line};
use crate::refusal::{Refusal, FILE_BOUND};

/// The group that a file starts with.
pub const DESKTOP_ENTRY: &[u8] = b"Desktop Entry";

/// A group: its name, the two ends of its header line without LF, and its entries in file order.
pub struct Group<'a> {
    pub name: &'a [u8],
    pub header: Part,
    pub entries: Vec<Entry<'a>>,
}

/// An entry: its line's number and two ends without LF, its key and postfix, its value's two ends.
pub struct Entry<'a> {
    pub number: usize,
    pub line: Part,
    pub key: &'a [u8],
    pub postfix: Option<&'a [u8]>,
    pub value: Part,
}

/// The groups of a file; bad lines and entries before any header are left out.
pub fn read_groups(file: &[u8]) -> Vec<Group<'_>> {
    let mut groups: Vec<Group> = Vec::new();
    for (index, (start, end)) in split_lines(file).into_iter().enumerate() {
        match read_line(&file[start..end]) {
            Line::Blank | Line::Comment | Line::Bad { .. } => {}
            Line::Header { name } => groups.push(Group {
                name: &file[start + name.0..start + name.1],
                header: (start, end),
                entries: Vec::new(),
            }),
            Line::Entry {
                key,
                postfix,
                value,
            } => {
                if let Some(group) = groups.last_mut() {
                    group.entries.push(Entry {
                        number: index + 1,
                        line: (start, end),
                        key: &file[start + key.0..start + key.1],
                        postfix: postfix.map(|part| &file[start + part.0..start + part.1]),
                        value: (start + value.0, start + value.1),
                    });
                }
            }
        }
    }
    groups
}

/// The group of a name, if the file has it.
pub fn find_group<'a, 'b>(groups: &'b [Group<'a>], name: &[u8]) -> Option<&'b Group<'a>> {
    groups.iter().find(|group| group.name == name)
}

/// The entry of a key with its whole postfix, if the group has it.
pub fn find_entry<'a, 'b>(
    group: &'b Group<'a>,
    key: &[u8],
    postfix: Option<&[u8]>,
) -> Option<&'b Entry<'a>> {
    group
        .entries
        .iter()
        .find(|entry| entry.key == key && entry.postfix == postfix)
}

/// "A check gives 1 to 6."
pub fn check(file: &[u8]) -> Result<(), Refusal> {
    if file.len() as u64 > FILE_BOUND {
        return Err(Refusal::new(1));
    }
    check_lines(file)?;
    check_postfixes(file)
}

/// "The earliest line with 2 to 5, 2 first on that line; 3 for no header."
fn check_lines(file: &[u8]) -> Result<(), Refusal> {
    let mut names: Vec<&[u8]> = Vec::new();
    let mut keys: Vec<(&[u8], Option<&[u8]>)> = Vec::new();
    for (index, (start, end)) in split_lines(file).into_iter().enumerate() {
        let number = index + 1;
        let line = &file[start..end];
        match read_line(line) {
            Line::Blank | Line::Comment => {}
            Line::Bad { byte } => return Err(Refusal::bad_line(number, byte)),
            Line::Header { name } => {
                let name = &line[name.0..name.1];
                if names.is_empty() && name != DESKTOP_ENTRY {
                    return Err(Refusal::at(3, number));
                }
                if names.contains(&name) {
                    return Err(Refusal::at(4, number));
                }
                names.push(name);
                keys.clear();
            }
            Line::Entry { key, postfix, .. } => {
                if names.is_empty() {
                    return Err(Refusal::at(3, number));
                }
                let key = (
                    &line[key.0..key.1],
                    postfix.map(|part| &line[part.0..part.1]),
                );
                if keys.contains(&key) {
                    return Err(Refusal::at(5, number));
                }
                keys.push(key);
            }
        }
    }
    if names.is_empty() {
        return Err(Refusal::new(3));
    }
    Ok(())
}

/// "Each postfixed key stands without postfix too in its group, before or after", else 6 at the earliest line.
fn check_postfixes(file: &[u8]) -> Result<(), Refusal> {
    for group in read_groups(file) {
        for entry in &group.entries {
            if entry.postfix.is_some() && find_entry(&group, entry.key, None).is_none() {
                return Err(Refusal::at(6, entry.number));
            }
        }
    }
    Ok(())
}

/// "The completeness question also 18": its faults "are tried in that order, the booleans by line".
pub fn complete(file: &[u8]) -> Result<(), Refusal> {
    check(file)?;
    let groups = read_groups(file);
    let group = find_group(&groups, DESKTOP_ENTRY).ok_or(Refusal::new(3))?;
    let plain = |key: &[u8]| find_entry(group, key, None);
    let value = |entry: &Entry| &file[entry.value.0..entry.value.1];

    let kind = plain(b"Type").ok_or(Refusal::new(18))?;
    if ![&b"Application"[..], b"Link", b"Directory"].contains(&value(kind)) {
        return Err(Refusal::at(18, kind.number));
    }
    if plain(b"Name").is_none() {
        return Err(Refusal::new(18));
    }
    let activatable = plain(b"DBusActivatable").is_some_and(|entry| value(entry) == b"true");
    if value(kind) == b"Application" && plain(b"Exec").is_none() && !activatable {
        return Err(Refusal::new(18));
    }
    if value(kind) == b"Link" && plain(b"URL").is_none() {
        return Err(Refusal::new(18));
    }
    for entry in &group.entries {
        let boolean = entry.postfix.is_none() && is_boolean_key(entry.key);
        if boolean && value(entry) != b"true" && value(entry) != b"false" {
            return Err(Refusal::at(18, entry.number));
        }
    }
    Ok(())
}

/// "NoDisplay, Hidden, DBusActivatable, Terminal, StartupNotify".
fn is_boolean_key(key: &[u8]) -> bool {
    [
        &b"NoDisplay"[..],
        b"Hidden",
        b"DBusActivatable",
        b"Terminal",
        b"StartupNotify",
    ]
    .contains(&key)
}

/// The entry of a group and a key argument with its postfix, and its group: 7, then 8.
pub fn find_asked<'a, 'b>(
    groups: &'b [Group<'a>],
    group: &[u8],
    key: &[u8],
) -> Result<(&'b Group<'a>, &'b Entry<'a>), Refusal> {
    if !is_group(group) {
        return Err(Refusal::new(7));
    }
    let (key, postfix) = split_key(key).ok_or(Refusal::new(7))?;
    let group = find_group(groups, group).ok_or(Refusal::new(8))?;
    let entry = find_entry(group, key, postfix).ok_or(Refusal::new(8))?;
    Ok((group, entry))
}

/// Lookup of a key with its postfix: 1 to 6, then 7, then 8; the answer is the raw value's two ends.
pub fn lookup(file: &[u8], group: &[u8], key: &[u8]) -> Result<(usize, usize), Refusal> {
    check(file)?;
    let groups = read_groups(file);
    let (_, entry) = find_asked(&groups, group, key)?;
    Ok(entry.value)
}
