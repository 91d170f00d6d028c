//! Paper 01, "Lines of a file": what a single line is, and the form of names and keys.

use crate::classes::{is_group_byte, is_key_byte, skip, Part};
use crate::locale::read_locale;
use crate::text::value_fault;

/// "Each line is one of blank, comment, header, entry or bad"; parts count from the line's start.
#[derive(Debug, Clone, Copy, PartialEq, Eq)]
pub enum Line {
    Blank,
    Comment,
    Header {
        name: Part,
    },
    Entry {
        key: Part,
        postfix: Option<Part>,
        value: Part,
    },
    Bad {
        byte: usize,
    },
}

/// "Lines are parted by LF. A final LF starts no further line; an empty file has no lines."
pub fn split_lines(file: &[u8]) -> Vec<Part> {
    let mut lines = Vec::new();
    let mut start = 0;
    for (at, byte) in file.iter().enumerate() {
        if *byte == b'\n' {
            lines.push((start, at));
            start = at + 1;
        }
    }
    if start < file.len() {
        lines.push((start, file.len()));
    }
    lines
}

/// The five kinds of line, "tried in this order".
pub fn read_line(line: &[u8]) -> Line {
    let Some(first) = line.first() else {
        return Line::Blank;
    };
    match first {
        b' ' | b'\t' => read_blank(line),
        b'#' => Line::Comment,
        b'[' => read_header(line),
        _ => match read_entry(line) {
            Ok(entry) => entry,
            Err(byte) => Line::Bad { byte },
        },
    }
}

/// "blank: no byte, or only spaces and tabs."
fn read_blank(line: &[u8]) -> Line {
    match line.iter().position(|byte| *byte != b' ' && *byte != b'\t') {
        None => Line::Blank,
        Some(byte) => Line::Bad { byte },
    }
}

/// "header: first byte `[`, last byte `]`, between them one or more" group name bytes.
fn read_header(line: &[u8]) -> Line {
    let end = skip(line, 1, is_group_byte);
    if end == 1 || line.get(end) != Some(&b']') {
        return Line::Bad { byte: end };
    }
    if end + 1 < line.len() {
        return Line::Bad { byte: end + 1 };
    }
    Line::Header { name: (1, end) }
}

/// "entry: a key …; a postfix; any spaces; `=`; all spaces that follow; the value"; Err is the bad byte.
fn read_entry(line: &[u8]) -> Result<Line, usize> {
    let (key, postfix, end) = read_key(line)?;
    let equals = skip(line, end, |byte| byte == b' ');
    if line.get(equals) != Some(&b'=') {
        return Err(equals);
    }
    let start = skip(line, equals + 1, |byte| byte == b' ');
    if let Some(fault) = value_fault(&line[start..]) {
        return Err(start + fault);
    }
    Ok(Line::Entry {
        key,
        postfix,
        value: (start, line.len()),
    })
}

/// "a key of one or more …; at once, perhaps, a postfix `[LOCALE]`", and where they end; Err is the bad byte.
fn read_key(bytes: &[u8]) -> Result<(Part, Option<Part>, usize), usize> {
    let end = skip(bytes, 0, is_key_byte);
    if end == 0 {
        return Err(0);
    }
    if bytes.get(end) != Some(&b'[') {
        return Ok(((0, end), None, end));
    }
    let locale = read_locale(bytes, end + 1)?;
    if bytes.get(locale.end) != Some(&b']') {
        return Err(locale.end);
    }
    Ok(((0, end), Some((end + 1, locale.end)), locale.end + 1))
}

/// 7: the form of a group argument.
pub fn is_group(name: &[u8]) -> bool {
    !name.is_empty() && skip(name, 0, is_group_byte) == name.len()
}

/// Key form: a key argument without postfix.
pub fn is_plain_key(argument: &[u8]) -> bool {
    split_key(argument).is_some_and(|(_, postfix)| postfix.is_none())
}

/// 7: the form of a key argument with its postfix; the key and the postfix without brackets.
pub fn split_key(argument: &[u8]) -> Option<(&[u8], Option<&[u8]>)> {
    let (key, postfix, end) = read_key(argument).ok()?;
    if end != argument.len() {
        return None;
    }
    Some((
        &argument[key.0..key.1],
        postfix.map(|part| &argument[part.0..part.1]),
    ))
}
