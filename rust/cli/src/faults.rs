//! What is wrong with a file, in words that say which byte, key or group it is and what to do about it.

mod all;
mod exec;
mod line;
#[cfg(test)]
mod tests;

use std::ffi::OsStr;
use std::os::unix::ffi::OsStrExt;

use kveldrim::{Kind, Place, Refusal, DESKTOP_ENTRY};

pub use all::all;
pub use exec::{codes, file_code, words as exec};

use crate::excerpt::is_seen;
use crate::report::shown;

/// A question that is asked of a file.
pub type Ask = fn(&[u8]) -> Result<(), Refusal>;

/// Something wrong with a file: its line counted from 1, the byte in the line from 0, where they are known.
pub struct Fault {
    pub kind: Kind,
    pub line: Option<usize>,
    pub byte: Option<usize>,
    pub words: String,
}

impl Fault {
    /// What a refusal says of a file.
    pub fn of(file: &[u8], refusal: Refusal) -> Fault {
        let (line, byte) = match refusal.at() {
            Place::Byte { line, byte } => (Some(line as usize), Some(byte as usize)),
            Place::Line(line) => (Some(line as usize), None),
            _ => (None, None),
        };
        Fault {
            kind: refusal.kind,
            line,
            byte,
            words: words(file, refusal),
        }
    }
}

/// The words of a refusal of a file; the general ones where nothing more is sure.
fn words(file: &[u8], refusal: Refusal) -> String {
    let lines: Vec<&[u8]> = file.split(|byte| *byte == b'\n').collect();
    let (number, at) = (refusal.place as usize, refusal.byte as usize);
    let words = match (refusal.kind, number) {
        (Kind::BadLine, _) if is_parted_by_cr(file) && file.get(at) == Some(&b'\r') => {
            Some(OLD_MAC.into())
        }
        (Kind::BadLine, _) => {
            line_of(&lines, number).map(|line| bad_line(line, number, at, number < lines.len()))
        }
        (Kind::First, 0) => Some(no_header(file)),
        (Kind::First, _) => first(&lines, number),
        (Kind::GroupTwice, _) => group_twice(&lines, number),
        (Kind::KeyTwice, _) => key_twice(&lines, number),
        (Kind::NoPlain, _) => no_plain(&lines, number),
        (Kind::Incomplete, 0) => missing(file).map(Needed::words),
        (Kind::Incomplete, _) => wrong_value(&lines, number),
        _ => None,
    };
    words.unwrap_or_else(|| refusal.kind.words().into())
}

/// The words of a wrong escape, whose backslash is at this place in the file.
pub fn escape(file: &[u8], place: usize) -> String {
    const ALLOWED: &str =
        "a backslash may stand before s, n, t, r and \\ (in a list also before ;), \
        and a backslash itself is written \\\\";
    let rest = file.get(place..).unwrap_or_default();
    match rest {
        [b'\\'] | [b'\\', b'\n', ..] => {
            "the value ends with a single backslash; a backslash itself is written \\\\".into()
        }
        [b'\\', b';', ..] => "\\; is an escape in lists only; in other values write ; alone".into(),
        [b'\\', ..] => match printed(rest, 1) {
            Some(character) => format!("\\{character} is no escape; {ALLOWED}"),
            None => format!(
                "a backslash before {} is no escape; {ALLOWED}",
                spot(rest, 1)
            ),
        },
        _ => Kind::Escape.words().into(),
    }
}

/// The words of a bad line, with its number, the byte that is told, and whether LF follows.
fn bad_line(line: &[u8], number: usize, at: usize, has_lf: bool) -> String {
    if number == 1 && at == 0 && line.starts_with(BYTE_ORDER_MARK) {
        return "the file starts with a byte order mark (0xEF 0xBB 0xBF); save it as UTF-8 without one".into();
    }
    let words = line::words(line, at, has_lf);
    words.unwrap_or_else(|| Kind::BadLine.words().into())
}

pub const BYTE_ORDER_MARK: &[u8] = b"\xEF\xBB\xBF";

/// Whether a file of one line holds a CR within it.
fn is_parted_by_cr(file: &[u8]) -> bool {
    let inner = file.split_last().map_or(file, |(_, inner)| inner);
    inner.contains(&b'\r') && !file.contains(&b'\n')
}

const OLD_MAC: &str =
    "this file has CR but no LF, as if an old Mac had written it; save it with Unix line ends";

fn no_header(file: &[u8]) -> String {
    let holds = match file.is_empty() {
        true => "the file is empty",
        false => "the file has only blank lines and comments",
    };
    format!("{holds}; it must start with the header [Desktop Entry]")
}

fn first(lines: &[&[u8]], number: usize) -> Option<String> {
    let line = line_of(lines, number)?;
    match entry(line) {
        Some((key, _)) => Some(format!(
            "the key {} stands before any header; the first line that is neither blank nor a comment must be [Desktop Entry]",
            named(key)
        )),
        None => Some(format!(
            "the first header must be [Desktop Entry], but this is [{}]",
            named(header(line)?)
        )),
    }
}

fn group_twice(lines: &[&[u8]], number: usize) -> Option<String> {
    let line = line_of(lines, number)?;
    let before = lines[..number - 1]
        .iter()
        .position(|other| *other == line)?;
    Some(format!(
        "the group {} starts in line {} already; put its entries there",
        named(header(line)?),
        before + 1
    ))
}

fn key_twice(lines: &[&[u8]], number: usize) -> Option<String> {
    let (key, _) = entry(line_of(lines, number)?)?;
    let before = lines[..number - 1].iter();
    let in_group = before.rev().take_while(|line| !line.starts_with(b"["));
    let passed = in_group
        .enumerate()
        .filter(|(_, line)| entry(line).is_some_and(|(other, _)| other == key));
    let (passed, _) = passed.last()?;
    Some(format!(
        "the key {} stands in this group already, in line {}; keep one of the two",
        named(key),
        number - 1 - passed
    ))
}

fn no_plain(lines: &[&[u8]], number: usize) -> Option<String> {
    let (key, _) = entry(line_of(lines, number)?)?;
    let plain = named(plain(key)?);
    let mut before = lines[..number - 1].iter().rev();
    let group = match header(before.find(|line| line.starts_with(b"["))?) {
        Some(name) => format!("the group {}", named(name)),
        None => "its group".into(),
    };
    Some(format!(
        "{} needs the key {plain} without a [locale] beside it in {group}; add {plain}=",
        named(key),
    ))
}

/// A key that a complete file needs.
#[derive(Clone, Copy, PartialEq)]
enum Needed {
    Type,
    Name,
    Exec,
    Url,
}

impl Needed {
    fn key(self) -> &'static str {
        match self {
            Needed::Type => "Type",
            Needed::Name => "Name",
            Needed::Exec => "Exec",
            Needed::Url => "URL",
        }
    }

    fn words(self) -> String {
        let reason = match self {
            Needed::Type => "every file says what it is: Application, Link or Directory",
            Needed::Name => "every file says what it is called in a menu",
            Needed::Exec => {
                "an Application says which command it runs, unless DBusActivatable is true"
            }
            Needed::Url => "a Link says which address it opens",
        };
        format!(
            "the key {} is missing in the group Desktop Entry; {reason}",
            self.key()
        )
    }
}

/// Which key is missing in a well-formed file that is refused as incomplete without a line.
fn missing(file: &[u8]) -> Option<Needed> {
    let value = |key: Needed| kveldrim::lookup(file, DESKTOP_ENTRY, key.key().as_bytes());
    let is_missing = |key: &Needed| value(*key).is_err_and(|refusal| refusal.kind == Kind::Missing);
    let by_type = match value(Needed::Type) {
        Ok(b"Link") => Needed::Url,
        _ => Needed::Exec,
    };
    [Needed::Type, Needed::Name, by_type]
        .into_iter()
        .find(is_missing)
}

fn wrong_value(lines: &[&[u8]], number: usize) -> Option<String> {
    let (key, value) = entry(line_of(lines, number)?)?;
    let allowed = match key {
        b"Type" => "Application, Link or Directory",
        _ => "true or false",
    };
    Some(format!(
        "the value of {} is {}, but it may only be {allowed}",
        named(key),
        match value {
            b"" => "empty".into(),
            _ => format!("\"{}\"", named(value)),
        }
    ))
}

fn line_of<'a>(lines: &[&'a [u8]], number: usize) -> Option<&'a [u8]> {
    lines.get(number.checked_sub(1)?).copied()
}

/// The name of a good header's line.
pub fn header(line: &[u8]) -> Option<&[u8]> {
    line.strip_prefix(b"[")?.strip_suffix(b"]")
}

/// Whether a well-formed file has a group.
pub fn has_group(file: &[u8], group: &[u8]) -> bool {
    let mut lines = file.split(|byte| *byte == b'\n');
    lines.any(|line| header(line) == Some(group))
}

/// The key, with its postfix, and the raw value of a good entry's line; none for other good lines.
pub fn entry(line: &[u8]) -> Option<(&[u8], &[u8])> {
    if matches!(line.first()?, b' ' | b'\t' | b'#' | b'[') {
        return None;
    }
    let sign = line.iter().position(|byte| *byte == b'=')?;
    let value = line[sign + 1..].iter().position(|byte| *byte != b' ');
    let value = value.map_or(&b""[..], |spaces| &line[sign + 1 + spaces..]);
    Some((line[..sign].trim_ascii_end(), value))
}

/// A key without its postfix; none if it has no postfix.
pub fn plain(key: &[u8]) -> Option<&[u8]> {
    let bracket = key.iter().position(|byte| *byte == b'[')?;
    Some(&key[..bracket])
}

/// A name, key or value in words; of a long one the start.
pub fn named(text: &[u8]) -> String {
    const MOST: usize = 60;
    let shown = shown(OsStr::from_bytes(text));
    let shown = String::from_utf8_lossy(&shown);
    match shown.char_indices().nth(MOST) {
        Some((cut, _)) => format!("{}...", &shown[..cut]),
        None => shown.into(),
    }
}

/// What stands at a place in a line or value, in words.
pub fn spot(line: &[u8], at: usize) -> String {
    match line[at] {
        b' ' => "a space".into(),
        b'\t' => "a tab".into(),
        b'\n' => "a line feed".into(),
        b'\r' => "a CR".into(),
        b'"' => "'\"'".into(),
        byte if byte.is_ascii_graphic() => format!("\"{}\"", byte as char),
        byte if byte.is_ascii() => format!("the control byte {}", hex(&[byte])),
        byte => match character(line, at) {
            Some(character) => {
                let bytes = hex(character.encode_utf8(&mut [0; 4]).as_bytes());
                match is_seen(character) {
                    true => format!("\"{character}\" ({bytes})"),
                    false => format!("U+{:04X} ({bytes})", character as u32),
                }
            }
            None => format!("the byte {}", hex(&[byte])),
        },
    }
}

/// The character that starts at a place, if it is UTF-8.
fn character(line: &[u8], at: usize) -> Option<char> {
    line.get(at..)?.utf8_chunks().next()?.valid().chars().next()
}

/// The character at a place, if it is seen on its own.
fn printed(line: &[u8], at: usize) -> Option<char> {
    character(line, at).filter(|character| is_seen(*character))
}

/// Bytes as `0xC3 0xBC`.
fn hex(bytes: &[u8]) -> String {
    let digits: Vec<String> = bytes.iter().map(|byte| format!("0x{byte:02X}")).collect();
    digits.join(" ")
}
