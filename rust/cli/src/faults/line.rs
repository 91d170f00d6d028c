//! Why a line is bad.

use super::{hex, named, spot};

/// What a locale looks like.
const LOCALE: &str = "a locale is as de, de_AT, de_AT.UTF-8 or de_AT.UTF-8@euro";

/// The words for a bad line, told from `at`: the first byte after which no ending could make the line good, or the line's length
/// where it is only unfinished. None where the reason is not sure.
pub fn words(line: &[u8], at: usize, has_lf: bool) -> Option<String> {
    if ends_with_cr(line, at) {
        return Some(line_end(has_lf).into());
    }
    let before = line.get(..at)?;
    match before.first() {
        None => start(line),
        Some(b' ' | b'\t') => indented(line, at),
        Some(b'[') => header(line, at),
        Some(_) if before.contains(&b'=') => value(line, at),
        Some(_) if before.contains(&b'[') && !before.contains(&b']') => locale(line, at),
        Some(_) => key(line, at),
    }
}

/// Whether a line is bad for its CR at the end.
pub fn ends_with_cr(line: &[u8], at: usize) -> bool {
    at + 1 == line.len() && line[at] == b'\r'
}

fn line_end(has_lf: bool) -> &'static str {
    match has_lf {
        true => "this line ends with CR LF, as Windows writes it; save the file with Unix line ends, or run dos2unix on it",
        false => "this line ends with a CR; remove it",
    }
}

fn start(line: &[u8]) -> Option<String> {
    Some(match line.first()? {
        b'=' => "there is no key before \"=\"; write Key=value".into(),
        _ => format!(
            "a line cannot start with {}; a comment starts with \"#\", a header with \"[\", \
                an entry with its key (letters A-Z a-z, digits and \"-\")",
            spot(line, 0)
        ),
    })
}

fn indented(line: &[u8], at: usize) -> Option<String> {
    line.get(at)?;
    Some(format!(
        "this line is indented; remove the spaces or tabs before {}",
        spot(line, at)
    ))
}

fn header(line: &[u8], at: usize) -> Option<String> {
    let Some(byte) = line.get(at) else {
        return Some("this header is not closed; write \"]\" at its end".into());
    };
    let spot = spot(line, at);
    let is_closed = line[..at].ends_with(b"]");
    Some(match byte {
        _ if is_closed => format!("{spot} stands after \"]\"; a header ends there, so remove what follows"),
        b']' => "this header has no name; write one between \"[\" and \"]\"".into(),
        b'[' => "a second \"[\" stands in this header; its name can hold neither \"[\" nor \"]\"".into(),
        _ => format!("{spot} cannot stand in a header; its name takes letters without accents, digits, spaces and signs (ASCII)"),
    })
}

/// The byte is in the key, or before `=`, perhaps behind a whole postfix.
fn key(line: &[u8], at: usize) -> Option<String> {
    let before = &line[..at];
    let key = before.trim_ascii_end();
    let name = named(key);
    let Some(byte) = line.get(at) else {
        return Some(format!(
            "there is no \"=\" after the key {name}; write {name}=value, or \"#\" first if this is a comment"
        ));
    };
    let spot = spot(line, at);
    let has_ended = key.ends_with(b"]") || key.len() < before.len() || *byte == b'\t';
    Some(match byte {
        b'[' if key.len() < before.len() && !key.ends_with(b"]") => {
            format!("a space stands between the key {name} and \"[\"; write the [locale] right behind the key")
        }
        _ if has_ended => format!("after the key {name} only spaces and \"=\" may come, not {spot}"),
        _ => format!("{spot} cannot stand in a key; a key has letters A-Z a-z, digits and \"-\", then comes \"=\""),
    })
}

fn locale(line: &[u8], at: usize) -> Option<String> {
    let Some(byte) = line.get(at) else {
        return Some(format!(
            "the [locale] of this key is not closed by \"]\"; {LOCALE}"
        ));
    };
    Some(match byte {
        b']' if line[..at].ends_with(b"[") => {
            "there is no locale between \"[\" and \"]\"; write one, as de or de_AT, or leave the brackets out".into()
        }
        b']' => format!("the locale is not finished before \"]\"; {LOCALE}"),
        _ => format!("{} cannot stand here in a locale; {LOCALE}", spot(line, at)),
    })
}

fn value(line: &[u8], at: usize) -> Option<String> {
    let sign = line.iter().position(|byte| *byte == b'=')?;
    let begun = begun(&line[sign + 1..at])?;
    let save = "save the file as UTF-8";
    let Some(byte) = line.get(at) else {
        return Some(format!(
            "the line ends within a character ({}), so it is not UTF-8; {save}",
            hex(begun)
        ));
    };
    let spot = spot(line, at);
    Some(match byte {
        _ if !begun.is_empty() => {
            let bytes = hex(&[begun, &[*byte]].concat());
            format!("the bytes {bytes} are not UTF-8; {save}")
        }
        b'\t' => format!("{spot} stands in the value; write \\t for it, or a space"),
        b'\r' => format!("{spot} stands in the value; write \\r for it, or remove it"),
        0..=0x1F | 0x7F => format!("{spot} stands in the value; remove it"),
        0x80.. => format!("the byte {} is not UTF-8; {save}", hex(&[*byte])),
        _ => return None,
    })
}

/// The bytes of a character that has begun but not ended; none if the bytes before are no text.
fn begun(value: &[u8]) -> Option<&[u8]> {
    match std::str::from_utf8(value) {
        Ok(_) => Some(b""),
        Err(error) if error.error_len().is_none() => Some(&value[error.valid_up_to()..]),
        Err(_) => None,
    }
}
