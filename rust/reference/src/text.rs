//! Paper 01, "Language, escapes, lists", the part on escapes and lists; and UTF-8 by RFC 3629.

use crate::records::write_records;
use crate::refusal::Refusal;

/// The range of every UTF-8 byte after the first, but for the second bytes named in `bytes_after`.
const TAIL: (u8, u8) = (0x80, 0xBF);

/// RFC 3629, section 4: the ranges of the bytes that follow a first byte; none for a byte that starts nothing.
fn bytes_after(first: u8) -> Option<&'static [(u8, u8)]> {
    match first {
        0x00..=0x7F => Some(&[]),
        0xC2..=0xDF => Some(&[TAIL]),
        0xE0 => Some(&[(0xA0, 0xBF), TAIL]),
        0xE1..=0xEC => Some(&[TAIL, TAIL]),
        0xED => Some(&[(0x80, 0x9F), TAIL]),
        0xEE..=0xEF => Some(&[TAIL, TAIL]),
        0xF0 => Some(&[(0x90, 0xBF), TAIL, TAIL]),
        0xF1..=0xF3 => Some(&[TAIL, TAIL, TAIL]),
        0xF4 => Some(&[(0x80, 0x8F), TAIL, TAIL]),
        _ => None,
    }
}

/// Where bytes stop being UTF-8: the first byte that no ending repairs, or the length if unfinished.
pub fn utf8_fault(bytes: &[u8]) -> Option<usize> {
    let mut at = 0;
    while at < bytes.len() {
        let Some(ranges) = bytes_after(bytes[at]) else {
            return Some(at);
        };
        at += 1;
        for (least, greatest) in ranges {
            match bytes.get(at) {
                Some(byte) if least <= byte && byte <= greatest => at += 1,
                _ => return Some(at),
            }
        }
    }
    None
}

/// "The value is UTF-8 by RFC 3629, without 0x00 to 0x1F and 0x7F": where it breaks this, if it does.
pub fn value_fault(value: &[u8]) -> Option<usize> {
    let control = value.iter().position(|byte| *byte < 0x20 || *byte == 0x7F);
    match (control, utf8_fault(value)) {
        (Some(control), Some(other)) => Some(control.min(other)),
        (control, other) => control.or(other),
    }
}

/// "Text to set is UTF-8 without other bytes below 0x20 and without 0x7F"; other than LF, tab and CR.
pub fn is_fit_text(text: &[u8]) -> bool {
    let control = |byte: &u8| *byte < 0x20 && !b"\n\t\r".contains(byte) || *byte == 0x7F;
    !text.iter().any(control) && utf8_fault(text).is_none()
}

/// "`\s` space, `\n` LF, `\t` tab, `\r` CR, `\\` backslash": what the byte after a backslash stands for.
fn escaped(byte: u8) -> Option<u8> {
    match byte {
        b's' => Some(b' '),
        b'n' => Some(b'\n'),
        b't' => Some(b'\t'),
        b'r' => Some(b'\r'),
        b'\\' => Some(b'\\'),
        _ => None,
    }
}

/// Reading text: 9 for an unknown or unfinished escape, at its backslash.
pub fn unescape(raw: &[u8]) -> Result<Vec<u8>, Refusal> {
    let mut text = Vec::new();
    let mut at = 0;
    while at < raw.len() {
        if raw[at] != b'\\' {
            text.push(raw[at]);
            at += 1;
            continue;
        }
        let known = raw.get(at + 1).and_then(|byte| escaped(*byte));
        text.push(known.ok_or(Refusal::at(9, at))?);
        at += 2;
    }
    Ok(text)
}

/// Writing text: "backslash, LF, tab and CR as these; a space as `\s` only if it is the first byte"; else 10.
pub fn escape(text: &[u8]) -> Result<Vec<u8>, Refusal> {
    if !is_fit_text(text) {
        return Err(Refusal::new(10));
    }
    let mut raw = Vec::new();
    for (at, byte) in text.iter().enumerate() {
        match byte {
            b'\\' => raw.extend(b"\\\\"),
            b'\n' => raw.extend(b"\\n"),
            b'\t' => raw.extend(b"\\t"),
            b'\r' => raw.extend(b"\\r"),
            b' ' if at == 0 => raw.extend(b"\\s"),
            _ => raw.push(*byte),
        }
    }
    Ok(raw)
}

/// List: "a backslash takes the next byte with it; a `;` outside such a pair ends an element"; else 9.
pub fn split_list(raw: &[u8]) -> Result<Vec<Vec<u8>>, Refusal> {
    let mut elements = Vec::new();
    let mut element = Vec::new();
    let mut start = 0;
    let mut at = 0;
    while at < raw.len() {
        match raw[at] {
            b'\\' => {
                let known = match raw.get(at + 1) {
                    Some(b';') => Some(b';'),
                    Some(byte) => escaped(*byte),
                    None => None,
                };
                element.push(known.ok_or(Refusal::at(9, at))?);
                at += 2;
            }
            b';' => {
                elements.push(std::mem::take(&mut element));
                at += 1;
                start = at;
            }
            byte => {
                element.push(byte);
                at += 1;
            }
        }
    }
    if start < raw.len() {
        elements.push(element);
    }
    Ok(elements)
}

/// Bytes go to the start of the output, "the rest keeps its bytes"; 11 if it is too small.
pub fn put_out(bytes: &[u8], out: &mut [u8]) -> Result<usize, Refusal> {
    if bytes.len() > out.len() {
        return Err(Refusal::new(11));
    }
    out[..bytes.len()].copy_from_slice(bytes);
    Ok(bytes.len())
}

/// The call that reads text: 9, then 11.
pub fn read_text(raw: &[u8], out: &mut [u8]) -> Result<usize, Refusal> {
    put_out(&unescape(raw)?, out)
}

/// The call that writes text: 10, then 11.
pub fn write_text(text: &[u8], out: &mut [u8]) -> Result<usize, Refusal> {
    put_out(&escape(text)?, out)
}

/// The call that reads a list: "read elements are written as records of kind 2"; 9, then 11.
pub fn read_list(raw: &[u8], out: &mut [u8]) -> Result<usize, Refusal> {
    write_records(2, &split_list(raw)?, out)
}
