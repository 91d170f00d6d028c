//! Paper 01, "Lines of a file": LOCALE and its parts, and the form of a locale argument.

use crate::classes::{is_key_byte, skip, Part};

/// "LOCALE is lang, then perhaps `_`COUNTRY, `.`ENCODING, `@`MODIFIER"; the encoding is read, not kept.
pub struct Locale {
    pub lang: Part,
    pub country: Option<Part>,
    pub modifier: Option<Part>,
    pub end: usize,
}

/// Reads a LOCALE that starts at `start`, as far as it goes; Err is the byte where a part should be and is not.
pub fn read_locale(bytes: &[u8], start: usize) -> Result<Locale, usize> {
    let lang = read_part(bytes, start)?;
    let mut end = lang.1;
    let country = read_marked_part(bytes, b'_', &mut end)?;
    read_marked_part(bytes, b'.', &mut end)?;
    let modifier = read_marked_part(bytes, b'@', &mut end)?;
    Ok(Locale {
        lang,
        country,
        modifier,
        end,
    })
}

/// "Each part is one or more of A-Z a-z 0-9 `-`."
fn read_part(bytes: &[u8], start: usize) -> Result<Part, usize> {
    let end = skip(bytes, start, is_key_byte);
    if end == start {
        return Err(start);
    }
    Ok((start, end))
}

/// A part after its mark, or none if the mark is not there; `at` moves behind the part.
fn read_marked_part(bytes: &[u8], mark: u8, at: &mut usize) -> Result<Option<Part>, usize> {
    if bytes.get(*at) != Some(&mark) {
        return Ok(None);
    }
    let part = read_part(bytes, *at + 1)?;
    *at = part.1;
    Ok(Some(part))
}

/// 7: a locale argument is empty (house) or a whole LOCALE.
pub fn is_locale(locale: &[u8]) -> bool {
    locale.is_empty() || read_locale(locale, 0).is_ok_and(|read| read.end == locale.len())
}
