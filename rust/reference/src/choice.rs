//! Paper 01, "Language, escapes, lists", the part on language. Paper 02, A3: keys that carry an encoding.

use crate::classes::Part;
use crate::file::{check, find_entry, find_group, read_groups, Entry, Group};
use crate::lines::{is_group, is_plain_key};
use crate::locale::{is_locale, read_locale};
use crate::refusal::Refusal;

/// The postfixes that a locale tries before the plain key, in order; none for the empty one, C and POSIX.
pub fn candidates(locale: &[u8]) -> Vec<Vec<u8>> {
    let Ok(read) = read_locale(locale, 0) else {
        return Vec::new();
    };
    let lang = &locale[read.lang.0..read.lang.1];
    let country = read.country.map(|part| &locale[part.0..part.1]);
    let modifier = read.modifier.map(|part| &locale[part.0..part.1]);
    if country.is_none() && modifier.is_none() && (lang == b"C" || lang == b"POSIX") {
        return Vec::new();
    }
    let mut tried = Vec::new();
    if let (Some(country), Some(modifier)) = (country, modifier) {
        tried.push([lang, b"_", country, b"@", modifier].concat());
    }
    if let Some(country) = country {
        tried.push([lang, b"_", country].concat());
    }
    if let Some(modifier) = modifier {
        tried.push([lang, b"@", modifier].concat());
    }
    tried.push(lang.to_vec());
    tried
}

/// A LOCALE without its `.`ENCODING, which ends before the `@` or with the LOCALE.
pub fn strip_encoding(locale: &[u8]) -> Vec<u8> {
    let first = |mark| locale.iter().position(|byte| *byte == mark);
    let modifier = first(b'@').unwrap_or(locale.len());
    let encoding = first(b'.').unwrap_or(modifier);
    [&locale[..encoding], &locale[modifier..]].concat()
}

/// Choice: 1 to 6, then 7, then 8 "exactly if the plain key is missing, or its whole group".
pub fn choose(
    file: &[u8],
    group: &[u8],
    key: &[u8],
    locale: &[u8],
) -> Result<(usize, usize), Refusal> {
    check(file)?;
    if !is_group(group) || !is_plain_key(key) || !is_locale(locale) {
        return Err(Refusal::new(7));
    }
    let groups = read_groups(file);
    let group = find_group(&groups, group).ok_or(Refusal::new(8))?;
    find_chosen(group, key, locale)
}

/// The value's two ends in a group, or 8. A3 on the encoding: "Strip it on both sides. Where two postfixes become equal, the
/// earlier line wins, for every locale."
pub fn find_chosen(group: &Group, key: &[u8], locale: &[u8]) -> Result<Part, Refusal> {
    let plain = find_entry(group, key, None).ok_or(Refusal::new(8))?;
    for candidate in candidates(locale) {
        let is_candidate = |entry: &&Entry| {
            let stripped = entry.postfix.map(strip_encoding);
            entry.key == key && stripped.as_ref() == Some(&candidate)
        };
        if let Some(entry) = group.entries.iter().find(is_candidate) {
            return Ok(entry.value);
        }
    }
    Ok(plain.value)
}
