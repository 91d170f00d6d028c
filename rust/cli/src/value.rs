//! `kveldrim get` and `kveldrim list`: the value of a key.

use std::ops::Range;
use std::os::unix::ffi::OsStrExt;
use std::process::ExitCode;

use kveldrim::Refusal;
use serde_json::{json, Value};

use crate::arguments::{Get, List, Wanted};
use crate::json::{line, text};
use crate::report::Trouble;
use crate::{locale, streams};

pub fn get(get: &Get) -> ExitCode {
    let read = |raw: &[u8]| match get.raw {
        true => Ok(raw.to_vec()),
        false => kveldrim::read_text_vec(raw),
    };
    answer(&get.wanted, read, |value| {
        let line = [value, &b"\n"[..]].concat();
        (line, text(value))
    })
}

pub fn list(list: &List) -> ExitCode {
    let end = if list.null { b"\0" } else { b"\n" };
    answer(&list.wanted, kveldrim::read_list_vec, |elements| {
        let lines = elements
            .iter()
            .flat_map(|element| [element, &end[..]].concat());
        let array = elements.iter().map(|element| text(element)).collect();
        (lines.collect(), Value::Array(array))
    })
}

/// Finds the raw value that is wanted, reads it, and writes it as lines or as an object.
fn answer<A>(
    wanted: &Wanted,
    read: impl Fn(&[u8]) -> Result<A, Refusal>,
    shown: impl Fn(&A) -> (Vec<u8>, Value),
) -> ExitCode {
    streams::answer(&wanted.file, |bytes| {
        let ends = find(wanted, bytes)?;
        let read = read(&bytes[ends.clone()])
            .map_err(|refusal| Trouble::of_value(&wanted.file, bytes, ends.start, refusal))?;
        let (lines, value) = shown(&read);
        Ok(match wanted.json.json {
            true => line(&json!({
                "file": text(wanted.file.as_bytes()),
                "group": text(wanted.group.group.as_bytes()),
                "key": text(wanted.key.as_bytes()),
                "value": value,
            })),
            false => lines,
        })
    })
}

/// Where the raw value stands that is wanted: by its locales, or just by its key.
fn find(wanted: &Wanted, file: &[u8]) -> Result<Range<usize>, Trouble> {
    let (group, key) = (wanted.group.group.as_bytes(), wanted.key.as_bytes());
    let found = match &wanted.locale.locale {
        None => kveldrim::lookup_ends(file, group, key),
        Some(locale) => locale::choose(file, group, key, &locale::asked(locale)),
    };
    found.map_err(|refusal| Trouble::of_question(&wanted.file, group, key, file, refusal))
}
