//! Paper 02, A1, "Actions as a submenu": the list of actions, and the expansion of an action's own Exec.

use crate::choice::find_chosen;
use crate::exec::{expand_group, group_runs, read_items};
use crate::file::{check, find_entry, find_group, read_groups, Group, DESKTOP_ENTRY};
use crate::lines::is_plain_key;
use crate::locale::is_locale;
use crate::records::write_records;
use crate::refusal::Refusal;
use crate::text::{split_list, unescape};

/// "A group `Desktop Action` followed by a space and the identifier."
pub fn action_group(identifier: &[u8]) -> Vec<u8> {
    [b"Desktop Action ", identifier].concat()
}

/// The list call, "each as two records of kind 2, identifier then label text". "Refusals: as in 01, Actions before labels,
/// these in list order": 1 to 6, 7, 9 of Actions, 9 of a label, 11.
pub fn actions(file: &[u8], locale: &[u8], out: &mut [u8]) -> Result<usize, Refusal> {
    check(file)?;
    if !is_locale(locale) {
        return Err(Refusal::new(7));
    }
    let groups = read_groups(file);
    let mut texts = Vec::new();
    for (identifier, group) in find_listed(file, &groups)? {
        // "With the label in the pupil's language."
        let (start, end) = find_chosen(group, b"Name", locale)?;
        texts.push(identifier);
        texts.push(unescape(&file[start..end])?);
    }
    write_records(2, &texts, out)
}

/// The identifiers that the list call lists in a well-formed file, or 9 of Actions.
pub fn listed(file: &[u8]) -> Result<Vec<Vec<u8>>, Refusal> {
    let groups = read_groups(file);
    let listed = find_listed(file, &groups)?.into_iter();
    Ok(listed.map(|(identifier, _)| identifier).collect())
}

/// The listed identifiers with their groups, "in list order"; 9 of Actions.
fn find_listed<'a, 'b>(
    file: &[u8],
    groups: &'b [Group<'a>],
) -> Result<Vec<(Vec<u8>, &'b Group<'a>)>, Refusal> {
    let application = find_group(groups, DESKTOP_ENTRY);
    // "None without Actions."
    let Some(list) = application.and_then(|group| find_entry(group, b"Actions", None)) else {
        return Ok(Vec::new());
    };
    let mut listed: Vec<(Vec<u8>, &Group)> = Vec::new();
    for identifier in split_list(&file[list.value.0..list.value.1])? {
        // "Each identifier in key form (others are skipped)"; "a repeated identifier where it first stands".
        let is_repeated = listed.iter().any(|(other, _)| *other == identifier);
        if !is_plain_key(&identifier) || is_repeated {
            continue;
        }
        // "Those whose group exists and has a Name."
        let group = find_group(groups, &action_group(&identifier));
        if let Some(group) = group.filter(|group| find_entry(group, b"Name", None).is_some()) {
            listed.push((identifier, group));
        }
    }
    Ok(listed)
}

/// "Expand an action's own Exec": what every expansion asks first, then what is asked of the action, then as for the
/// application's Exec.
pub fn expand_action(
    file: &[u8],
    action: &[u8],
    locale: &[u8],
    location: &[u8],
    list: &[u8],
    run: u64,
    out: &mut [u8],
) -> Result<usize, Refusal> {
    let items = read_items(file, locale, location, list)?;
    let group = asked_group(file, action)?;
    expand_group(file, &group, locale, location, items, run, out)
}

/// The number of runs of an action; refused as its expansion is up to 15 and 16.
pub fn action_runs(
    file: &[u8],
    action: &[u8],
    locale: &[u8],
    location: &[u8],
    list: &[u8],
) -> Result<u64, Refusal> {
    let items = read_items(file, locale, location, list)?;
    group_runs(file, &asked_group(file, action)?, &items)
}

/// The group's name. "An identifier not listed, of any form, is 8, after a fault of Actions."
fn asked_group(file: &[u8], action: &[u8]) -> Result<Vec<u8>, Refusal> {
    match listed(file)?.iter().any(|identifier| identifier == action) {
        true => Ok(action_group(action)),
        false => Err(Refusal::new(8)),
    }
}
