//! `kveldrim actions`: the actions of an application, further ways to start it.

use std::collections::HashSet;
use std::ffi::OsStr;
use std::io::{self, IsTerminal};
use std::ops::Range;
use std::os::unix::ffi::OsStrExt;
use std::process::ExitCode;

use kveldrim::{Action, Kind, Refusal, DESKTOP_ENTRY};
use serde_json::json;

use crate::arguments::Actions;
use crate::faults::{has_group, named, spot};
use crate::json::{line, text};
use crate::report::{escaped, line_at, warn_of_many, Trouble};
use crate::{locale, streams};

/// The command.
pub fn actions(asked: &Actions) -> ExitCode {
    streams::answer(&asked.file, |file| answer(asked, file))
}

/// What is to be written.
fn answer(asked: &Actions, file: &[u8]) -> Result<Vec<u8>, Trouble> {
    let groups: Vec<_> = listed(file).iter().map(|action| group_of(action)).collect();
    let locale = locale::of_names(file, &groups, &asked.locale);
    let actions = kveldrim::actions_vec(file, &locale)
        .map_err(|refusal| trouble(&asked.file, file, &locale, refusal))?;
    if !asked.no_warn {
        warn(&asked.file, file, &actions);
    }
    if actions.is_empty() && io::stdout().is_terminal() {
        Trouble::note(&asked.file, "no action is listed").tell();
    }
    let shown = actions.iter().flat_map(|action| shown(asked, action));
    Ok(shown.collect())
}

/// An action as it is written: a line, two texts with a zero byte after each, or an object.
fn shown(asked: &Actions, Action { identifier, label }: &Action) -> Vec<u8> {
    if asked.json.json {
        return line(&json!({
            "file": text(asked.file.as_bytes()),
            "identifier": text(identifier),
            "label": text(label),
        }));
    }
    match asked.null {
        true => [identifier, &b"\0"[..], label, b"\0"].concat(),
        false => [identifier, &b"\t"[..], &escaped(label), b"\n"].concat(),
    }
}

/// A refusal in words, at its line and byte where they are known.
fn trouble(name: &OsStr, file: &[u8], locale: &[u8], refusal: Refusal) -> Trouble {
    match refusal.kind {
        Kind::Escape => {
            let start = wrong_list(file).or_else(|| wrong_label(file, locale));
            Trouble::of_value(name, file, start.unwrap_or_default(), refusal)
        }
        _ => Trouble::of_question(name, DESKTOP_ENTRY, b"Actions", file, refusal),
    }
}

/// Warns of identifiers in Actions that are not listed, or not as often as they stand there.
fn warn(name: &OsStr, file: &[u8], actions: &[Action]) {
    let (line, _) = line_at(file, list(file).start);
    let elements = elements(file);
    let words = |identifier: &Vec<u8>| {
        let mut listed = actions.iter().map(|action| &action.identifier);
        if !listed.any(|listed| listed == identifier) {
            return Some(not_listed(identifier, &obstacle(file, identifier)?));
        }
        let same = elements.iter().filter(|element| *element == identifier);
        (same.count() > 1).then(|| {
            let action = named(identifier);
            format!("the action {action} stands in Actions more than once; it is listed where it first stands")
        })
    };
    let words: Vec<String> = identifiers(file).iter().filter_map(words).collect();
    let warning = |words: String| Trouble::warning_of(name, words).at_line(name, line);
    let rest = [
        "action is not listed, or stands in Actions more than once",
        "actions are not listed, or stand in Actions more than once",
    ];
    warn_of_many(name, words.into_iter(), warning, rest);
}

/// Where the raw value of Actions stands; an empty part where there is none.
fn list(file: &[u8]) -> Range<usize> {
    kveldrim::lookup_ends(file, DESKTOP_ENTRY, b"Actions").unwrap_or(0..0)
}

/// The elements of Actions; none if it cannot be read.
fn elements(file: &[u8]) -> Vec<Vec<u8>> {
    kveldrim::read_list_vec(&file[list(file)]).unwrap_or_default()
}

/// The elements of Actions, each where it first stands.
fn identifiers(file: &[u8]) -> Vec<Vec<u8>> {
    let mut seen = HashSet::new();
    let elements = elements(file).into_iter();
    elements
        .filter(|element| seen.insert(element.clone()))
        .collect()
}

/// The identifiers of the listed actions. It is not asked whether their labels can be read.
pub fn listed(file: &[u8]) -> Vec<Vec<u8>> {
    let mut listed = identifiers(file);
    listed.retain(|identifier| obstacle(file, identifier).is_none());
    listed
}

/// The group of an action.
pub fn group_of(action: &[u8]) -> Vec<u8> {
    [b"Desktop Action ", action].concat()
}

/// Where the value of Actions starts, if it has a wrong escape.
pub fn wrong_list(file: &[u8]) -> Option<usize> {
    let list = list(file);
    let read = kveldrim::read_list_vec(&file[list.clone()]);
    read.is_err().then_some(list.start)
}

/// Where the first label starts that has a wrong escape.
fn wrong_label(file: &[u8], locale: &[u8]) -> Option<usize> {
    listed(file).iter().find_map(|action| {
        let label = kveldrim::choose_ends(file, &group_of(action), b"Name", locale).ok()?;
        let read = kveldrim::read_text_vec(&file[label.clone()]);
        read.is_err().then_some(label.start)
    })
}

/// Why an action is not listed; none if it is.
pub fn unlisted(file: &[u8], action: &[u8]) -> Option<String> {
    match () {
        () if kveldrim::lookup(file, DESKTOP_ENTRY, b"Actions").is_err() => {
            Some("the key Actions is missing in the group Desktop Entry".into())
        }
        () if !elements(file).iter().any(|element| element == action) => {
            Some("it does not stand in Actions".into())
        }
        () => obstacle(file, action),
    }
}

/// The words for an action that is not listed, with those that are; none if it is.
pub fn missing(file: &[u8], action: &[u8]) -> Option<String> {
    const MOST: usize = 10;
    let why = unlisted(file, action)?;
    let listed = listed(file);
    let names = listed.iter().take(MOST).map(|other| named(other));
    let names = names.collect::<Vec<_>>().join(", ");
    let others = match listed.len() {
        0 => "no action is listed".into(),
        1..=MOST => format!("listed are {names}"),
        _ => format!("listed are {names}, ..."),
    };
    Some(not_listed(action, &format!("{why}; {others}")))
}

fn not_listed(action: &[u8], why: &str) -> String {
    format!("the action {} is not listed: {why}", named(action))
}

/// Why an identifier in Actions is not listed; none if it is.
fn obstacle(file: &[u8], identifier: &[u8]) -> Option<String> {
    let group = group_of(identifier);
    match () {
        () if !is_plain_key(identifier) => Some(form(identifier)),
        () if !has_group(file, &group) => Some(format!("there is no group {}", named(&group))),
        () if kveldrim::lookup(file, &group, b"Name").is_err() => Some(format!(
            "the key Name is missing in the group {}",
            named(&group)
        )),
        () => None,
    }
}

/// Why an identifier is not of the form of a key.
fn form(identifier: &[u8]) -> String {
    let mut bytes = identifier.iter();
    match bytes.position(|byte| !is_plain_key(&[*byte])) {
        Some(at) => format!(
            "{} cannot stand in an identifier; it has letters A-Z a-z, digits and \"-\"",
            spot(identifier, at)
        ),
        None => "an identifier cannot be empty".into(),
    }
}

/// Whether a word is of the form of a key without a postfix, as the core sees it.
fn is_plain_key(word: &[u8]) -> bool {
    let asked = kveldrim::choose(b"[Desktop Entry]\n", DESKTOP_ENTRY, word, b"");
    asked.is_err_and(|refusal| refusal.kind == Kind::Missing)
}

#[cfg(test)]
mod tests {
    use compare::actions::file;
    use compare::random::Random;

    use super::*;

    /// What is said of a file's actions is what the core answers.
    #[test]
    fn reasons_agree_with_the_core() {
        let mut random = Random::new(1);
        let mut counts = [0; 4];
        for _ in 0..4_000 {
            let file = file(&mut random, 12);
            let count = match kveldrim::actions_vec(&file, b"de") {
                Ok(actions) => {
                    let identifiers = actions.into_iter().map(|action| action.identifier);
                    assert_eq!(identifiers.collect::<Vec<_>>(), listed(&file));
                    for identifier in elements(&file) {
                        let is_listed = listed(&file).contains(&identifier);
                        assert_eq!(unlisted(&file, &identifier).is_none(), is_listed);
                    }
                    0
                }
                Err(refusal) if refusal.kind == Kind::Escape => {
                    let list = wrong_list(&file);
                    let start = list.or_else(|| wrong_label(&file, b"de")).unwrap();
                    assert_eq!(file[start + refusal.place as usize], b'\\');
                    1 + usize::from(list.is_some())
                }
                Err(_) => 3,
            };
            counts[count] += 1;
        }
        assert!(counts[..3].iter().all(|count| *count > 100), "{counts:?}");
    }
}
