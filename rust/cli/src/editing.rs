//! `kveldrim set`, `remove`, `undo`, `redo`, `log` and `forget`: edits of a file with its journal.

use std::cell::Cell;
use std::collections::BTreeSet;
use std::ffi::OsStr;
use std::iter;
use std::os::unix::ffi::OsStrExt;
use std::process::ExitCode;

use kveldrim::{Document, Edit, Edits, Kind, Person, Refusal};
use serde_json::json;

use crate::arguments::{Change, Editing, Forget, Json, Key, Log, Manner, Remove, Set, Step, Who};
use crate::log::{edits, Done, Recorded, State, Tense, Told};
use crate::persons::{given_person, Persons};
use crate::report::{warn_of_many, Trouble};
use crate::store::Store;
use crate::{actions, expand, json, locale, streams};

pub fn set(set: &Set) -> ExitCode {
    let text = set.text.as_bytes();
    let call = |document: &mut Document, person, group: &[u8], key: &[u8]| {
        document.set(person, group, key, text)
    };
    status(change("set", &set.key, &set.change, call))
}

pub fn remove(remove: &Remove) -> ExitCode {
    let call = Document::remove;
    status(change("remove", &remove.key, &remove.change, call))
}

pub fn undo(step: &Step) -> ExitCode {
    let call = |document: &mut Document| {
        let records = standing(document).to_vec();
        let before = document.file().to_vec();
        document.undo()?;
        let (number, edit) = last(&records);
        let turned = Edit {
            old: edit.new,
            new: edit.old,
            ..edit
        };
        Ok(Done {
            told: Told::of(&before, &turned),
            act: "taking back an edit by",
            person: document.person(number)?,
        })
    };
    status(steps(step, "undo", call))
}

pub fn redo(step: &Step) -> ExitCode {
    let call = |document: &mut Document| {
        let act = "making once more an edit by";
        made(document, act, Document::redo)
    };
    status(steps(step, "redo", call))
}

/// Tells what went wrong, if something did.
fn status(done: Result<(), Trouble>) -> ExitCode {
    match done {
        Ok(()) => ExitCode::SUCCESS,
        Err(trouble) => trouble.tell(),
    }
}

/// A set or a remove of a key, with its locale.
fn change(
    name: &str,
    Key { file, key }: &Key,
    change: &Change,
    call: impl Fn(&mut Document, Person, &[u8], &[u8]) -> Result<(), Refusal>,
) -> Result<(), Trouble> {
    let group = change.group.group.as_bytes();
    let mut key = key.as_bytes().to_vec();
    if let Some(locale) = &change.locale {
        if locale::is_auto(locale) {
            let words = "an edit needs a locale by its name, not auto";
            return Err(Trouble::usage(words));
        }
        key = [&key, &b"["[..], locale.as_bytes(), b"]"].concat();
    }
    let Editing {
        discard_journal,
        no_warn,
        who,
        manner,
    } = &change.editing;
    let (person, mut persons) = editor(file, who, name)?;
    let edit = |document: &mut Document| call(document, person, group, &key);
    let made = make(
        file,
        *discard_journal,
        manner,
        &persons,
        |document| Ok(vec![made(document, "by", edit)?]),
        |document, refusal| match refusal.kind {
            Kind::JournalFull => full(file, document, edit),
            _ => Trouble::of_change(file, group, &key, document.file(), refusal),
        },
    )?;
    if !no_warn {
        persons.warn(manner.dry_run.then_some(person));
        let accepted = Accepted {
            file,
            person,
            before: &made.before,
            after: &made.after,
            keys: vec![(group, &key)],
        };
        accepted.warn(&persons);
    }
    Ok(())
}

/// Who edits a file, and the names of persons.
pub fn editor(file: &OsStr, who: &Who, name: &str) -> Result<(Person, Persons), Trouble> {
    named(file)?;
    let word = given_person(&who.person, name)?;
    let mut persons = Persons::of(&who.persons, file, name)?.without_fault()?;
    Ok((persons.find(word, name)?, persons))
}

/// The journal has no room for an edit. Once all edits are forgotten it has: old and new bytes of a record are each a part of a
/// file of at most 32,768 bytes, less its first header, and the record's head is short.
pub fn full(
    file: &OsStr,
    document: &Document,
    edit: impl Fn(&mut Document) -> Result<(), Refusal>,
) -> Trouble {
    let count = to_forget(document, |copy| edit(copy).is_ok());
    Trouble::full(file, count.expect("room for one edit"), "room")
}

/// How many of the oldest edits have to be forgotten, so that the journal has room; none if it has not even without all of them.
pub fn to_forget(document: &Document, has_room: impl Fn(&mut Document) -> bool) -> Option<usize> {
    let is_full = |count: &u64| {
        let mut copy = document.clone();
        copy.forget(*count).is_err() || !has_room(&mut copy)
    };
    let edits = Edits::new(standing(document)).count() as u64;
    let counts: Vec<u64> = (0..=edits).collect();
    // The more are forgotten, the more room there is.
    let count = counts.partition_point(is_full);
    (count < counts.len()).then_some(count)
}

/// So many undos or redos, all or none. Where it is known who edits, it is told which of the edits are another person's; no fault
/// in that keeps anybody from a step.
fn steps(
    step: &Step,
    name: &str,
    call: impl Fn(&mut Document) -> Result<Done, Refusal>,
) -> Result<(), Trouble> {
    named(&step.file)?;
    let who = given_person(&step.who.person, name)?;
    let mut persons = Persons::of(&step.who.persons, &step.file, name)?;
    let found = persons.find(who, name);
    let count = Cell::new(0);
    let made = make(
        &step.file,
        false,
        &step.manner,
        &persons,
        |document| {
            let one = |_| {
                let done = call(document)?;
                count.set(count.get() + 1);
                Ok(done)
            };
            (0..step.steps).map(one).collect()
        },
        |document, refusal| {
            Trouble::of_step(&step.file, document.file(), refusal, name, count.get())
        },
    )?;
    let person = found.unwrap_or_else(|trouble| {
        let about = "edits of others are not told as such";
        trouble.warning(about).tell();
        Person::NOBODY
    });
    if step.manner.dry_run {
        // It has told all edits.
        persons.warn(made.done.iter().map(|done| done.person));
        return Ok(());
    }
    let is_another = |other| person != Person::NOBODY && ![Person::NOBODY, person].contains(&other);
    let others = made.done.iter().filter(|done| is_another(done.person));
    let others: Vec<&Done> = others.collect();
    persons.warn(others.iter().map(|done| done.person));
    for done in others {
        let words = done.line(Tense::Past, &persons);
        Trouble::warning_of(&step.file, words).tell();
    }
    Ok(())
}

/// Makes a call that adds an edit or makes it once more, and tells the edit by the file that it found.
fn made(
    document: &mut Document,
    act: &'static str,
    call: impl Fn(&mut Document) -> Result<(), Refusal>,
) -> Result<Done, Refusal> {
    let before = document.file().to_vec();
    call(document)?;
    let (number, edit) = last(standing(document));
    Ok(Done {
        told: Told::of(&before, &edit),
        act,
        person: document.person(number)?,
    })
}

/// The records that stand.
fn standing(document: &Document) -> &[u8] {
    &document.journal()[..document.standing() as usize]
}

/// The last edit of records that an accepted call has read or written, and its number, from 0.
fn last(records: &[u8]) -> (u64, Edit<'_>) {
    let edit = (0..).zip(Edits::new(records)).last();
    edit.expect("the record of an accepted edit")
}

/// What the calls on a file have made of it.
struct Made {
    before: Vec<u8>,
    after: Vec<u8>,
    done: Vec<Done>,
}

/// Makes calls on a file and its journal, and saves both if all are accepted. A dry run writes what would change.
fn make(
    file: &OsStr,
    discard: bool,
    manner: &Manner,
    persons: &Persons,
    calls: impl FnOnce(&mut Document) -> Result<Vec<Done>, Refusal>,
    refused: impl FnOnce(&Document, Refusal) -> Trouble,
) -> Result<Made, Trouble> {
    let store = open(file, discard, manner)?;
    let mut document = store.document();
    let before = document.file().to_vec();
    let done = calls(&mut document).map_err(|refusal| {
        let refused = || refused(&document, refusal);
        trouble(&store, refusal, refused)
    })?;
    match manner.dry_run {
        true => {
            let line = |done: &Done| [&done.line(Tense::Conditional, persons)[..], b"\n"].concat();
            streams::put(&done.iter().flat_map(line).collect::<Vec<u8>>())?;
        }
        false => store.save(&document)?,
    }
    Ok(Made {
        before,
        after: document.file().to_vec(),
        done,
    })
}

/// A file for calls; a dry run takes neither lock nor rights.
pub fn open(file: &OsStr, discard: bool, manner: &Manner) -> Result<Store, Trouble> {
    match manner.dry_run {
        true => Store::look(file, discard),
        false => Store::edit(file, discard, manner.wait.wait),
    }
}

/// What a refused call means, where it may be about the journal on disk, or else what is said of it.
pub fn trouble(store: &Store, refusal: Refusal, said: impl FnOnce() -> Trouble) -> Trouble {
    match refusal.kind {
        Kind::Damaged => store.damaged(),
        Kind::Nothing => store.left_behind().unwrap_or_else(said),
        _ => said(),
    }
}

/// A journal lies beside a file, so standard input has none.
fn named(file: &OsStr) -> Result<(), Trouble> {
    match file == streams::STDIN {
        true => Err(Trouble::usage(
            "edits and their journal need a file, not standard input",
        )),
        false => Ok(()),
    }
}

/// Edits of keys that were accepted.
pub struct Accepted<'a> {
    pub file: &'a OsStr,
    pub person: Person,
    pub before: &'a [u8],
    pub after: &'a [u8],
    /// The group and the key of each.
    pub keys: Vec<(&'a [u8], &'a [u8])>,
}

impl Accepted<'_> {
    /// Warns of what their user will hardly want.
    pub fn warn(&self, persons: &Persons) {
        persons.warn_of_nameless(self.person, self.file);
        let edits = match self.keys.len() {
            1 => "this edit",
            _ => "these edits",
        };
        warn_of_loss(edits, self.file, &[self.before], self.after);
        self.warn_of_unread();
    }

    /// Warns of keys that were set and that the locales in their postfixes do not read, in the order of the lines that these read
    /// instead. Of very many the rest is counted.
    fn warn_of_unread(&self) {
        let keys: BTreeSet<(&[u8], &[u8])> = self.keys.iter().copied().collect();
        let unread = keys.into_iter().filter_map(|(group, key)| {
            let read = locale::read_instead(self.after, group, key)?;
            Some((read.start, key))
        });
        let unread: BTreeSet<(usize, &[u8])> = unread.collect();
        let warning = |(start, key)| Trouble::unread(self.file, self.after, start, key);
        let rest = [
            "key is not read by its own locale",
            "keys are not read by their own locales",
        ];
        warn_of_many(self.file, unread.into_iter(), warning, rest);
    }
}

/// Warns of a file that is not complete, or whose Exec, its own or that of an action, cannot be expanded, where all that it was
/// made of were and could.
pub fn warn_of_loss(acts: &str, file: &OsStr, before: &[&[u8]], after: &[u8]) {
    let incomplete = |bytes: &[u8]| {
        let refusal = kveldrim::complete(bytes).err()?;
        Some(Trouble::of_file(file, bytes, refusal))
    };
    let lost = |ask: &dyn Fn(&[u8]) -> Option<Trouble>, loss: &str| {
        let was_well = || before.iter().all(|bytes| ask(bytes).is_none());
        let trouble = ask(after).filter(|_| was_well())?;
        Some(trouble.warning(&format!("with {acts} {loss}")))
    };
    let incomplete = lost(&incomplete, "the file is no longer complete");
    let actions = actions::listed(after).into_iter().map(Some);
    let unexpanded = iter::once(None).chain(actions).filter_map(|action| {
        let trouble = |bytes: &[u8]| expand::trouble_of(file, bytes, action.as_deref());
        let exec = expand::exec_of(action.as_deref());
        lost(&trouble, &format!("{exec} can no longer be expanded"))
    });
    let losses: Vec<Trouble> = incomplete.into_iter().chain(unexpanded).collect();
    let rest = [
        "action has an Exec that can no longer be expanded",
        "actions have an Exec that can no longer be expanded",
    ];
    warn_of_many(file, losses.into_iter(), |loss| loss, rest);
}

pub fn log(log: &Log) -> ExitCode {
    status(lines(log).and_then(|lines| streams::put(&lines)))
}

pub fn forget(asked: &Forget) -> ExitCode {
    status(forgotten(asked))
}

/// The edits of a file's journal, a line or an object for each.
fn lines(log: &Log) -> Result<Vec<u8>, Trouble> {
    named(&log.file)?;
    let mut persons = Persons::of(&log.persons, &log.file, "log")?.without_fault()?;
    let store = Store::look(&log.file, false)?;
    if let Some(trouble) = store.left_behind() {
        trouble.tell();
    }
    let edits = recorded(&log.file, &store)?;
    Ok(match edits.is_empty() && !log.json.json {
        true => b"no edit is recorded\n".to_vec(),
        false => told(&edits, &mut persons, &log.json),
    })
}

/// Takes the oldest edits from a file's journal. Tells each of them, and how many are left.
fn forgotten(asked: &Forget) -> Result<(), Trouble> {
    let Forget { file, manner, .. } = asked;
    named(file)?;
    let mut persons = Persons::of(&asked.persons, file, "forget")?.without_fault()?;
    let store = open(file, false, manner)?;
    let mut edits = recorded(file, &store)?;
    let standing = edits.iter().filter(|edit| edit.state == State::Stands);
    let standing = standing.count();
    let count = match asked.keep {
        Some(keep) => (standing as u64).saturating_sub(keep),
        None => asked.count.unwrap_or_default(),
    };
    let mut document = store.document();
    document.forget(count).map_err(|refusal| {
        let said = || Trouble::of_step(file, document.file(), refusal, "forget", standing);
        trouble(&store, refusal, said)
    })?;
    let is_saved = count > 0 && !manner.dry_run;
    if is_saved {
        store.save_journal(&document)?;
    }
    if let Some(trouble) = store.left_behind() {
        trouble.tell();
    }
    let (tense, when) = match manner.dry_run {
        true => (Tense::Conditional, "then"),
        false => (Tense::Past, "now"),
    };
    let when = match count {
        0 => "nothing to forget;",
        _ => when,
    };
    let left = edits.split_off(count as usize).len();
    for edit in &mut edits {
        edit.state = State::Forgotten(tense);
    }
    let stands = standing - edits.len();
    let waits = left - stands;
    let numbers = match asked.json.json {
        true => json::line(&json!({ "forgotten": count, "stands": stands, "waits": waits })),
        false => format!("{when} standing: {stands}, waiting: {waits}\n").into_bytes(),
    };
    let lines = told(&edits, &mut persons, &asked.json);
    streams::put(&[lines, numbers].concat()).map_err(|trouble| match is_saved {
        // Who runs it again would forget more.
        true => trouble.although("the edits are forgotten all the same"),
        false => trouble,
    })
}

/// Every edit of a file's journal.
fn recorded(file: &OsStr, store: &Store) -> Result<Vec<Recorded>, Trouble> {
    let document = store.document();
    edits(document).map_err(|refusal| {
        trouble(store, refusal, || {
            Trouble::of_file(file, store.bytes(), refusal)
        })
    })
}

/// Edits with their states, a line or an object for each.
fn told(edits: &[Recorded], persons: &mut Persons, json: &Json) -> Vec<u8> {
    persons.warn(edits.iter().map(|edit| edit.done.person));
    let line = |edit: &Recorded| match json.json {
        true => json::line(&edit.object(persons)),
        false => edit.line(persons),
    };
    edits.iter().flat_map(line).collect()
}
