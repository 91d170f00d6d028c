//! `kveldrim merge`: two changed copies of a file become one.

mod conflict;
mod layout;
mod rule;
mod sequence;
#[cfg(test)]
mod tests;

use std::array;
use std::ffi::{OsStr, OsString};
use std::path::Path;
use std::process::ExitCode;

use kveldrim::Kind;

use crate::arguments::Merge;
use crate::editing::warn_of_loss;
use crate::report::Trouble;
use crate::store::{self, Store};
use crate::streams;
use conflict::Conflict;

/// What stands for the name of a merged file that is written to standard output.
const UNNAMED: &str = "the merged file";

/// The command; the status is that of the worst that is told.
pub fn merge(asked: &Merge) -> ExitCode {
    let Err(troubles) = answer(asked) else {
        return ExitCode::SUCCESS;
    };
    for trouble in &troubles {
        trouble.tell();
    }
    let worst = troubles.iter().map(Trouble::status).max();
    ExitCode::from(worst.unwrap_or_default())
}

fn answer(asked: &Merge) -> Result<(), Vec<Trouble>> {
    let names: [&OsStr; 3] = [&asked.base, &asked.mine, &asked.theirs];
    if names.iter().filter(|name| **name == streams::STDIN).count() > 1 {
        let words = "only one of the three files can be standard input";
        return Err(vec![Trouble::usage(words)]);
    }
    if asked.label.len() > names.len() {
        let words = "--label can stand three times, once for each file";
        return Err(vec![Trouble::usage(words)]);
    }
    let labels: [&OsStr; 3] = array::from_fn(|at| match asked.label.get(at) {
        Some(label) => label,
        None => names[at],
    });
    let output = Output::of(asked).map_err(|trouble| vec![trouble.unusable()])?;
    let files = read(names, labels, &output)?;
    let files = files.each_ref().map(Vec::as_slice);
    let name = match &asked.output {
        Some(file) => {
            let label = names.iter().position(|name| name == file);
            label.map_or(file.as_os_str(), |at| labels[at])
        }
        None => OsStr::new(UNNAMED),
    };
    let [_, mine, theirs] = labels;
    let merged = merged(files).map_err(|failure| failure.troubles(name, [mine, theirs]))?;
    let written = output.write(&merged);
    written.map_err(|trouble| vec![trouble.unusable()])?;
    if !asked.no_warn {
        warn_of_loss("this merge", name, &files[1..], &merged);
    }
    Ok(())
}

/// The bytes of the three files, each of which must be well formed. The file that is to be replaced counts as it was when it
/// was locked.
fn read(
    names: [&OsStr; 3],
    labels: [&OsStr; 3],
    output: &Output,
) -> Result<[Vec<u8>; 3], Vec<Trouble>> {
    let read = |at: usize| {
        let bytes = match output.locked(names[at]) {
            Some(bytes) => bytes.to_vec(),
            None => streams::read(names[at])?,
        };
        match kveldrim::check(&bytes) {
            Ok(()) => Ok(bytes),
            Err(refusal) => Err(Trouble::of_file(labels[at], &bytes, refusal).unusable()),
        }
    };
    match [0, 1, 2].map(read) {
        [Ok(base), Ok(mine), Ok(theirs)] => Ok([base, mine, theirs]),
        read => Err(read.into_iter().filter_map(Result::err).collect()),
    }
}

/// Why there is no merged file.
enum Failure {
    Conflicts(Vec<Conflict>),
    TooLong,
    /// The core does not find in it what it is to have; that is a fault of this program.
    Wrong,
}

/// Merges three well-formed files: BASE, MINE and THEIRS.
fn merged(files: [&[u8]; 3]) -> Result<Vec<u8>, Failure> {
    let mut merged = rule::merge(files);
    let bytes = merged.bytes();
    let refusal = kveldrim::check(&bytes).err().map(|refusal| refusal.kind);
    if refusal == Some(Kind::NoPlain) {
        merged.find_postfixed();
    }
    if !merged.conflicts.is_empty() {
        merged.conflicts.sort_by_key(Conflict::place);
        return Err(Failure::Conflicts(merged.conflicts));
    }
    match refusal {
        None if merged.is_in(&bytes) => Ok(bytes),
        Some(Kind::TooLong) => Err(Failure::TooLong),
        _ => Err(Failure::Wrong),
    }
}

impl Failure {
    /// What a user is told, with the names of the merged file and of the copies.
    fn troubles(&self, name: &OsStr, copies: [&OsStr; 2]) -> Vec<Trouble> {
        match self {
            Failure::Conflicts(conflicts) => {
                let told = conflicts.iter().map(|conflict| conflict.trouble(copies));
                told.collect()
            }
            Failure::TooLong => vec![Trouble::unmerged(name, "it would be over 32,768 bytes")],
            Failure::Wrong => vec![Trouble::unmerged(
                name,
                "the merge went wrong, which is a fault of kveldrim",
            )],
        }
    }
}

/// Where the merged file goes.
enum Output {
    Standard,
    /// A file that is not there yet.
    New(OsString),
    /// A file that is locked.
    Present(Store),
}

impl Output {
    fn of(asked: &Merge) -> Result<Output, Trouble> {
        match &asked.output {
            None => Ok(Output::Standard),
            Some(file) if file == streams::STDIN => Err(Trouble::usage(
                "--output needs a file; without it standard output is written",
            )),
            Some(file) if Path::new(file).symlink_metadata().is_err() => {
                Ok(Output::New(file.clone()))
            }
            Some(file) => {
                let store = Store::edit(file, asked.discard_journal, asked.wait.wait)?;
                Ok(Output::Present(store))
            }
        }
    }

    /// The bytes of the locked file, if the name is one of it.
    fn locked(&self, name: &OsStr) -> Option<&[u8]> {
        match self {
            _ if name == streams::STDIN => None,
            Output::Present(store) if store.is_named(name) => Some(store.bytes()),
            _ => None,
        }
    }

    fn write(&self, bytes: &[u8]) -> Result<(), Trouble> {
        match self {
            Output::Standard => streams::put(bytes),
            Output::New(file) => store::create(file, bytes),
            Output::Present(store) if store.bytes() == bytes => Ok(()),
            Output::Present(store) => store.overwrite(bytes),
        }
    }
}
