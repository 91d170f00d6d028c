//! The command `kveldrim`: checks .desktop files, reads, edits and merges them, and expands their commands, with the proved core
//! behind it.

#![forbid(unsafe_code)]

mod access;
mod actions;
mod arguments;
mod attributes;
mod batch;
mod check;
mod disk;
mod editing;
mod excerpt;
mod expand;
mod faults;
mod journal;
mod json;
#[cfg(test)]
mod kills;
mod locale;
mod log;
mod merge;
mod names;
mod persons;
mod report;
mod store;
mod streams;
mod table;
mod value;

use std::env;
use std::ffi::OsString;
use std::process::ExitCode;

use arguments::{Command, Line};
use clap::{CommandFactory, Parser};

fn main() -> ExitCode {
    run(env::args_os().skip(1))
}

/// Does what the words ask for.
fn run(words: impl Iterator<Item = OsString>) -> ExitCode {
    let words = [OsString::from("kveldrim")].into_iter().chain(words);
    let line = match Line::try_parse_from(words) {
        Ok(line) => line,
        Err(error) => {
            // Help and the version come this way too.
            return match error.use_stderr() {
                true => report::misused(&error.to_string()),
                false => streams::write(error.to_string().as_bytes()),
            };
        }
    };
    match &line.command {
        Command::Check(files) => check::each(files, kveldrim::check, "well formed"),
        Command::Complete(files) => check::each(files, kveldrim::complete, "complete"),
        Command::Get(get) => value::get(get),
        Command::List(list) => value::list(list),
        Command::Actions(asked) => actions::actions(asked),
        Command::Set(set) => editing::set(set),
        Command::Remove(remove) => editing::remove(remove),
        Command::Batch(asked) => batch::batch(asked),
        Command::Undo(step) => editing::undo(step),
        Command::Redo(step) => editing::redo(step),
        Command::Log(log) => editing::log(log),
        Command::Forget(forget) => editing::forget(forget),
        Command::Merge(merge) => merge::merge(merge),
        Command::Expand(expand) => expand::expand(expand),
        Command::Completions { shell } => {
            let mut script = Vec::new();
            clap_complete::generate(*shell, &mut Line::command(), "kveldrim", &mut script);
            streams::write(&script)
        }
    }
}
