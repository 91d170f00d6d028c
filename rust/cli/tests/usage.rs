//! The words of the command line: help, near misses, completions, and what is no good usage.

mod common;

use std::io::Read;
use std::process::{Command, Stdio};

use common::{Folder, T};

const COMMANDS: [&str; 14] = [
    "check", "complete", "get", "list", "actions", "set", "remove", "batch", "undo", "redo", "log",
    "forget", "merge", "expand",
];

fn run(words: &[&str]) -> (i32, String, String) {
    let outcome = Folder::new().with(b"t", T).words(words);
    let [out, told] = [outcome.out, outcome.told].map(|bytes| String::from_utf8(bytes).unwrap());
    (outcome.status, out, told)
}

#[test]
fn each_command_has_help() {
    let (status, all, _) = run(&["--help"]);
    assert_eq!(status, 0);
    assert!(all.contains("Exit status: 0 all is well"), "{all}");
    for command in COMMANDS {
        assert!(all.contains(&format!("\n  {command} ")), "{command}");
        for words in [
            &[command, "--help"][..],
            &[command, "-h"],
            &["help", command],
        ] {
            let (status, help, told) = run(words);
            assert_eq!((status, &told[..]), (0, ""));
            assert!(
                help.contains(&format!("Usage: kveldrim {command} ")),
                "{help}"
            );
        }
    }
    let help = |words: &[&str]| {
        run(words)
            .1
            .split_whitespace()
            .collect::<Vec<_>>()
            .join(" ")
    };
    for (words, part) in [
        (&["--help"][..], "KVELDRIM_PERSON is who edits"),
        (&["--help"], "KVELDRIM_PERSONS is the file of persons"),
        (&["set", "--help"], "Who edits: a number"),
        (&["undo", "--help"], "Who you are: a number"),
        (&["redo", "--help"], "Who you are: a number"),
        (&["forget", "--help"], "<FILE> <N|--keep <N>>"),
        (&["actions", "--help"], "`kveldrim expand FILE --action ID`"),
        (&["expand", "--help"], "--action <ID>"),
        (&["batch", "--help"], "[OPTIONS] <FILE> [TABLE]"),
        (&["batch", "--help"], " action,group,key,text set,,Name,"),
    ] {
        assert!(help(words).contains(part), "{}", help(words));
    }
    let (status, _, told) = run(&[]);
    assert_eq!(status, 2);
    assert!(told.contains("Usage: kveldrim <COMMAND>"), "{told}");
}

#[test]
fn version() {
    let version = format!("kveldrim {}\n", env!("CARGO_PKG_VERSION"));
    for option in ["--version", "-V"] {
        assert_eq!(run(&[option]), (0, version.clone(), String::new()));
    }
}

#[test]
fn near_misses_are_named() {
    for (words, near) in [
        (&["chekc", "t"][..], "check"),
        (&["expnd", "t"], "expand"),
        (&["get", "t", "Name", "--locael=de"], "--locale"),
        (&["set", "t", "Name", "x", "--dryrun"], "--dry-run"),
        (&["bacth", "t"], "batch"),
        (&["action", "t"], "actions"),
        (&["expand", "t", "--actions=new"], "--action"),
        (&["batch", "t", "--all-or-none"], "--all-or-nothing"),
    ] {
        let (status, out, told) = run(words);
        assert_eq!((status, &out[..]), (2, ""));
        assert!(told.contains(&format!("'{near}'")), "{told}");
    }
}

#[test]
fn completions() {
    for (shell, part) in [
        ("bash", "complete -F"),
        ("zsh", "#compdef kveldrim"),
        ("fish", "complete -c kveldrim"),
    ] {
        let (status, script, _) = run(&["completions", shell]);
        assert_eq!(status, 0);
        assert!(script.contains(part), "{shell}");
        let options = ["dry-run", "persons", "keep", "all-or-nothing"];
        for word in COMMANDS.into_iter().chain(options) {
            assert!(script.contains(word), "{shell} {word}");
        }
    }
    let (_, script, _) = run(&["completions", "zsh"]);
    let mut lines = script.lines().filter(|line| line.contains("--persons="));
    assert!(lines.any(|line| line.contains(":FILE:_files")), "{script}");
    assert!(script.contains("'--action=["), "{script}");
    assert_eq!(run(&["completions", "cmd"]).0, 2);
}

#[test]
fn bad_usage_is_2() {
    let folder = Folder::new().with(b"t", T);
    let wrong: &[&[&[u8]]] = &[
        &[b"check"],
        &[b"check", b"--raw", b"t"],
        &[b"check", b"--group", b"x", b"t"],
        &[b"check", b"--json", b"--quiet", b"t"],
        &[b"get", b"t"],
        &[b"get", b"t", b"Name", b"Name"],
        &[b"get", b"t", b"Name", b"--locale"],
        &[b"get", b"t", b"Name", b"--locale", b"a", b"--locale=b"],
        &[b"get", b"t", b"Name", b"--raw=1"],
        &[b"list", b"t", b"Name", b"--raw"],
        &[b"list", b"t", b"Name", b"--null", b"--json"],
        &[b"actions"],
        &[b"actions", b"t", b"t"],
        &[b"actions", b"t", b"--null", b"--json"],
        &[b"actions", b"t", b"--group", b"x"],
        &[b"actions", b"t", b"--action", b"x"],
        &[b"actions", b"t", b"--locale"],
        &[b"actions", b"t", b"--no-warn=1"],
        &[b"set", b"t", b"Name"],
        &[b"set", b"t", b"Name", b"a", b"b"],
        &[b"set", b"t", b"Name", b"-a"],
        &[b"set", b"t", b"Name", b"a", b"--raw"],
        &[b"set", b"t", b"Name", b"a", b"--locale", b"auto"],
        &[b"set", b"t", b"Name", b"a", b"--discard-journal=1"],
        &[b"set", b"t", b"Name", b"a", b"--wait", b"soon"],
        &[b"set", b"t", b"Name", b"a", b"--wait=-1"],
        &[b"set", b"-", b"Name", b"a"],
        &[b"undo", b"-"],
        &[b"log", b"-"],
        &[b"remove", b"t"],
        &[b"remove", b"t", b"Name", b"a"],
        &[b"get", b"t", b"Name", b"--discard-journal"],
        &[b"batch"],
        &[b"batch", b"t", b"t", b"t"],
        &[b"batch", b"t", b"t"],
        &[b"batch", b"t", b"none"],
        &[b"batch", b"-", b"t"],
        &[b"batch", b"t", b"t", b"--group", b"x"],
        &[b"batch", b"t", b"t", b"--locale", b"de"],
        &[b"batch", b"t", b"t", b"--all-or-nothing=1"],
        &[b"undo"],
        &[b"undo", b"t", b"t"],
        &[b"redo", b"t", b"--group", b"x"],
        &[b"log", b"t", b"--discard-journal"],
        &[b"log", b"t", b"--person", b"1"],
        &[b"forget", b"t"],
        &[b"forget", b"t", b"x"],
        &[b"forget", b"t", b"-1"],
        &[b"forget", b"t", b"18446744073709551616"],
        &[b"forget", b"t", b"0", b"1"],
        &[b"forget", b"t", b"0", b"--keep", b"1"],
        &[b"forget", b"t", b"--keep"],
        &[b"forget", b"t", b"--keep=-1"],
        &[b"forget", b"t", b"0", b"--person", b"1"],
        &[b"forget", b"t", b"0", b"--discard-journal"],
        &[b"forget", b"-", b"0"],
        &[b"set", b"t", b"Name", b"a", b"--person", b"Anna"],
        &[b"set", b"t", b"Name", b"a", b"--person=-1"],
        &[b"undo", b"t", b"--persons"],
        &[b"merge", b"t", b"t"],
        &[b"merge", b"t", b"t", b"t", b"t"],
        &[b"merge", b"-", b"t", b"-"],
        &[b"merge", b"t", b"t", b"t", b"--output"],
        &[b"merge", b"t", b"t", b"t", b"--output", b"-"],
        &[b"merge", b"t", b"t", b"t", b"--discard-journal"],
        &[b"merge", b"t", b"t", b"t", b"--dry-run"],
        &[b"\xFF"],
    ];
    for words in wrong {
        let outcome = folder.run(words);
        assert_eq!((outcome.status, outcome.out.len()), (2, 0), "{words:?}");
        assert!(!outcome.told.is_empty(), "{words:?}");
    }
    assert_eq!(folder.names(), ["t"]);
    assert_eq!(folder.read("t"), T);
}

/// A reader that stops early is no error.
#[test]
fn a_reader_that_stops_early() {
    let long: String = (0..2_000).map(|n| format!("{n};")).collect();
    let file = format!("[Desktop Entry]\nA={long}\n");
    let folder = Folder::new().with(b"t", file.as_bytes());
    let mut command = Command::new(env!("CARGO_BIN_EXE_kveldrim"));
    let mut child = command
        .args(["list", "t", "A"])
        .current_dir(&folder.0)
        .stdout(Stdio::piped())
        .stderr(Stdio::piped())
        .spawn()
        .unwrap();
    drop(child.stdout.take());
    let mut told = String::new();
    child
        .stderr
        .take()
        .unwrap()
        .read_to_string(&mut told)
        .unwrap();
    assert_eq!((child.wait().unwrap().code(), &told[..]), (Some(0), ""));
}

/// An answer that cannot be written for another reason is told.
#[test]
fn an_answer_that_cannot_be_written() {
    let folder = Folder::new().with(b"t", T);
    let script = "exec \"$0\" \"$@\" > /dev/full";
    for words in [&[&b"get"[..], b"t", b"Name"][..], &[b"--help"]] {
        let mut command = Command::new("sh");
        command.args(["-c", script, env!("CARGO_BIN_EXE_kveldrim")]);
        let told = "kveldrim: the answer cannot be written: No space left on device";
        folder.run_by(command, words).tells(2, &[told]);
    }
}
