//! What the tests of the command share: a folder of their own, and runs of the command in it.

// Each file of tests is a program of its own and uses a part of this.
#![allow(dead_code)]

use std::ffi::{OsStr, OsString};
use std::fs::{self, File};
use std::os::unix::ffi::{OsStrExt, OsStringExt};
use std::os::unix::fs::{symlink, MetadataExt, PermissionsExt};
use std::path::{Path, PathBuf};
use std::process::{self, Command};
use std::sync::atomic::{AtomicU32, Ordering};

use sha2::{Digest, Sha256};

pub const T: &[u8] =
    b"[Desktop Entry]\nType=Application\nName=Lesen\nName[fr]=Lire\nExec=view %F\n";

/// The journal of a file `t`.
pub const JOURNAL: &str = ".t.kveldrim-journal";

/// A table that asks for what `set t Name x` does.
pub const TABLE: &str = concat!(env!("CARGO_MANIFEST_DIR"), "/tests/common/table.csv");

/// The bytes of a journal with the digest that follows them.
pub fn with_digest(bytes: &[u8]) -> Vec<u8> {
    [bytes, &Sha256::digest(bytes)].concat()
}

/// Journals as the versions 1 and 2 wrote them, of a file with the Name Lesen: an edit stands and one waits.
pub fn earlier_journals() -> [Vec<u8>; 2] {
    let pairs = b"\x01\0\0\0\x1b\0\0\0\x37\0\0\0\x1a\0\0\0[Desktop Entry]\nName=Lesen\n\
        \x1a\0\0\0\x01\0\x15\0\0\0\x03\0\0\0\x05\0\0\0LesLesen\
        \x1d\0\0\0\x01\0\x15\0\0\0\x05\0\0\0\x06\0\0\0LesenLesung";
    let first = [b"kveldrim\x01\0\0\0", &pairs[..]].concat();
    let second = [b"kveldrim\x02\0\0\0", &pairs[..]].concat();
    [first, with_digest(&second)]
}

/// A folder of a test's own, removed at the end.
pub struct Folder(pub PathBuf);

impl Folder {
    pub fn new() -> Folder {
        static NUMBER: AtomicU32 = AtomicU32::new(0);
        let number = NUMBER.fetch_add(1, Ordering::Relaxed);
        let name = format!("kveldrim-command-{}-{number}", process::id());
        let folder = std::env::temp_dir().join(name);
        fs::create_dir(&folder).unwrap();
        Folder(folder)
    }

    pub fn with(self, name: &[u8], bytes: &[u8]) -> Folder {
        fs::write(self.0.join(OsStr::from_bytes(name)), bytes).unwrap();
        self
    }

    /// Runs the command in the folder, without a locale in the environment but the given variables.
    pub fn run_in(&self, variables: &[(&str, &str)], words: &[&[u8]]) -> Outcome {
        let mut command = Command::new(env!("CARGO_BIN_EXE_kveldrim"));
        command.env_clear().envs(variables.iter().copied());
        self.run_by(command, words)
    }

    /// Runs the command that is prepared so, in the folder.
    pub fn run_by(&self, mut command: Command, words: &[&[u8]]) -> Outcome {
        let words = words.iter().map(|word| OsString::from_vec(word.to_vec()));
        let output = command.args(words).current_dir(&self.0).output().unwrap();
        Outcome {
            status: output.status.code().unwrap(),
            out: output.stdout,
            told: output.stderr,
        }
    }

    /// Runs the command in the folder; one that has not ended after 20 seconds ends with status 124.
    pub fn run_in_time(&self, words: &[&str]) -> Outcome {
        let mut command = Command::new("timeout");
        command
            .env_clear()
            .args(["20", env!("CARGO_BIN_EXE_kveldrim")]);
        self.run_by(command, &bytes(words))
    }

    /// Sets the mode of a file in the folder.
    pub fn mode(&self, name: &str, mode: u32) {
        fs::set_permissions(self.0.join(name), fs::Permissions::from_mode(mode)).unwrap();
    }

    /// Runs the command in the folder with this standard input.
    pub fn run_with(&self, input: &[u8], words: &[&[u8]]) -> Outcome {
        let name = self.0.join(".input");
        fs::write(&name, input).unwrap();
        let mut command = Command::new(env!("CARGO_BIN_EXE_kveldrim"));
        command.stdin(File::open(&name).unwrap());
        fs::remove_file(&name).unwrap();
        self.run_by(command, words)
    }

    /// Runs the command in the folder with a terminal, made by `script` of Debian's package bsdutils. Answers the status and
    /// all that the terminal was sent. The words are simple ones.
    pub fn run_on_terminal(&self, words: &[&str]) -> (i32, String) {
        let line = [&[env!("CARGO_BIN_EXE_kveldrim")], words]
            .concat()
            .join(" ");
        let mut command = Command::new("script");
        command.args(["--quiet", "--return", "--command", &line, "/dev/null"]);
        let output = command.current_dir(&self.0).output();
        let output = output.expect("the command `script`, of Debian's package bsdutils");
        let told = String::from_utf8(output.stdout).unwrap();
        (output.status.code().unwrap(), told.replace('\r', ""))
    }

    /// The bytes of a file in the folder.
    pub fn read(&self, name: &str) -> Vec<u8> {
        fs::read(self.0.join(name)).unwrap()
    }

    /// The names of all files in the folder, sorted.
    pub fn names(&self) -> Vec<String> {
        let entries = fs::read_dir(&self.0).unwrap();
        let name = |entry: fs::DirEntry| entry.file_name().into_string().unwrap();
        let mut names: Vec<String> = entries.map(|entry| name(entry.unwrap())).collect();
        names.sort();
        names
    }

    /// The names in the folder, and the bytes of the file `t` and its journal.
    pub fn both(&self) -> (Vec<String>, Vec<u8>, Vec<u8>) {
        (self.names(), self.read("t"), self.read(JOURNAL))
    }

    pub fn run(&self, words: &[&[u8]]) -> Outcome {
        self.run_in(&[], words)
    }

    /// As [`Folder::run`], with words that are text.
    pub fn words(&self, words: &[&str]) -> Outcome {
        self.words_in(&[], words)
    }

    /// Runs words that are accepted and write nothing.
    pub fn does(&self, words: &[&str]) {
        self.words(words).writes(b"");
    }

    /// Runs words that are refused, and tells so; the folder is as before.
    pub fn refuses(&self, status: i32, words: &[&str], told: &str) {
        let before = self.all();
        self.words(words).tells(status, &[told]);
        assert_eq!(self.all(), before);
    }

    /// Everything in the folder.
    pub fn all(&self) -> Vec<(String, Option<Vec<u8>>)> {
        let names = self.names().into_iter();
        let bytes = |name: &str| fs::read(self.0.join(name)).ok();
        names.map(|name| (name.clone(), bytes(&name))).collect()
    }

    /// This is the Name of `t` for a locale.
    pub fn reads(&self, locale: &str, name: &str) {
        self.words(&["get", "t", "Name", "--locale", locale])
            .writes(format!("{name}\n").as_bytes());
    }

    /// The log of `t` has these lines.
    pub fn logs(&self, lines: &str) {
        self.words(&["log", "t"]).writes(lines.as_bytes());
    }

    /// As [`Folder::run_in`], with words that are text.
    pub fn words_in(&self, variables: &[(&str, &str)], words: &[&str]) -> Outcome {
        self.run_in(variables, &bytes(words))
    }
}

fn bytes<'a>(words: &[&'a str]) -> Vec<&'a [u8]> {
    words.iter().map(|word| word.as_bytes()).collect()
}

impl Drop for Folder {
    fn drop(&mut self) {
        let _ = fs::remove_dir_all(&self.0);
    }
}

/// A copy of the command that everybody can reach, for tests that become other users.
pub struct Shared(Folder);

impl Shared {
    pub fn new() -> Shared {
        let own = fs::metadata("/proc/self").unwrap();
        assert_eq!(
            own.uid(),
            0,
            "this test becomes other users: run it as root"
        );
        let folder = Folder::new();
        folder.mode(".", 0o755);
        // A copy by this process could still be open for writing in another test's child.
        tool(
            "cp",
            "coreutils",
            &[env!("CARGO_BIN_EXE_kveldrim")],
            &folder.0,
        );
        Shared(folder)
    }

    /// The command as it is run by a user with a group and perhaps one more.
    pub fn command(&self, user: u32, group: u32, more: Option<u32>) -> Command {
        let mut command = Command::new("setpriv");
        command
            .env_clear()
            .args([format!("--reuid={user}"), format!("--regid={group}")]);
        match more {
            Some(more) => command.arg(format!("--groups={more}")),
            None => command.arg("--clear-groups"),
        };
        command.arg(self.0 .0.join("kveldrim"));
        command
    }
}

/// Runs a tool of a Debian package on a path; answers what it writes.
pub fn tool(name: &str, package: &str, words: &[&str], path: &Path) -> Vec<u8> {
    let output = Command::new(name).args(words).arg(path).output();
    let output = output.unwrap_or_else(|_| {
        panic!("the command `{name}`, of Debian's package {package}, is missing")
    });
    let told = String::from_utf8_lossy(&output.stderr);
    assert!(output.status.success(), "{name} {words:?}: {told}");
    output.stdout
}

/// The first commands in a part of the README write what stands below them.
pub fn run_the_readme(heading: &str) {
    let readme = concat!(env!("CARGO_MANIFEST_DIR"), "/../../README.md");
    let readme = fs::read_to_string(readme).unwrap();
    let (_, part) = readme.split_once(&format!("\n## {heading}\n")).unwrap();
    let (part, _) = part.split_once("\n## ").unwrap();
    let mut blocks = part.split("\n\n").filter(|block| block.starts_with("    "));
    let mut block = || {
        let lines = blocks.next().unwrap().lines();
        let lines = lines.map(|line| format!("{}\n", line.strip_prefix("    ").unwrap()));
        lines.collect::<String>()
    };
    let (commands, written) = (block(), block());
    let folder = Folder::new();
    symlink(env!("CARGO_BIN_EXE_kveldrim"), folder.0.join("kveldrim")).unwrap();
    let mut command = Command::new("sh");
    command.args(["-c", &commands]).env("TMPDIR", &folder.0);
    folder.run_by(command, &[]).writes(written.as_bytes());
}

pub struct Outcome {
    pub status: i32,
    pub out: Vec<u8>,
    pub told: Vec<u8>,
}

impl Outcome {
    pub fn writes(&self, expected: &[u8]) {
        assert_eq!(self.told.escape_ascii().to_string(), "");
        let (out, expected) = (self.out.escape_ascii(), expected.escape_ascii());
        assert_eq!(out.to_string(), expected.to_string());
        assert_eq!(self.status, 0);
    }

    /// Nothing is written; each line that is told starts so.
    pub fn tells(&self, status: i32, starts: &[&str]) {
        self.tells_and_writes(status, starts, b"");
    }

    /// Each line that is told starts so, and just this is written.
    pub fn tells_and_writes(&self, status: i32, starts: &[&str], out: &[u8]) {
        let told = String::from_utf8(self.told.clone()).unwrap();
        let lines: Vec<&str> = told.lines().collect();
        assert_eq!(lines.len(), starts.len(), "{told}");
        for (line, start) in lines.iter().zip(starts) {
            assert!(line.starts_with(start), "{line}, not {start}");
        }
        let (written, out) = (self.out.escape_ascii(), out.escape_ascii());
        assert_eq!(written.to_string(), out.to_string());
        assert_eq!(self.status, status);
    }
}
