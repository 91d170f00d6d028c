//! The script `./kveldrim`: it runs what is built, and builds what is not. Here its checkout, cargo and rt are made for the test.

mod common;

use std::fs::{self, File, Permissions};
use std::os::unix::fs::{symlink, PermissionsExt};
use std::os::unix::process::CommandExt;
use std::path::PathBuf;
use std::process::Command;
use std::time::{Duration, SystemTime};

use common::{Folder, Outcome};

/// The tools of Debian that the script uses.
const TOOLS: [&str; 15] = [
    "cat",
    "dpkg-query",
    "find",
    "flock",
    "grep",
    "id",
    "mkdir",
    "mv",
    "readlink",
    "rm",
    "sed",
    "sh",
    "tail",
    "touch",
    "tr",
];

const BUILT: &str = "#!/bin/sh\nprintf '[%s]' \"$@\"\n";

/// A checkout with a built command, whose sources are an hour older.
struct Checkout(Folder);

impl Checkout {
    fn new() -> Checkout {
        let checkout = Checkout(Folder::new());
        let top = PathBuf::from(env!("CARGO_MANIFEST_DIR")).join("../..");
        for script in ["kveldrim", "rust/build.sh", "rust/debian.toml"] {
            checkout.write(script, &fs::read_to_string(top.join(script)).unwrap());
        }
        checkout.write("crates.txt", "a:\nkveldrim staticlib: a\n");
        for source in [
            "crates/a/src/lib.rt",
            "crates/a/proofs/f/Proof.antt",
            "rust/Cargo.toml",
            "rust/kveldrim/build.rs",
            "rust/kveldrim/Cargo.toml",
            "rust/kveldrim/src/lib.rs",
            "rust/cli/Cargo.toml",
            "rust/cli/src/main.rs",
            "rust/cli/src/faults/line.rs",
        ] {
            checkout.write(source, "");
            checkout.is_of(source, 3600);
        }
        for source in [
            "crates.txt",
            "kveldrim",
            "rust/build.sh",
            "rust/debian.toml",
        ] {
            checkout.is_of(source, 3600);
        }
        checkout.write("rust/target/release/kveldrim", BUILT);
        checkout.write("crates/kveldrim/out/libkveldrim.a", "");
        // What `rt` keeps of its own is no source.
        checkout.write("crates/a/out/kept", "");
        checkout.program("rt", "echo rt >> \"$called\"; echo 'logic=proved functions=1'; touch out/libkveldrim.a");
        checkout.program(
            "cargo",
            "[ \"$1\" = --version ] && { echo 'cargo 1.85.0 (x)'; exit; }\n\
            echo cargo >> \"$called\"; echo '   Compiling a v1 (long log)'\n\
            printf '#!/bin/sh\\nprintf \"new[%%s]\" \"$@\"\\n' > \"$top/rust/target/release/kveldrim\"",
        );
        for program in ["apt-get", "sleep"] {
            checkout.program(program, "echo \"$0 $*\" >> \"$called\"; exit 1");
        }
        for tool in TOOLS {
            let found = ["/usr/bin", "/bin"].map(|folder| PathBuf::from(folder).join(tool));
            let found = found.iter().find(|path| path.exists());
            let found = found.unwrap_or_else(|| panic!("{tool} is needed"));
            symlink(found, checkout.path("bin").join(tool)).unwrap();
        }
        checkout
    }

    fn path(&self, name: &str) -> PathBuf {
        self.0 .0.join(name)
    }

    fn write(&self, name: &str, text: &str) {
        let path = self.path(name);
        fs::create_dir_all(path.parent().unwrap()).unwrap();
        fs::write(&path, text).unwrap();
        fs::set_permissions(&path, Permissions::from_mode(0o755)).unwrap();
    }

    /// A program on the path. It notes its calls in a file.
    fn program(&self, name: &str, lines: &str) {
        let text = format!(
            "#!/bin/sh\ntop='{}' called='{}'\n{lines}\n",
            self.0 .0.display(),
            self.path("called").display()
        );
        self.write(&format!("bin/{name}"), &text);
    }

    /// Makes a file so many seconds old.
    fn is_of(&self, name: &str, seconds: u64) {
        let time = SystemTime::now() - Duration::from_secs(seconds);
        let file = File::options().write(true).open(self.path(name)).unwrap();
        file.set_modified(time).unwrap();
    }

    fn command(&self) -> Command {
        let mut command = Command::new(self.path("kveldrim"));
        command.env_clear().env("PATH", self.path("bin"));
        command
    }

    fn run(&self, words: &[&[u8]]) -> Outcome {
        self.0.run_by(self.command(), words)
    }

    /// The programs that were called, without the tools.
    fn called(&self) -> String {
        fs::read_to_string(self.path("called")).unwrap_or_default()
    }
}

#[test]
fn what_is_built_runs_at_once() {
    let checkout = Checkout::new();
    checkout
        .run(&[b"check", b"a b", b"", b"\xFF\n"])
        .writes(b"[check][a b][][\xFF\n]");
    // By a link from elsewhere, too. A proof that changed makes no other command.
    checkout.is_of("crates/a/proofs/f/Proof.antt", 0);
    symlink(checkout.path("kveldrim"), checkout.path("link")).unwrap();
    let mut command = Command::new(checkout.path("link"));
    command.env_clear().env("PATH", checkout.path("bin"));
    checkout.0.run_by(command, &[b"log"]).writes(b"[log]");
    // As a script of a shell, from its own folder.
    let mut command = Command::new("sh");
    command.arg("kveldrim").env("PATH", checkout.path("bin"));
    checkout.0.run_by(command, &[b"a"]).writes(b"[a]");
    assert_eq!(checkout.called(), "");
}

#[test]
fn what_is_older_than_its_sources_is_built() {
    for (source, called) in [
        ("rust/cli/src/main.rs", "cargo\n"),
        ("rust/cli/src/faults/line.rs", "cargo\n"),
        ("rust/kveldrim/build.rs", "cargo\n"),
        ("crates.txt", "rt\ncargo\n"),
        ("crates/a/src/lib.rt", "rt\ncargo\n"),
    ] {
        let checkout = Checkout::new();
        checkout.is_of("rust/target/release/kveldrim", 60);
        checkout.is_of("crates/kveldrim/out/libkveldrim.a", 60);
        checkout.run(&[b"a b"]).writes(b"[a b]");
        checkout.is_of(source, 0);
        let outcome = checkout.run(&[b"a b"]);
        assert_eq!(outcome.out.escape_ascii().to_string(), "new[a b]");
        assert_eq!(outcome.status, 0);
        let told = String::from_utf8(outcome.told).unwrap();
        assert!(
            told.contains("building the command, about a minute"),
            "{told}"
        );
        assert_eq!(
            told.contains("the proved library, about 5 minutes"),
            called.contains("rt"),
            "{told}"
        );
        // The long log is in its file.
        assert!(!told.contains("Compiling"), "{told}");
        let log = fs::read_to_string(checkout.path("target/build.log")).unwrap();
        assert!(log.contains("Compiling a v1 (long log)"), "{log}");
        assert_eq!(checkout.called(), called);
        // Now it is newer.
        checkout.run(&[b"x"]).writes(b"new[x]");
        assert_eq!(checkout.called(), called);
    }
}

/// Where CDPATH is set, `cd` writes the folder that it finds.
#[test]
fn by_a_relative_path_with_cdpath() {
    let checkout = Checkout::new();
    symlink(".", checkout.path("again")).unwrap();
    checkout.is_of("rust/target/release/kveldrim", 60);
    checkout.is_of("rust/cli/src/main.rs", 0);
    let mut command = Command::new("sh");
    command
        .args(["-c", "exec again/kveldrim \"$@\"", "sh"])
        .env_clear()
        .env("PATH", checkout.path("bin"))
        .env("CDPATH", ".");
    let outcome = checkout.0.run_by(command, &[b"a b"]);
    assert_eq!(outcome.out.escape_ascii().to_string(), "new[a b]");
    assert_eq!(checkout.called(), "cargo\n");
}

#[test]
fn a_build_that_fails_is_told_in_one_line() {
    let checkout = Checkout::new();
    checkout.is_of("rust/cli/src/main.rs", 0);
    checkout.is_of("rust/target/release/kveldrim", 60);
    checkout.program("cargo", "[ \"$1\" = --version ] && { echo 'cargo 1.96.0'; exit; }\necho 'error: no such thing'; exit 101");
    checkout.run(&[b"x"]).tells(
        2,
        &[
            "kveldrim: building the command",
            "kveldrim: the command could not be built: see ",
        ],
    );
}

#[test]
fn a_cargo_that_is_too_old_is_told_in_one_line() {
    let checkout = Checkout::new();
    checkout.is_of("rust/target/release/kveldrim", 60);
    checkout.is_of("rust/cli/src/main.rs", 0);
    checkout.program("cargo", "echo 'cargo 1.65.0'");
    // Nothing can be installed: apt-get fails, and is not there for others than root.
    let outcome = checkout.run(&[b"x"]);
    let told = String::from_utf8(outcome.told).unwrap();
    let last = "kveldrim: cargo 1.65.0: cargo 1.85 or newer is needed (Debian 13: package cargo, Debian 12: package cargo-web)\n";
    assert!(told.ends_with(last), "{told}");
    assert_eq!((outcome.status, outcome.out.len()), (2, 0));
    // A word about each package comes first.
    let installs = checkout.called().contains("apt-get");
    assert_eq!(
        told.contains("installing Debian's packages cargo"),
        installs,
        "{told}"
    );
}

#[test]
fn without_the_kit() {
    let checkout = Checkout::new();
    checkout.is_of("rust/target/release/kveldrim", 60);
    checkout.is_of("crates/kveldrim/out/libkveldrim.a", 60);
    checkout.is_of("crates/a/src/lib.rt", 0);
    fs::remove_file(checkout.path("bin/rt")).unwrap();
    checkout
        .run(&[b"x"])
        .tells(2, &["kveldrim: 'rt' of the Rattle kit is needed"]);
    assert_eq!(checkout.called(), "");
}

/// Somebody who may not write the checkout runs what is built, and is told if it is too old.
#[test]
fn another_user_as_root() {
    let checkout = Checkout::new();
    let another = || {
        let mut command = checkout.command();
        command.uid(65_534).gid(65_534);
        command
    };
    checkout.0.run_by(another(), &[b"a b"]).writes(b"[a b]");
    checkout.is_of("rust/target/release/kveldrim", 60);
    checkout.is_of("rust/cli/src/main.rs", 0);
    checkout.0.run_by(another(), &[b"x"]).tells(
        2,
        &["kveldrim: the command is not built, or older than its sources, and you may not write"],
    );
    assert_eq!(checkout.called(), "");
}
