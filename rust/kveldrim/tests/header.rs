//! The C headers: good C and C++, with the numbers and words of the bindings, and with examples that do what they say.

use std::collections::BTreeMap;
use std::fs::{self, File};
use std::path::{Path, PathBuf};
use std::process::Command;

use kveldrim::{ffi, Document, Kind, Person, DESKTOP_ENTRY};

const HEADERS: [&str; 2] = ["kveldrim.h", "kveldrim_words.h"];

/// The text of the first.
const HEADER: &str = include_str!("../../../include/kveldrim.h");

/// A compiler, the Debian package that has it, and the oldest standard that the headers are written for.
struct Compiler {
    command: &'static str,
    package: &'static str,
    standard: &'static str,
    extension: &'static str,
}

const C: Compiler = Compiler {
    command: "cc",
    package: "gcc",
    standard: "-std=c99",
    extension: "c",
};

const CPP: Compiler = Compiler {
    command: "c++",
    package: "g++",
    standard: "-std=c++98",
    extension: "cc",
};

impl Compiler {
    /// A program over the library, built as the header says and with every warning an error. `code` is its `main`.
    fn program(&self, name: &str, headers: &[&str], code: &str) -> PathBuf {
        let includes: String = headers
            .iter()
            .map(|header| format!("#include \"{header}\"\n"))
            .collect();
        let program = scratch(&format!("{name}_{}", self.extension));
        let source = program.with_extension(self.extension);
        let text =
            format!("{includes}#include <stdio.h>\nint main(void) {{\n{code}\nreturn 0;\n}}\n");
        fs::write(&source, text).unwrap();
        let told = Command::new(self.command)
            .args([self.standard, "-pedantic", "-Wall", "-Wextra", "-Werror"])
            .arg(concat!("-I", env!("CARGO_MANIFEST_DIR"), "/../../include"))
            .arg(&source)
            .arg(env!("KVELDRIM_ARCHIVE"))
            .arg("-o")
            .arg(&program)
            .output();
        let Compiler {
            command, package, ..
        } = self;
        let told = told.unwrap_or_else(|error| {
            panic!("{command} does not run ({error}): the Debian package {package} is needed")
        });
        assert!(
            told.status.success(),
            "{name}: {}",
            String::from_utf8_lossy(&told.stderr)
        );
        program
    }
}

fn scratch(name: &str) -> PathBuf {
    Path::new(env!("CARGO_TARGET_TMPDIR")).join(name)
}

/// What a program writes to stdout and stderr where its stdin is this file.
fn run(program: &Path, file: &[u8]) -> (String, String) {
    let input = program.with_extension("input");
    fs::write(&input, file).unwrap();
    let told = Command::new(program)
        .stdin(File::open(&input).unwrap())
        .output()
        .unwrap();
    assert!(told.status.success(), "{}", told.status);
    let [out, err] = [told.stdout, told.stderr].map(|bytes| String::from_utf8(bytes).unwrap());
    (out, err)
}

/// Each header on its own, and included again.
#[test]
fn good_c_and_cpp() {
    for compiler in [C, CPP] {
        for header in HEADERS {
            let name = header.replace('.', "_");
            let code = "return kveldrim_abi() != KVELDRIM_ABI;";
            let program = compiler.program(&name, &[header, header], code);
            assert_eq!(run(&program, b""), (String::new(), String::new()));
        }
    }
}

/// The library and its declarations in Rust are of one interface; `the_numbers_defined` asks the same of the header.
#[test]
fn one_abi() {
    // SAFETY: the call is handed nothing.
    assert_eq!(unsafe { ffi::kveldrim_abi() }, ffi::ABI);
}

/// A refusal's name in C, without KVELDRIM_: TOO_LONG for TooLong.
fn name(kind: Kind) -> String {
    let mut name = String::new();
    for letter in format!("{kind:?}").chars() {
        if letter.is_uppercase() && !name.is_empty() {
            name.push('_');
        }
        name.push(letter.to_ascii_uppercase());
    }
    name
}

#[test]
fn the_numbers_defined() {
    let defined: BTreeMap<String, usize> = HEADER
        .lines()
        .filter_map(|line| line.strip_prefix("#define KVELDRIM_")?.split_once(' '))
        .map(|(name, number)| (name.to_string(), number.parse().unwrap()))
        .collect();
    let kinds = Kind::ALL
        .iter()
        .map(|kind| (name(*kind), kind.number() as usize));
    let others = [
        ("ABI", ffi::ABI as usize),
        ("FILE_BOUND", kveldrim::FILE_BOUND),
        ("LIST_BOUND", 65_536),
        ("LOCATION_BOUND", 4_096),
        ("JOURNAL_BOUND", kveldrim::JOURNAL_BOUND),
        ("RECORD_HEAD", 20),
    ];
    let others = others.map(|(name, number)| (name.to_string(), number));
    assert_eq!(defined, kinds.chain(others).collect());
}

/// The rows of the header's table that start with a number and a name.
#[test]
fn the_table_of_refusals() {
    let rows = HEADER.lines().filter_map(|line| {
        let mut words = line.strip_prefix(" * ")?.split_whitespace();
        let number = words.next()?.parse().ok()?;
        Some((number, words.next()?.strip_prefix("KVELDRIM_")?.to_string()))
    });
    let kinds = Kind::ALL.iter().map(|kind| (kind.number(), name(*kind)));
    assert_eq!(rows.collect::<Vec<_>>(), kinds.collect::<Vec<_>>());
}

#[test]
fn the_words_of_each_number() {
    let words = (0..=40).map(|number| match Kind::of(number) {
        _ if number == 0 => "accepted",
        Some(kind) => kind.words(),
        None => "a refusal that is not in the table",
    });
    let words: Vec<&str> = words.collect();
    assert!(Kind::ALL.len() < words.len() - 1);
    let code = "for (uint32_t number = 0; number <= 40; number++) puts(kveldrim_words(number));";
    for compiler in [C, CPP] {
        let program = compiler.program("words", &["kveldrim_words.h"], code);
        let (told, _) = run(&program, b"");
        assert_eq!(told.lines().count(), words.len());
        for (number, (told, words)) in told.lines().zip(&words).enumerate() {
            assert_eq!(told, *words, "{number}");
        }
    }
}

const LOOKUP: &str = "Example: a lookup";
const EDIT: &str = "Example: an edit and its undo";
const PERSONS: &str = "Example: who made each edit";
const FULL: &str = "Example: an edit in a full journal";
const BATCH: &str = "Example: many edits at once, all or none";
const ACTIONS: &str = "Example: a menu of actions";
const PROGRAM: &str = "Example: the program that an action starts";

#[test]
fn no_example_is_left_out() {
    let headings = HEADER.lines().filter_map(|line| line.strip_prefix(" * "));
    let examples = headings.filter(|heading| heading.starts_with("Example"));
    assert_eq!(
        examples.collect::<Vec<_>>(),
        [LOOKUP, EDIT, PERSONS, FULL, BATCH, ACTIONS, PROGRAM]
    );
}

/// The code that stands indented under a heading of the header's first comment.
fn example(heading: &str) -> String {
    let (_, under) = HEADER.split_once(&format!("\n * {heading}\n")).unwrap();
    let lines = under
        .lines()
        .map_while(|line| line.strip_prefix(" *"))
        .skip_while(|line| !line.starts_with("     "))
        .take_while(|line| line.is_empty() || line.starts_with("     "));
    lines.collect::<Vec<_>>().join("\n")
}

/// The start of every file here.
const T: &str = "[Desktop Entry]\nName=Lesen\n";

/// The code that reads a file for the examples that do not.
const READ: &str = "static uint8_t file[KVELDRIM_FILE_BOUND + 1];\n\
    size_t file_len = fread(file, 1, sizeof file, stdin);\n";

#[test]
fn the_example_of_a_lookup() {
    let program = C.program("lookup", &HEADERS, &(READ.to_string() + &example(LOOKUP)));
    let told = |file: &str| run(&program, file.as_bytes());
    assert_eq!(told(T), ("Lesen".into(), "".into()));
    let bad = "line 3 is bad after 4 bytes\n";
    assert_eq!(told(&format!("{T}Icon\t=x\n")), ("".into(), bad.into()));
    let missing = format!("refused: {}\n", Kind::Missing);
    assert_eq!(told("[Desktop Entry]\n"), ("".into(), missing));
}

/// The code that tells what an edit left.
const TELL: &str = "\nif (refused == 0) fwrite(file, 1, file_len, stdout);\n\
    fprintf(stderr, \"%s, used %u, standing %u\", kveldrim_words(refused), (unsigned) used, (unsigned) standing);\n";

#[test]
fn the_example_of_an_edit() {
    let program = C.program("edit", &HEADERS, &(example(EDIT) + TELL));
    // A record has 20 bytes, Lesen and Read.
    let undone = "accepted, used 29, standing 0";
    let refused = &format!("{}, used 0, standing 0", Kind::TooLong);
    for (length, told) in [
        (T.len(), undone),
        (32_768, undone),
        (32_769, refused),
        (100_000, refused),
    ] {
        let file = T.to_string() + &"\n".repeat(length - T.len());
        let (out, err) = run(&program, file.as_bytes());
        assert_eq!(err, told, "{length} bytes");
        let left = if told == undone { &file } else { "" };
        assert!(out == left, "{length} bytes");
    }
}

#[test]
fn the_example_of_persons() {
    let program = C.program("persons", &HEADERS, &(example(EDIT) + &example(PERSONS)));
    let told = |file: &str| run(&program, file.as_bytes()).0;
    assert_eq!(told(T), "edit 0: person 7\n");
    assert_eq!(told("[Desktop Entry"), "");
}

/// The first record has 20 bytes, Lesen and Book, the others 28: the journal has room for 2,340 of these.
#[test]
fn the_example_of_a_full_journal() {
    for (edits, standing) in [
        (2_340, 29 + 2_339 * 28),
        (2_341, 2_340 * 28),
        (4_000, 2_340 * 28),
    ] {
        let again = format!("\nfor (unsigned n = 0; n < {edits}; n++) {{\n");
        let code = [&example(EDIT), &again, &example(FULL), "\n}", TELL].concat();
        let program = C.program(&format!("full_{edits}"), &HEADERS, &code);
        let told = format!("accepted, used {standing}, standing {standing}");
        assert_eq!(
            run(&program, T.as_bytes()),
            (T.replace("Lesen", "Book"), told)
        );
    }
    let program = C.program("full", &HEADERS, &(example(EDIT) + &example(FULL) + TELL));
    let told = format!("{}, used 0, standing 0", Kind::First);
    assert_eq!(run(&program, b"").1, told);
}

/// The first record has 20 bytes, Lesen and Book, the second 20 and the line of Icon.
#[test]
fn the_example_of_a_batch() {
    let left = "\nif (refused != 0) fwrite(file, 1, file_len, stdout);";
    let code = [&example(EDIT), &example(BATCH), left, TELL].concat();
    let program = C.program("batch", &HEADERS, &code);
    let told = |file: &str| run(&program, file.as_bytes());
    let done = "accepted, used 55, standing 55".to_string();
    let book = T.replace("Lesen", "Book");
    assert_eq!(told(&format!("{T}Icon=\n")), (book, done));
    // Without Icon the set is taken back; its record waits.
    let undone = format!("{}, used 29, standing 0", Kind::Missing);
    assert_eq!(told(T), (T.into(), undone));
    let refused = format!("{}, used 0, standing 0", Kind::NoPlain);
    let bad = format!("{T}Icon[de]=x\n");
    assert_eq!(told(&bad), (bad.clone(), refused));
}

#[test]
fn the_example_of_actions() {
    let code = READ.to_string() + &example(ACTIONS);
    let program = C.program("actions", &HEADERS, &code);
    let told = |file: &str| run(&program, file.as_bytes());
    let long = "x".repeat(3_000);
    let file = format!(
        "{T}Actions=b;a;c;b;\n[Desktop Action a]\nName=A\nName[de]=\n[Desktop Action b]\nName={long}\n"
    );
    assert_eq!(told(&file), (format!("b\t{long}\na\t\n"), "".into()));
    assert_eq!(told(T), ("".into(), "".into()));
    assert_eq!(told(&format!("{file}Icon\n")), ("".into(), "".into()));
}

#[test]
fn the_example_of_a_program() {
    let code = [READ, &example(ACTIONS), &example(PROGRAM)].concat();
    let program = C.program("program", &HEADERS, &code);
    let told = |file: &str| run(&program, file.as_bytes());
    let group = "[Desktop Action new-window]\nName=New\nExec=\"a b\" -n\n";
    let file = format!("{T}Exec=c\nActions=new-window\n{group}");
    assert_eq!(told(&file), ("new-window\tNew\na b".into(), "".into()));
    let missing = format!("refused: {}\n", Kind::Missing);
    assert_eq!(told(&format!("{T}{group}")), ("".into(), missing));
}

/// The record in the header is the one that its edit writes.
#[test]
fn the_example_of_a_record() {
    let mut document = Document::new(b"[Desktop Entry]\nType=Application\nName=Lesen\n");
    let set = document.set(Person(7), DESKTOP_ENTRY, b"Name", b"Les");
    assert_eq!(set, Ok(()));
    let digits = document
        .journal()
        .iter()
        .map(|byte| format!(" {byte:02X}"))
        .collect::<String>();
    assert!(HEADER.contains(&format!("the record is\n *{digits}.\n")));
}
