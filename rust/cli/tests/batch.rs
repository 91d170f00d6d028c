//! Makes the requests of a table as a user does: what the single commands would make of them, what is told, and which tables
//! are none. `editing.rs` has what is in the way of any edit, `persons.rs` who edits, `src/table.rs` tables at random,
//! `src/kills.rs` the kills.

mod common;

use std::fs;
use std::os::unix::fs::MetadataExt;
use std::process::Command;

use common::{run_the_readme, Folder, Outcome, JOURNAL, T};
use serde_json::{json, Value};

const FILE: &str =
    "[Desktop Entry]\nType=Application\nName=Lesen\nName[fr]=Lire\nGenericName=Buch\n\
    GenericName[fr]=Livre\nExec=view %F\n# new\n[Desktop Action new]\nName = Neu";

/// A request: what is done, the group, the key and the text.
type Ask<'a> = [&'a str; 4];

/// Requests that are accepted in this order.
const GOOD: [Ask; 6] = [
    ["set", "", "Name", "Les, \"bien\"; oui\tnon"],
    ["set", "Desktop Action new", "Name", "New"],
    ["remove", "", "Name[fr]", ""],
    ["set", "Desktop Entry", "Icon", " two\nlines"],
    ["set", "", "Icon[de]", ""],
    ["remove", "Desktop Action new", "Name", ""],
];

/// A table with these requests, each field in quotes.
fn table(asks: &[Ask]) -> String {
    let mut table = String::new();
    for row in [["action", "group", "key", "text"]].iter().chain(asks) {
        let fields = row.map(|field| format!("\"{}\"", field.replace('"', "\"\"")));
        table += &(fields.join(",") + "\n");
    }
    table
}

/// The line in which the request of this number starts, from 0.
fn line_of(asks: &[Ask], number: usize) -> usize {
    table(&asks[..number]).lines().count() + 1
}

/// A folder with tables.
struct Tables(Folder);

impl Tables {
    fn new() -> Tables {
        Tables(Folder::new())
    }

    /// The path of a table with these bytes.
    fn with(&self, bytes: &[u8]) -> String {
        let path = self.0 .0.join("terms.csv");
        fs::write(&path, bytes).unwrap();
        path.to_str().unwrap().into()
    }
}

impl Folder {
    /// The requests at once, of a table that is not in the folder. Its name in what is told and written is `TABLE`.
    fn batch(&self, bytes: &[u8], words: &[&str]) -> Outcome {
        let tables = Tables::new();
        let path = tables.with(bytes);
        let outcome = self.words(&[&["batch", "t", &path], words].concat());
        let renamed = |bytes| {
            let text = String::from_utf8(bytes).unwrap();
            text.replace(&path, "TABLE").into_bytes()
        };
        Outcome {
            status: outcome.status,
            out: renamed(outcome.out),
            told: renamed(outcome.told),
        }
    }

    /// A request by `set` or `remove`.
    fn single(&self, [action, group, key, text]: Ask, more: &[&str]) -> Outcome {
        let group = match group {
            "" => "Desktop Entry",
            group => group,
        };
        let text: &[&str] = if action == "set" { &[text] } else { &[] };
        let words = [
            &[action, "--no-warn", "--group", group],
            more,
            &["--", "t", key],
            text,
        ];
        self.words(&words.concat())
    }

    /// The table is refused, and the folder is as before.
    fn refuses_table(&self, status: i32, bytes: &[u8], told: &str) {
        let before = self.all();
        self.batch(bytes, &[]).tells(status, &[told]);
        assert_eq!(self.all(), before);
    }
}

fn requests(count: usize) -> String {
    match count {
        1 => "1 request".into(),
        _ => format!("{count} requests"),
    }
}

/// Makes the requests at once in one folder, and one by one in another until one is refused: both are left the same. Answers how
/// many were made, and what is told of the next one at once and alone. Then they are undone one by one.
fn compare(start: impl Fn() -> Folder, asks: &[Ask]) -> (usize, Option<[String; 2]>) {
    let (at_once, alone) = (start(), start());
    let mut files = vec![alone.read("t")];
    let mut refused = None;
    for ask in asks {
        let outcome = alone.single(*ask, &[]);
        if outcome.status != 0 {
            outcome.tells(1, &["t: "]);
            refused = Some(String::from_utf8(outcome.told).unwrap());
            break;
        }
        files.push(alone.read("t"));
    }
    let done = files.len() - 1;
    let outcome = at_once.batch(table(asks).as_bytes(), &["--no-warn"]);
    assert_eq!(at_once.all(), alone.all());
    let refused = match refused {
        None => {
            let are = if done == 1 { "is" } else { "are" };
            outcome.writes(format!("{} {are} done\n", requests(done)).as_bytes());
            None
        }
        Some(alone) => {
            outcome.tells(1, &[&format!("TABLE:{}: ", line_of(asks, done))]);
            Some([String::from_utf8(outcome.told).unwrap(), alone])
        }
    };
    while let Some(file) = files.pop() {
        assert_eq!(at_once.read("t"), file);
        if !files.is_empty() {
            at_once.does(&["undo", "t"]);
        }
    }
    // What stood before stands.
    let (undo, before) = (at_once.words(&["undo", "t"]), start().words(&["undo", "t"]));
    assert_eq!((undo.status, undo.told), (before.status, before.told));
    (done, refused)
}

/// What stands behind the words of a refusal.
fn tail(done: usize) -> String {
    match done {
        0 => "; nothing was changed\n".into(),
        1 => "; the request before it stands (kveldrim undo t 1 takes it back)\n".into(),
        _ => format!(
            "; the {done} requests before it stand (kveldrim undo t {done} takes them back)\n"
        ),
    }
}

fn start() -> Folder {
    Folder::new().with(b"t", FILE.as_bytes())
}

/// A file with an edit that stands and one that waits.
fn edited() -> Folder {
    let folder = start();
    folder.does(&["set", "t", "Name", "a", "--person", "3"]);
    folder.does(&["set", "t", "Name", "b"]);
    folder.does(&["undo", "t"]);
    folder
}

#[test]
fn all_requests_are_made() {
    for count in 1..=GOOD.len() {
        assert_eq!(compare(start, &GOOD[..count]), (count, None));
    }
    assert_eq!(compare(edited, &GOOD), (GOOD.len(), None));
    let folder = start();
    folder
        .batch(table(&GOOD).as_bytes(), &[])
        .writes(b"6 requests are done\n");
    let expected = "[Desktop Entry]\nType=Application\nName=Les, \"bien\"; oui\\tnon\nGenericName=Buch\n\
        GenericName[fr]=Livre\nExec=view %F\nIcon=\\stwo\\nlines\nIcon[de]=\n# new\n[Desktop Action new]";
    assert_eq!(String::from_utf8(folder.read("t")).unwrap(), expected);
    folder.logs(
        "stands: Name in Desktop Entry: \"Lesen\" became \"Les, \\\"bien\\\"; oui\\tnon\"\n\
        stands: Name in Desktop Action new: \"Neu\" became \"New\"\n\
        stands: Name[fr] in Desktop Entry: \"Lire\" was removed\n\
        stands: Icon in Desktop Entry: \" two\\nlines\" was added\n\
        stands: Icon[de] in Desktop Entry: \"\" was added\n\
        stands: Name in Desktop Action new: \"New\" was removed\n",
    );
    folder.does(&["undo", "t", "6"]);
    assert_eq!(folder.read("t"), FILE.as_bytes());
    assert_eq!(folder.names(), [JOURNAL, "t"]);
}

/// Requests that are refused in [`start`], before and after those of [`GOOD`].
fn refused() -> [(Ask<'static>, &'static str); 11] {
    let long: &str = "x".repeat(40_000).leak();
    [
        (["set", "a]", "Name", "x"], "a] is no name of a group; "),
        (["set", "", "Na me", "x"], "Na me is no key; "),
        (["remove", "", "", ""], "'' is no key; "),
        (["set", "", "Name", "\u{1}"], "this text cannot be set: "),
        (["set", "X", "Name", "x"], "there is no group X"),
        (["remove", "X", "Name", ""], "there is no group X"),
        (
            ["remove", "", "Comment", ""],
            "there is no key Comment in a group Desktop Entry",
        ),
        (
            ["remove", "", "Name[de]", ""],
            "there is no key Name[de] in a group Desktop Entry",
        ),
        (
            ["set", "", "Comment[de]", "x"],
            "Comment[de] needs the same key without a [locale] in its group; set that first",
        ),
        (
            ["remove", "", "GenericName", ""],
            "GenericName cannot be removed while the same key with a [locale] remains; ",
        ),
        (
            ["set", "", "Name", long],
            "the file would be over 32,768 bytes",
        ),
    ]
}

/// A refused request ends it, with the words that the single command has for it; those before it stand.
#[test]
fn a_request_is_refused() {
    for (ask, words) in refused() {
        for place in [0, 3, GOOD.len()] {
            let asks = [&GOOD[..place], &[ask], &GOOD[place..]].concat();
            let (done, told) = compare(start, &asks);
            let [at_once, alone] = told.unwrap();
            assert_eq!(done, place);
            let line = line_of(&asks, place);
            let alone = alone.strip_prefix("t: ").unwrap();
            assert!(alone.starts_with(words), "{alone}");
            let expected = format!("TABLE:{line}: {}{}", alone.trim_end(), tail(place));
            assert_eq!(at_once, expected);
        }
    }
}

/// Where none is made, the edits that wait still wait.
#[test]
fn edits_that_wait() {
    for place in [0, 2] {
        let asks = [&GOOD[..place], &[["remove", "", "X", ""]]].concat();
        assert_eq!(compare(edited, &asks).0, place);
    }
    let folder = edited();
    folder.refuses_table(
        1,
        b"action,key\nremove,X\n",
        "TABLE:2: there is no key X in a group Desktop Entry; nothing was changed",
    );
    folder.does(&["redo", "t"]);
    folder.run(&[b"get", b"t", b"Name"]).writes(b"b\n");
}

#[test]
fn all_or_nothing() {
    for (ask, words) in refused() {
        for place in [0, 3, GOOD.len()] {
            let asks = [&GOOD[..place], &[ask], &GOOD[place..]].concat();
            let folder = edited();
            let before = folder.all();
            let outcome = folder.batch(table(&asks).as_bytes(), &["--all-or-nothing"]);
            outcome.tells(1, &[&format!("TABLE:{}: {words}", line_of(&asks, place))]);
            assert!(outcome.told.ends_with(b"; nothing was changed\n"));
            assert_eq!(folder.all(), before);
        }
    }
    let (one, other) = (edited(), edited());
    let good = table(&GOOD);
    let [all, plain] = [&["--all-or-nothing"][..], &[]];
    one.batch(good.as_bytes(), all)
        .writes(b"6 requests are done\n");
    other
        .batch(good.as_bytes(), plain)
        .writes(b"6 requests are done\n");
    assert_eq!(one.all(), other.all());
}

/// A dry run tells what the single dry runs would tell, each after the edits before it.
#[test]
fn a_dry_run_changes_nothing() {
    let alone = edited();
    let mut lines = Vec::new();
    for ask in GOOD {
        let dry = alone.single(ask, &["--dry-run", "--person=7"]);
        dry.writes(&dry.out);
        lines.push(String::from_utf8(dry.out).unwrap());
        alone.single(ask, &[]).writes(b"");
    }
    assert!(lines[0].starts_with("Name in Desktop Entry: \"a\" would become "));
    let folder = edited();
    let before = folder.all();
    let words = ["--dry-run", "--person=7"];
    let all = lines.concat() + "6 requests would be done\n";
    folder
        .batch(table(&GOOD).as_bytes(), &words)
        .writes(all.as_bytes());
    let wrong = ["remove", "", "Comment", ""];
    let told = "there is no key Comment in a group Desktop Entry; ";
    for (place, would) in [
        (0, "nothing would be changed"),
        (1, "the request before it would be done"),
        (6, "the 6 requests before it would be done"),
    ] {
        let asks = [&GOOD[..place], &[wrong], &GOOD[place..]].concat();
        let told = |would| format!("TABLE:{}: {told}{would}", line_of(&asks, place));
        let bytes = table(&asks);
        let outcome = folder.batch(bytes.as_bytes(), &words);
        let written = lines[..place].concat();
        outcome.tells_and_writes(1, &[&told(would)], written.as_bytes());
        // Without those before it nothing is left to tell.
        let outcome = folder.batch(
            bytes.as_bytes(),
            &[&words[..], &["--all-or-nothing"]].concat(),
        );
        outcome.tells(1, &[&told("nothing would be changed")]);
    }
    assert_eq!(folder.all(), before);
}

/// August: sixty names, one after the other and back.
#[test]
fn sixty_renames() {
    let start = || {
        let names =
            (0..60).map(|number| format!("[Desktop Action a{number}]\nName=Kurs {number}\n"));
        let file = format!("[Desktop Entry]\nName=Kurse\n{}", names.collect::<String>());
        Folder::new().with(b"t", file.as_bytes())
    };
    let groups: Vec<String> = (0..60)
        .map(|number| format!("Desktop Action a{number}"))
        .collect();
    let names: Vec<String> = (0..60).map(|number| format!("Course {number}")).collect();
    let asks: Vec<Ask> = groups
        .iter()
        .zip(&names)
        .map(|(group, name)| ["set", group, "Name", name])
        .collect();
    assert_eq!(compare(start, &asks), (60, None));
    let folder = start();
    let before = folder.read("t");
    folder
        .batch(table(&asks).as_bytes(), &[])
        .writes(b"60 requests are done\n");
    let renamed = String::from_utf8(before.clone()).unwrap();
    let renamed = renamed.replace("Name=Kurs ", "Name=Course ");
    assert_eq!(String::from_utf8(folder.read("t")).unwrap(), renamed);
    let log = String::from_utf8(folder.words(&["log", "t"]).out).unwrap();
    assert_eq!(log.lines().count(), 60);
    folder.does(&["undo", "t", "60"]);
    assert_eq!(folder.read("t"), before);
}

/// However a spreadsheet saves it, it is the same table.
#[test]
fn tables_of_spreadsheets() {
    let tables: &[&str] = &[
        "action,group,key,text\nset,,Name,\"a, \"\"b\"\"\nc\"\nremove,Desktop Entry,Name[fr],\n",
        // With a mark and line ends as Excel writes them; the last line need not end.
        "\u{FEFF}action,group,key,text\r\nset,,Name,\"a, \"\"b\"\"\nc\"\r\nremove,,Name[fr],\r\n",
        "action,group,key,text\rset,,Name,\"a, \"\"b\"\"\nc\"\rremove,,Name[fr],",
        // With semicolons, as where a comma stands in numbers, and with tabs.
        "action;group;key;text\r\nset;;Name;\"a, \"\"b\"\"\nc\"\r\nremove;;Name[fr];\r\n",
        "action\tgroup\tkey\ttext\nset\t\tName\t\"a, \"\"b\"\"\nc\"\nremove\t\tName[fr]\t\n",
        // All in quotes, as LibreOffice may.
        "\u{FEFF}\"action\";\"key\";\"text\"\n\"set\";\"Name\";\"a, \"\"b\"\"\nc\"\n\"remove\";\"Name[fr]\";\"\"\n",
        // In another order, without a group, and with words that were made large.
        "text,key,action\n\"a, \"\"b\"\"\nc\",Name,set\n,Name[fr],remove\n",
        "Action,KEY,Text\nSet,Name,\"a, \"\"b\"\"\nc\"\nREMOVE,Name[fr],\n",
        // Blank lines, rows that were cleared, and a remove that ends early.
        "\n\r\naction,group,key,text\n\n,,,\n\r\nset,,Name,\"a, \"\"b\"\"\nc\"\n , ,\t,\n\n  \nremove,,Name[fr]\n\n",
    ];
    let expected = String::from_utf8(T.to_vec()).unwrap();
    let expected = expected
        .replace("Name[fr]=Lire\n", "")
        .replace("Lesen", "a, \"b\"\\nc");
    for table in tables {
        let folder = Folder::new().with(b"t", T);
        folder
            .batch(table.as_bytes(), &[])
            .writes(b"2 requests are done\n");
        assert_eq!(
            String::from_utf8(folder.read("t")).unwrap(),
            expected,
            "{table:?}"
        );
    }
    // A table of removes alone needs no text.
    let folder = Folder::new().with(b"t", T);
    folder
        .batch(b"key;action\nName[fr];remove\n", &[])
        .writes(b"1 request is done\n");
    // Quotes within a field that starts otherwise are as they are.
    folder
        .batch(b"action,key,text\nset,Name,5\" disk\"\n", &[])
        .writes(b"1 request is done\n");
    folder.run(&[b"get", b"t", b"Name"]).writes(b"5\" disk\"\n");
}

/// The line that is told is the one that an editor shows, whatever stands before it.
#[test]
fn lines() {
    let folder = Folder::new().with(b"t", T);
    for (table, line) in [
        ("action,key\nremove,X\n", 2),
        ("\n\naction,key\n\n\nremove,X\n", 6),
        ("\u{FEFF}action,key\r\n\r\n,\r\nremove,X\r\n", 4),
        ("action,key\r\rremove,X\r", 3),
        ("action,key,text\nset,Name,\"a\nb\r\nc\"\n\nremove,X,\n", 6),
    ] {
        let told = format!("TABLE:{line}: there is no key X in a group Desktop Entry; ");
        folder.batch(table.as_bytes(), &[]).tells(1, &[&told]);
    }
}

/// A table that is none is refused before anything is done, by its line.
#[test]
fn bad_tables() {
    let folder = edited();
    let first = "its first line names the columns, as action,group,key,text";
    let several = "this row has 4 fields, and the table 3 columns; a field with a comma, semicolon or tab in it stands in quotes";
    let follows = "something follows the quotes of a field that starts here; a quote within them is written twice";
    let cases: &[(&str, usize, &str)] = &[
        ("", 1, &format!("the table is empty; {first}")),
        ("\u{FEFF}\n\r\n", 1, &format!("the table is empty; {first}")),
        (
            "set,,Name,x\n",
            1,
            &format!("\"set\" is no column of a table; {first}"),
        ),
        (
            "\naction,key,txt\n",
            2,
            &format!("\"txt\" is no column of a table; {first}"),
        ),
        (
            "action,key,text,\n",
            1,
            &format!("a column has no name; {first}"),
        ),
        (
            "action, key\n",
            1,
            &format!("\" key\" is no column of a table; {first}"),
        ),
        (
            "action;key,text\n",
            1,
            &format!("\"key,text\" is no column of a table; {first}"),
        ),
        (
            "\u{1B}[1m\n",
            1,
            &format!("\"\\x1B[1m\" is no column of a table; {first}"),
        ),
        ("action,text,key,Text\n", 1, "the column text stands twice"),
        (
            "action\nset\n",
            1,
            &format!("there is no column key; {first}"),
        ),
        (
            "key,text\nName,x\n",
            1,
            &format!("there is no column action; {first}"),
        ),
        (
            "action,key,text\nset,Name,x\n\nadd,Name,x\n",
            4,
            "the action is \"add\", but it may only be set or remove",
        ),
        (
            "action,key,text\n,Name,x\n",
            2,
            "the action is empty, but it may only be set or remove",
        ),
        (
            "action,key,text\n set,Name,x\n",
            2,
            "the action is \" set\", but it may only be set or remove",
        ),
        (
            "action,key,text\nremove,Name,x\n",
            2,
            "a remove has no text, but here it has \"x\"",
        ),
        (
            "action,key\nset,Name\n",
            2,
            "a set needs a text, and there is no column text",
        ),
        (
            "action,key,text\nset,Name\n",
            2,
            "this row ends before its text",
        ),
        (
            "action,text,key\nremove,\n",
            2,
            "this row ends before its key",
        ),
        ("key,action\nName\n", 2, "this row ends before its action"),
        ("action,key,text\nset,Name,x\nset,Name,x,y\n", 3, several),
        (
            "action,key,text\r\nset,Name,x\r\nset,Name,\"x\r\n\r\nset,Name,y\r\n",
            3,
            "a field starts with a quote here, and none ends it",
        ),
        ("action,key,text\nset,Name,\"x\" y\n", 2, follows),
        (
            "action,key,text\nset,Name,\"x\nset,Icon,\"y\"\n",
            2,
            follows,
        ),
    ];
    for (table, line, words) in cases {
        let told = format!("TABLE:{line}: {words}\n");
        folder.refuses_table(2, table.as_bytes(), told.trim_end());
        let outcome = folder.batch(table.as_bytes(), &["--json"]);
        assert_eq!(String::from_utf8(outcome.told).unwrap(), told);
    }
    let utf16: Vec<u8> = "\u{FEFF}action,key\n"
        .encode_utf16()
        .flat_map(u16::to_le_bytes)
        .collect();
    folder.refuses_table(
        2,
        &utf16,
        "TABLE:1: this table is UTF-16; save it as CSV in UTF-8",
    );
    for start in [&b"PK\x03\x04"[..], b"\xD0\xCF\x11\xE0"] {
        let told = "TABLE:1: this is a spreadsheet's own file; save it as CSV in UTF-8";
        folder.refuses_table(2, start, told);
    }
    // A long name is told by its start.
    let told = format!("TABLE:1: \"{}...\" is no column", "x".repeat(60));
    folder.refuses_table(2, &[b'x'; 100_000], &told);
}

#[test]
fn tables_that_cannot_be_read() {
    let folder = edited();
    let tells = |table: &str, told: &str| folder.refuses(2, &["batch", "t", table], told);
    tells(
        "none.csv",
        "none.csv: cannot be read: No such file or directory",
    );
    tells(".", ".: cannot be read: Is a directory");
    // The file that is edited is asked for first.
    folder.refuses(
        2,
        &["batch", "none", "none.csv"],
        "none: cannot be read: No such file",
    );
    let stdin = "kveldrim: edits and their journal need a file, not standard input";
    folder.refuses(2, &["batch", "-", "none.csv"], stdin);
    folder.refuses(2, &["batch", "-"], stdin);
}

/// A table comes from standard input as well.
#[test]
fn standard_input() {
    let input = b"action;key;text\nset;Name;Les\n";
    for words in [&[&b"batch"[..], b"t"][..], &[b"batch", b"t", b"-"]] {
        let folder = Folder::new().with(b"t", T);
        folder.run_with(input, words).writes(b"1 request is done\n");
        folder.run(&[b"get", b"t", b"Name"]).writes(b"Les\n");
        folder
            .run_with(b"action;key\n", words)
            .writes(b"no request in -\n");
        let told = "-:2: the action is empty, but it may only be set or remove";
        folder
            .run_with(b"action;key\n;Name\n", words)
            .tells(2, &[told]);
        let told = "-:2: there is no key X in a group Desktop Entry; nothing was changed";
        folder
            .run_with(b"action;key\nremove;X\n", words)
            .tells(1, &[told]);
    }
}

/// Who forgets the table is told that the keyboard is read.
#[test]
fn a_keyboard() {
    let folder = Folder::new().with(b"t", T);
    let (status, told) = folder.run_on_terminal(&["batch", "t", "-"]);
    let first = told.lines().next().unwrap();
    assert_eq!(
        first,
        "kveldrim: reading the table from the keyboard; Ctrl-D ends it"
    );
    assert!(told.contains("-:1: the table is empty; "), "{told}");
    assert_eq!(status, 2);
}

/// A list of 65,536 bytes is as long as one may be: one more is refused in words.
#[test]
fn a_table_that_is_too_long() {
    // In the list each row has 6 bytes, 4 for each field, and group, key and text: all but the last have 33.
    let table = |last: usize| {
        let rows = "set,A,x\n".repeat(1_984);
        format!("action,key,text\n{rows}set,A,{}\n", "y".repeat(last))
    };
    let folder = Folder::new().with(b"t", b"[Desktop Entry]\n");
    let bound = "TABLE:1986: a batch has room for 65,536 bytes of requests, and";
    for (last, words) in [
        (
            33,
            "these take 65,537; make several tables of it, the first of the rows before this one",
        ),
        (65_504, "these take 131,008; make several tables of it, "),
        (65_505, "this one takes 65,537; no file has room for it"),
        (
            1_000_000,
            "this one takes 1,000,032; no file has room for it",
        ),
    ] {
        let told = format!("{bound} {words}");
        folder.refuses_table(1, table(last).as_bytes(), &told);
    }
    folder.refuses_table(
        1,
        table(1_048_576).as_bytes(),
        "TABLE: the table is over 1,048,576 bytes; make several tables of it",
    );
    assert_eq!(folder.names(), ["t"]);
    folder
        .batch(table(32).as_bytes(), &[])
        .writes(b"1985 requests are done\n");
    let file = format!("[Desktop Entry]\nA={}\n", "y".repeat(32));
    assert_eq!(folder.read("t"), file.as_bytes());
}

/// A table without rows asks for nothing. The file and the journal are looked at all the same, and not written.
#[test]
fn a_table_without_requests() {
    let header = b"action,group,key,text\n\n,,,\n";
    let state = |folder: &Folder| {
        let inode = |name: &str| {
            fs::metadata(folder.0.join(name))
                .ok()
                .map(|found| found.ino())
        };
        (folder.all(), inode("t"), inode(JOURNAL))
    };
    for folder in [start(), edited()] {
        let before = state(&folder);
        for words in [&[][..], &["--discard-journal"], &["--dry-run"]] {
            folder.batch(header, words).writes(b"no request in TABLE\n");
        }
        folder
            .batch(header, &["--json"])
            .writes(b"{\"done\":0,\"refusal\":null}\n");
        assert_eq!(state(&folder), before);
    }
    let bad = Folder::new().with(b"t", b"[Desktop Entry]\nName\n");
    bad.refuses_table(1, header, "t:2:5: there is no \"=\" after the key Name");
    let damaged = start().with(JOURNAL.as_bytes(), b"x");
    let told = "t: its journal .t.kveldrim-journal is damaged (set, remove, batch and merge put";
    damaged.refuses_table(1, header, told);
}

/// Faults of the file come before all requests.
#[test]
fn a_bad_file() {
    let table = table(&GOOD);
    for (file, told) in [
        (
            &b"[Desktop Entry]\nName\n"[..],
            "t:2:5: there is no \"=\" after the key Name",
        ),
        (
            b"[Desktop Entry]\nA[de]=\n",
            "t:2: A[de] needs the key A without a [locale] beside it",
        ),
        (&[b'\n'; 40_000], "t: the file is over 32,768 bytes"),
        (b"", "t: the file is empty; "),
    ] {
        let folder = Folder::new().with(b"t", file);
        folder.refuses_table(1, table.as_bytes(), told);
        let outcome = folder.batch(table.as_bytes(), &["--json", "--all-or-nothing"]);
        outcome.tells(1, &[told]);
    }
}

/// The journal has room for a text of 13,471 bytes as Name, and for none of more.
fn filled() -> Folder {
    let folder = start();
    for (key, letter, length) in [
        ("X-1", "x", 1),
        ("X-2", "x", 1),
        ("Name", "a", 13_000),
        ("Name", "b", 13_000),
    ] {
        folder.does(&["set", "t", key, &letter.repeat(length)]);
    }
    folder
}

const FULL: &str = "the journal has no room for this edit (kveldrim forget t ";

/// The number of edits to be forgotten that a full journal tells, and for what there is room then.
fn to_forget(told: &str) -> (usize, &str) {
    let (_, told) = told.split_once(FULL).expect(told);
    let (count, told) = told.split_once(" makes room").expect(told);
    (count.parse().unwrap(), told.split_once(':').unwrap().0)
}

/// Where nothing is saved, it is about the whole table.
#[test]
fn a_full_journal_and_all_or_nothing() {
    let long = "c".repeat(13_440);
    let short = ["set", "", "Icon", "book"];
    let bytes = table(&[short, short, ["set", "", "Name", &long], short]);
    let folder = filled();
    let before = folder.all();
    let mut told = Vec::new();
    for words in [&["--all-or-nothing"][..], &["--dry-run"]] {
        let outcome = folder.batch(bytes.as_bytes(), words);
        assert_eq!((outcome.status, folder.all()), (1, before.clone()));
        told.push(String::from_utf8(outcome.told).unwrap());
        let told = told.last().unwrap();
        assert!(told.starts_with(&format!("TABLE:4: {FULL}")), "{told}");
        assert_eq!(to_forget(told).1, " for the table");
    }
    assert!(told[0].ends_with("; nothing was changed\n"), "{told:?}");
    assert!(told[1].ends_with("; the 2 requests before it would be done\n"));
    let count = to_forget(&told[0]).0;
    assert_eq!(to_forget(&told[1]).0, count);
    for (forgotten, status) in [(count - 1, 1), (count, 0)] {
        let folder = filled();
        let forget = folder.words(&["forget", "t", &forgotten.to_string()]);
        assert_eq!(forget.status, 0);
        let outcome = folder.batch(bytes.as_bytes(), &["--all-or-nothing"]);
        assert_eq!(outcome.status, status);
    }
}

/// Where no journal has room for the rest, it is about the next edit alone, or about several tables.
#[test]
fn more_edits_than_a_journal_has_room_for() {
    let long = "c".repeat(13_000);
    let asks = [["set", "", "Icon", &long], ["remove", "", "Icon", ""]].repeat(4);
    let (done, told) = compare(filled, &asks);
    let [at_once, alone] = told.unwrap();
    assert_eq!(done, 2);
    assert!(alone.contains(" makes room: "), "{alone}");
    let alone = alone.strip_prefix("t: ").unwrap().trim_end();
    assert_eq!(at_once, format!("TABLE:4: {alone}{}", tail(2)));
    let folder = start();
    let told = "no journal has room for so many edits at once; make several tables of it";
    for (words, end) in [
        ("--all-or-nothing", "nothing was changed"),
        ("--dry-run", "the 5 requests before it would be done"),
    ] {
        let outcome = folder.batch(table(&asks).as_bytes(), &[words]);
        let expected = format!("TABLE:7: {told}; {end}\n");
        assert_eq!(String::from_utf8(outcome.told).unwrap(), expected);
    }
    assert_eq!(folder.names(), ["t"]);
}

/// A full journal tells how many edits are in the way of the rest of the table, and no fewer make room.
#[test]
fn a_full_journal() {
    let long = "c".repeat(13_440);
    let short = ["set", "", "Icon", "book"];
    let asks = |place: usize| {
        let rest = vec![short; 4 - place];
        [
            &vec![short; place],
            &[["set", "", "Name", &long]][..],
            &rest,
        ]
        .concat()
    };
    for place in [0, 2, 4] {
        let asks = asks(place);
        let (done, told) = compare(filled, &asks);
        let [at_once, alone] = told.unwrap();
        assert_eq!(done, place);
        assert!(at_once.ends_with(&tail(place)), "{at_once}");
        let (count, room) = to_forget(&at_once);
        assert_eq!(room, " for the rest of the table");
        // The single command has that edit alone in mind.
        assert!(count >= to_forget(&alone).0 && to_forget(&alone).1.is_empty());
        let rest = table(&asks[place..]);
        for (forgotten, status) in [(count - 1, 1), (count, 0)] {
            let folder = filled();
            assert_eq!(folder.batch(table(&asks).as_bytes(), &[]).status, 1);
            let forget = folder.words(&["forget", "t", &forgotten.to_string()]);
            assert_eq!(forget.status, 0);
            assert_eq!(folder.batch(rest.as_bytes(), &[]).status, status);
        }
    }
}

/// The old journal is put aside where something is made, and stays where not.
#[test]
fn a_journal_that_is_discarded() {
    let folder = edited();
    let old = folder.read(JOURNAL);
    let file = [&folder.read("t")[..], b"\n# other\n"].concat();
    let folder = folder.with(b"t", &file);
    let told = "t: another program has changed this file since its last edit";
    folder.refuses_table(1, table(&GOOD).as_bytes(), told);
    let wrong = [GOOD[0], ["remove", "", "X", ""]];
    let discard = |asks: &[Ask], words: &[&str]| {
        let words = [&["--discard-journal"], words].concat();
        folder.batch(table(asks).as_bytes(), &words)
    };
    let before = folder.all();
    for outcome in [
        discard(&wrong[1..], &[]),
        discard(&wrong, &["--all-or-nothing"]),
        discard(&wrong, &["--dry-run"]),
    ] {
        assert_eq!((outcome.status, folder.all()), (1, before.clone()));
    }
    discard(&wrong, &[]).tells(
        1,
        &["TABLE:3: there is no key X in a group Desktop Entry; the request"],
    );
    assert_eq!(folder.read(".t.kveldrim-journal-1"), old);
    folder.does(&["undo", "t"]);
    assert_eq!(folder.read("t"), file);
    folder.refuses(1, &["undo", "t"], "t: there is nothing to undo");
}

/// A text in another encoding stays as it is, so that it is refused.
#[test]
fn a_table_in_another_encoding() {
    let folder = Folder::new().with(b"t", T);
    let unfit = "this text cannot be set: it must be UTF-8, without control bytes other than tab, LF and CR; ";
    let save = "save the table as CSV in UTF-8; ";
    for (text, save) in [(&b"M\xFCller"[..], save), (b"M\x02ller", "")] {
        let table = [b"action;key;text\r\nset;Icon;x\r\nset;Name;", text, b"\r\n"].concat();
        let told = format!("TABLE:3: {unfit}{save}the request before it stands");
        folder.batch(&table, &[]).tells(1, &[&told]);
    }
    let tables = Tables::new();
    let path = tables.with(b"action;key\r\nremove;N\xFCme\r\n");
    let told = folder
        .words(&["batch", "t", &path])
        .told
        .escape_ascii()
        .to_string();
    assert!(told.contains(":2: N\\xfcme is no key; "), "{told}");
}

/// What their user will hardly want is told of all that is done.
#[test]
fn warnings() {
    let asks = [
        ["set", "", "Name[C]", "x"],
        ["set", "", "Exec", "view '%f'"],
        ["set", "", "Name[de.UTF-8]", "x"],
        ["set", "", "Type", "App"],
        ["set", "", "Name[C]", "y"],
        ["set", "", "Name[POSIX]", "y"],
        ["remove", "", "Name[POSIX]", ""],
        ["set", "", "Name[de]", "y"],
        ["remove", "", "X", ""],
    ];
    let told = [
        "t: warning: person 9 has no name in ",
        "t:2: warning: with these edits the file is no longer complete: ",
        "t:5:11: warning: with these edits Exec can no longer be expanded: ",
        "t:3:6: warning: the locale C reads the plain Name in this line, not Name[C]; set Name instead",
        "t:7:16: warning: the locale de reads Name[de.UTF-8] in this earlier line, not Name[de]; set Name[de.UTF-8] instead, ",
    ];
    let refused = "TABLE:10: there is no key X in a group Desktop Entry; ";
    let folder = || {
        Folder::new()
            .with(b"t", T)
            .with(b"kveldrim-persons.txt", b"1 Anna\n")
    };
    let run = |count: usize, words: &[&str]| {
        let words = [&["--person=9"], words].concat();
        folder().batch(table(&asks[..count]).as_bytes(), &words)
    };
    run(8, &[]).tells_and_writes(0, &told, b"8 requests are done\n");
    run(9, &[]).tells(1, &[&told[..], &[refused]].concat());
    run(9, &["--no-warn"]).tells(1, &[refused]);
    run(9, &["--all-or-nothing"]).tells(1, &[refused]);
    let dry = run(8, &["--dry-run"]);
    dry.tells_and_writes(0, &told, &dry.out);
    let one = run(1, &[]);
    one.tells_and_writes(0, &[told[0], told[3]], b"1 request is done\n");
    run(0, &[]).writes(b"no request in TABLE\n");
}

/// Of keys that their locales do not read the first ten are told, each once, in the order of the lines that are read instead.
#[test]
fn keys_that_are_not_read() {
    let keys: Vec<String> = (10..22)
        .map(|number| format!("Name[fr.{number}]"))
        .collect();
    let run = |count: usize, words: &[&str]| {
        let name = ["set", "", "Name[C]", "x"];
        let french = keys[..count].iter().rev();
        let french = french.map(|key| ["set", "", key, "x"]);
        let asks: Vec<Ask> = french.chain([name, name]).collect();
        Folder::new()
            .with(b"t", T)
            .batch(table(&asks).as_bytes(), words)
    };
    let first =
        "t:3:6: warning: the locale C reads the plain Name in this line, not Name[C]; ".to_string();
    let french = keys[..9].iter().zip(10..).map(|(key, number)| {
        format!("t:4:10: warning: the locale fr.{number} reads Name[fr] in this earlier line, not {key}; ")
    });
    let told: Vec<String> = [first].into_iter().chain(french).collect();
    let told: Vec<&str> = told.iter().map(|line| &line[..]).collect();
    run(9, &[]).tells_and_writes(0, &told, b"11 requests are done\n");
    for (count, more) in [
        (10, "t: warning: 1 more key is not read by its own locale"),
        (
            12,
            "t: warning: 3 more keys are not read by their own locales",
        ),
    ] {
        let outcome = run(count, &[]);
        outcome.tells_and_writes(0, &[&told[..], &[more]].concat(), &outcome.out);
    }
    // Objects are written as ever.
    let silent = run(9, &["--json", "--no-warn"]);
    assert_eq!(objects(&silent).len(), 12);
    run(9, &["--json"]).tells_and_writes(0, &told, &silent.out);
}

/// A table may have keys that differ in an encoding alone; each is an entry of its own.
#[test]
fn keys_with_an_encoding() {
    let folder = Folder::new().with(b"t", T);
    let asks = [
        ["set", "", "Name[de_DE.UTF-8]", "Lies!"],
        ["set", "", "Name[fr.UTF-8]", "Lisez"],
        ["remove", "", "Name[fr]", ""],
    ];
    folder
        .batch(table(&asks).as_bytes(), &[])
        .writes(b"3 requests are done\n");
    folder.reads("de_DE", "Lies!");
    folder.reads("fr_CA", "Lisez");
    folder.does(&["undo", "t"]);
    folder.reads("fr.UTF-8", "Lire");
    folder.does(&["undo", "t", "2"]);
    assert_eq!(folder.read("t"), T);
}

/// A batch is by one person.
#[test]
fn one_person() {
    let folder = start().with(b"kveldrim-persons.txt", b"1 Anna\n");
    let asks = &GOOD[..2];
    folder
        .batch(table(asks).as_bytes(), &["--person", "Anna"])
        .writes(b"2 requests are done\n");
    let anna = ", by \"Anna\" (person 1)";
    folder.logs(&format!(
        "stands: Name in Desktop Entry: \"Lesen\" became \"Les, \\\"bien\\\"; oui\\tnon\"{anna}\n\
        stands: Name in Desktop Action new: \"Neu\" became \"New\"{anna}\n"
    ));
    let dry = folder.batch(table(&GOOD[2..3]).as_bytes(), &["--person=1", "--dry-run"]);
    let line = format!("Name[fr] in Desktop Entry: \"Lire\" would be removed{anna}\n");
    dry.writes(format!("{line}1 request would be done\n").as_bytes());
}

/// The objects of an outcome; nothing is told besides.
fn objects(outcome: &Outcome) -> Vec<Value> {
    assert_eq!(String::from_utf8_lossy(&outcome.told), "");
    let out = String::from_utf8(outcome.out.clone()).unwrap();
    let lines = out.lines();
    lines
        .map(|line| serde_json::from_str(line).unwrap())
        .collect()
}

#[test]
fn as_objects() {
    let folder = || edited().with(b"kveldrim-persons.txt", b"1 Anna\n");
    let asks = [
        ["set", "", "Name", "two\nlines"],
        ["set", "Desktop Action new", "Name", ""],
        ["remove", "", "Name[fr]", ""],
        ["remove", "", "Name[fr]", ""],
        ["set", "", "Icon", ""],
    ];
    let edit = |line: u32, state: &str, group: &str, key: &str, old: &str, new: Option<&str>| {
        json!({ "line": line, "state": state, "person": 1, "name": "Anna",
            "group": group, "key": key, "old": old, "new": new })
    };
    let edits = |state: &str| {
        let action = "Desktop Action new";
        vec![
            edit(2, state, "Desktop Entry", "Name", "a", Some("two\\nlines")),
            edit(4, state, action, "Name", "Neu", Some("")),
            edit(5, state, "Desktop Entry", "Name[fr]", "Lire", None),
        ]
    };
    let words = "there is no key Name[fr] in a group Desktop Entry";
    let refusal = |file: &str| json!({ "file": file, "ok": false, "line": 6, "byte": null, "kind": "missing", "number": 8, "words": words });
    let run = |count: usize, words: &[&str]| {
        let (folder, tables) = (folder(), Tables::new());
        let path = tables.with(table(&asks[..count]).as_bytes());
        let before = folder.all();
        let words = [&["batch", "t", &path, "--json", "--person=Anna"], words].concat();
        let outcome = folder.words(&words);
        (
            outcome.status,
            objects(&outcome),
            path,
            folder.all() == before,
        )
    };
    let of = |state: &str, done: usize, refusal: Value| {
        let last = json!({ "done": done, "refusal": refusal });
        [&edits(state)[..done], &[last]].concat()
    };
    let (status, written, _, _) = run(3, &[]);
    assert_eq!((status, written), (0, of("stands", 3, Value::Null)));
    let (status, written, path, is_same) = run(5, &[]);
    assert_eq!((status, written), (1, of("stands", 3, refusal(&path))));
    assert!(!is_same);
    let (status, written, path, is_same) = run(5, &["--dry-run"]);
    assert_eq!((status, written), (1, of("would stand", 3, refusal(&path))));
    assert!(is_same);
    let (status, written, path, is_same) = run(5, &["--all-or-nothing"]);
    assert_eq!((status, written), (1, of("stands", 0, refusal(&path))));
    assert!(is_same);
    // Numbers of other refusals.
    for (ask, number, kind) in [
        (["set", "", "N e", ""], 7, "form"),
        (["set", "", "Name", "\u{1}"], 10, "unfit"),
        (["set", "", "Icon[de]", ""], 6, "no-plain"),
        (["remove", "", "GenericName", ""], 17, "postfixed"),
        (["set", "", "Name", &"x".repeat(40_000)], 11, "no-room"),
    ] {
        let outcome = folder().batch(table(&[ask]).as_bytes(), &["--json"]);
        let refusal = &objects(&outcome)[0]["refusal"];
        assert_eq!(refusal["number"], number);
        assert_eq!(refusal["kind"], kind);
    }
    let full = ["set", "", "Name", &"c".repeat(13_472)];
    let outcome = filled().batch(table(&[full]).as_bytes(), &["--json"]);
    let refusal = &objects(&outcome)[0]["refusal"];
    assert_eq!(
        (&refusal["number"], &refusal["kind"]),
        (&json!(13), &json!("journal-full"))
    );
}

/// Where the answer cannot be written, it is told what is done.
#[test]
fn an_answer_that_cannot_be_written() {
    let folder = start();
    let tables = Tables::new();
    let path = tables.with(table(&GOOD).as_bytes());
    let tells = |words: &[&str], told: &str| {
        let mut command = Command::new("sh");
        let script = "exec \"$0\" \"$@\" > /dev/full";
        command.args(["-c", script, env!("CARGO_BIN_EXE_kveldrim")]);
        let words = [&["batch", "t", &path], words].concat();
        let words: Vec<&[u8]> = words.iter().map(|word| word.as_bytes()).collect();
        let outcome = folder.run_by(command, &words);
        let why = "kveldrim: the answer cannot be written: No space left on device";
        assert_eq!(outcome.status, 2);
        assert_eq!(
            String::from_utf8(outcome.told).unwrap(),
            format!("{why}{told}\n")
        );
    };
    tells(&["--dry-run"], "");
    assert_eq!(folder.names(), ["t"]);
    tells(&[], "; 6 requests are done all the same");
    folder.does(&["undo", "t", "6"]);
    assert_eq!(folder.read("t"), FILE.as_bytes());
}

/// The commands of the README write what it says.
#[test]
fn the_example_of_the_readme() {
    run_the_readme("A term's renames at once");
}
