//! The actions of the bindings: their list and their expansion, held to worked examples.

use kveldrim::{
    action_runs, actions, actions_vec, expand_action, expand_action_args, list_of, Action,
    Elements, Kind, Refusal,
};

/// Two actions are listed, `new` and `print`; only the first has an Icon of its own.
const T: &[u8] = b"[Desktop Entry]\nName=Lesen\nName[fr]=Lire\nIcon=book\nExec=view %F\n\
    Actions=new;gone;print;new;a b;plain;\n\
    [Desktop Action new]\nName=Neu\nName[fr.UTF-8]=Nouveau\nIcon=star\nExec=view --new %i %c %u\n\
    [Desktop Action print]\nName=Drucken\\s\nExec=view --print %i %c %F\n\
    [Desktop Action plain]\nExec=view\n\
    [Desktop Action other]\nName=Anderes\nExec=view\n";

const NONE: [&str; 0] = [];

fn action(identifier: &str, label: &str) -> Action {
    Action {
        identifier: identifier.into(),
        label: label.into(),
    }
}

fn refused<A>(number: u32, place: u64) -> Result<A, Refusal> {
    Err(Refusal {
        kind: Kind::of(number).unwrap(),
        place,
        byte: 0,
    })
}

/// A file with this Actions and one action, `a`, whose Name is the label.
fn with_label(actions: &str, label: &str) -> Vec<u8> {
    format!("[Desktop Entry]\nActions={actions}\n[Desktop Action a]\nName={label}\nExec=view\n")
        .into()
}

#[test]
fn the_records_of_actions() {
    let mut out = [0xAA; 45];
    assert_eq!(actions(T, b"", &mut out), Ok(43));
    let records = b"\x09\0\0\0\x02\0new\x09\0\0\0\x02\0Neu\
        \x0B\0\0\0\x02\0print\x0E\0\0\0\x02\0Drucken ";
    assert_eq!(&out[..43], records);
    assert_eq!(out[43..], [0xAA; 2]);
    let texts = [&b"new"[..], b"Neu", b"print", b"Drucken "];
    assert!(Elements::new(&out[..43]).eq(texts));
}

#[test]
fn labels_by_locale() {
    let print = action("print", "Drucken ");
    for (locale, label) in [("", "Neu"), ("de", "Neu"), ("fr_CA", "Nouveau")] {
        let listed = actions_vec(T, locale.as_bytes());
        assert_eq!(listed, Ok(vec![action("new", label), print.clone()]));
    }
    let none = b"[Desktop Entry]\nActions[de]=a\nActions=\n[Desktop Action a]\nName=A\n";
    assert_eq!(actions_vec(none, b"de"), Ok(vec![]));
    assert_eq!(actions_vec(b"[Desktop Entry]\n", b""), Ok(vec![]));
}

#[test]
fn a_refusal_changes_nothing() {
    let mut out = [0xAA; 42];
    assert_eq!(actions(T, b"", &mut out), refused(11, 0));
    assert_eq!(actions(T, b"_", &mut out), refused(7, 0));
    let wrong = with_label("a;\\q", "\\q");
    assert_eq!(actions(&wrong, b"", &mut out), refused(9, 2));
    let wrong = with_label("a;", "x\\;");
    assert_eq!(actions(&wrong, b"", &mut out), refused(9, 1));
    let mut expand =
        |file: &[u8], action: &[u8]| expand_action(file, action, b"", b"", b"", 0, &mut out[..9]);
    assert_eq!(expand(T, b"new"), refused(11, 0));
    assert_eq!(expand(T, b"plain"), refused(8, 0));
    assert_eq!(expand(&with_label("\\", ""), b"a"), refused(9, 0));
    assert_eq!(out, [0xAA; 42]);
}

/// The icon is the action's own, the name the application's.
#[test]
fn arguments_of_actions() {
    let arguments = |action: &[u8]| expand_action_args(T, action, b"fr", b"", &["x", "y"], 0);
    let new = [&b"view"[..], b"--new", b"--icon", b"star", b"Lire", b"x"];
    assert_eq!(arguments(b"new").unwrap(), new);
    let print = [&b"view"[..], b"--print", b"Lire", b"x", b"y"];
    assert_eq!(arguments(b"print").unwrap(), print);
    for identifier in [
        &b"gone"[..],
        b"plain",
        b"other",
        b"a b",
        b"",
        b"new;",
        b"\xFF",
    ] {
        assert_eq!(arguments(identifier), refused(8, 0));
    }
    // Its label is not read.
    let wrong = with_label("a", "\\");
    let arguments = expand_action_args(&wrong, b"a", b"", b"", &NONE, 0);
    assert_eq!(arguments, Ok(vec![b"view".to_vec()]));
    let list = list_of(&["x"]);
    let mut out = [0xAA; 12];
    let written = expand_action(&wrong, b"a", b"", b"", &list, 0, &mut out);
    assert_eq!(written, Ok(10));
    assert_eq!(&out, b"\x0A\0\0\0\x03\0view\xAA\xAA");
}

#[test]
fn numbers_of_runs() {
    let files = ["x", "y", "z"];
    assert_eq!(action_runs(T, b"new", b"", b"", &files), Ok(3));
    assert_eq!(action_runs(T, b"print", b"", b"", &files), Ok(1));
    assert_eq!(action_runs(T, b"new", b"", b"", &NONE), Ok(1));
    assert_eq!(action_runs(T, b"plain", b"", b"", &NONE), refused(8, 0));
}

/// Records as long as they can be beside their file: of one action, and of as many as a file has room for.
#[test]
fn the_output_grows() {
    let room = kveldrim::FILE_BOUND - with_label("a", "").len();
    let longest = "x".repeat(room);
    let listed = actions_vec(&with_label("a", &longest), b"");
    assert_eq!(listed, Ok(vec![action("a", &longest)]));
    let names: Vec<String> = (0..1_000).map(|n| n.to_string()).collect();
    let groups = names
        .iter()
        .map(|name| format!("[Desktop Action {name}]\nName=\n"));
    let list = names.join(";");
    let file = format!("[Desktop Entry]\nActions={list}\n") + &groups.collect::<String>();
    let listed = actions_vec(file.as_bytes(), b"").unwrap();
    assert!(listed
        .into_iter()
        .eq(names.iter().map(|name| action(name, ""))));
}
