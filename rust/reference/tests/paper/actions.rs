//! Paper 02, A1, "Actions as a submenu": a test for each sentence.

use crate::common::*;
use reference::{action_runs, actions, expand_action, listed, Refusal};

/// Labels and commands of every sort: `a` and `b` are listed, `c` has no Name, `d` no Exec, `e` is not in the list.
const ACTIONS: &[u8] = b"[Desktop Entry]\nName=App\nName[fr]=Appli\nIcon=app\nExec=app %i %c\nActions=b;c;x y;a;z;b;d\n\
    [Desktop Action a]\nName=A\nName[de]=\\sA\\t\nIcon=ia\nIcon[fr]=if\nExec=do-a %i %c %f\n\
    [Desktop Action b]\nName=B\nExec=do-b %i %c %F\n\
    [Desktop Action c]\nComment=C\nExec=do-c\n\
    [Desktop Action d]\nName=D\nIcon=id\n\
    [Desktop Action e]\nName=E\nExec=do-e\n\
    [Desktop Action x y]\nName=X\nExec=do-x\n";

/// The identifiers and labels that are listed, one after another.
fn list_file(file: &[u8], locale: &[u8]) -> Result<Vec<String>, Refusal> {
    texts(2, |out| actions(file, locale, out))
}

/// The arguments of run 0 of an action, with the files x and y.
fn expand_file(file: &[u8], action: &[u8], locale: &[u8]) -> Result<Vec<String>, Refusal> {
    let list = records(2, &["x", "y"]);
    texts(3, |out| {
        expand_action(file, action, locale, b"", &list, 0, out)
    })
}

/// A file with this raw list and, for each of these identifiers, a group with Name and Exec; the Name is the identifier.
fn with_list(list: &str, identifiers: &[&str]) -> Vec<u8> {
    let groups = identifiers
        .iter()
        .map(|action| format!("[Desktop Action {action}]\nName={action}\nExec=do-{action}\n"));
    let groups: String = groups.collect();
    with_header(format!("Actions={list}\n{groups}").as_bytes())
}

/// "List those whose group exists and has a Name, in list order, a repeated identifier where it first stands, with the label in
/// the pupil's language."
#[test]
fn listed_in_list_order() {
    assert_eq!(
        list_file(ACTIONS, b""),
        arguments(&["b", "B", "a", "A", "d", "D"])
    );
    assert_eq!(
        list_file(ACTIONS, b"de_AT"),
        arguments(&["b", "B", "a", " A\t", "d", "D"])
    );
    let abc = ["a", "b", "c"];
    for (list, identifiers) in [
        ("c;b;a", vec!["c", "b", "a"]),
        ("a;b;a;b;a;", vec!["a", "b"]),
        ("a;a", vec!["a"]),
        (";;b;;b;x", vec!["b"]),
        ("", vec![]),
        (";", vec![]),
    ] {
        let labels = identifiers.iter().flat_map(|action| [*action, *action]);
        let labels: Vec<&str> = labels.collect();
        let told = list_file(&with_list(list, &abc), b"");
        assert_eq!(told, arguments(&labels), "{list}");
    }
}

/// "Each as two records of kind 2, identifier then label text."
#[test]
fn two_records_for_each() {
    let file = with_list("ab", &["ab"]);
    let mut out = [0xAA; 20];
    assert_eq!(actions(&file, b"", &mut out), Ok(16));
    let records = b"\x08\0\0\0\x02\0ab\x08\0\0\0\x02\0ab\xAA\xAA\xAA\xAA";
    assert_eq!(&out, records);
    assert_eq!(actions(&file, b"", &mut out[..15]), refused(11, 0));
    assert_eq!(&out, records);
}

/// "Each identifier in key form (others are skipped)": empty, with a postfix, with other bytes. It is read after unescaping.
#[test]
fn identifiers_in_key_form() {
    let others = [
        ("", ""),
        ("a b", "a b"),
        ("a_b", "a_b"),
        ("a.b", "a.b"),
        ("a\\\\b", "a\\b"),
        ("a\\;b", "a;b"),
        ("a\\sb", "a b"),
        (" a", " a"),
        ("a ", "a "),
    ];
    for (element, identifier) in others {
        let file = with_list(&format!("b;{element}"), &[identifier, "a", "b"]);
        assert_eq!(listed(&file), Ok(vec![b"b".to_vec()]), "{element}");
        let told = expand_file(&file, identifier.as_bytes(), b"");
        assert_eq!(told, refused(8, 0), "{element}");
    }
    for identifier in ["a[de]", "\u{E9}", "a\\nb", "a\\tb", "a\\rb"] {
        let file = with_list(&format!("{identifier};b"), &["a", "b"]);
        assert_eq!(listed(&file), Ok(vec![b"b".to_vec()]), "{identifier}");
    }
    let file = with_list("0;-;A-z9", &["A-z9", "0", "-"]);
    let told = arguments(&["0", "0", "-", "-", "A-z9", "A-z9"]);
    assert_eq!(list_file(&file, b""), told);
}

/// "A group `Desktop Action` followed by a space and the identifier", just so.
#[test]
fn the_name_of_a_group() {
    for name in [
        "Desktop Actiona",
        "Desktop Action  a",
        "Desktop Action a ",
        "desktop action a",
        "Desktop Action A",
        "Desktop Action ab",
        "X-Desktop Action a",
        "a",
    ] {
        let file = with_header(format!("Actions=a\n[{name}]\nName=A\nExec=x\n").as_bytes());
        assert_eq!(list_file(&file, b""), Ok(vec![]), "{name}");
        assert_eq!(expand_file(&file, b"a", b""), refused(8, 0), "{name}");
    }
}

/// "None without Actions", also where it has a postfix alone (then 6) or stands in another group. `Actions[de]` is not read.
#[test]
fn without_actions() {
    let group = "[Desktop Action a]\nName=A\nExec=x\n";
    let file = with_header(format!("{group}Actions=a\n").as_bytes());
    assert_eq!(list_file(&file, b""), Ok(vec![]));
    for action in ["a", "", "\u{E9}", "Name"] {
        assert_eq!(expand_file(&file, action.as_bytes(), b""), refused(8, 0));
    }
    let file = with_header(format!("Actions[de]=a;\\q\nActions=\n{group}").as_bytes());
    assert_eq!(list_file(&file, b"de"), Ok(vec![]));
    assert_eq!(expand_file(&file, b"a", b"de"), refused(8, 0));
    let file = with_header(format!("Actions[de]=a\n{group}").as_bytes());
    assert_eq!(list_file(&file, b"de"), refused(6, 2));
}

/// The label is found as choice finds a value (A3): encodings do not count, and the earlier line wins.
#[test]
fn the_label_by_locale() {
    let names = "Name=p\nName[de_DE.x]=1\nName[de_DE]=2\nName[de@y]=3\nName[de]=4\n";
    let file = with_header(format!("Name=o\nActions=a\n[Desktop Action a]\n{names}").as_bytes());
    for (locale, label) in [
        ("", "p"),
        ("C", "p"),
        ("POSIX.UTF-8", "p"),
        ("fr", "p"),
        ("de_DE", "1"),
        ("de_DE.UTF-8@y", "1"),
        ("de_AT@y", "3"),
        ("de_AT", "4"),
    ] {
        let told = list_file(&file, locale.as_bytes());
        assert_eq!(told, arguments(&["a", label]), "{locale}");
    }
}

/// "Refusals: as in 01, Actions before labels, these in list order."
#[test]
fn refusals_of_the_list() {
    let labels = "[Desktop Action a]\nName=x\\q\nName[de]=\n[Desktop Action b]\nName=xx\\;\n\
        [Desktop Action c]\nName=\\\n";
    let file = |list: &str| with_header(format!("Actions={list}\n{labels}").as_bytes());
    assert_eq!(list_file(&file("a;b;\\q"), b"_"), refused(7, 0));
    assert_eq!(list_file(&file("a;b;\\q"), b""), refused(9, 4));
    assert_eq!(list_file(&file("a;\\"), b""), refused(9, 2));
    assert_eq!(list_file(&file("x y\\q;a"), b""), refused(9, 3));
    assert_eq!(list_file(&file("a;b"), b""), refused(9, 1));
    assert_eq!(list_file(&file("b;a"), b""), refused(9, 2));
    assert_eq!(list_file(&file("a;b"), b"de"), refused(9, 2));
    // 9 comes before 11, and a label that is not listed is not read.
    assert_eq!(actions(&file("a"), b"", &mut []), refused(9, 1));
    assert_eq!(list_file(&file("a"), b"de"), arguments(&["a", ""]));
    assert_eq!(list_file(b"", b"_"), refused(3, 0));
    assert_eq!(list_file(&with_header(b"Name\t=\n"), b"_"), bad_line(2, 4));
}

/// "Expand an action's own Exec; its Icon serves the code i, and c stays the application's Name." Nothing for i where it has no
/// Icon of its own.
#[test]
fn its_own_exec_and_icon() {
    let a = |icon, name| arguments(&["do-a", "--icon", icon, name, "x"]);
    assert_eq!(expand_file(ACTIONS, b"a", b""), a("ia", "App"));
    assert_eq!(expand_file(ACTIONS, b"a", b"fr"), a("if", "Appli"));
    assert_eq!(expand_file(ACTIONS, b"a", b"de"), a("ia", "App"));
    let b = arguments(&["do-b", "App", "x", "y"]);
    assert_eq!(expand_file(ACTIONS, b"b", b""), b);
    let list = records(2, &["x", "y"]);
    let runs = |action| action_runs(ACTIONS, action, b"", b"", &list);
    assert_eq!((runs(b"a"), runs(b"b")), (Ok(2), Ok(1)));
    assert_eq!(runs(b"d"), refused(8, 0));
}

/// "An identifier not listed, of any form, is 8, after a fault of Actions."
#[test]
fn an_identifier_not_listed() {
    let actions: [&[u8]; 11] = [
        b"c",
        b"e",
        b"z",
        b"x y",
        b"",
        b"B",
        b"b;",
        b"b\n",
        b"\0",
        b"\xFF",
        b"Desktop Action b",
    ];
    for action in actions {
        assert_eq!(expand_file(ACTIONS, action, b""), refused(8, 0));
        let wrong = with_list("b;c\\q", &["b", "c"]);
        assert_eq!(expand_file(&wrong, action, b""), refused(9, 3));
    }
    // It is listed, but has no Exec.
    assert_eq!(expand_file(ACTIONS, b"d", b""), refused(8, 0));
}

/// The order of an action's expansion, in which each next fault shows after the one before is gone.
#[test]
fn the_order_of_refusals() {
    let file = |list: &str, exec: &str, name: &str, icon: &str| {
        let action = format!("[Desktop Action a]\nName=\\q\nIcon={icon}\n{exec}");
        with_header(format!("Exec=o\nIcon=o\n{name}Actions={list}\n{action}").as_bytes())
    };
    let told = |file: &[u8], list: &[u8], locale: &[u8], location: &[u8], run, room| {
        expand_action(file, b"a", locale, location, list, run, &mut vec![0; room])
    };
    let (damaged, empty, items) = (b"x", records(2, &[""]), records(2, &["y"]));
    let bad = [file("\\q", "", "", ""), b"x".to_vec()].concat();
    assert_eq!(told(&bad, damaged, b"_", b"\0", 9, 0), bad_line(8, 1));
    let wrong = file("b;\\q", "", "", "x\\;");
    assert_eq!(told(&wrong, damaged, b"_", b"\0", 9, 0), refused(14, 0));
    assert_eq!(told(&wrong, &empty, b"_", b"\0", 9, 0), refused(7, 0));
    assert_eq!(told(&wrong, &empty, b"", b"", 9, 0), refused(10, 0));
    assert_eq!(told(&wrong, &items, b"", b"\0", 9, 0), refused(10, 0));
    assert_eq!(told(&wrong, &items, b"", b"", 9, 0), refused(9, 2));
    let told = |file: &[u8], run, room| told(file, &items, b"", b"", run, room);
    let exec = "Exec=v %i %c %f %z\\\n";
    assert_eq!(told(&file("b", exec, "", "x\\;"), 9, 0), refused(8, 0));
    assert_eq!(told(&file("a", "", "", "x\\;"), 9, 0), refused(8, 0));
    assert_eq!(told(&file("a", exec, "", "x\\;"), 9, 0), refused(9, 13));
    let exec = "Exec=v %i %c %f %z\n";
    assert_eq!(told(&file("a", exec, "", "x\\;"), 9, 0), refused(16, 11));
    let exec = "Exec=v %i %c %f\n";
    assert_eq!(told(&file("a", exec, "", "x\\;"), 1, 0), refused(8, 0));
    assert_eq!(told(&file("a", exec, "", "x\\;"), 0, 0), refused(8, 0));
    assert_eq!(
        told(&file("a", exec, "Name=\\\n", "x\\;"), 0, 0),
        refused(9, 0)
    );
    assert_eq!(
        told(&file("a", exec, "Name=n\n", "x\\;"), 0, 0),
        refused(9, 1)
    );
    // The label's wrong escape is no matter.
    let sound = file("a", exec, "Name=n\n", "");
    assert_eq!(told(&sound, 0, 20), refused(11, 0));
    assert_eq!(told(&sound, 0, 21), Ok(21));
}

/// A list of some hundred identifiers, each with its group.
#[test]
fn many_actions() {
    let identifiers: Vec<String> = (0..300).map(|number| number.to_string()).collect();
    let identifiers: Vec<&str> = identifiers.iter().map(String::as_str).collect();
    let list = [identifiers.join(";"), identifiers.join(";")].join(";");
    let file = with_list(&list, &identifiers);
    let expected = identifiers.iter().map(|action| action.as_bytes().to_vec());
    assert_eq!(listed(&file), Ok(expected.collect()));
    let told = expand_file(&file, b"299", b"");
    assert_eq!(told, arguments(&["do-299"]));
}
