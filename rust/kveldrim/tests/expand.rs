//! The expansion of the bindings, held to worked examples.

use kveldrim::{expand, expand_args, list_of, runs, Arguments, Kind, Refusal};

const T: &[u8] = b"[Desktop Entry]\nType=Application\nName=Lesen\nName[fr]=Lire\nExec=view %F\n";

const NONE: [&str; 0] = [];

fn with_exec(exec: &str) -> Vec<u8> {
    format!("[Desktop Entry]\nName=Lesen\nExec={exec}\n").into()
}

fn refused<A>(number: u32, place: u64) -> Result<A, Refusal> {
    Err(Refusal {
        kind: Kind::of(number).unwrap(),
        place,
        byte: 0,
    })
}

#[test]
fn the_worked_example() {
    let list = list_of(&["a"]);
    assert_eq!(list, b"\x07\0\0\0\x02\0a");
    let mut out = [0xAA; 20];
    assert_eq!(expand(T, b"", b"", &list, 0, &mut out), Ok(17));
    assert_eq!(&out[..17], b"\x0A\0\0\0\x03\0view\x07\0\0\0\x03\0a");
    assert_eq!(out[17..], [0xAA; 3]);
    assert!(Arguments::new(&out[..17]).eq([&b"view"[..], b"a"]));
}

#[test]
fn a_refusal_changes_nothing() {
    let list = list_of(&["a"]);
    let mut out = [0xAA; 16];
    assert_eq!(expand(T, b"", b"", &list, 0, &mut out), refused(11, 0));
    assert_eq!(expand(T, b"", b"", &list, 1, &mut out), refused(8, 0));
    assert_eq!(expand(T, b"", b"", b"x", 0, &mut out), refused(14, 0));
    assert_eq!(expand(T, b"_", b"", &list, 0, &mut out), refused(7, 0));
    assert_eq!(out, [0xAA; 16]);
}

#[test]
fn arguments_of_items() {
    let names = ["a b.txt", "c%f.txt", "M\u{FC}ller.odt", "Mu\u{308}ller.odt"];
    let arguments = expand_args(T, b"", b"", &names, 0).unwrap();
    assert_eq!(arguments[0], b"view");
    assert!(arguments[1..].iter().eq(names.map(str::as_bytes).iter()));
    let single = with_exec("view --x=%f");
    let second = expand_args(&single, b"", b"", &names, 2).unwrap();
    assert_eq!(second, [&b"view"[..], "--x=M\u{FC}ller.odt".as_bytes()]);
    assert_eq!(expand_args(&single, b"", b"", &names, 4), refused(8, 0));
    let double = with_exec("view %f %u");
    assert_eq!(expand_args(&double, b"", b"", &names, 0), refused(16, 8));
    assert_eq!(expand_args(T, b"", b"", &[""], 0), refused(10, 0));
}

#[test]
fn the_output_grows() {
    let file = with_exec(&format!("view{}", " %k".repeat(500)));
    let location = [b'l'; 4_096];
    let arguments = expand_args(&file, b"", &location, &NONE, 0).unwrap();
    assert_eq!(arguments.len(), 501);
    assert!(arguments[1..].iter().all(|argument| *argument == location));
    let too_many = vec!["a"; 10_000];
    assert_eq!(expand_args(T, b"", b"", &too_many, 0), refused(14, 0));
}

#[test]
fn numbers_of_runs() {
    assert_eq!(runs(T, b"", b"", &["a", "b"]), Ok(1));
    let single = with_exec("view %f");
    assert_eq!(runs(&single, b"", b"", &NONE), Ok(1));
    assert_eq!(runs(&single, b"", b"", &["a"]), Ok(1));
    assert_eq!(runs(&single, b"", b"", &["a", "b", "c"]), Ok(3));
    assert_eq!(runs(&with_exec("a=b"), b"", b"", &NONE), refused(15, 1));
}

#[test]
fn broken_records_end_the_arguments() {
    assert_eq!(Arguments::new(b"\x07\0\0\0\x03\0").count(), 0);
    assert_eq!(Arguments::new(b"\x06\0\0\0\x02\0").count(), 0);
    assert_eq!(Arguments::new(b"\x05\0\0\0\x03\0").count(), 0);
}
