//! Paper 01, "Examples to hold it to" and "Easy wrong turns".

use crate::common::*;
use reference::{check, choose, complete, expand, lookup, redo, remove, set, undo, RecordKind};

#[test]
fn empty_file_and_file_t() {
    assert_eq!(check(b""), refused(3, 0));
    assert_eq!(T.len(), 71);
    assert_eq!(check(T), Ok(()));
    assert_eq!(complete(T), Ok(()));
}

#[test]
fn spaces_around_equals_and_empty_value() {
    let file = with_header(b"Name = X\nIcon=\n");
    let (start, end) = lookup(&file, b"Desktop Entry", b"Name").unwrap();
    assert_eq!(&file[start..end], b"X");
    let (start, end) = lookup(&file, b"Desktop Entry", b"Icon").unwrap();
    assert_eq!((start, end), (30, 30));
}

#[test]
fn lists() {
    assert_eq!(list(b"a\\;b;;"), Ok(vec![b"a;b".to_vec(), vec![]]));
    assert_eq!(list(b";"), Ok(vec![vec![]]));
    assert_eq!(list(b""), Ok(vec![]));
}

#[test]
fn locale_takes_country_before_modifier() {
    let file = with_header(b"Name=p\nName[sr]=l\nName[sr@Latn]=m\nName[sr_YU]=c\n");
    let (start, end) = choose(&file, b"Desktop Entry", b"Name", b"sr_YU@Latn").unwrap();
    assert_eq!(&file[start..end], b"c");
}

#[test]
fn text_written_and_read() {
    assert_eq!(write(b" x"), Ok(b"\\sx".to_vec()));
    assert_eq!(read(b"a\\q"), refused(9, 1));
}

#[test]
fn set_name_in_t() {
    let rest = [
        0x26, 0, 0, 0, 5, 0, 0, 0, 3, 0, 0, 0, 0x4C, 0x65, 0x73, 0x65, 0x6E, 0x4C, 0x65, 0x73,
    ];
    // 01's record, and that of A9.
    let front = [0x1A, 0, 0, 0, 1, 0];
    let front_of_four = [0x1C, 0, 0, 0, 4, 0, 0x34, 0x12];
    for (kind, front) in [
        (RecordKind::One, &front[..]),
        (RecordKind::Four(0x1234), &front_of_four[..]),
    ] {
        let record = [front, &rest].concat();
        let length = record.len() as u64;
        let mut s = state(T, 71, record.len());
        assert_eq!(set(&mut s, kind, b"Desktop Entry", b"Name", b"Les"), Ok(()));
        assert_eq!(s.file_len, 69);
        assert_eq!((s.used, s.standing), (length, length));
        assert_eq!(s.journal, record);
        assert_eq!(&s.file[69..], [0, 0]);
    }
}

#[test]
fn field_codes_refused() {
    assert_eq!(expand_exec("view \"%f\"", &[]), refused(16, 6));
    assert_eq!(expand_exec("view %f %u", &[]), refused(16, 8));
}

#[test]
fn commands() {
    assert_eq!(
        expand_exec("view \"a\\\\$b\"", &[]),
        arguments(&["view", "a$b"])
    );
    assert_eq!(
        expand_exec("view --x=%f", &[]),
        arguments(&["view", "--x="])
    );
    assert_eq!(expand_exec("view %f", &[]), arguments(&["view"]));
}

#[test]
fn t_with_one_file() {
    let mut out = [0xAA; 20];
    let list = records(2, &["a"]);
    assert_eq!(expand(T, b"", b"", &list, 0, &mut out), Ok(17));
    let expected = [
        0x0A, 0, 0, 0, 3, 0, 0x76, 0x69, 0x65, 0x77, 7, 0, 0, 0, 3, 0, 0x61, 0xAA, 0xAA, 0xAA,
    ];
    assert_eq!(out, expected);
}

#[test]
fn file_of_the_greatest_length() {
    let mut file = T.to_vec();
    file.resize(32_768, b'#');
    assert_eq!(check(&file), Ok(()));
    file.push(b'#');
    assert_eq!(check(&file), refused(1, 0));
}

#[test]
fn edit_to_the_greatest_length() {
    let text = vec![b'x'; 32_768 - 71 + 5];
    let mut s = state(T, 40_000, 65_536);
    assert_eq!(set(&mut s, SEVEN, b"Desktop Entry", b"Name", &text), Ok(()));
    assert_eq!(s.file_len, 32_768);
    let mut s = state(T, 40_000, 65_536);
    let text = vec![b'x'; 32_768 - 71 + 6];
    assert_eq!(
        set(&mut s, SEVEN, b"Desktop Entry", b"Name", &text),
        refused(11, 0)
    );
    assert_eq!(s, state(T, 40_000, 65_536));
}

#[test]
fn journal_with_the_records_room() {
    let mut s = state(T, 71, 28);
    assert_eq!(
        set(&mut s, SEVEN, b"Desktop Entry", b"Name", b"Les"),
        Ok(())
    );
    let mut s = state(T, 71, 27);
    assert_eq!(
        set(&mut s, SEVEN, b"Desktop Entry", b"Name", b"Les"),
        refused(13, 0)
    );
    assert_eq!(s, state(T, 71, 27));
}

#[test]
fn splitting_comes_before_expansion() {
    assert_eq!(
        expand_exec("view %f", &["a b.txt"]),
        arguments(&["view", "a b.txt"])
    );
}

#[test]
fn put_in_text_is_not_searched() {
    assert_eq!(
        expand_exec("view %f", &["c%f.txt"]),
        arguments(&["view", "c%f.txt"])
    );
}

#[test]
fn spaces_at_the_ends_of_a_value() {
    let mut s = state(T, 100, 100);
    assert_eq!(
        set(&mut s, SEVEN, b"Desktop Entry", b"Name", b" x "),
        Ok(())
    );
    let (start, end) = lookup(file_of(&s), b"Desktop Entry", b"Name").unwrap();
    assert_eq!(&s.file[start..end], b"\\sx ");
    assert_eq!(read(b"\\sx "), Ok(b" x ".to_vec()));
}

#[test]
fn undo_takes_an_inserted_line_away() {
    let mut s = state(T, 100, 100);
    assert_eq!(set(&mut s, SEVEN, b"Desktop Entry", b"Icon", b"i"), Ok(()));
    assert_eq!(file_of(&s), [T, b"Icon=i\n"].concat());
    assert_eq!(undo(&mut s), Ok(()));
    assert_eq!(file_of(&s), T);
    assert_eq!(undo(&mut s), refused(12, 0));
    assert_eq!(redo(&mut s), Ok(()));
    assert_eq!(redo(&mut s), refused(12, 0));
    assert_eq!(remove(&mut s, SEVEN, b"Desktop Entry", b"Icon"), Ok(()));
    assert_eq!(file_of(&s), T);
}
