//! The readings of the rules (docs/DECISIONS.md), parts 1 to 7, keys that carry an encoding, and the place of a bad byte: each
//! test is named by its entry.

use crate::common::*;
use reference::lines::{read_line, Line};
use reference::{
    check, choose, complete, expand, lookup, redo, remove, runs, set, undo, Book, RecordKind,
    Refusal, State,
};

const DE: &[u8] = b"Desktop Entry";

// Part 1

#[test]
fn r1_1_entry_before_any_header() {
    assert_eq!(check(b"A=1"), refused(3, 1));
    assert_eq!(check(b"#\n\n A=1"), bad_line(3, 1));
    assert_eq!(check(b"#\n\nA=1\n"), refused(3, 3));
    assert_eq!(check(b"#\n \t\n\n"), refused(3, 0));
    assert_eq!(check(b""), refused(3, 0));
    assert_eq!(check(b"[A]\n"), refused(3, 1));
}

#[test]
fn r1_2_bad_line_first() {
    assert_eq!(check(b"x\n[A]\n"), bad_line(1, 1));
    assert_eq!(check(b"A=1\n[Desktop Entry]\n"), refused(3, 1));
}

#[test]
fn r1_3_repeats() {
    assert_eq!(check(&with_header(b"[A]\n[A]\n[A]\n")), refused(4, 3));
    assert_eq!(check(&with_header(b"A=1\nA=2\nA=3\n")), refused(5, 3));
    assert_eq!(check(&with_header(b"[A]\n[A]\nA=1\nA=2\n")), refused(4, 3));
    assert_eq!(check(b"A=1\nA=2\n[Desktop Entry]\n"), refused(3, 1));
    let file = with_header(b"A=1\nA[de]=2\nA[de]=3\n");
    assert_eq!(check(&file), refused(5, 4));
    assert_eq!(check(&with_header(b"A=1\n[B]\nA=2\n")), Ok(()));
}

#[test]
fn r1_4_postfix_without_plain_key_comes_last() {
    assert_eq!(check(&with_header(b"A[de]=1\n")), refused(6, 2));
    assert_eq!(check(&with_header(b"A[de]=1\nA=2\n")), Ok(()));
    assert_eq!(check(&with_header(b"A[de]=1\n[B]\nA=2\n")), refused(6, 2));
    let mut file = with_header(b"A[de]=1\n");
    file.extend(b"#\n".repeat(897));
    file.extend(b"bad\n");
    assert_eq!(check(&file), bad_line(900, 3));
    let file = with_header(b"B=\nB[de]=\nC[fr]=\nA[de]=\n");
    assert_eq!(check(&file), refused(6, 4));
}

#[test]
fn r1_5_value_after_all_spaces() {
    let file = with_header(b"Name=   \n");
    assert_eq!(lookup(&file, DE, b"Name"), Ok((24, 24)));
    let mut s = state(&file, 100, 100);
    assert_eq!(set(&mut s, SEVEN, DE, b"Name", b"X"), Ok(()));
    assert_eq!(file_of(&s), with_header(b"Name=   X\n"));
    assert_eq!(s.journal[..21], journal_record(SEVEN, 24, b"", b"X"));
    assert_eq!(check(&with_header(b"A=\tb\n")), bad_line(2, 2));
    assert_eq!(check(&with_header(b"A\t=b\n")), bad_line(2, 1));
}

#[test]
fn r1_6_cr_and_byte_order_mark() {
    assert_eq!(check(&with_header(b"Name=x\r\n")), bad_line(2, 6));
    assert_eq!(check(b"[Desktop Entry]\r\n"), bad_line(1, 15));
    assert_eq!(check(&with_header(b"\r\n")), bad_line(2, 0));
    assert_eq!(check(&with_header(b"[A] \n")), bad_line(2, 3));
    assert_eq!(check(b"\xEF\xBB\xBF[Desktop Entry]\n"), bad_line(1, 0));
}

#[test]
fn r1_7_group_named_one_space() {
    let file = with_header(b"[ ]\nA=1\n");
    assert_eq!(check(&file), Ok(()));
    assert_eq!(lookup(&file, b" ", b"A"), Ok((22, 23)));
}

#[test]
fn r1_8_form_of_arguments() {
    let wrong_groups: [&[u8]; 6] = [b"", b"[", b"a]", b"A\n", b"\xC3\xA9", b"\x7F"];
    for group in wrong_groups {
        assert_eq!(lookup(T, group, b"Name"), refused(7, 0));
        assert_eq!(choose(T, group, b"Name", b""), refused(7, 0));
    }
    let wrong_keys: [&[u8]; 10] = [
        b"",
        b"Name\n",
        b"Name=",
        b" Name",
        b"Name ",
        b"Name[]",
        b"Name[de",
        b"[de]",
        b"Name[de]x",
        b"Name[de.a_b]",
    ];
    for key in wrong_keys {
        assert_eq!(lookup(T, DE, key), refused(7, 0));
        assert_eq!(choose(T, DE, key, b""), refused(7, 0));
        assert_eq!(
            set(&mut state(T, 100, 100), SEVEN, DE, key, b""),
            refused(7, 0)
        );
        assert_eq!(
            remove(&mut state(T, 100, 100), SEVEN, DE, key),
            refused(7, 0)
        );
    }
    assert_eq!(choose(T, DE, b"Name[fr]", b""), refused(7, 0));
    let wrong_locales: [&[u8]; 8] = [
        b"de\n", b"_DE", b"de_", b"de@", b"de@a_B", b"de.", b"de de", b"de[",
    ];
    for locale in wrong_locales {
        assert_eq!(choose(T, DE, b"Name", locale), refused(7, 0));
    }
    assert_eq!(choose(T, DE, b"Name", b""), Ok((38, 43)));
}

#[test]
fn r1_9_complete() {
    let exec_missing = with_header(b"Type=Application\nName=\nDBusActivatable=yes\n");
    assert_eq!(complete(&exec_missing), refused(18, 0));
    let activatable = with_header(b"Type=Application\nName=\nDBusActivatable=true\n");
    assert_eq!(complete(&activatable), Ok(()));
    let booleans = with_header(b"Type=Directory\nName=\nTerminal=1\nHidden=0\n");
    assert_eq!(complete(&booleans), refused(18, 4));
    let postfixed = with_header(b"Type=Directory\nName=\nHidden=true\nHidden[de]=x\n");
    assert_eq!(complete(&postfixed), Ok(()));
    assert_eq!(
        complete(&with_header(b"Name=\nType=Link \n")),
        refused(18, 3)
    );
    assert_eq!(complete(&with_header(b"Name=\n")), refused(18, 0));
    assert_eq!(complete(&with_header(b"Type=Directory\n")), refused(18, 0));
    assert_eq!(
        complete(&with_header(b"Type=Link\nName=\n")),
        refused(18, 0)
    );
    let link = with_header(b"Type=Link\nName=\nURL=\nNoDisplay=true\nStartupNotify=true \n");
    assert_eq!(complete(&link), refused(18, 6));
    let other_group = with_header(b"Type=Directory\n[B]\nName=\n");
    assert_eq!(complete(&other_group), refused(18, 0));
    assert_eq!(complete(&with_header(b"A[de]=1\n")), refused(6, 2));
}

#[test]
fn r1_10_length_not_buffer() {
    let mut s = state(T, 100_000, 100);
    assert_eq!(set(&mut s, SEVEN, DE, b"Name", b"x"), Ok(()));
    let mut s = state(T, 100_000, 100);
    s.file_len = 32_769;
    assert_eq!(undo(&mut s), refused(1, 0));
}

#[test]
fn r1_11_postfix_c_is_an_ordinary_key() {
    let file = with_header(b"Name=a\nName[C]=b\n");
    assert_eq!(lookup(&file, DE, b"Name"), Ok((21, 22)));
    assert_eq!(lookup(&file, DE, b"Name[C]"), Ok((31, 32)));
    assert_eq!(check(&with_header("Exec=é\n".as_bytes())), Ok(()));
}

// Part 2

/// The chosen raw value of Name in a file of postfixes that each have themselves as value.
fn chosen(postfixes: &[&str], locale: &str) -> String {
    let mut rest = String::from("Name=plain\n");
    for postfix in postfixes {
        rest += &format!("Name[{postfix}]={postfix}\n");
    }
    let file = with_header(rest.as_bytes());
    let (start, end) = choose(&file, DE, b"Name", locale.as_bytes()).unwrap();
    String::from_utf8(file[start..end].to_vec()).unwrap()
}

#[test]
fn r2_1_c_and_posix_after_the_loss_of_encoding() {
    let file = ["C", "POSIX", "C_DE", "c", "C.UTF-8", "POSIX.x"];
    for locale in ["", "C", "POSIX", "C.UTF-8", "POSIX.x"] {
        assert_eq!(chosen(&file, locale), "plain");
    }
    assert_eq!(chosen(&file, "C_DE"), "C_DE");
    assert_eq!(chosen(&file, "C_FR"), "C");
    assert_eq!(chosen(&file, "C@x"), "C");
    assert_eq!(chosen(&file, "C.UTF-8@x"), "C");
    assert_eq!(chosen(&file, "c"), "c");
}

#[test]
fn r2_3_parts_that_are_not_there() {
    let all = ["de_DE@x", "de_DE", "de@x", "de"];
    assert_eq!(chosen(&all, "de_DE@x"), "de_DE@x");
    assert_eq!(chosen(&all[1..], "de_DE@x"), "de_DE");
    assert_eq!(chosen(&all[2..], "de_DE@x"), "de@x");
    assert_eq!(chosen(&all[3..], "de_DE@x"), "de");
    assert_eq!(chosen(&[], "de_DE@x"), "plain");
    assert_eq!(chosen(&all, "de@x"), "de@x");
    assert_eq!(chosen(&["de_DE@x", "de_DE"], "de@x"), "plain");
    assert_eq!(chosen(&all, "de_DE"), "de_DE");
    assert_eq!(chosen(&all, "de"), "de");
    assert_eq!(chosen(&["de_DE@x", "de_DE", "de@x"], "de"), "plain");
    assert_eq!(chosen(&all, "DE"), "plain");
}

#[test]
fn r2_4_choice_refused() {
    assert_eq!(choose(T, DE, b"Icon", b"de"), refused(8, 0));
    assert_eq!(choose(T, b"B", b"Name", b"de"), refused(8, 0));
    assert_eq!(choose(b"x", b"", b"", b"?"), bad_line(1, 1));
}

#[test]
fn r2_6_two_ends() {
    assert_eq!(lookup(T, DE, b"Name"), Ok((38, 43)));
    assert_eq!(lookup(T, DE, b"Name[fr]"), Ok((53, 57)));
    assert_eq!(lookup(T, DE, b"Name[f]"), refused(8, 0));
    assert_eq!(lookup(T, b"Desktop", b"Name"), refused(8, 0));
    assert_eq!(lookup(&with_header(b"A="), DE, b"A"), Ok((18, 18)));
}

// Part 3

#[test]
fn r3_1_any_raw_bytes() {
    assert_eq!(read(b"\n\xFF\x00"), Ok(b"\n\xFF\x00".to_vec()));
    assert_eq!(read(b"\\s\\n\\t\\r\\\\"), Ok(b" \n\t\r\\".to_vec()));
    assert_eq!(list(b"\n;\xFF"), Ok(vec![b"\n".to_vec(), b"\xFF".to_vec()]));
}

#[test]
fn r3_2_escapes_in_a_list() {
    assert_eq!(list(b"ab;c\\q;\\z"), refused(9, 4));
    assert_eq!(list(b"a\\"), refused(9, 1));
    assert_eq!(list(b"a;\\"), refused(9, 2));
    assert_eq!(list(b"a\\\\;b"), Ok(vec![b"a\\".to_vec(), b"b".to_vec()]));
    assert_eq!(list(b"a\\;b"), Ok(vec![b"a;b".to_vec()]));
    assert_eq!(list(b"\\;"), Ok(vec![b";".to_vec()]));
    assert_eq!(
        list(b"\\s;\\n\\t\\r"),
        Ok(vec![b" ".to_vec(), b"\n\t\r".to_vec()])
    );
    assert_eq!(list(b";;a"), Ok(vec![vec![], vec![], b"a".to_vec()]));
    let mut nothing: [u8; 0] = [];
    assert_eq!(reference::read_list(b"a;\\q", &mut nothing), refused(9, 2));
}

#[test]
fn r3_3_semicolon_in_plain_text() {
    assert_eq!(read(b"a\\;"), refused(9, 1));
    assert_eq!(read(b"a\\"), refused(9, 1));
    assert_eq!(expand_exec("a\\;", &[]), refused(9, 1));
}

#[test]
fn r3_4_long_list_output() {
    let raw = vec![b';'; 32_000];
    let mut out = vec![0; 192_000];
    assert_eq!(reference::read_list(&raw, &mut out), Ok(192_000));
    out.pop();
    assert_eq!(reference::read_list(&raw, &mut out), refused(11, 0));
}

#[test]
fn r3_5_fit_text() {
    let fit: [&[u8]; 5] = [
        b"",
        b"\xC2\x80",
        b"\xC2\x9F",
        b"\xEF\xBB\xBF",
        b"\xF4\x8F\xBF\xBF",
    ];
    for text in fit {
        assert_eq!(write(text), Ok(text.to_vec()));
    }
    assert_eq!(write(b"\n\t\r\\"), Ok(b"\\n\\t\\r\\\\".to_vec()));
    let unfit: [&[u8]; 8] = [
        b"\x00",
        b"a\x1F",
        b"\x7F",
        b"\xC0\x80",
        b"\xED\xA0\x80",
        b"\xE0\xA0",
        b"\xFF",
        b"\xF4\x90\x80\x80",
    ];
    for text in unfit {
        assert_eq!(write(text), refused(10, 0));
    }
}

#[test]
fn r3_6_first_space() {
    assert_eq!(write(b"  x  "), Ok(b"\\s x  ".to_vec()));
    assert_eq!(write(b" "), Ok(b"\\s".to_vec()));
    assert_eq!(write(b"\t "), Ok(b"\\t ".to_vec()));
}

// Part 4

/// All four calls over a copy of a state; a refusal leaves it as it was.
fn all_four(s: &State) -> [Result<(), Refusal>; 4] {
    let mut copies = [s.clone(), s.clone(), s.clone(), s.clone()];
    let answers = [
        set(&mut copies[0], SEVEN, DE, b"Name", b"x"),
        remove(&mut copies[1], SEVEN, DE, b"Exec"),
        undo(&mut copies[2]),
        redo(&mut copies[3]),
    ];
    for (copy, answer) in copies.iter().zip(&answers) {
        assert!(answer.is_ok() || copy == s);
    }
    answers
}

#[test]
fn r4_1_used_over_the_bound_or_under_standing() {
    let mut bad_file = state(b"bad", 100, 70_000);
    bad_file.used = 65_537;
    assert_eq!(all_four(&bad_file), [refused(14, 0); 4]);
    bad_file.used = 5;
    bad_file.standing = 6;
    assert_eq!(all_four(&bad_file), [refused(14, 0); 4]);
    bad_file.used = 65_536;
    bad_file.standing = 65_536;
    assert_eq!(all_four(&bad_file), [bad_line(1, 3); 4]);
}

#[test]
fn r4_2_lengths_beyond_buffers() {
    let mut s = state(b"bad", 3, 10);
    s.file_len = 4;
    assert_eq!(all_four(&s), [refused(14, 0); 4]);
    s.file_len = u64::MAX;
    assert_eq!(all_four(&s), [refused(14, 0); 4]);
    s.file_len = 3;
    s.used = 11;
    assert_eq!(all_four(&s), [refused(14, 0); 4]);
    s.used = u64::MAX;
    s.standing = u64::MAX;
    assert_eq!(all_four(&s), [refused(14, 0); 4]);
    let long = vec![0; 65_537];
    assert_eq!(expand(b"bad", b"?", b"", &long, 0, &mut []), bad_line(1, 3));
    assert_eq!(expand(T, b"?", b"", &long, 0, &mut []), refused(14, 0));
    let mut list = records(2, &[vec![b'a'; 65_530]]);
    assert_eq!(list.len(), 65_536);
    assert_eq!(runs(T, b"", b"", &list), Ok(1));
    list.extend(records(2, &["a"]));
    assert_eq!(runs(T, b"", b"", &list), refused(14, 0));
}

#[test]
fn r4_3_list_then_locale_then_items() {
    let empty_item = records(2, &[""]);
    assert_eq!(expand(T, b"?", b"", &empty_item, 0, &mut []), refused(7, 0));
    assert_eq!(expand(T, b"", b"", &empty_item, 0, &mut []), refused(10, 0));
    assert_eq!(
        runs(T, b"", b"", &records(2, &["a", "b\0"])),
        refused(10, 0)
    );
    let damaged: [&[u8]; 6] = [
        b"\x05\0\0\0\x02\0",
        b"\x07\0\0\0\x02\0",
        b"\x07\0\0\0\x03\0a",
        b"\x06\0\0\0\x02",
        b"\x06\0\0\0\x02\0\0",
        b"\xFF\xFF\xFF\xFF\x02\0",
    ];
    for list in damaged {
        assert_eq!(expand(T, b"?", b"\0", list, 0, &mut []), refused(14, 0));
    }
    assert_eq!(runs(T, b"", b"\0", b""), refused(10, 0));
    assert_eq!(runs(T, b"", &vec![b'a'; 4_096], b""), Ok(1));
    assert_eq!(runs(T, b"", &vec![b'a'; 4_097], b""), refused(10, 0));
}

#[test]
fn r4_4_order_of_a_set() {
    let mut s = state(T, 71, 0);
    assert_eq!(set(&mut s, SEVEN, b"B", b"A[de]", b""), refused(8, 0));
    assert_eq!(set(&mut s, SEVEN, b"B", b"A[de]", b"\0"), refused(10, 0));
    assert_eq!(set(&mut s, SEVEN, b"B", b"A[", b"\0"), refused(7, 0));
    assert_eq!(set(&mut s, SEVEN, DE, b"A[de]", b""), refused(6, 0));
    assert_eq!(remove(&mut s, SEVEN, b"B", b"Name"), refused(8, 0));
    assert_eq!(remove(&mut s, SEVEN, DE, b"Name[de]"), refused(8, 0));
    assert_eq!(remove(&mut s, SEVEN, DE, b"Name"), refused(17, 0));
    assert_eq!(remove(&mut s, SEVEN, DE, b"Name[fr]"), refused(13, 0));
    assert_eq!(s, state(T, 71, 0));
}

#[test]
fn r4_5_room() {
    assert_eq!(
        set(&mut state(T, 71, 30), SEVEN, DE, b"Name", b"Lesen1"),
        refused(11, 0)
    );
    assert_eq!(
        set(&mut state(T, 72, 30), SEVEN, DE, b"Name", b"Lesen1"),
        refused(13, 0)
    );
    assert_eq!(
        set(&mut state(T, 72, 31), SEVEN, DE, b"Name", b"Lesen1"),
        Ok(())
    );
    // 13 asks standing, not used.
    let mut s = state(T, 80, 32);
    assert_eq!(set(&mut s, SEVEN, DE, b"Name", b"abcdefg"), Ok(()));
    assert_eq!(set(&mut s, SEVEN, DE, b"Name", b""), refused(13, 0));
    assert_eq!(undo(&mut s), Ok(()));
    assert_eq!(set(&mut s, SEVEN, DE, b"Name", b"1234567"), Ok(()));
}

#[test]
fn r4_5_journal_bound() {
    let text = vec![b'x'; 30_000];
    let file = with_header(b"A=");
    for (length, answer) in [(5_496, Ok(())), (5_497, refused(13, 0))] {
        let mut s = state(&file, 40_000, 70_000);
        assert_eq!(set(&mut s, SEVEN, DE, b"A", &text), Ok(()));
        assert_eq!(s.standing, 30_020);
        // The second record has 20, the old 30,000 and the new bytes.
        assert_eq!(set(&mut s, SEVEN, DE, b"A", &text[..length]), answer);
        assert_eq!(s.standing, if answer.is_ok() { 65_536 } else { 30_020 });
    }
}

#[test]
fn r4_7_order_in_expansion() {
    let no_exec = with_header(b"Name=\n");
    assert_eq!(runs(&no_exec, b"", b"\0", b""), refused(10, 0));
    assert_eq!(expand(&no_exec, b"", b"", b"", 9, &mut []), refused(8, 0));
    let broken = with_header(b"Exec=a %z\n");
    assert_eq!(expand(&broken, b"", b"", b"", 9, &mut []), refused(16, 2));
    let name_missing = with_header(b"Exec=a %c\n");
    assert_eq!(
        expand(&name_missing, b"", b"", b"", 0, &mut []),
        refused(8, 0)
    );
    let name_wrong = with_header(b"Name=ab\\q\nExec=a %c\n");
    assert_eq!(
        expand(&name_wrong, b"", b"", b"", 1, &mut []),
        refused(8, 0)
    );
    assert_eq!(
        expand(&name_wrong, b"", b"", b"", 0, &mut []),
        refused(9, 2)
    );
    let good = with_header(b"Name=ab\nExec=a %c\n");
    assert_eq!(expand(&good, b"", b"", b"", 0, &mut []), refused(11, 0));
    assert_eq!(
        expand(&good, b"", b"", b"", u64::MAX, &mut []),
        refused(8, 0)
    );
}

// Part 5

#[test]
fn r5_1_bytes_past_used_keep_their_content() {
    let mut s = state(T, 200, 100);
    assert_eq!(set(&mut s, SEVEN, DE, b"Name", b"a longer name"), Ok(()));
    let before = s.journal.clone();
    assert_eq!(undo(&mut s), Ok(()));
    assert_eq!(s.journal, before);
    assert_eq!((s.used, s.standing), (38, 0));
    assert_eq!(set(&mut s, SEVEN, DE, b"Name", b"x"), Ok(()));
    assert_eq!((s.used, s.standing), (26, 26));
    assert_eq!(s.journal[..26], journal_record(SEVEN, 38, b"Lesen", b"x"));
    assert_eq!(s.journal[26..], before[26..]);
    assert_eq!(redo(&mut s), refused(12, 0));
}

#[test]
fn r5_3_zeros_after_a_file_that_shrinks() {
    let mut s = state(T, 90, 100);
    assert_eq!(set(&mut s, SEVEN, DE, b"Name", b""), Ok(()));
    assert_eq!(s.file_len, 66);
    assert_eq!(s.file[66..71], [0; 5]);
    assert_eq!(s.file[71..], [0xAA; 19]);
    assert_eq!(undo(&mut s), Ok(()));
    assert_eq!(s.file, state(T, 90, 0).file);
    assert_eq!(set(&mut s, SEVEN, DE, b"Name", b"Lesen123"), Ok(()));
    assert_eq!(s.file[74..], [0xAA; 16]);
    assert_eq!(undo(&mut s), Ok(()));
    assert_eq!(s.file[71..74], [0; 3]);
    assert_eq!(s.file[74..], [0xAA; 16]);
}

/// The file and the journal's record after one accepted call.
fn after(file: &[u8], call: impl Fn(&mut State) -> Result<(), Refusal>) -> (Vec<u8>, Vec<u8>) {
    let mut s = state(file, 200, 200);
    assert_eq!(call(&mut s), Ok(()));
    (file_of(&s).to_vec(), s.journal[..s.used as usize].to_vec())
}

#[test]
fn r5_4_old_and_new_bytes() {
    let (file, record) = after(T, |s| set(s, SEVEN, DE, b"Name", b"Lesen"));
    assert_eq!(file, T);
    assert_eq!(record, journal_record(SEVEN, 38, b"Lesen", b"Lesen"));
    let without_lf = with_header(b"A=1\nB=2");
    let (file, record) = after(&without_lf, |s| remove(s, SEVEN, DE, b"B"));
    assert_eq!(file, with_header(b"A=1"));
    assert_eq!(record, journal_record(SEVEN, 19, b"\nB=2", b""));
    let (file, record) = after(&without_lf, |s| remove(s, SEVEN, DE, b"A"));
    assert_eq!(file, with_header(b"B=2"));
    assert_eq!(record, journal_record(SEVEN, 16, b"A=1\n", b""));
    let (file, record) = after(&without_lf, |s| set(s, SEVEN, DE, b"C", b" 3"));
    assert_eq!(file, with_header(b"A=1\nB=2\nC=\\s3"));
    assert_eq!(record, journal_record(SEVEN, 23, b"", b"\nC=\\s3"));
    let (file, record) = after(b"[Desktop Entry]", |s| set(s, SEVEN, DE, b"C", b""));
    assert_eq!(file, b"[Desktop Entry]\nC=");
    assert_eq!(record, journal_record(SEVEN, 15, b"", b"\nC="));
    let (file, _) = after(&with_header(b"A=1\n[B]\nA=2\n"), |s| {
        remove(s, SEVEN, b"B", b"A")
    });
    assert_eq!(file, with_header(b"A=1\n[B]\n"));
}

#[test]
fn r5_5_where_a_line_goes_in() {
    let file = with_header(b"# c\nA=1\n\n# d\n[B]\n# e");
    let (edited, record) = after(&file, |s| set(s, SEVEN, DE, b"C", b"2"));
    assert_eq!(edited, with_header(b"# c\nA=1\nC=2\n\n# d\n[B]\n# e"));
    assert_eq!(record, journal_record(SEVEN, 24, b"", b"C=2\n"));
    let (edited, _) = after(&file, |s| set(s, SEVEN, b"B", b"C", b"2"));
    assert_eq!(edited, with_header(b"# c\nA=1\n\n# d\n[B]\nC=2\n# e"));
    let (edited, _) = after(&file, |s| set(s, SEVEN, DE, b"A[de]", b"2"));
    assert_eq!(edited, with_header(b"# c\nA=1\nA[de]=2\n\n# d\n[B]\n# e"));
}

/// The state of T with foreign journal bytes and a standing number.
fn foreign(journal: &[u8], standing: u64) -> State {
    let mut s = state(T, 71, journal.len());
    s.journal.copy_from_slice(journal);
    s.used = journal.len() as u64;
    s.standing = standing;
    s
}

#[test]
fn r5_6_damaged_journal() {
    for kind in [RecordKind::One, SEVEN] {
        let empty = journal_record(kind, 0, b"", b"");
        let length = empty.len();
        let whole = length as u64;
        assert_eq!(undo(&mut foreign(&empty, whole)), Ok(()));
        assert_eq!(redo(&mut foreign(&empty, 0)), Ok(()));
        assert_eq!(all_four(&foreign(&empty, whole - 1)), [refused(14, 0); 4]);
        for cut in 1..length {
            assert_eq!(all_four(&foreign(&empty[..cut], 0)), [refused(14, 0); 4]);
        }
        let two = [empty.clone(), vec![0; length - 1]].concat();
        assert_eq!(all_four(&foreign(&two, whole)), [refused(14, 0); 4]);
        for number in [0u16, 2, 3, 5, 0x101, 0x104, 0x400, 0xFFFF] {
            let mut other_kind = empty.clone();
            other_kind[4..6].copy_from_slice(&number.to_le_bytes());
            assert_eq!(all_four(&foreign(&other_kind, whole)), [refused(14, 0); 4]);
        }
        // The head and 0xFFFFFFFF + 1 are the head only if that wraps.
        let mut wrapped = empty.clone();
        wrapped[length - 8..length - 4].copy_from_slice(&[0xFF; 4]);
        wrapped[length - 4] = 1;
        assert_eq!(all_four(&foreign(&wrapped, whole)), [refused(14, 0); 4]);
        let long = journal_record(kind, 0, b"", b"abc");
        let cut = &long[..length + 2];
        assert_eq!(all_four(&foreign(cut, whole + 2)), [refused(14, 0); 4]);
        // Bytes past used are not looked at.
        let mut past = foreign(&[empty, vec![0xFF; 50]].concat(), whole);
        past.used = whole;
        assert_eq!(undo(&mut past), Ok(()));
    }
}

#[test]
fn r5_7_order_of_undo_and_redo() {
    let mut s = state(b"bad", 10, 10);
    assert_eq!(undo(&mut s), bad_line(1, 3));
    assert_eq!(redo(&mut s), bad_line(1, 3));
    let mut damaged = foreign(&[0; 5], 0);
    assert_eq!(undo(&mut damaged), refused(14, 0));
    assert_eq!(redo(&mut damaged), refused(14, 0));

    let both = |place: u32, from: &[u8], to: &[u8]| {
        let [answer, answer_of_four] = [RecordKind::One, SEVEN].map(|kind| {
            let undone = journal_record(kind, place, to, from);
            let redone = journal_record(kind, place, from, to);
            let mut undo_state = foreign(&undone, undone.len() as u64);
            let mut redo_state = foreign(&redone, 0);
            let answer = undo(&mut undo_state);
            assert_eq!(answer, redo(&mut redo_state));
            assert_eq!(undo_state.file, redo_state.file);
            answer
        });
        assert_eq!(answer, answer_of_four);
        answer
    };
    assert_eq!(both(38, b"Lesen", b"Lesen"), Ok(()));
    assert_eq!(both(38, b"Lesex", b"Lesen"), refused(14, 0));
    assert_eq!(both(u32::MAX, b"Lesen", b""), refused(14, 0));
    assert_eq!(both(71, b"", b""), Ok(()));
    assert_eq!(both(72, b"", b""), refused(14, 0));
    assert_eq!(both(70, b"\n", b""), Ok(()));
    assert_eq!(both(70, b"\n\n", b""), refused(14, 0));
    // 11 comes before the result's own 14, 14 of the place before 11.
    assert_eq!(both(0, b"", b"x"), refused(11, 0));
    assert_eq!(both(0, b"x", b"xy"), refused(14, 0));
    assert_eq!(both(0, b"[", b"x"), refused(14, 0));
}

#[test]
fn r5_7_bytes_past_the_length_do_not_count() {
    let record = journal_record(SEVEN, 71, b"", b"A=1\n");
    let mut s = state(&[T, b"A=1\n"].concat(), 75, 24);
    s.file_len = 71;
    s.journal.copy_from_slice(&record);
    s.used = 24;
    s.standing = 24;
    assert_eq!(undo(&mut s), refused(14, 0));
    s.file_len = 75;
    assert_eq!(undo(&mut s), Ok(()));
    assert_eq!((s.file_len, s.standing, s.used), (71, 0, 24));
    assert_eq!(s.file[71..], [0; 4]);
    assert_eq!(redo(&mut s), Ok(()));
    assert_eq!(file_of(&s), [T, b"A=1\n"].concat());
}

#[test]
fn r5_10_book() {
    let mut book = Book::new(T, 72, 64);
    assert_eq!(book.undo(), refused(12, 0));
    assert_eq!(book.set(SEVEN, b"[", b"", b"\0"), refused(7, 0));
    assert_eq!(book.set(SEVEN, b"B", b"A[de]", b"\0"), refused(10, 0));
    assert_eq!(book.set(SEVEN, b"B", b"A[de]", b""), refused(8, 0));
    assert_eq!(book.set(SEVEN, DE, b"A[de]", b""), refused(6, 0));
    assert_eq!(book.remove(SEVEN, DE, b"Name"), refused(17, 0));
    assert_eq!(book.set(SEVEN, DE, b"Name", b"1234567"), refused(11, 0));
    assert_eq!(book.set(SEVEN, DE, b"Name", b"Les"), Ok(()));
    assert_eq!(book.standing(), 28);
    assert_eq!(book.set(SEVEN, DE, b"Name", b"Lesezimm"), refused(11, 0));
    assert_eq!(book.remove(SEVEN, DE, b"Name[fr]"), Ok(()));
    assert_eq!(book.standing(), 62);
    assert_eq!(book.set(SEVEN, DE, b"Name", b""), refused(13, 0));
    assert_eq!(book.redo(), refused(12, 0));
    assert_eq!(book.undo(), Ok(()));
    assert_eq!(book.undo(), Ok(()));
    assert_eq!((book.file(), book.standing()), (T.to_vec(), 0));
    assert_eq!(book.redo(), Ok(()));
    assert_eq!(book.standing(), 28);
    assert_eq!(book.set(SEVEN, DE, b"Name", b"L"), Ok(()));
    assert_eq!(book.redo(), refused(12, 0));
}

#[test]
fn r5_11_postfixed_keys_that_remain() {
    let file = with_header(b"A=1\nAB=2\nAB[de]=3\n[B]\nA=\nA[de]=\n");
    let mut s = state(&file, 100, 100);
    assert_eq!(remove(&mut s, SEVEN, DE, b"AB"), refused(17, 0));
    assert_eq!(remove(&mut s, SEVEN, DE, b"A"), Ok(()));
    assert_eq!(remove(&mut s, SEVEN, DE, b"AB[de]"), Ok(()));
    assert_eq!(remove(&mut s, SEVEN, DE, b"AB"), Ok(()));
    assert_eq!(file_of(&s), with_header(b"[B]\nA=\nA[de]=\n"));
}

// Part 6. The raw Exec has its backslashes doubled, as `\\` is read as one.

/// The place of 15 or 16 in an unescaped Exec.
fn exec_fault(exec: &str) -> Result<Vec<String>, Refusal> {
    let raw = exec
        .replace('\\', "\\\\")
        .replace('\t', "\\t")
        .replace('\n', "\\n");
    expand_exec(&raw, &[])
}

#[test]
fn r6_1_unclosed_quote() {
    assert_eq!(exec_fault("view \"a$b"), refused(15, 5));
    assert_eq!(exec_fault("view \"%f"), refused(15, 5));
    assert_eq!(exec_fault("view \"a\\"), refused(15, 5));
    assert_eq!(exec_fault("view \""), refused(15, 5));
    assert_eq!(exec_fault("\"a=%f"), refused(15, 0));
    assert_eq!(exec_fault("view \"a$b\""), refused(15, 7));
    assert_eq!(exec_fault("view %z \"a"), refused(16, 5));
}

#[test]
fn r6_2_bare_quote() {
    assert_eq!(exec_fault("view \"a\\\""), refused(15, 5));
    assert_eq!(exec_fault("view \"a\\\\\""), arguments(&["view", "a\\"]));
    assert_eq!(exec_fault("view \"a\\\"b\""), arguments(&["view", "a\"b"]));
    assert_eq!(exec_fault("view \"a\\q\""), refused(15, 7));
    assert_eq!(exec_fault("view \"\\`\\$\""), arguments(&["view", "`$"]));
}

#[test]
fn r6_3_after_a_closed_quote() {
    assert_eq!(exec_fault("view \"a\"b"), refused(15, 8));
    assert_eq!(exec_fault("view \"a\"\"b\""), refused(15, 8));
    assert_eq!(exec_fault("view \"a\"%F"), refused(15, 8));
    assert_eq!(exec_fault("view \"a\"%z"), refused(15, 8));
    assert_eq!(exec_fault("view \"a\"\t"), refused(15, 8));
    assert_eq!(exec_fault("view \"a\" b"), arguments(&["view", "a", "b"]));
}

#[test]
fn r6_4_empty_program() {
    assert_eq!(exec_fault("\"\"x"), refused(15, 0));
    assert_eq!(exec_fault("\"\""), refused(15, 0));
    assert_eq!(expand_exec("\\s \"\" x", &[]), refused(15, 2));
    assert_eq!(exec_fault("view \"\"x"), refused(15, 7));
    assert_eq!(exec_fault("view \"\""), arguments(&["view", ""]));
}

#[test]
fn r6_5_whole_argument() {
    for exec in [
        "view %F'",
        "view %Fé",
        "view %i;",
        "view %F\"x",
        "view %F%F",
        "view %U=",
    ] {
        assert_eq!(exec_fault(exec), refused(16, 5));
    }
    assert_eq!(exec_fault("view %f'"), refused(15, 7));
    assert_eq!(exec_fault("view x%F"), refused(16, 6));
    assert_eq!(exec_fault("view %d%i"), refused(16, 7));
    assert_eq!(exec_fault("view '%F"), refused(15, 5));
}

#[test]
fn r6_6_at_most_one_file_code() {
    assert_eq!(exec_fault("view %F %f"), refused(16, 8));
    assert_eq!(exec_fault("view %f%u"), refused(16, 7));
    assert_eq!(exec_fault("view x%F %f"), refused(16, 6));
    let twice = exec_fault("view %i %i %c%c %k%k");
    assert_eq!(
        twice,
        arguments(&["view", "--icon", "I", "--icon", "I", "NN", "LL"])
    );
}

#[test]
fn r6_7_any_other_percent() {
    for exec in [
        "view %", "view % f", "view %\"", "view %é", "view %x", "view %C", "view %=",
    ] {
        assert_eq!(exec_fault(exec), refused(16, 5));
    }
    assert_eq!(exec_fault("view %%%"), refused(16, 7));
    assert_eq!(exec_fault("view %%f"), arguments(&["view", "%f"]));
}

#[test]
fn r6_8_percent_in_quotes() {
    assert_eq!(exec_fault("view \"%\""), refused(16, 6));
    assert_eq!(exec_fault("view \"\\%\""), refused(15, 6));
    assert_eq!(exec_fault("view \"%%\""), arguments(&["view", "%"]));
    assert_eq!(exec_fault("view \"%%%\""), refused(16, 8));
    assert_eq!(exec_fault("view \"%d\""), refused(16, 6));
}

#[test]
fn r6_9_program() {
    assert_eq!(exec_fault("view%d"), refused(16, 4));
    assert_eq!(exec_fault("%F"), refused(16, 0));
    assert_eq!(exec_fault("a=b=c"), refused(15, 1));
    assert_eq!(exec_fault("\"a=\" b"), refused(15, 2));
    assert_eq!(exec_fault("a b=c"), arguments(&["a", "b=c"]));
    assert_eq!(exec_fault(""), refused(15, 0));
    assert_eq!(expand_exec("\\s ", &[]), refused(15, 0));
    assert_eq!(exec_fault("%%"), arguments(&["%"]));
    assert_eq!(exec_fault("%f=a"), refused(16, 0));
}

#[test]
fn r6_10_bytes() {
    let free = "a\t\n'><~|&;*?#()";
    assert_eq!(
        exec_fault(&format!("view \"{free}\"")),
        arguments(&["view", free])
    );
    for byte in "\t\n\"'\\><~|&;$*?#()`é".chars() {
        assert_eq!(exec_fault(&format!("view a{byte}")), refused(15, 6));
    }
    assert_eq!(
        expand_exec("view a\\rb \"\\r\"", &[]),
        arguments(&["view", "a\rb", "\r"])
    );
    assert_eq!(exec_fault("view \"é\""), refused(15, 6));
    for byte in "!%+,-./09:=@AZ[]^_az{}".chars().filter(|byte| *byte != '%') {
        let argument = format!("a{byte}");
        assert_eq!(
            exec_fault(&format!("view {argument}")),
            arguments(&["view", &argument])
        );
    }
}

#[test]
fn r6_11_count() {
    assert_eq!(expand_exec("a\\sb\\sc'", &[]), refused(15, 5));
    assert_eq!(expand_exec("a\\sb", &[]), arguments(&["a", "b"]));
    assert_eq!(expand_exec("a\\sb'\\q", &[]), refused(9, 5));
}

// Part 7

#[test]
fn r7_1_dropped_arguments() {
    let empty = with_header(b"Name=\nExec=v %c %k %d%k \"\" --x=%f %d%D\n");
    let expected = arguments(&["v", "", "", "", "", "--x="]);
    assert_eq!(expand_file(&empty, b"", b"", &[], 0), expected);
    assert_eq!(expand_exec("v %d%f %d %n%N%v%m", &[]), arguments(&["v"]));
    assert_eq!(expand_exec("v %d%f", &["a"]), arguments(&["v", "a"]));
    assert_eq!(expand_exec("v %u", &[]), arguments(&["v"]));
    assert_eq!(expand_exec("v %F %U", &[]), refused(16, 5));
    assert_eq!(expand_exec("v %F", &[]), arguments(&["v"]));
    assert_eq!(expand_exec("v a%db", &[]), arguments(&["v", "ab"]));
    assert_eq!(expand_exec("v %f%c", &[]), arguments(&["v", "N"]));
}

#[test]
fn r7_2_name_before_icon() {
    let file = with_header(b"Name=ab\\q\nIcon=\\q\nExec=v %i %c\n");
    assert_eq!(expand_file(&file, b"", b"", &[], 0), refused(9, 2));
    let file = with_header(b"Name=ab\nIcon=\\q\nExec=v %i %c\n");
    assert_eq!(expand_file(&file, b"", b"", &[], 0), refused(9, 0));
    let file = with_header(b"Icon=\\q\nExec=v %i %c\n");
    assert_eq!(expand_file(&file, b"", b"", &[], 0), refused(8, 0));
    let file = with_header(b"Name=\\q\nIcon=\\q\nExec=v %%i %%c\n");
    assert_eq!(
        expand_file(&file, b"", b"", &[], 0),
        arguments(&["v", "%i", "%c"])
    );
    let file = with_header(b"Name=\\sa\\n\nExec=v %c\n");
    assert_eq!(
        expand_file(&file, b"", b"", &[], 0),
        arguments(&["v", " a\n"])
    );
}

#[test]
fn r7_3_icon_missing_or_empty() {
    let file = with_header(b"Icon=a\nIcon[de]=\nIcon[fr]=\\q\nExec=v %i x\n");
    assert_eq!(
        expand_file(&file, b"", b"", &[], 0),
        arguments(&["v", "--icon", "a", "x"])
    );
    assert_eq!(
        expand_file(&file, b"de", b"", &[], 0),
        arguments(&["v", "x"])
    );
    assert_eq!(expand_file(&file, b"fr", b"", &[], 0), refused(9, 0));
    let file = with_header(b"Exec=v %i x\n");
    assert_eq!(expand_file(&file, b"", b"", &[], 0), arguments(&["v", "x"]));
    let file = with_header(b"Name=a\nName[de]=b\\\nExec=v %c\n");
    assert_eq!(expand_file(&file, b"de_DE", b"", &[], 0), refused(9, 1));
    assert_eq!(expand_file(&file, b"", b"", &[], 0), arguments(&["v", "a"]));
}

#[test]
fn r7_4_arguments_are_judged_unused() {
    let file = with_header(b"Exec=v\n");
    assert_eq!(runs(&file, b"de_", b"", b""), refused(7, 0));
    assert_eq!(runs(&file, b"", b"a\0", b""), refused(10, 0));
    assert_eq!(runs(&file, b"", b"", &records(2, &[""])), refused(10, 0));
}

#[test]
fn r7_5_completeness_is_not_asked() {
    let file = with_header(b"Exec=v\nExec[de]=w\nHidden=x\n");
    assert_eq!(expand_file(&file, b"de", b"", &[], 0), arguments(&["v"]));
}

#[test]
fn r7_6_runs() {
    let items = ["a", "b", "c"];
    let list = records(2, &items);
    for (exec, number, empty) in [
        ("%f", 3, 1),
        ("%u", 3, 1),
        ("%F", 1, 1),
        ("%U", 1, 1),
        ("x", 1, 1),
    ] {
        let file = with_header(format!("Exec=v {exec}\n").as_bytes());
        assert_eq!(runs(&file, b"", b"", &list), Ok(number));
        assert_eq!(runs(&file, b"", b"", b""), Ok(empty));
        assert_eq!(expand_file(&file, b"", b"", &items, number), refused(8, 0));
        assert_eq!(expand_file(&file, b"", b"", &[], 1), refused(8, 0));
    }
    let file = with_header(b"Exec=v %f\n");
    assert_eq!(
        expand_file(&file, b"", b"", &items, 2),
        arguments(&["v", "c"])
    );
    assert_eq!(
        expand_exec("v x %U y", &items),
        arguments(&["v", "x", "a", "b", "c", "y"])
    );
}

#[test]
fn r7_8_items_unchanged() {
    assert_eq!(
        expand_exec("v %u", &["/a b\\%u\""]),
        arguments(&["v", "/a b\\%u\""])
    );
    assert_eq!(expand_exec("v x%fy%%", &["$"]), arguments(&["v", "x$y%"]));
}

// A3.1

#[test]
fn a3_1_the_encoding_of_a_postfix_is_lost() {
    let file = ["de_DE.UTF-8"];
    for locale in ["de_DE", "de_DE.UTF-8", "de_DE.x", "de_DE@x", "de_DE.x@x"] {
        assert_eq!(chosen(&file, locale), "de_DE.UTF-8", "{locale}");
    }
    for locale in ["", "de", "de.UTF-8", "de_AT.UTF-8", "de_DE-UTF-8", "de@x"] {
        assert_eq!(chosen(&file, locale), "plain", "{locale}");
    }
    assert_eq!(chosen(&["de.UTF-8"], "de_DE"), "de.UTF-8");
    assert_eq!(chosen(&["de.UTF-8"], "fr.UTF-8"), "plain");
}

#[test]
fn a3_1_the_earlier_line_wins_for_every_locale() {
    let encodings = ["", ".UTF-8", ".x"];
    let asked = [
        ("de", "de", ""),
        ("de", "de_DE", ""),
        ("de", "de", "@x"),
        ("de_DE", "de_DE", ""),
        ("de_DE", "de_DE", "@x"),
    ];
    for (name, locale, modifier) in asked {
        for first in encodings {
            for second in encodings.into_iter().filter(|second| *second != first) {
                let file = [first, second].map(|encoding| format!("{name}{encoding}"));
                let postfixes = [&file[0][..], &file[1]];
                // The caller's own encoding, too, is that of the later line.
                for own in ["", ".UTF-8", ".x", ".y"] {
                    let locale = format!("{locale}{own}{modifier}");
                    assert_eq!(chosen(&postfixes, &locale), file[0], "{locale} {file:?}");
                }
            }
        }
    }
    assert_eq!(chosen(&["fr", "de.x", "de", "de.y"], "de.y"), "de.x");
}

#[test]
fn a3_1_candidates_come_before_lines() {
    assert_eq!(chosen(&["de.UTF-8", "de_DE.x"], "de_DE"), "de_DE.x");
    assert_eq!(chosen(&["de", "de_DE.x"], "de_DE.UTF-8"), "de_DE.x");
    let upwards = ["de.a", "de.a@x", "de_DE.a", "de_DE.a@x"];
    for found in 1..=4 {
        assert_eq!(chosen(&upwards[..found], "de_DE.b@x"), upwards[found - 1]);
    }
    assert_eq!(chosen(&upwards, "de_DE"), "de_DE.a");
    assert_eq!(chosen(&upwards, "de@x"), "de.a@x");
    assert_eq!(chosen(&upwards, "de"), "de.a");
}

#[test]
fn a3_1_the_modifier_stays() {
    assert_eq!(chosen(&["de.UTF-8@x"], "de@x"), "de.UTF-8@x");
    assert_eq!(chosen(&["de.UTF-8@x"], "de_DE.y@x"), "de.UTF-8@x");
    assert_eq!(chosen(&["de@x", "de.UTF-8@x"], "de.UTF-8@x"), "de@x");
    assert_eq!(chosen(&["de.UTF-8@x", "de@x"], "de@x"), "de.UTF-8@x");
    for locale in ["de", "de.UTF-8", "de.x", "de@UTF-8", "de@y"] {
        assert_eq!(chosen(&["de.UTF-8@x"], locale), "plain", "{locale}");
    }
    assert_eq!(chosen(&["de.UTF-8@x", "de"], "de.UTF-8"), "de");
    assert_eq!(chosen(&["de.UTF-8@x", "de.UTF-8@y"], "de@y"), "de.UTF-8@y");
}

#[test]
fn a3_1_c_and_posix_in_the_file() {
    let file = ["C.UTF-8", "C", "POSIX.x"];
    for locale in ["", "C", "POSIX", "C.UTF-8", "POSIX.x", "C.x"] {
        assert_eq!(chosen(&file, locale), "plain", "{locale}");
    }
    for locale in ["C@x", "C.x@x", "C_DE", "C_DE.UTF-8"] {
        assert_eq!(chosen(&file, locale), "C.UTF-8", "{locale}");
    }
    assert_eq!(chosen(&file, "POSIX@x"), "POSIX.x");
}

#[test]
fn a3_1_other_keys_and_groups_do_not_count() {
    let file = with_header(
        b"Names=\nNames[de.UTF-8]=a\nName=b\nIcon=\nIcon[de]=c\n[B]\nName=d\nName[de.UTF-8]=e\n",
    );
    let value = |group| choose(&file, group, b"Name", b"de").map(|(from, to)| &file[from..to]);
    assert_eq!(value(DE), Ok(&b"b"[..]));
    assert_eq!(value(b"B"), Ok(&b"e"[..]));
}

#[test]
fn a3_1_repeats_lookup_set_and_remove_take_the_postfix_whole() {
    let both = with_header(b"Name=a\nName[de.UTF-8]=b\nName[de]=c\nName[de.x]=d\n");
    assert_eq!(check(&both), Ok(()));
    assert_eq!(lookup(&both, DE, b"Name[de.UTF-8]"), Ok((38, 39)));
    assert_eq!(lookup(&both, DE, b"Name[de]"), Ok((49, 50)));
    assert_eq!(lookup(&both, DE, b"Name[de.x]"), Ok((62, 63)));
    let twice = with_header(b"Name=a\nName[de.x]=b\nName[de]=c\nName[de.x]=d\n");
    assert_eq!(check(&twice), refused(5, 5));

    let one = with_header(b"Name=a\nName[de.UTF-8]=b\n");
    for key in [&b"Name[de]"[..], b"Name[de.x]", b"Name[de.UTF-8@x]"] {
        assert_eq!(lookup(&one, DE, key), refused(8, 0));
        let mut s = state(&one, 100, 100);
        assert_eq!(remove(&mut s, SEVEN, DE, key), refused(8, 0));
        assert_eq!(set(&mut s, SEVEN, DE, key, b"c"), Ok(()));
        assert_eq!(file_of(&s), [&one[..], key, b"=c\n"].concat());
        assert_eq!(remove(&mut s, SEVEN, DE, key), Ok(()));
        assert_eq!(file_of(&s), one);
    }
    let mut s = state(&both, 100, 100);
    assert_eq!(set(&mut s, SEVEN, DE, b"Name[de]", b"e"), Ok(()));
    let changed = with_header(b"Name=a\nName[de.UTF-8]=b\nName[de]=e\nName[de.x]=d\n");
    assert_eq!(file_of(&s), changed);
    assert_eq!(remove(&mut s, SEVEN, DE, b"Name[de.UTF-8]"), Ok(()));
    assert_eq!(
        file_of(&s),
        with_header(b"Name=a\nName[de]=e\nName[de.x]=d\n")
    );
    assert_eq!(remove(&mut s, SEVEN, DE, b"Name"), refused(17, 0));
}

#[test]
fn a3_1_name_and_icon_of_a_command() {
    let file = with_header(
        b"Name=a\nName[de.UTF-8]=b\nName[de]=c\nIcon=i\nIcon[de]=j\nIcon[de.UTF-8]=k\nExec=v %c %i\n",
    );
    for locale in [&b"de"[..], b"de.UTF-8", b"de_DE.x@y"] {
        let told = arguments(&["v", "b", "--icon", "j"]);
        assert_eq!(expand_file(&file, locale, b"", &[], 0), told);
    }
    for locale in [&b""[..], b"C.UTF-8", b"fr.UTF-8"] {
        let told = arguments(&["v", "a", "--icon", "i"]);
        assert_eq!(expand_file(&file, locale, b"", &[], 0), told);
    }
    let file = with_header(b"Name=a\nName[de.x]=b\\q\nIcon=i\nIcon[de.x]=\nExec=v %c %i\n");
    assert_eq!(expand_file(&file, b"de", b"", &[], 0), refused(9, 1));
    let file = with_header(b"Icon=i\nIcon[de.x]=\nExec=v %i\n");
    assert_eq!(expand_file(&file, b"de", b"", &[], 0), arguments(&["v"]));
}

// A6.1

#[test]
fn a6_1_byte_in_the_line() {
    let lines: [(&[u8], u64); 31] = [
        (b"[]", 1),
        (b"[a]x", 3),
        (b" x", 1),
        (b"k[]=", 2),
        (b"k[de", 4),
        (b"k", 1),
        (b"k=\xE0\x80", 3),
        (b"k=\xE0", 3),
        (b"[", 1),
        (b"[a", 2),
        (b"[a[", 2),
        (b"[\xC3\xA9]", 1),
        (b"[a]]", 3),
        (b"\t\t[", 2),
        (b"=", 0),
        (b"k ", 2),
        (b"k x=", 2),
        (b"k_=", 1),
        (b"k [de]=", 2),
        (b"k[de]", 5),
        (b"k[de]x=", 5),
        (b"k[de_]=", 5),
        (b"k[de@a.b]=", 6),
        (b"k[de.a_B]=", 6),
        (b"k[_B]=", 2),
        (b"k=a\x01\xFF", 3),
        (b"k=\xC3\x7F", 3),
        (b"k=a\x7F", 3),
        (b"k= \xF4\x90", 4),
        (b"k=\xED\xA0\x80", 3),
        (b"k=\xF0\x90\x80", 5),
    ];
    for (line, byte) in lines {
        assert_eq!(check(&with_header(line)), bad_line(2, byte), "{line:?}");
        assert_eq!(
            check(&with_header(&[line, b"\n"].concat())),
            bad_line(2, byte),
            "{line:?}"
        );
    }
    assert_eq!(check(&with_header(b"#\xFF\0\n")), Ok(()));
}

/// Endings that make a good line of every front of a good line of the bytes below: what is unfinished of a character, of a
/// locale, of a header and of an entry.
const ENDINGS: [&[u8]; 12] = [
    b"",
    b"a",
    b"]",
    b"a]",
    b"=",
    b"a=",
    b"]=",
    b"a]=",
    b"\x80",
    b"\x80\x80",
    b"\x80\x80\x80",
    b"\xA0\x80",
];

/// 02's sentence itself, by trying endings: "the first after which no ending could make the line good, or the line's length".
fn first_hopeless(line: &[u8]) -> usize {
    let hopeful = |front: &[u8]| {
        let mended =
            |ending: &&[u8]| !matches!(read_line(&[front, ending].concat()), Line::Bad { .. });
        ENDINGS.iter().any(mended)
    };
    (0..line.len())
        .find(|byte| !hopeful(&line[..=*byte]))
        .unwrap_or(line.len())
}

/// Every line of up to five of the bytes that decide most.
#[test]
fn a6_1_the_first_byte_after_which_no_ending_helps() {
    let bytes = b"[]a=_@ \t#\x80\xC3\xE0\xF4";
    let mut bad = 0;
    for length in 0..=5 {
        for number in 0..bytes.len().pow(length) {
            let at = |power| bytes[number / bytes.len().pow(power) % bytes.len()];
            let line: Vec<u8> = (0..length).map(at).collect();
            if let Line::Bad { byte } = read_line(&line) {
                assert_eq!(byte, first_hopeless(&line), "{}", line.escape_ascii());
                bad += 1;
            }
        }
    }
    assert!(bad > 100_000, "{bad}");
}

// Part 9

#[test]
fn r9_3_long_arguments_are_answered() {
    let long = vec![b'a'; 200_000];
    assert_eq!(lookup(T, &long, &long), refused(8, 0));
    assert_eq!(choose(T, DE, b"Name", &long), Ok((38, 43)));
    assert_eq!(
        set(&mut state(T, 71, 0), SEVEN, DE, &long, &long),
        refused(11, 0)
    );
}
