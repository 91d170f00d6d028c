//! Paper 02, A9, "Who made the edit": a test for each sentence.

use crate::common::*;
use reference::{person, redo, remove, set, undo, Book, RecordKind, Refusal, State};

const DE: &[u8] = b"Desktop Entry";

/// T after 01's calls: Name is `Les`, and the removal of Exec waits.
fn old_state() -> State {
    let mut s = state(T, 100, 106);
    assert_eq!(set(&mut s, RecordKind::One, DE, b"Name", b"Les"), Ok(()));
    assert_eq!(remove(&mut s, RecordKind::One, DE, b"Exec"), Ok(()));
    assert_eq!(undo(&mut s), Ok(()));
    assert_eq!((s.used, s.standing), (57, 26));
    s
}

/// The persons told of a state's first records.
fn told(s: &State, count: u64) -> Vec<Result<u16, Refusal>> {
    (0..count)
        .map(|n| person(&s.journal, s.used, s.standing, n))
        .collect()
}

#[test]
fn a_person_has_two_bytes_between_kind_and_place() {
    for number in [0, 1, 255, 256, 0x1234, 0xFFFF] {
        let kind = RecordKind::Four(number);
        let mut s = state(T, 100, 100);
        assert_eq!(set(&mut s, kind, DE, b"Name", b"Les"), Ok(()));
        assert_eq!(s.journal[..6], [0x1C, 0, 0, 0, 4, 0]);
        assert_eq!(s.journal[6..8], number.to_le_bytes());
        assert_eq!(s.journal[8..28], *b"\x26\0\0\0\x05\0\0\0\x03\0\0\0LesenLes");
        assert_eq!(remove(&mut s, kind, DE, b"Exec"), Ok(()));
        let record = journal_record(kind, 56, b"Exec=view %F\n", b"");
        assert_eq!(s.journal[28..61], record);
        assert_eq!(told(&s, 2), [Ok(number); 2]);
    }
}

#[test]
fn the_person_of_a_record_that_stands_or_waits() {
    let mut s = state(T, 100, 100);
    assert_eq!(told(&s, 1), [refused(12, 0)]);
    for (number, text) in [(1, b"a"), (2, b"b"), (1, b"c")] {
        assert_eq!(
            set(&mut s, RecordKind::Four(number), DE, b"Name", text),
            Ok(())
        );
    }
    let all = [Ok(1), Ok(2), Ok(1), refused(12, 0)];
    for _ in 0..3 {
        assert_eq!(told(&s, 4), all);
        assert_eq!(undo(&mut s), Ok(()));
    }
    assert_eq!(told(&s, 4), all);
    assert_eq!(redo(&mut s), Ok(()));
    assert_eq!(told(&s, 4), all);
    assert_eq!(set(&mut s, RecordKind::Four(3), DE, b"Name", b"d"), Ok(()));
    assert_eq!(told(&s, 3), [Ok(1), Ok(3), refused(12, 0)]);
    assert_eq!(
        person(&s.journal, s.used, s.standing, u64::MAX),
        refused(12, 0)
    );
}

#[test]
fn lengths_and_damage_come_before_12() {
    let s = old_state();
    let ask = |used, standing| person(&s.journal, used, standing, 9);
    assert_eq!(ask(57, 57), refused(12, 0));
    for (used, standing) in [(107, 0), (26, 27), (57, 27), (56, 0), (u64::MAX, u64::MAX)] {
        assert_eq!(ask(used, standing), refused(14, 0), "{used} {standing}");
    }
    let record = journal_record(SEVEN, 0, &[b'x'; 32_740], &[b'x'; 8]);
    let full = [record.clone(), record.clone(), vec![0]].concat();
    assert_eq!(person(&full, 65_536, 0, 1), Ok(7));
    assert_eq!(person(&full, 65_537, 0, 1), refused(14, 0));
}

#[test]
fn a_kind_4_of_another_length_is_damaged() {
    for (kind, length) in [(RecordKind::One, 26), (SEVEN, 28)] {
        let sound = journal_record(kind, 38, b"Lesen", b"Les");
        assert_eq!(sound.len(), length);
        for other in 0..40 {
            let mut record = sound.clone();
            record.resize(other, 0);
            if other > 0 {
                record[0] = other as u8;
            }
            let told = person(&record, other as u64, 0, 0);
            let expected = match other {
                0 => refused(12, 0),
                other if other == length => Ok(kind.person()),
                _ => refused(14, 0),
            };
            assert_eq!(told, expected, "{other}");
        }
    }
}

#[test]
fn old_journals_are_read_as_person_0_and_continue() {
    let mut s = old_state();
    assert_eq!(told(&s, 3), [Ok(0), Ok(0), refused(12, 0)]);
    assert_eq!(redo(&mut s), Ok(()));
    let before = s.journal.clone();
    assert_eq!(set(&mut s, SEVEN, DE, b"Name", b"x"), Ok(()));
    assert_eq!((s.used, s.standing), (81, 81));
    assert_eq!(s.journal[..57], before[..57]);
    assert_eq!(told(&s, 4), [Ok(0), Ok(0), Ok(7), refused(12, 0)]);
    for _ in 0..3 {
        assert_eq!(undo(&mut s), Ok(()));
    }
    assert_eq!((file_of(&s), s.standing), (T, 0));
    for end in [26, 57, 81] {
        assert_eq!(redo(&mut s), Ok(()));
        assert_eq!(s.standing, end);
    }
}

#[test]
fn the_room_is_reckoned_with_the_longer_record() {
    // 26 bytes stand; Icon=x and its LF make a record of 20 + 7 bytes.
    for (room, answer) in [(53, Ok(())), (52, refused(13, 0)), (51, refused(13, 0))] {
        let mut s = old_state();
        s.used = 26;
        s.journal.truncate(room);
        assert_eq!(set(&mut s, SEVEN, DE, b"Icon", b"x"), answer, "{room}");
    }
}

/// "Their edits, standing or waiting, count, in 01's book too, each with its own record's length."
#[test]
fn the_book_counts_each_record_by_its_own_length() {
    let mut book = Book::new(T, 100, 106);
    assert_eq!(book.set(RecordKind::One, DE, b"Name", b"Les"), Ok(()));
    assert_eq!(book.remove(RecordKind::One, DE, b"Exec"), Ok(()));
    assert_eq!(book.undo(), Ok(()));
    assert_eq!((book.standing(), book.persons()), (26, vec![0, 0]));
    assert_eq!(book.redo(), Ok(()));
    assert_eq!(book.set(SEVEN, DE, b"Name", b"x"), Ok(()));
    assert_eq!((book.standing(), book.persons()), (81, vec![0, 0, 7]));
    // Of the 106 bytes 25 are left; a record of kind 1 would have 18 + 6.
    assert_eq!(book.set(SEVEN, DE, b"Name", b"01234"), refused(13, 0));
    assert_eq!(book.set(SEVEN, DE, b"Name", b"0123"), Ok(()));
    assert_eq!(book.standing(), 106);
}
