//! Paper 02, A10, "Journal full in October": a test for each sentence.

use crate::common::*;
use reference::{forget, redo, set, undo, Book, RecordKind, Refusal, State};

const DE: &[u8] = b"Desktop Entry";

/// The records of [`worked`]: of kind 1, by person 7 and by person 256.
fn three() -> [Vec<u8>; 3] {
    let icon = RecordKind::Four(256);
    [
        journal_record(RecordKind::One, 38, b"Lesen", b"Les"),
        journal_record(SEVEN, 61, b"view %F", b"v"),
        journal_record(icon, 63, b"", b"Icon=x\n"),
    ]
}

/// T after 01's set of Name and a set of Exec by person 7; Icon, set by person 256, waits. 10 bytes of the journal are not used.
fn worked() -> State {
    let mut s = state(T, 200, 91);
    assert_eq!(set(&mut s, RecordKind::One, DE, b"Name", b"Les"), Ok(()));
    assert_eq!(set(&mut s, SEVEN, DE, b"Exec", b"v"), Ok(()));
    let icon = set(&mut s, RecordKind::Four(256), DE, b"Icon", b"x");
    assert_eq!((icon, undo(&mut s)), (Ok(()), Ok(())));
    assert_eq!(s.journal, [three().concat(), vec![0xAA; 10]].concat());
    assert_eq!((s.used, s.standing), (81, 54));
    s
}

/// Forgets in the journal of a state.
fn forget_in(s: &mut State, k: u64) -> Result<(), Refusal> {
    forget(&mut s.journal, &mut s.used, &mut s.standing, k)
}

/// Asks that it is refused so, and that nothing changes.
fn refuses(s: &State, k: u64, number: u32) {
    let mut after = s.clone();
    assert_eq!(forget_in(&mut after, k), refused(number, 0), "{k}");
    assert_eq!(after, *s);
}

/// "Their records go, the others move to the front unchanged"; "freed places up to the old used length become zero".
#[test]
fn the_oldest_go_and_all_others_move() {
    let [first, second, third] = three();
    let went = [(0, 0), (1, 26), (2, 54)];
    let others = [
        [&first[..], &second, &third].concat(),
        [second, third.clone()].concat(),
        third,
    ];
    for ((k, went), others) in went.into_iter().zip(others) {
        let mut s = worked();
        let before = s.clone();
        assert_eq!(forget_in(&mut s, k), Ok(()));
        assert_eq!((s.used, s.standing), (81 - went, 54 - went));
        let freed = vec![0; went as usize];
        assert_eq!(s.journal, [others, freed, vec![0xAA; 10]].concat());
        assert_eq!((s.file, s.file_len), (before.file, before.file_len));
    }
}

/// "The room is used again by later edits": as soon as a record fits, and no sooner.
#[test]
fn the_room_is_used_again() {
    // 54 bytes stand, and 37 are left for the 20 of a record, the 3 of Les and the text.
    for (length, needed) in [(14, 0), (15, 1), (40, 1), (41, 2), (68, 2), (69, 3)] {
        for k in 0..=2 {
            let mut s = worked();
            assert_eq!(forget_in(&mut s, k), Ok(()));
            let standing = s.standing;
            let answer = set(&mut s, SEVEN, DE, b"Name", &vec![b'x'; length]);
            if k < needed {
                assert_eq!(answer, refused(13, 0), "{length} {k}");
            } else {
                assert_eq!(answer, Ok(()), "{length} {k}");
                assert_eq!(s.standing, standing + 23 + length as u64);
            }
        }
    }
}

/// "Undo finds nothing once it is back there"; what waited is redone as before.
#[test]
fn undo_finds_nothing_once_it_is_back_there() {
    let end = worked();
    for k in 0..=2 {
        let mut s = worked();
        assert_eq!(forget_in(&mut s, k), Ok(()));
        for _ in k..2 {
            assert_eq!(undo(&mut s), Ok(()));
        }
        assert_eq!(undo(&mut s), refused(12, 0));
        let mut start = worked();
        for _ in k..2 {
            assert_eq!(undo(&mut start), Ok(()));
        }
        assert_eq!((file_of(&s), s.standing), (file_of(&start), 0));
        for _ in k..3 {
            assert_eq!(redo(&mut s), Ok(()));
        }
        assert_eq!((redo(&mut s), undo(&mut s)), (refused(12, 0), Ok(())));
        assert_eq!(file_of(&s), file_of(&end));
    }
}

/// "The third demand's starting bytes are those after the forgotten edits, in 01's book too, where only these leave the
/// standing list."
#[test]
fn the_book_starts_after_the_forgotten_edits() {
    let mut book = Book::new(T, 200, 91);
    assert_eq!(book.set(RecordKind::One, DE, b"Name", b"Les"), Ok(()));
    assert_eq!(book.set(SEVEN, DE, b"Exec", b"v"), Ok(()));
    let icon = book.set(RecordKind::Four(256), DE, b"Icon", b"x");
    assert_eq!((icon, book.undo()), (Ok(()), Ok(())));
    for k in [3, 1 << 32, u64::MAX] {
        assert_eq!(book.forget(k), refused(12, 0));
    }
    assert_eq!(book.forget(0), Ok(()));
    let file = book.file();
    assert_eq!((book.standing(), book.persons()), (54, vec![0, 7, 256]));
    assert_eq!(book.forget(1), Ok(()));
    assert_eq!(book.file(), file);
    assert_eq!((book.standing(), book.persons()), (28, vec![7, 256]));
    assert_eq!(book.forget(2), refused(12, 0));
    assert_eq!((book.undo(), book.undo()), (Ok(()), refused(12, 0)));
    assert_eq!(book.file(), [&T[..38], b"Les", &T[43..]].concat());
    assert_eq!((book.redo(), book.redo()), (Ok(()), Ok(())));
    assert_eq!(book.forget(2), Ok(()));
    assert_eq!((book.standing(), book.persons()), (0, vec![]));
    assert_eq!(book.undo(), refused(12, 0));
}

/// "K above the number standing is 12", also where waiting records would make it up.
#[test]
fn more_than_stand_is_12() {
    let mut s = worked();
    for k in [3, 4, 1 << 32, (1 << 32) + 1, u64::MAX] {
        refuses(&s, k, 12);
    }
    s.standing = 81;
    assert_eq!(forget_in(&mut s.clone(), 3), Ok(()));
    refuses(&s, 4, 12);
    s.standing = 0;
    refuses(&s, 1, 12);
}

/// Nothing goes with 0: not from a journal that is empty, that is full, or of which all waits.
#[test]
fn forgetting_none_changes_nothing() {
    let empty = state(T, 71, 0);
    let unused = state(T, 71, 9);
    let mut waiting = worked();
    waiting.standing = 0;
    let mut full = worked();
    full.journal.truncate(81);
    for before in [empty, unused, worked(), waiting, full] {
        let mut s = before.clone();
        assert_eq!(forget_in(&mut s, 0), Ok(()));
        assert_eq!(s, before);
    }
    refuses(&state(T, 71, 0), 1, 12);
}

/// Lengths and damage are told before 12 and for 0 edits as well.
#[test]
fn lengths_and_damage_come_first() {
    let numbers = [
        (92, 54),
        (54, 81),
        (u64::MAX, u64::MAX),
        (81, 53),
        (81, 27),
        (80, 54),
        (82, 54),
        (91, 54),
    ];
    for k in [0, 1, 9, u64::MAX] {
        for (used, standing) in numbers {
            let mut s = worked();
            (s.used, s.standing) = (used, standing);
            refuses(&s, k, 14);
        }
        // The length and the kind of each record, also of the one that waits.
        for at in [0, 3, 4, 5, 26, 30, 54, 58] {
            let mut s = worked();
            s.journal[at] ^= 2;
            refuses(&s, k, 14);
        }
    }
}

/// The bound of a journal: 65,536 bytes, of which all but the last record go.
#[test]
fn the_bound_of_a_journal() {
    let long = journal_record(RecordKind::One, 0, &[b'x'; 32_740], &[b'x'; 10]);
    let last = journal_record(SEVEN, 1, &[b'y'; 32_740], &[b'y'; 8]);
    let mut s = state(T, 71, 0);
    s.journal = [long.clone(), last.clone(), vec![0xAA]].concat();
    (s.used, s.standing) = (65_537, 65_536);
    refuses(&s, 1, 14);
    s.used = 65_536;
    refuses(&s, 3, 12);
    assert_eq!(forget_in(&mut s, 1), Ok(()));
    assert_eq!((s.used, s.standing), (32_768, 32_768));
    assert_eq!(s.journal, [last, vec![0; 32_768], vec![0xAA]].concat());
}
