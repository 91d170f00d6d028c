//! Paper 02, A4, "A term's renames at once": a test for each sentence.

use crate::common::*;
use reference::{batch, person, redo, remove, set, undo, Batch, Book, RecordKind, Refusal, State};

const DE: &[u8] = b"Desktop Entry";

/// A set with key and text, or a remove with a key, in Desktop Entry.
#[derive(Clone, Copy)]
enum Single<'a> {
    Set(&'a [u8], &'a [u8]),
    Remove(&'a [u8]),
}

use Single::{Remove, Set};

impl Single<'_> {
    fn record(&self) -> Vec<u8> {
        match self {
            Set(key, text) => request(5, &[DE, key, text]),
            Remove(key) => request(6, &[DE, key]),
        }
    }

    fn over_state(&self, s: &mut State) -> Result<(), Refusal> {
        match self {
            Set(key, text) => set(s, SEVEN, DE, key, text),
            Remove(key) => remove(s, SEVEN, DE, key),
        }
    }
}

fn list_of(singles: &[Single]) -> Vec<u8> {
    let records = singles.iter().map(Single::record);
    records.collect::<Vec<_>>().concat()
}

/// What the single calls tell and leave in turn, up to the first that is refused.
fn in_turn(s: &mut State, singles: &[Single]) -> Batch {
    for (done, single) in (0..).zip(singles) {
        if let Err(refusal) = single.over_state(s) {
            return stopped(done, refusal);
        }
    }
    all(singles.len() as u64)
}

fn all(done: u64) -> Batch {
    Batch {
        done,
        stopped: None,
    }
}

fn stopped(done: u64, refusal: Refusal) -> Batch {
    Batch {
        done,
        stopped: Some(refusal),
    }
}

/// Asks that the list is refused so, with nothing done.
fn refuses(s: &State, list: &[u8], refusal: Refusal) {
    let mut after = s.clone();
    assert_eq!(batch(&mut after, 7, list), stopped(0, refusal));
    assert_eq!(after, *s);
}

/// Two edits that make T 8 bytes longer. Their requests have 36 and 41 bytes, their records 27 and 31.
const TWO: [Single; 2] = [Set(b"Icon", b"a"), Set(b"Name", b"Lesung")];

/// T with so much room behind it and such a journal; an edit of person 256 waits in it.
fn waiting(file_more: usize, journal_room: usize) -> State {
    let mut s = state(T, T.len() + file_more, journal_room);
    let exec = set(&mut s, RecordKind::Four(256), DE, b"Exec", b"v");
    assert_eq!((exec, undo(&mut s)), (Ok(()), Ok(())));
    assert_eq!((s.used, s.standing), (28, 0));
    s
}

/// How many records stand.
fn stand(s: &State) -> u64 {
    let told = |n| person(&s.journal, s.standing, s.standing, n).is_ok();
    (0..).take_while(|n| told(*n)).count() as u64
}

/// "The list is in records: length of the whole (4), two-byte kind (5 set, 6 remove), then group, key with postfix and, for 5,
/// the text, each after its own 4-byte length."
#[test]
fn the_list_is_in_records() {
    let set_name = b"\x26\0\0\0\x05\0\x0D\0\0\0Desktop Entry\x04\0\0\0Name\x03\0\0\0Les";
    let remove_fr = b"\x23\0\0\0\x06\0\x0D\0\0\0Desktop Entry\x08\0\0\0Name[fr]";
    let mut s = state(T, 80, 80);
    let list = [&set_name[..], remove_fr].concat();
    assert_eq!(batch(&mut s, 7, &list), all(2));
    let name = journal_record(SEVEN, 38, b"Lesen", b"Les");
    let fr = journal_record(SEVEN, 42, b"Name[fr]=Lire\n", b"");
    assert_eq!(s.journal, [name, fr, vec![0xAA; 18]].concat());
    assert_eq!((s.used, s.standing), (62, 62));
    let left = [&T[..38], b"Les\n", &T[58..], &[0; 16], &[0xAA; 9]].concat();
    assert_eq!((&s.file, s.file_len), (&left, 55));
    assert_eq!(list, list_of(&[Set(b"Name", b"Les"), Remove(b"Name[fr]")]));
}

/// "Do exactly what the single calls would do in turn, stopping at the first refused one", with every size of both buffers.
#[test]
fn as_the_single_calls_in_turn() {
    let lists: [&[Single]; 4] = [
        &TWO,
        &[
            Remove(b"Exec"),
            Set(b"Exec", b" x\n"),
            Set(b"Name[de]", b""),
        ],
        &[Set(b"Icon", b"a"), Remove(b"Icon"), Remove(b"Icon"), TWO[1]],
        &[Remove(b"Name[fr]"), Remove(b"Name"), Set(b"Name[fr]", b"x")],
    ];
    let mut seen = [0; 18];
    for singles in lists {
        for file_more in 0..20 {
            for journal_room in 28..130 {
                let mut s = waiting(file_more, journal_room);
                let mut single = s.clone();
                let told = batch(&mut s, 7, &list_of(singles));
                assert_eq!(told, in_turn(&mut single, singles));
                assert_eq!(s, single);
                seen[told.stopped.map_or(0, |refusal| refusal.number as usize)] += 1;
            }
        }
    }
    for number in [0, 6, 8, 11, 13] {
        assert!(seen[number] > 100, "{number} came {} times", seen[number]);
    }
}

/// "Else the stopped request's own, reported with the number done and the lengths left": each that a set or remove has. A form
/// that is wrong inside a sound record is that request's 7.
#[test]
fn each_refusal_of_a_request_stops() {
    let long = [b'x'; 33_000];
    let requests: [(u32, Vec<u8>); 13] = [
        (7, request(5, &[b"", b"Name", b"x"])),
        (7, request(5, &[b"A]", b"Name", b"\0"])),
        (7, request(5, &[DE, b"", b""])),
        (7, request(6, &[DE, b"Name["])),
        (7, request(6, &[b"", b""])),
        (10, request(5, &[b"A", b"Name", b"\0"])),
        (10, request(5, &[DE, b"Name", b"\xFF"])),
        (8, request(5, &[b"A", b"Name[de]", b"x"])),
        (8, request(6, &[DE, b"Name[de]"])),
        (6, request(5, &[DE, b"URL[de]", b"x"])),
        (17, request(6, &[DE, b"Name"])),
        (11, request(5, &[DE, b"Name", &long])),
        (13, request(5, &[DE, b"Name", &long[..31]])),
    ];
    let mut two = waiting(60, 111);
    assert_eq!(in_turn(&mut two, &TWO), all(2));
    assert_eq!((two.file_len, two.used, two.standing), (79, 58, 58));
    for (number, refused) in requests {
        let mut s = waiting(60, 111);
        let list = [list_of(&TWO), refused.clone(), TWO[0].record()].concat();
        let told = batch(&mut s, 7, &list);
        assert_eq!(told, stopped(2, Refusal::new(number)));
        assert_eq!(s, two);
        // As the first of all it does nothing, and what waits stays.
        let list = [refused, list_of(&TWO)].concat();
        refuses(&waiting(60, 55), &list, Refusal::new(number));
    }
}

/// "Those before it stand and can be undone one at a time."
#[test]
fn those_before_are_undone_one_at_a_time() {
    let singles = [TWO[0], TWO[1], Remove(b"Exec"), Remove(b"Exec")];
    for done in 1..=4 {
        let mut s = state(T, 100, 200);
        let told = batch(&mut s, 7, &list_of(&singles[..done]));
        assert_eq!(told.done, done.min(3) as u64);
        let end = s.clone();
        for left in (0..told.done as usize).rev() {
            assert_eq!(undo(&mut s), Ok(()));
            let mut fewer = state(T, 100, 200);
            assert_eq!(in_turn(&mut fewer, &singles[..left]), all(left as u64));
            assert_eq!((file_of(&s), s.standing), (file_of(&fewer), fewer.standing));
        }
        assert_eq!((file_of(&s), undo(&mut s.clone())), (T, refused(12, 0)));
        for _ in 0..told.done {
            assert_eq!(redo(&mut s), Ok(()));
        }
        assert_eq!((s.file_len, s.journal), (end.file_len, end.journal));
        assert_eq!(s.file, end.file);
    }
}

/// "In the third demand's list the single calls tried, the refused one too, take the place of this one."
#[test]
fn the_book_has_the_single_calls() {
    let singles = [TWO[0], TWO[1], Remove(b"Name"), Remove(b"Exec")];
    let mut s = state(T, 100, 100);
    let mut book = Book::new(T, 100, 100);
    assert_eq!(
        batch(&mut s, 7, &list_of(&singles)),
        stopped(2, Refusal::new(17))
    );
    assert_eq!(book.set(SEVEN, DE, b"Icon", b"a"), Ok(()));
    assert_eq!(book.set(SEVEN, DE, b"Name", b"Lesung"), Ok(()));
    assert_eq!(book.remove(SEVEN, DE, b"Name"), refused(17, 0));
    for _ in 0..3 {
        assert_eq!(
            (file_of(&s), s.standing),
            (&book.file()[..], book.standing())
        );
        assert_eq!(undo(&mut s), book.undo());
    }
}

/// "The answer tells how many were done, which is by how many the standing records grew", behind any records that stand.
#[test]
fn as_many_as_the_standing_records_grew() {
    let singles = [
        TWO[0],
        TWO[1],
        Remove(b"Exec"),
        Remove(b"Icon"),
        Remove(b"Icon"),
    ];
    for before in 0..3 {
        for count in 0..=5 {
            let mut s = waiting(60, 300);
            for text in [b"a", b"b"].into_iter().take(before) {
                assert_eq!(set(&mut s, SEVEN, DE, b"Type", text), Ok(()));
            }
            let stood = stand(&s);
            let told = batch(&mut s, 7, &list_of(&singles[..count]));
            assert_eq!(told.done, count.min(4) as u64);
            assert_eq!(stand(&s), stood + told.done);
        }
    }
}

/// A9: "a batch one for all".
#[test]
fn one_person_for_all() {
    for number in [0, 7, 255, 256, 0xFFFF] {
        let mut s = state(T, 100, 100);
        assert_eq!(batch(&mut s, number, &list_of(&TWO)), all(2));
        let told = [0, 1, 2].map(|n| person(&s.journal, s.used, s.standing, n));
        assert_eq!(told, [Ok(number), Ok(number), refused(12, 0)]);
        assert_eq!(s.journal[4..8], [[4, 0], number.to_le_bytes()].concat());
    }
}

/// "A list over 65,536 bytes ... is damaged": the requests in 65,536 bytes are asked.
#[test]
fn the_bound_of_a_list() {
    let full = stopped(1, Refusal::new(11));
    let damaged = stopped(0, Refusal::new(14));
    for (length, told) in [
        (65_535, full),
        (65_536, full),
        (65_537, damaged),
        (70_000, damaged),
    ] {
        let text = vec![b'x'; length - 41 - 35];
        let list = list_of(&[TWO[1], Set(b"Name", &text)]);
        let mut s = state(T, 40_000, 100);
        assert_eq!((list.len(), batch(&mut s, 7, &list)), (length, told));
        assert_eq!(stand(&s), told.done);
    }
}

/// The same of a list that is done to its end.
#[test]
fn a_full_list_is_done() {
    let mut singles = vec![Set(b"Name", b"x"); 1_819];
    singles.push(Set(b"Name", b"0123456789abcdefg"));
    let list = list_of(&singles);
    assert_eq!(list.len(), 65_536);
    let s = state(T, 100, 65_536);
    let mut done = s.clone();
    assert_eq!(batch(&mut done, 7, &list), all(1_820));
    assert_eq!(stand(&done), 1_820);
    refuses(&s, &[&list[..], &[0]].concat(), Refusal::new(14));
}

/// "Not filled exactly by its records": cut anywhere, or with bytes behind it.
#[test]
fn a_list_is_filled_by_its_records() {
    let s = waiting(60, 200);
    let list = list_of(&[TWO[0], Remove(b"Exec"), TWO[1]]);
    for length in 1..list.len() {
        if ![36, 67].contains(&length) {
            refuses(&s, &list[..length], Refusal::new(14));
        }
    }
    for behind in 1..20 {
        for byte in [0, 5, 6, 14, behind] {
            let more = vec![byte; behind.into()];
            refuses(&s, &[list.clone(), more].concat(), Refusal::new(14));
        }
    }
}

/// Its kinds are 5 and 6, each with its own fields; also where the length is right.
#[test]
fn other_kinds_are_damage() {
    let s = waiting(60, 200);
    let fields: [&[u8]; 4] = [DE, b"Icon", b"a", b"b"];
    for kind in (0..300).chain([0x500, 0x600, 0x505, 0xFFFF]) {
        for count in 0..=4 {
            let other = request(kind, &fields[..count]);
            let list = [TWO[0].record(), other, TWO[1].record()].concat();
            if ![(5, 3), (6, 2)].contains(&(kind, count)) {
                refuses(&s, &list, Refusal::new(14));
            }
        }
    }
}

/// The list with 4 of its bytes, from a place on, as this number.
fn with_number(list: &[u8], at: usize, number: u32) -> Vec<u8> {
    let mut list = list.to_vec();
    list[at..at + 4].copy_from_slice(&number.to_le_bytes());
    list
}

/// Lengths of records and of what is in them, wrong by a little or by much.
#[test]
fn wrong_lengths_are_damage() {
    let s = waiting(60, 200);
    let list = list_of(&[TWO[0], Remove(b"Exec"), TWO[1]]);
    // The record, the group, the key and the text, of each.
    for at in [0, 6, 23, 31, 36, 42, 59, 67, 73, 90, 98] {
        let right = u32::from_le_bytes(list[at..at + 4].try_into().unwrap());
        let near = (1..20).flat_map(|by| [right.wrapping_add(by), right.wrapping_sub(by)]);
        for wrong in near.chain([0, 1 << 16, 1 << 31, u32::MAX]) {
            let damaged = with_number(&list, at, wrong);
            if wrong != right {
                refuses(&s, &damaged, Refusal::new(14));
            }
        }
    }
}

/// Sums of two lengths, or of a length and what comes before it, that are right only after 2^32 is taken away.
#[test]
fn lengths_that_wrap_are_damage() {
    let s = waiting(60, 200);
    let list = list_of(&[TWO[0], TWO[1]]);
    for (first, second) in [(6, 23), (6, 31), (23, 31), (42, 59), (59, 67), (0, 36)] {
        let [one, two] =
            [first, second].map(|at| u32::from_le_bytes(list[at..at + 4].try_into().unwrap()));
        for by in (two + 1..two + 60).chain([1 << 16, 1 << 31, u32::MAX - 40, u32::MAX]) {
            let more = with_number(&list, first, one.wrapping_add(by));
            let damaged = with_number(&more, second, two.wrapping_sub(by));
            refuses(&s, &damaged, Refusal::new(14));
            let less = with_number(&list, first, one.wrapping_sub(by));
            let damaged = with_number(&less, second, two.wrapping_add(by));
            refuses(&s, &damaged, Refusal::new(14));
        }
    }
}

/// Lists that are empty, sound, refused at once, damaged and too long.
fn lists() -> [Vec<u8>; 5] {
    [
        Vec::new(),
        list_of(&TWO),
        request(6, &[b"", b""]),
        b"damaged".to_vec(),
        vec![0; 65_537],
    ]
}

/// "Faults of lengths, file, journal and list (14) come first, even for an empty list, with nothing done", in this order.
#[test]
fn faults_of_lengths_file_and_journal_come_first() {
    let files: [(&[u8], Refusal); 7] = [
        (&[b'\n'; 32_769], Refusal::new(1)),
        (b"[Desktop Entry]\nName\t=x\n", Refusal::bad_line(2, 4)),
        (b"", Refusal::new(3)),
        (b"\nA=1", Refusal::at(3, 2)),
        (b"[Desktop Entry]\n[A]\n[A]", Refusal::at(4, 3)),
        (b"[Desktop Entry]\nA=1\nA=2", Refusal::at(5, 3)),
        (b"[Desktop Entry]\nA[de]=1", Refusal::at(6, 2)),
    ];
    let damaged = Refusal::new(14);
    for list in lists() {
        for (file, refusal) in files {
            let mut s = state(file, 40_000, 50);
            refuses(&s, &list, refusal);
            s.used = 50;
            refuses(&s, &list, refusal);
            s.standing = 51;
            refuses(&s, &list, damaged);
        }
        for (used, standing) in [(50, 0), (50, 50), (28, 1), (27, 0), (51, 0), (0, 28)] {
            let mut s = waiting(0, 50);
            (s.used, s.standing) = (used, standing);
            refuses(&s, &list, damaged);
        }
        for file_len in [72, 1 << 32, u64::MAX] {
            let mut s = waiting(0, 50);
            s.file_len = file_len;
            refuses(&s, &list, damaged);
        }
    }
}

/// On a good file an empty list does nothing: what waits stays, and no room is needed.
#[test]
fn an_empty_list_writes_nothing() {
    for before in [waiting(0, 28), waiting(9, 90), state(T, 71, 0)] {
        let mut s = before.clone();
        assert_eq!(batch(&mut s, 7, b""), all(0));
        assert_eq!(s, before);
    }
}
