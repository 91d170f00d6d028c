//! Many edits in one call of the bindings: the list, what is done, and what a refusal leaves.

use kveldrim::{
    requests_of, Batch, Buffers, Document, Edit, Edits, Kind, Numbers, Person, Refusal, Request,
    DESKTOP_ENTRY,
};

const T: &[u8] = b"[Desktop Entry]\nType=Application\nName=Lesen\nName[fr]=Lire\nExec=view %F\n";

const SEVEN: Person = Person(7);

fn set<'a>(key: &'a [u8], text: &'a [u8]) -> Request<'a> {
    Request::Set {
        group: DESKTOP_ENTRY,
        key,
        text,
    }
}

fn remove(key: &[u8]) -> Request<'_> {
    Request::Remove {
        group: DESKTOP_ENTRY,
        key,
    }
}

/// All so many requests were done.
fn all(done: u64) -> Batch {
    Batch {
        done,
        stopped: None,
    }
}

/// So many were done, and the next was refused.
fn stopped(done: u64, kind: Kind) -> Batch {
    Batch {
        done,
        stopped: Some(Refusal {
            kind,
            place: 0,
            byte: 0,
        }),
    }
}

#[test]
fn the_list_of_requests() {
    assert_eq!(requests_of(&[]), b"");
    let short = Request::Remove {
        group: b"",
        key: b"",
    };
    assert_eq!(requests_of(&[short]), b"\x0E\0\0\0\x06\0\0\0\0\0\0\0\0\0");
    let name = b"\x26\0\0\0\x05\0\x0D\0\0\0Desktop Entry\x04\0\0\0Name\x03\0\0\0Les";
    let exec = b"\x1F\0\0\0\x06\0\x0D\0\0\0Desktop Entry\x04\0\0\0Exec";
    assert_eq!(requests_of(&[set(b"Name", b"Les")]), name);
    assert_eq!(
        requests_of(&[set(b"Name", b"Les"), remove(b"Exec")]),
        [&name[..], exec].concat()
    );
    let long = requests_of(&[set(b"Name", &[b'x'; 0x1_0203])]);
    assert_eq!(long[..4], (0x1_0203 + 35_u32).to_le_bytes());
    assert_eq!(long[31..35], [3, 2, 1, 0]);
}

/// Those before a refused one stand, and are undone one at a time.
#[test]
fn edits_before_a_refusal_stand() {
    let mut document = Document::new(T);
    let requests = [set(b"Name", b"Les"), remove(b"Exec"), remove(b"Exec")];
    let batch = document.batch(SEVEN, &requests);
    assert_eq!(batch, stopped(2, Kind::Missing));
    let left = [&T[..38], b"Les", &T[43..58]].concat();
    assert_eq!(document.file(), left);
    let edits: Vec<Edit> = Edits::new(document.journal()).collect();
    let name = Edit {
        place: 38,
        old: b"Lesen",
        new: b"Les",
    };
    let exec = Edit {
        place: 56,
        old: b"Exec=view %F\n",
        new: b"",
    };
    assert_eq!((edits, document.standing()), (vec![name, exec], 61));
    assert_eq!([0, 1].map(|n| document.person(n)), [Ok(SEVEN), Ok(SEVEN)]);
    assert_eq!(document.undo(), Ok(()));
    assert_eq!(document.file(), [&T[..38], b"Les", &T[43..]].concat());
    assert_eq!(document.undo(), Ok(()));
    assert_eq!((document.file(), document.standing()), (T, 0));
    // An empty one leaves what waits, and any other takes its place.
    assert_eq!(document.batch(SEVEN, &[]), all(0));
    assert_eq!((document.journal().len(), document.standing()), (61, 0));
    assert_eq!(document.batch(SEVEN, &requests[1..2]), all(1));
    assert_eq!((document.journal().len(), document.standing()), (33, 33));
}

/// A batch leaves what the single calls leave.
#[test]
fn as_the_single_calls() {
    let requests = [
        set(b"Icon", b" a\n"),
        set(b"Icon[de]", b""),
        remove(b"Icon[de]"),
        remove(b"Icon"),
        set(b"Name[fr]", b"Livre"),
    ];
    let mut at_once = Document::new(T);
    assert_eq!(at_once.batch(Person(258), &requests), all(5));
    let mut in_turn = Document::new(T);
    for request in requests {
        let told = match request {
            Request::Set { group, key, text } => in_turn.set(Person(258), group, key, text),
            Request::Remove { group, key } => in_turn.remove(Person(258), group, key),
        };
        assert_eq!(told, Ok(()));
    }
    assert_eq!(at_once.file(), in_turn.file());
    assert_eq!(at_once.journal(), in_turn.journal());
    assert_eq!(at_once.standing(), in_turn.standing());
}

/// Buffers just large enough for some of the requests, and numbers and lists that are wrong.
#[test]
fn refusals_in_lent_buffers() {
    let requests = [
        set(b"Name", b"Les"),
        set(b"Name", b"Lesen"),
        set(b"Exec", b""),
    ];
    let list = requests_of(&requests);
    for (file_room, journal_room, answer, numbers) in [
        (71, 83, all(3), [64, 83, 83]),
        (71, 82, stopped(2, Kind::JournalFull), [71, 56, 56]),
        (71, 55, stopped(1, Kind::JournalFull), [69, 28, 28]),
        (71, 27, stopped(0, Kind::JournalFull), [71, 0, 0]),
    ] {
        let mut file = T.to_vec();
        file.resize(file_room, b'.');
        let mut journal = vec![b'.'; journal_room];
        let mut left = Numbers {
            file_len: 71,
            used: 0,
            standing: 0,
        };
        let mut buffers = Buffers {
            file: &mut file,
            journal: &mut journal,
            numbers: &mut left,
        };
        let damaged = stopped(0, Kind::Damaged);
        for cut in 1..list.len() {
            if ![38, 78].contains(&cut) {
                assert_eq!(buffers.batch(SEVEN, &list[..cut]), damaged, "{cut}");
            }
        }
        buffers.numbers.used = 66;
        assert_eq!(buffers.batch(SEVEN, &list), damaged);
        buffers.numbers.used = 0;
        assert_eq!(*buffers.file, *T);
        assert!(buffers.journal.iter().all(|byte| *byte == b'.'));
        assert_eq!(buffers.batch(SEVEN, &list), answer);
        let Numbers {
            file_len,
            used,
            standing,
        } = left;
        assert_eq!([file_len, used, standing], numbers);
    }
}

#[test]
fn the_bound_of_a_list() {
    // A record of 35 bytes and the text.
    for (length, batch) in [
        (65_536 - 35, stopped(0, Kind::NoRoom)),
        (65_537 - 35, stopped(0, Kind::Damaged)),
    ] {
        let mut document = Document::new(T);
        let text = vec![b'x'; length];
        assert_eq!(document.batch(SEVEN, &[set(b"Name", &text)]), batch);
    }
}
