//! The bindings on their own: the examples of the rules, and the words of refusals.

use kveldrim::{
    Batch, Buffers, Document, Edit, Edits, Elements, Kind, Numbers, Person, Place, Refusal,
    DESKTOP_ENTRY,
};

const T: &[u8] = b"[Desktop Entry]\nType=Application\nName=Lesen\nName[fr]=Lire\nExec=view %F\n";

fn refused<A>(number: u32, place: u64) -> Result<A, Refusal> {
    Err(Refusal {
        kind: Kind::of(number).unwrap(),
        place,
        byte: 0,
    })
}

#[test]
fn files() {
    assert_eq!(kveldrim::check(T), Ok(()));
    assert_eq!(kveldrim::complete(T), Ok(()));
    assert_eq!(kveldrim::check(b""), refused(3, 0));
    assert_eq!(kveldrim::check(b"A=1"), refused(3, 1));
    assert_eq!(
        kveldrim::complete(b"[Desktop Entry]\nName=n"),
        refused(18, 0)
    );
    assert_eq!(
        kveldrim::check(&[b'\n'; kveldrim::FILE_BOUND]),
        refused(3, 0)
    );
    assert_eq!(
        kveldrim::check(&[b'\n'; kveldrim::FILE_BOUND + 1]),
        refused(1, 0)
    );
}

/// Every call that a file is handed to tells the byte of its bad line.
#[test]
fn bytes_of_bad_lines() {
    let bad = b"[Desktop Entry]\nName\t=x\n";
    let told = Refusal {
        kind: Kind::BadLine,
        place: 2,
        byte: 4,
    };
    assert_eq!(kveldrim::check(bad), Err(told));
    assert_eq!(kveldrim::complete(bad), Err(told));
    assert_eq!(kveldrim::lookup(bad, DESKTOP_ENTRY, b"Name"), Err(told));
    assert_eq!(
        kveldrim::choose(bad, DESKTOP_ENTRY, b"Name", b"de"),
        Err(told)
    );
    assert_eq!(
        kveldrim::expand(bad, b"", b"", b"", 0, &mut [0; 9]),
        Err(told)
    );
    assert_eq!(kveldrim::actions(bad, b"", &mut [0; 9]), Err(told));
    assert_eq!(
        kveldrim::expand_action(bad, b"a", b"", b"", b"", 0, &mut [0; 9]),
        Err(told)
    );
    let mut document = Document::new(bad);
    assert_eq!(document.set(SEVEN, DESKTOP_ENTRY, b"Name", b"y"), Err(told));
    assert_eq!(document.remove(SEVEN, DESKTOP_ENTRY, b"Name"), Err(told));
    assert_eq!(document.undo(), Err(told));
    assert_eq!(document.redo(), Err(told));
    let stopped = Batch {
        done: 0,
        stopped: Some(told),
    };
    assert_eq!(document.batch(SEVEN, &[]), stopped);
    assert_eq!(document.file(), bad);
}

#[test]
fn values() {
    assert_eq!(
        kveldrim::lookup(T, DESKTOP_ENTRY, b"Name[fr]"),
        Ok(&b"Lire"[..])
    );
    assert_eq!(kveldrim::lookup_ends(T, DESKTOP_ENTRY, b"Name"), Ok(38..43));
    assert_eq!(kveldrim::lookup(T, DESKTOP_ENTRY, b"Icon"), refused(8, 0));
    assert_eq!(kveldrim::lookup(T, b"", b"Name"), refused(7, 0));
    let chosen = kveldrim::choose(T, DESKTOP_ENTRY, b"Name", b"fr_CA.UTF-8");
    assert_eq!(chosen, Ok(&b"Lire"[..]));
    assert_eq!(
        kveldrim::choose_ends(T, DESKTOP_ENTRY, b"Name", b""),
        Ok(38..43)
    );
    assert_eq!(
        kveldrim::choose(T, DESKTOP_ENTRY, b"Name[fr]", b""),
        refused(7, 0)
    );
    let encoded = b"[Desktop Entry]\nName=a\nName[de.UTF-8]=b\nName[de]=c\nExec=view %c\n";
    for locale in [&b"de"[..], b"de.UTF-8", b"de_AT.ISO-8859-1@euro"] {
        let chosen = kveldrim::choose(encoded, DESKTOP_ENTRY, b"Name", locale);
        assert_eq!(chosen, Ok(&b"b"[..]));
        let arguments = kveldrim::expand_args(encoded, locale, b"", &[""; 0], 0);
        assert_eq!(arguments, Ok(vec![b"view".to_vec(), b"b".to_vec()]));
    }
    let whole = kveldrim::lookup(encoded, DESKTOP_ENTRY, b"Name[de]");
    assert_eq!(whole, Ok(&b"c"[..]));
}

#[test]
fn text() {
    let mut out = [b'.'; 4];
    assert_eq!(kveldrim::read_text(b"a\\sb", &mut out), Ok(3));
    assert_eq!(&out, b"a b.");
    assert_eq!(kveldrim::read_text(b"abcde", &mut out), refused(11, 0));
    assert_eq!(kveldrim::read_text(b"a\\q", &mut out), refused(9, 1));
    assert_eq!(&out, b"a b.");
    assert_eq!(kveldrim::write_text(b" x", &mut out), Ok(3));
    assert_eq!(&out, b"\\sx.");
    assert_eq!(kveldrim::write_text(b"\0", &mut out), refused(10, 0));
    assert_eq!(kveldrim::read_text_vec(b"\\\\\\n"), Ok(b"\\\n".to_vec()));
    let many = vec![b'\n'; 10_000];
    let raw = kveldrim::write_text_vec(&many).unwrap();
    assert_eq!(raw.len(), 20_000);
    assert_eq!(kveldrim::read_text_vec(&raw), Ok(many));
}

#[test]
fn lists() {
    let mut out = [0; 20];
    let written = kveldrim::read_list(b"a\\;b;;", &mut out).unwrap();
    assert_eq!(written, 15);
    let elements: Vec<&[u8]> = Elements::new(&out[..written]).collect();
    assert_eq!(elements, [&b"a;b"[..], b""]);
    assert_eq!(kveldrim::read_list_vec(b""), Ok(Vec::new()));
    assert_eq!(
        kveldrim::read_list_vec(&[b';'; 5_000]),
        Ok(vec![Vec::new(); 5_000])
    );
    assert_eq!(kveldrim::read_list_vec(b";\\"), refused(9, 1));
    assert_eq!(Elements::new(b"\x07\0\0\0\x02\0").count(), 0);
    assert_eq!(Elements::new(b"\x06\0\0\0\x03\0").count(), 0);
}

const SEVEN: Person = Person(7);

/// The record of file T with Name set to `Les` by person 7.
const LES: &[u8] = b"\x1C\0\0\0\x04\0\x07\0\x26\0\0\0\x05\0\0\0\x03\0\0\0LesenLes";

/// The same edit in a record of the kind 1.
const OLD_LES: &[u8] = b"\x1A\0\0\0\x01\0\x26\0\0\0\x05\0\0\0\x03\0\0\0LesenLes";

/// The edit of both.
const NAME: Edit = Edit {
    place: 38,
    old: b"Lesen",
    new: b"Les",
};

#[test]
fn edits_in_lent_buffers() {
    let mut file = [T, b"...."].concat();
    let mut journal = [b'.'; 32];
    let mut numbers = Numbers {
        file_len: 71,
        used: 0,
        standing: 0,
    };
    let mut buffers = Buffers {
        file: &mut file,
        journal: &mut journal,
        numbers: &mut numbers,
    };
    let set = |buffers: &mut Buffers, key: &[u8], text: &[u8]| {
        buffers.set(SEVEN, DESKTOP_ENTRY, key, text)
    };
    assert_eq!(set(&mut buffers, b"Name", b"Les"), Ok(()));
    assert_eq!(set(&mut buffers, b"Name", b"L"), refused(13, 0));
    assert_eq!(set(&mut buffers, b"Icon", b"x"), refused(11, 0));
    assert_eq!(
        buffers.remove(SEVEN, DESKTOP_ENTRY, b"Name"),
        refused(17, 0)
    );
    assert_eq!(
        (&buffers.journal[..28], &buffers.journal[28..]),
        (LES, &b"...."[..])
    );
    assert_eq!(buffers.file[69..], *b"\0\0....");
    let Numbers {
        file_len,
        used,
        standing,
    } = *buffers.numbers;
    assert_eq!([file_len, used, standing], [69, 28, 28]);
    assert_eq!(buffers.undo(), Ok(()));
    assert_eq!(buffers.undo(), refused(12, 0));
    assert_eq!(*buffers.file, [T, b"...."].concat());
    assert_eq!(buffers.person(0), Ok(SEVEN));
    assert_eq!(buffers.person(1), refused(12, 0));
    buffers.numbers.used = 33;
    assert_eq!(buffers.redo(), refused(14, 0));
    assert_eq!(buffers.person(0), refused(14, 0));
}

#[test]
fn edits_of_a_document() {
    let mut document = Document::new(T);
    assert_eq!(document.set(SEVEN, DESKTOP_ENTRY, b"Name", b"Les"), Ok(()));
    assert_eq!((document.journal(), document.standing()), (LES, 28));
    assert_eq!(
        document.remove(Person(0x1234), DESKTOP_ENTRY, b"Exec"),
        Ok(())
    );
    assert_eq!(document.undo(), Ok(()));
    let exec = Edit {
        place: 56,
        old: b"Exec=view %F\n",
        new: b"",
    };
    let edits: Vec<Edit> = Edits::new(document.journal()).collect();
    assert_eq!(edits, [NAME, exec]);
    // Kept and taken up another day.
    let (file, journal) = (document.file().to_vec(), document.journal().to_vec());
    let mut later = Document::with_journal(&file, &journal, document.standing());
    assert_eq!(later.redo(), Ok(()));
    assert_eq!((later.undo(), later.undo()), (Ok(()), Ok(())));
    assert_eq!((later.file(), later.standing()), (T, 0));
    let mut long = Document::new(&[b'\n'; kveldrim::FILE_BOUND + 1]);
    assert_eq!(long.undo(), refused(1, 0));
    let mut foreign = Document::with_journal(T, &[0; kveldrim::JOURNAL_BOUND + 1], 0);
    assert_eq!(foreign.undo(), refused(14, 0));
    for record in [LES, OLD_LES] {
        for cut in 0..record.len() {
            assert_eq!(Edits::new(&record[..cut]).count(), 0);
        }
    }
}

/// The persons of records that stand and wait, and of both kinds.
#[test]
fn persons() {
    let mut document = Document::with_journal(T, OLD_LES, 0);
    assert_eq!(document.redo(), Ok(()));
    assert_eq!(
        document.set(Person(0xFFFF), DESKTOP_ENTRY, b"Name", b"Lesen"),
        Ok(())
    );
    assert_eq!((document.undo(), document.undo()), (Ok(()), Ok(())));
    assert_eq!(document.file(), T);
    let told: Vec<_> = (0..3).map(|n| document.person(n)).collect();
    assert_eq!(
        told,
        [Ok(Person::NOBODY), Ok(Person(0xFFFF)), refused(12, 0)]
    );
    assert_eq!(document.person(u64::MAX), refused(12, 0));
    let back = Edit {
        place: 38,
        old: b"Les",
        new: b"Lesen",
    };
    let edits: Vec<Edit> = Edits::new(document.journal()).collect();
    assert_eq!(edits, [NAME, back]);
    assert_eq!(Document::new(b"no file").person(0), refused(12, 0));
    // Of the other kind's length, of the other kind, and of neither kind.
    for (record, length, kind) in [
        (OLD_LES, 28, 1),
        (LES, 26, 4),
        (LES, 28, 1),
        (OLD_LES, 26, 4),
        (OLD_LES, 26, 0x101),
        (LES, 28, 0x104),
        (LES, 28, 2),
    ] {
        let mut record = record.to_vec();
        record.resize(length, 0);
        record[0] = length as u8;
        record[4..6].copy_from_slice(&u16::to_le_bytes(kind));
        let damaged = Document::with_journal(T, &record, 0);
        assert_eq!(damaged.person(0), refused(14, 0), "{length} {kind}");
        assert_eq!(Edits::new(&record).count(), 0, "{length} {kind}");
    }
}

/// Records of both kinds are forgotten, the oldest first; those that wait are kept.
#[test]
fn forgetting() {
    let mut document = Document::with_journal(T, OLD_LES, 0);
    assert_eq!(document.forget(0), Ok(()));
    assert_eq!(document.forget(1), refused(12, 0));
    assert_eq!(document.redo(), Ok(()));
    let set = |document: &mut Document, person, text: &[u8]| {
        document.set(Person(person), DESKTOP_ENTRY, b"Name", text)
    };
    assert_eq!(set(&mut document, 1, b"L"), Ok(()));
    assert_eq!(set(&mut document, 2, b"Le"), Ok(()));
    assert_eq!(document.undo(), Ok(()));
    let (file, journal) = (document.file().to_vec(), document.journal().to_vec());
    assert_eq!(document.forget(3), refused(12, 0));
    assert_eq!(document.forget(u64::MAX), refused(12, 0));
    assert_eq!(
        (document.journal(), document.standing()),
        (&journal[..], 50)
    );
    assert_eq!(document.forget(1), Ok(()));
    assert_eq!(
        (document.journal(), document.standing()),
        (&journal[26..], 24)
    );
    let told: Vec<_> = (0..3).map(|n| document.person(n)).collect();
    assert_eq!(told, [Ok(Person(1)), Ok(Person(2)), refused(12, 0)]);
    assert_eq!(document.file(), file);
    assert_eq!((document.undo(), document.undo()), (Ok(()), refused(12, 0)));
    assert_eq!((document.redo(), document.redo()), (Ok(()), Ok(())));
    assert_eq!(document.forget(2), Ok(()));
    assert_eq!((document.journal(), document.standing()), (&b""[..], 0));
    assert_eq!(
        (document.undo(), document.redo()),
        (refused(12, 0), refused(12, 0))
    );
}

/// What is freed becomes zeros, and a refusal changes nothing.
#[test]
fn forgetting_in_lent_buffers() {
    let mut journal = [LES, OLD_LES, b"...."].concat();
    let mut numbers = Numbers {
        file_len: 9,
        used: 54,
        standing: 28,
    };
    let mut buffers = Buffers {
        file: &mut [],
        journal: &mut journal,
        numbers: &mut numbers,
    };
    for (used, standing) in [(54, 27), (53, 28), (59, 28), (28, 54)] {
        (buffers.numbers.used, buffers.numbers.standing) = (used, standing);
        assert_eq!(buffers.forget(9), refused(14, 0), "{used} {standing}");
        let left = (buffers.numbers.used, buffers.numbers.standing);
        assert_eq!(left, (used, standing));
    }
    (buffers.numbers.used, buffers.numbers.standing) = (54, 28);
    assert_eq!(buffers.forget(2), refused(12, 0));
    assert_eq!(*buffers.journal, [LES, OLD_LES, b"...."].concat());
    assert_eq!(buffers.forget(1), Ok(()));
    assert_eq!(*buffers.journal, [OLD_LES, &[0; 28], b"...."].concat());
    let left = Numbers {
        file_len: 9,
        used: 26,
        standing: 0,
    };
    assert_eq!(numbers, left);
}

#[test]
fn words_of_refusals() {
    let of = |number, place| Refusal {
        kind: Kind::of(number).unwrap(),
        place,
        byte: 0,
    };
    let bad = Refusal {
        kind: Kind::BadLine,
        place: 7,
        byte: 4,
    };
    assert_eq!(of(1, 0).to_string(), "the file is over 32,768 bytes");
    assert!(bad
        .to_string()
        .starts_with("line 7, after 4 bytes: a line is not blank"));
    assert_eq!(bad.at(), Place::Byte { line: 7, byte: 4 });
    assert!(of(9, 0)
        .to_string()
        .starts_with("after 0 bytes of the value: unknown"));
    assert_eq!(of(3, 0).at(), Place::None);
    assert_eq!(of(18, 4).at(), Place::Line(4));
    for (at, kind) in Kind::ALL.iter().enumerate() {
        assert_eq!(kind.number() as usize, at + 1);
        assert_eq!(Kind::of(kind.number()), Some(*kind));
    }
    assert_eq!(Kind::of(0), None);
}
