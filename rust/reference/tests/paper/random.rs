//! Seeded random calls: the journal and the book agree, also on who made each edit, undo restores, and no input stops a call.

use crate::common::*;
use reference::lines::{read_line, Line};
use reference::text::utf8_fault;
use reference::{
    batch, check, choose, complete, expand, forget, lookup, person, read_list, read_text, redo,
    remove, set, undo, write_text, Batch, Book, RecordKind, Refusal, State,
};

/// A xorshift generator.
struct Random(u64);

impl Random {
    /// A generator for a seed from 1.
    fn seeded(seed: u64) -> Random {
        Random(seed.wrapping_mul(0x9E37_79B9_7F4A_7C15))
    }

    /// The next number.
    fn next(&mut self) -> u64 {
        self.0 ^= self.0 << 13;
        self.0 ^= self.0 >> 7;
        self.0 ^= self.0 << 17;
        self.0
    }

    /// A number below a bound.
    fn below(&mut self, bound: usize) -> usize {
        (self.next() % bound as u64) as usize
    }

    /// One of some choices.
    fn pick<'a, A: ?Sized>(&mut self, choices: &[&'a A]) -> &'a A {
        choices[self.below(choices.len())]
    }

    /// Some bytes of an alphabet, fewer than a bound.
    fn bytes(&mut self, alphabet: &[u8], bound: usize) -> Vec<u8> {
        let length = self.below(bound);
        (0..length)
            .map(|_| alphabet[self.below(alphabet.len())])
            .collect()
    }
}

const STARTS: [&[u8]; 5] = [
    T,
    b"[Desktop Entry]",
    b"# c\n\n[Desktop Entry]\nName = a\nName[de]=  b\n[A]\n# d",
    b"[Desktop Entry]\n[A]\nX=1\nX[de]=2\n\n[B]\nX=3",
    b"[Desktop Entry]\nName[de]=\nName=\n#\n[A]\n",
];

const GROUPS: [&[u8]; 6] = [b"Desktop Entry", b"Desktop Entry", b"A", b"A", b"B", b"a["];

const KEYS: [&[u8]; 8] = [
    b"Name",
    b"Name[de]",
    b"Name[fr]",
    b"X",
    b"X[de]",
    b"Icon",
    b"Icon[x_Y.z@m]",
    b"Icon[",
];

const TEXTS: [&[u8]; 8] = [
    b"",
    b" ",
    b"a",
    b"Lesen",
    b" a\\b\n\t\r ",
    b"\x01",
    b"\xC3\xA9",
    b"0123456789012345678901234567890",
];

/// One call: a set, remove, undo or redo, so many edits forgotten, or sets and removes of one person at once.
enum Call {
    Set(RecordKind, &'static [u8], &'static [u8], &'static [u8]),
    Remove(RecordKind, &'static [u8], &'static [u8]),
    Undo,
    Redo,
    Forget(u64),
    Batch(u16, Vec<Call>),
}

impl Call {
    /// A random call of somebody.
    fn random(random: &mut Random) -> Call {
        let person = *random.pick(&[&0, &1, &255, &256, &0xFFFF]);
        let kind = RecordKind::Four(person);
        if random.below(4) > 0 {
            return Call::of_kind(random, kind);
        }
        let count = random.below(5);
        let singles = (0..count).map(|_| Call::single(random, kind));
        Call::Batch(person, singles.collect())
    }

    /// A random set or remove; its record is of this kind.
    fn single(random: &mut Random, kind: RecordKind) -> Call {
        let (group, key) = (random.pick(&GROUPS), random.pick(&KEYS));
        match random.below(3) {
            0 => Call::Remove(kind, group, key),
            _ => Call::Set(kind, group, key, random.pick(&TEXTS)),
        }
    }

    /// A random call, but no batch; what it records is of this kind.
    fn of_kind(random: &mut Random, kind: RecordKind) -> Call {
        match random.below(11) {
            0..=5 => Call::single(random, kind),
            6..=7 => Call::Undo,
            8..=9 => Call::Redo,
            _ => Call::Forget(*random.pick(&[&0, &1, &1, &1, &2, &3, &u64::MAX])),
        }
    }

    /// The call over lent buffers.
    fn over_state(&self, s: &mut State) -> Result<(), Refusal> {
        match self {
            Call::Set(kind, group, key, text) => set(s, *kind, group, key, text),
            Call::Remove(kind, group, key) => remove(s, *kind, group, key),
            Call::Undo => undo(s),
            Call::Redo => redo(s),
            Call::Forget(k) => forget(&mut s.journal, &mut s.used, &mut s.standing, *k),
            Call::Batch(person, singles) => batch_as_singles(s, *person, singles),
        }
    }

    /// The record of a set or remove in a list.
    fn record(&self) -> Vec<u8> {
        match self {
            Call::Set(_, group, key, text) => request(5, &[group, key, text]),
            Call::Remove(_, group, key) => request(6, &[group, key]),
            _ => Vec::new(),
        }
    }

    /// The call fed to the book.
    fn over_book(&self, book: &mut Book) -> Result<(), Refusal> {
        match self {
            Call::Set(kind, group, key, text) => book.set(*kind, group, key, text),
            Call::Remove(kind, group, key) => book.remove(*kind, group, key),
            Call::Undo => book.undo(),
            Call::Redo => book.redo(),
            Call::Forget(k) => book.forget(*k),
            // "The single calls tried, the refused one too, take the place of this one."
            Call::Batch(_, singles) => singles.iter().try_for_each(|call| call.over_book(book)),
        }
    }
}

/// A batch, which does and tells what the single calls do and tell in a copy, unless there are none.
fn batch_as_singles(s: &mut State, person: u16, singles: &[Call]) -> Result<(), Refusal> {
    let mut copy = s.clone();
    let mut done = 0;
    let told = singles.iter().try_for_each(|call| {
        call.over_state(&mut copy)?;
        done += 1;
        Ok(())
    });
    let list: Vec<_> = singles.iter().map(Call::record).collect();
    let answer = batch(s, person, &list.concat());
    let stopped = told.err();
    match singles.is_empty() {
        true => assert_eq!((answer.done, &copy), (0, &*s)),
        false => assert_eq!((answer, &copy), (Batch { done, stopped }, &*s)),
    }
    answer.stopped.map_or(Ok(()), Err)
}

/// What each buffer holds after an accepted call: zeros where the file or the journal shrank, the rest unchanged. A batch was held
/// against its single calls.
fn ask_buffers(before: &State, after: &State, call: &Call) {
    match call {
        Call::Forget(_) => return ask_forgotten(before, after),
        Call::Batch(..) => return,
        _ => {}
    }
    let (old, new) = (before.file_len as usize, after.file_len as usize);
    assert!(new >= old || after.file[new..old].iter().all(|byte| *byte == 0));
    assert_eq!(before.file[old.max(new)..], after.file[old.max(new)..]);
    let start = before.standing as usize;
    let end = after.standing as usize;
    match call {
        Call::Set(..) | Call::Remove(..) => {
            assert_eq!(after.used, after.standing);
            assert_eq!(before.journal[..start], after.journal[..start]);
            assert_eq!(before.journal[end..], after.journal[end..]);
        }
        _ => {
            assert_eq!(before.journal, after.journal);
            assert_eq!(before.used, after.used);
        }
    }
}

/// The same after edits were forgotten: the file as it was, the journal's other bytes at its front.
fn ask_forgotten(before: &State, after: &State) {
    let file = (&before.file, before.file_len);
    assert_eq!(file, (&after.file, after.file_len));
    let (used, left) = (before.used as usize, after.used as usize);
    let went = used - left;
    assert_eq!(went as u64, before.standing - after.standing);
    assert_eq!(before.journal[went..used], after.journal[..left]);
    assert!(after.journal[left..used].iter().all(|byte| *byte == 0));
    assert_eq!(before.journal[used..], after.journal[used..]);
}

/// The persons of all records, and 12 for the number behind the last one.
fn persons_of(s: &State) -> Vec<u16> {
    let told = |n| person(&s.journal, s.used, s.standing, n);
    let persons: Vec<u16> = (0..).map_while(|n| told(n).ok()).collect();
    assert_eq!(told(persons.len() as u64), refused(12, 0));
    persons
}

/// Lists of calls that start with some of 01's.
#[test]
fn journal_and_book_agree() {
    let (mut seen, mut stopped) = ([0; 18], [0; 18]);
    let (mut mixed, mut forgotten, mut batches) = (0, 0, 0);
    for seed in 1..=400 {
        let mut random = Random::seeded(seed);
        let start = random.pick(&STARTS);
        let file_room = start.len() + random.below(120);
        let journal_room = random.below(600);
        let mut s = state(start, file_room, journal_room);
        let mut book = Book::new(start, file_room, journal_room);
        let old_calls = random.below(20);
        for step in 0..80 {
            let call = if step < old_calls {
                Call::of_kind(&mut random, RecordKind::One)
            } else {
                Call::random(&mut random)
            };
            let before = s.clone();
            let answer = call.over_state(&mut s);
            assert_eq!(answer, call.over_book(&mut book));
            assert_eq!(file_of(&s), book.file());
            assert_eq!(s.standing, book.standing());
            let persons = persons_of(&s);
            assert_eq!(persons, book.persons());
            let is_forget = matches!(call, Call::Forget(_));
            forgotten += usize::from(is_forget && s.used < before.used);
            let of_kind_one = s.journal.get(4) == Some(&1);
            mixed += usize::from(of_kind_one && persons.iter().any(|person| *person > 0));
            let is_batch = matches!(call, Call::Batch(..));
            match answer {
                Ok(()) => {
                    ask_buffers(&before, &s, &call);
                    batches += usize::from(is_batch && s != before);
                }
                Err(refusal) => {
                    assert!(is_batch || s == before);
                    assert_eq!((refusal.place, refusal.byte), (0, 0));
                    seen[refusal.number as usize] += 1;
                    stopped[refusal.number as usize] += usize::from(s != before);
                }
            }
            assert_eq!(check(file_of(&s)), Ok(()));
        }
    }
    assert!(mixed > 500 && forgotten > 300 && batches > 100);
    for number in [6, 7, 8, 10, 11, 12, 13, 17] {
        assert!(seen[number] > 0, "refusal {number} never came");
    }
    for number in [6, 7, 8, 10, 11, 13, 17] {
        assert!(stopped[number] > 0, "{number} never came behind an edit");
    }
}

/// An undo or a redo.
type Step = fn(&mut State) -> Result<(), Refusal>;

#[test]
fn undo_after_an_edit_restores() {
    let mut edits = 0;
    for seed in 1..=80 {
        let mut random = Random::seeded(seed);
        let mut s = state(random.pick(&STARTS), 2_000, 20_000);
        for _ in 0..40 {
            let call = Call::random(&mut random);
            let before = s.clone();
            if call.over_state(&mut s).is_err() {
                continue;
            }
            let mut back = s.clone();
            let mut steps = 1;
            match &call {
                Call::Set(_, group, key, text) => {
                    let (start, end) = lookup(file_of(&s), group, key).unwrap();
                    assert_eq!(read(&s.file[start..end]), Ok(text.to_vec()));
                }
                Call::Remove(_, group, key) => {
                    assert_eq!(lookup(file_of(&s), group, key), refused(8, 0));
                }
                Call::Batch(_, singles) => steps = singles.len(),
                Call::Undo | Call::Redo => {}
                Call::Forget(_) => continue,
            }
            edits += 1;
            let (there, again): (Step, Step) = match call {
                Call::Undo => (redo, undo),
                _ => (undo, redo),
            };
            for _ in 0..steps {
                assert_eq!(there(&mut back), Ok(()));
            }
            assert_eq!(file_of(&back), file_of(&before));
            assert_eq!(back.standing, before.standing);
            for _ in 0..steps {
                assert_eq!(again(&mut back), Ok(()));
            }
            assert_eq!(file_of(&back), file_of(&s));
        }
        // All the way back, one record after another.
        let end = s.clone();
        let mut steps = 0;
        while undo(&mut s).is_ok() {
            steps += 1;
        }
        assert_eq!(s.standing, 0);
        for _ in 0..steps {
            assert_eq!(redo(&mut s), Ok(()));
        }
        assert_eq!((file_of(&s), s.standing), (file_of(&end), end.standing));
    }
    assert!(edits > 500);
}

/// One of a few numbers that lie at the edges, or a small one.
fn odd_number(random: &mut Random, near: u64) -> u64 {
    match random.below(6) {
        0 => u64::MAX,
        1 => u64::from(u32::MAX),
        2 => 65_536 + random.next() % 3,
        3 => near.wrapping_add(random.next() % 3).wrapping_sub(1),
        _ => random.next() % 80,
    }
}

#[test]
fn hostile_states_are_answered() {
    let mut accepted = 0;
    let mut seen = [0; 18];
    for seed in 1..=3_000 {
        let mut random = Random::seeded(seed);
        let mut s = state(random.pick(&STARTS), 200, 200);
        for _ in 0..random.below(6) {
            let _ = Call::random(&mut random).over_state(&mut s);
        }
        for _ in 0..1 + random.below(2) {
            match random.below(9) {
                0 => s.file_len = odd_number(&mut random, s.file_len),
                1 => s.used = odd_number(&mut random, s.used),
                2 => s.standing = odd_number(&mut random, s.standing),
                3 => {
                    let at = random.below(s.file.len());
                    s.file[at] = random.next() as u8;
                }
                4..=6 => {
                    let at = random.below(1 + s.used.min(199) as usize);
                    s.journal[at] = *random.pick(&[&0, &1, &0xFF, &b'\n', &20]);
                }
                7 => s.file.truncate(s.file_len.min(200) as usize),
                _ => s.file.resize(100, 0),
            }
        }
        for call in [
            Call::Set(SEVEN, GROUPS[0], KEYS[0], TEXTS[3]),
            Call::Remove(SEVEN, GROUPS[0], KEYS[1]),
            Call::Undo,
            Call::Redo,
            Call::Forget(random.next() % 3),
            Call::Batch(7, Vec::new()),
            Call::Batch(7, vec![Call::Set(SEVEN, GROUPS[0], KEYS[5], TEXTS[3])]),
        ] {
            let mut after = s.clone();
            match call.over_state(&mut after) {
                Ok(()) => {
                    accepted += 1;
                    ask_buffers(&s, &after, &call);
                    if !matches!(call, Call::Forget(_)) {
                        assert_eq!(check(file_of(&after)), Ok(()));
                    }
                }
                Err(refusal) => {
                    seen[refusal.number as usize] += 1;
                    assert_eq!(after, s);
                }
            }
        }
    }
    assert!(accepted > 500);
    for number in [2, 11, 12, 14] {
        assert!(seen[number] > 0, "refusal {number} never came");
    }
}

#[test]
fn any_bytes_are_answered() {
    let alphabet = b"[]#=\n\n aZ-_.@\t;\\\"%fFcis\x80\xC3\xA9\xE0\xFF\0";
    let mut random = Random::seeded(1);
    let (mut written, mut expanded_runs) = (0, 0);
    for _ in 0..20_000 {
        let noise = random.bytes(alphabet, 12);
        let file = with_header(&[b"Name=n\nExec=v ", noise.as_slice(), b"\n"].concat());
        let answer = check(&file);
        for whole in [&noise, &file] {
            if let Err(refusal) = check(whole) {
                assert_eq!(complete(whole), Err(refusal));
            }
            let _ = lookup(whole, &noise, &noise);
            let _ = lookup(&file, b"Desktop Entry", &noise);
            let _ = choose(whole, b"Desktop Entry", b"Name", &noise);
        }
        let _ = output(|out| read_text(&noise, out), 1_000);
        let _ = output(|out| read_list(&noise, out), 1_000);
        if let Ok(raw) = output(|out| write_text(&noise, out), 1_000) {
            assert_eq!(read(&raw), Ok(noise.clone()));
            let line = [b"A=".as_slice(), &raw].concat();
            assert_eq!(check(&with_header(&line)), Ok(()));
            written += 1;
        }
        let list = records(2, &["x", "y"]);
        let run = random.next() % 3;
        let expanded = output(|out| expand(&file, b"de", b"l", &list, run, out), 1_000);
        if let Err(refusal) = answer {
            assert_eq!(expanded, Err(refusal));
        } else if let Ok(out) = expanded {
            assert_eq!(split(3, &out)[0], b"v");
            expanded_runs += 1;
        }
        let _ = output(|out| expand(&file, &noise, &noise, &noise, run, out), 1_000);
        let mut book = Book::new(&noise, random.below(40), random.below(40));
        let _ = book.set(SEVEN, b"A", b"a", b"x");
        let _ = book.remove(SEVEN, b"A", b"a");
        let _ = book.undo();
        let _ = book.redo();
        let _ = book.forget(1);
        let _ = (book.file(), book.standing());
    }
    assert!(written > 1_000 && expanded_runs > 1_000);
}

#[test]
fn utf8_agrees_with_the_standard_library() {
    for first in 0..=255u8 {
        assert_eq!(
            utf8_fault(&[first]).is_none(),
            std::str::from_utf8(&[first]).is_ok()
        );
        for second in 0..=255u8 {
            let two = [first, second];
            assert_eq!(
                utf8_fault(&two).is_none(),
                std::str::from_utf8(&two).is_ok()
            );
            for third in [0x7F, 0x80, 0xBF, 0xC0] {
                let three = [first, second, third];
                assert_eq!(
                    utf8_fault(&three).is_none(),
                    std::str::from_utf8(&three).is_ok()
                );
                let four = [first, second, third, 0x80];
                assert_eq!(
                    utf8_fault(&four).is_none(),
                    std::str::from_utf8(&four).is_ok()
                );
            }
        }
    }
}

/// Whether some ending of few bytes makes a line good.
fn could_be_good(line: &mut Vec<u8>, endings: &[&[u8]]) -> bool {
    if !matches!(read_line(line), Line::Bad { .. }) {
        return true;
    }
    endings.iter().any(|ending| {
        let length = line.len();
        line.extend(*ending);
        let good = !matches!(read_line(line), Line::Bad { .. });
        line.truncate(length);
        good
    })
}

#[test]
fn byte_of_a_bad_line_is_the_first_hopeless_one() {
    // Endings that finish each thing that can be unfinished.
    let endings: [&[u8]; 14] = [
        b"a]=",
        b"]=",
        b"=",
        b"a=",
        b"]",
        b"a]",
        b"\x80",
        b"\x80\x80",
        b"\x80\x80\x80",
        b"\xA0\x80",
        b"\xA0\x80\x80",
        b"\x90\x80\x80",
        b"\x9F\x80",
        b"\xBF",
    ];
    let alphabet = b"[]ab-_.@=  \t#\xC3\x80\xA0\xE0\xED\xF0\xF4\x90\xF5\x7F\x01";
    let starts: [&[u8]; 6] = [b"", b"k", b"k[", b"k[de", b"k=", b"["];
    let mut random = Random::seeded(1);
    let mut bad = 0;
    for _ in 0..60_000 {
        let mut line = random.pick(&starts).to_vec();
        line.extend(random.bytes(alphabet, 7));
        let Line::Bad { byte } = read_line(&line) else {
            continue;
        };
        bad += 1;
        for length in 0..=line.len() {
            let mut beginning = line[..length].to_vec();
            assert_eq!(
                could_be_good(&mut beginning, &endings),
                length <= byte,
                "{line:?}"
            );
        }
    }
    assert!(bad > 10_000);
}
