//! The comparison itself: what it must notice, it does.

use compare::asker::Asker;
use compare::case::Case;
use compare::edits::{proved, Call, Given, Kind, List, Page};
use compare::lent::{Lent, Numbers};
use compare::random::Random;
use compare::{files, journals, lists, persons};
use kveldrim::{ffi, JOURNAL_BOUND};
use reference::{Book, RecordKind, Refusal, State};

#[test]
fn a_changed_byte_in_a_buffer_or_beside_it() {
    assert!(Lent::output(0, &mut Random::new(7)).holds(b"").is_ok());
    for length in [1_usize, 100] {
        for away in [-1, 0, length as isize - 1, length as isize] {
            let mut random = Random::new(7);
            let mut lent = Lent::output(length, &mut random);
            let expected = lent.bytes().to_vec();
            assert!(lent.holds(&expected).is_ok());
            // SAFETY: the byte is in the buffer or in its guards.
            unsafe { *lent.pointer_mut().offset(away) ^= 1 };
            assert!(lent.holds(&expected).is_err(), "{length} {away}");
        }
    }
}

#[test]
fn a_number_that_is_wrong_missing_or_too_many() {
    let told = |place: u64, byte: Option<u64>, from: Option<u64>| {
        let mut numbers = Numbers::new();
        let [to_place, to_byte, to_from, ..] = numbers.pointers();
        // SAFETY: all point into `numbers`.
        unsafe {
            *to_place = place;
            if let Some(byte) = byte {
                *to_byte = byte;
            }
            if let Some(from) = from {
                *to_from = from;
            }
        }
        numbers
    };
    let refused = Err(Refusal::bad_line(5, 7));
    assert!(told(5, Some(7), None).tell(2, &refused).is_ok());
    assert!(told(6, Some(7), None).tell(2, &refused).is_err());
    assert!(told(5, Some(8), None).tell(2, &refused).is_err());
    assert!(told(5, Some(0), None).tell(2, &refused).is_err());
    assert!(told(5, None, None).tell(2, &refused).is_err());
    assert!(told(5, Some(7), None).tell(3, &refused).is_err());
    assert!(told(5, Some(7), Some(0)).tell(2, &refused).is_err());
    assert!(Numbers::new().tell(2, &refused).is_err());
    let accepted = Ok(vec![9]);
    assert!(told(0, Some(0), Some(9)).tell(0, &accepted).is_ok());
    assert!(told(0, Some(0), Some(8)).tell(0, &accepted).is_err());
    assert!(told(1, Some(0), Some(9)).tell(0, &accepted).is_err());
    assert!(told(0, Some(1), Some(9)).tell(0, &accepted).is_err());
    assert!(told(0, None, Some(9)).tell(0, &accepted).is_err());
    assert!(told(0, Some(0), None).tell(0, &accepted).is_err());
    let mut without = Numbers::new().without_byte();
    let [place, _, written, ..] = without.pointers();
    // SAFETY: both point into `without`.
    unsafe { (*place, *written) = (0, 9) };
    assert!(without.tell(0, &accepted).is_ok());
}

/// Numbers that are written where the call is refused, too.
#[test]
fn a_number_of_a_refusal_that_is_wrong_or_missing() {
    let expected = [1, 2, 3, 4];
    let told = |written: [Option<u64>; 4]| {
        let mut numbers = Numbers::given([7, 8, 9]);
        let [place, byte, to_numbers @ ..] = numbers.pointers();
        // SAFETY: all point into `numbers`.
        unsafe {
            (*place, *byte) = (0, 0);
            for (to, number) in to_numbers.into_iter().zip(written) {
                *to = number.unwrap_or(*to);
            }
        }
        let refused = Err(Refusal::new(8));
        numbers.tell_both(8, refused, &expected).is_ok()
    };
    assert!(told(expected.map(Some)));
    for at in 0..4 {
        for wrong in [None, Some(0), Some(expected[at] + 1)] {
            let mut written = expected.map(Some);
            written[at] = wrong;
            assert!(!told(written), "{at} {wrong:?}");
        }
    }
}

/// A check that tells another byte: how it comes to its byte, from the file, its line and the right byte.
macro_rules! wrong_checks {
    ($($name:ident: |$file:ident, $line:ident, $byte:ident| $wrong:expr;)*) => {
        $(unsafe extern "C" fn $name(
            file: *const u8,
            file_len: usize,
            place: *mut u64,
            byte: *mut u64,
        ) -> u32 {
            // SAFETY: what is lent is passed on, and read where it has bytes.
            unsafe {
                let told = ffi::kveldrim_check(file, file_len, place, byte);
                if told == 2 {
                    let $file = std::slice::from_raw_parts(file, file_len);
                    let ($line, $byte) = (*place as usize, *byte);
                    *byte = $wrong;
                }
                told
            }
        })*
        const WRONG_CHECKS: &[(&str, ffi::FileCall)] = &[$((stringify!($name), $name)),*];
    };
}

/// The length of a line, from 1.
fn length(file: &[u8], line: usize) -> u64 {
    let line = file.split(|byte| *byte == b'\n').nth(line - 1);
    line.map_or(0, |line| line.len() as u64)
}

wrong_checks! {
    no_byte: |_file, _line, _byte| 0;
    one_too_far: |_file, _line, byte| byte + 1;
    one_too_near: |_file, _line, byte| byte.saturating_sub(1);
    never_behind_the_line: |file, line, byte| byte.min(length(file, line).saturating_sub(1));
    the_line_s_length: |file, line, _byte| length(file, line);
    counted_from_the_start_of_the_file: |file, line, byte| {
        byte + (1..line).map(|line| length(file, line) + 1).sum::<u64>()
    };
}

/// Whether files with something wrong show that a check is not the right one.
fn is_check_noticed(call: ffi::FileCall) -> bool {
    let mut asker = Asker::new(1);
    (1..=600).any(|seed| {
        let mut random = Random::new(seed);
        let mut file = files::sound(&mut random, 3, 4);
        files::spoil(&mut file, &mut random);
        asker.check_by(call, &file).is_err()
    })
}

#[test]
fn a_check_that_tells_another_byte() {
    assert!(!is_check_noticed(ffi::kveldrim_check));
    for (name, call) in WRONG_CHECKS {
        assert!(is_check_noticed(*call), "{name}");
    }
}

/// Whether lists of calls, sound, from 01's or from foreign journals, show that an editor is not the right one.
fn is_noticed(editor: &dyn Fn(&Call, &Given) -> u32) -> bool {
    let mut asker = Asker::new(1);
    (1..=600).any(|seed| {
        let mut random = Random::new(seed);
        let file = files::sound(&mut random, 3, 4);
        let case = match seed % 4 {
            0 => lists::foreign(&mut random),
            1 => Case::Edits(lists::started_by_old_calls(&file, 12, &mut random)),
            _ => Case::Edits(lists::started(&file, 12, &mut random)),
        };
        match case {
            Case::Edits(list) => asker.edits(&list, editor).is_err(),
            _ => false,
        }
    })
}

/// Something wrong that is done after a call.
type Wrong = fn(&Given);

/// The proved call, and then something wrong if the call had this name and told this.
fn spoilt(name: &'static str, accepted: bool, wrong: Wrong) -> impl Fn(&Call, &Given) -> u32 {
    move |call, given| {
        let told = proved(call, given);
        if call.name() == name && (told == 0) == accepted {
            wrong(given);
        }
        told
    }
}

const NAMES: [&str; 6] = ["set", "remove", "undo", "redo", "forget", "batch"];

#[test]
fn the_proved_editor_is_right() {
    assert!(!is_noticed(&proved));
}

/// SAFETY of all: they write to what the comparison lent, and read where it has bytes.
#[test]
fn an_edit_that_writes_something_wrong() {
    let wrongs: [(&str, Wrong); 11] = [
        ("the file's length", |given| unsafe { *given.file_len ^= 1 }),
        ("used", |given| unsafe { *given.used ^= 1 }),
        ("standing", |given| unsafe { *given.standing ^= 2 }),
        ("place", |given| unsafe { *given.place += 1 }),
        ("byte", |given| unsafe { *given.byte += 1 }),
        ("done", |given| unsafe { *given.done ^= 1 }),
        ("a byte before the file", |given| {
            if given.file.1 > 0 {
                unsafe { *given.file.0.offset(-1) ^= 1 }
            }
        }),
        ("the file's first byte", |given| {
            if given.file.1 > 0 {
                unsafe { *given.file.0 ^= 1 }
            }
        }),
        ("the last byte of the file's buffer", |given| {
            if given.file.1 > 0 {
                unsafe { *given.file.0.add(given.file.1 - 1) ^= 1 }
            }
        }),
        ("the journal's first byte", |given| {
            if given.journal.1 > 0 {
                unsafe { *given.journal.0 ^= 1 }
            }
        }),
        ("a byte behind the journal", |given| {
            if given.journal.1 > 0 {
                unsafe { *given.journal.0.add(given.journal.1) ^= 1 }
            }
        }),
    ];
    for (what, wrong) in wrongs {
        for name in NAMES {
            for accepted in [true, false] {
                let editor = spoilt(name, accepted, wrong);
                assert!(is_noticed(&editor), "{what} after a {name}");
            }
        }
    }
}

/// A call that is right but for one thing that is easily left out.
#[test]
fn an_edit_that_leaves_something_out() {
    type Editor = fn(&Call, &Given) -> u32;
    // SAFETY of all: what is read and written is lent, and lengths are those of an accepted call.
    let editors: [(&str, Editor); 6] = [
        ("zeros where the file shrinks", |call, given| unsafe {
            let before = *given.file_len as usize;
            let last =
                (0 < before && before <= given.file.1).then(|| *given.file.0.add(before - 1));
            let told = proved(call, given);
            match last {
                Some(byte) if told == 0 && (*given.file_len as usize) < before => {
                    *given.file.0.add(before - 1) = byte;
                }
                _ => {}
            }
            told
        }),
        (
            "waiting records are gone after a set",
            |call, given| unsafe {
                let before = *given.used;
                let told = proved(call, given);
                if call.kind == Kind::Set && told == 0 {
                    *given.used = before.max(*given.used);
                }
                told
            },
        ),
        ("journal bytes behind used stay", |call, given| unsafe {
            let told = proved(call, given);
            let used = *given.used as usize;
            if told == 0 && used < given.journal.1 {
                *given.journal.0.add(used) = 0;
            }
            told
        }),
        ("an undo restores the file", |call, given| unsafe {
            let file = given.file.0;
            let before: Vec<u8> = (0..given.file.1).map(|at| *file.add(at)).collect();
            let length = *given.file_len;
            let told = proved(call, given);
            if call.kind == Kind::Undo && told == 0 && *given.standing > 0 {
                file.copy_from(before.as_ptr(), before.len());
                *given.file_len = length;
            }
            told
        }),
        ("a redo asks whether anything waits", |call, given| {
            match (call.kind, proved(call, given)) {
                (Kind::Redo, 12) => 0,
                (_, told) => told,
            }
        }),
        ("11 comes before 13", |call, given| {
            match proved(call, given) {
                11 => 13,
                told => told,
            }
        }),
    ];
    for (what, editor) in editors {
        assert!(is_noticed(&editor), "{what}");
    }
}

/// The call by the reference, on the given buffers and so many bytes behind the journal.
fn by_reference(call: &Call, given: &Given, behind: usize) -> u32 {
    // SAFETY: all is lent, and the guards of the journal are longer.
    unsafe {
        let bytes = |(pointer, length): (*mut u8, usize), more: usize| -> Vec<u8> {
            let length = if length == 0 { 0 } else { length + more };
            (0..length).map(|at| *pointer.add(at)).collect()
        };
        let mut state = State {
            file: bytes(given.file, 0),
            file_len: *given.file_len,
            journal: bytes(given.journal, behind),
            used: *given.used,
            standing: *given.standing,
        };
        let (told, done) = call.counted_on_state(&mut state);
        let (number, place, byte) = match told {
            Ok(()) => (0, 0, 0),
            Err(refusal) => (refusal.number, refusal.place, refusal.byte),
        };
        (*given.place, *given.byte) = (place, byte);
        if let Some(done) = done {
            *given.done = done;
        }
        given
            .file
            .0
            .copy_from(state.file.as_ptr(), state.file.len());
        let journal = state.journal;
        given.journal.0.copy_from(journal.as_ptr(), journal.len());
        *given.file_len = state.file_len;
        (*given.used, *given.standing) = (state.used, state.standing);
        number
    }
}

/// A call that is right but for the person, the kind or the room of a record.
#[test]
fn an_edit_with_a_wrong_person_or_kind() {
    type Editor = fn(&Call, &Given) -> u32;
    // SAFETY of all: what is read and written is lent, and lengths are those of an accepted call.
    let editors: [(&str, Editor); 6] = [
        ("person and place exchanged", |call, given| unsafe {
            let start = *given.standing as usize;
            let told = proved(call, given);
            if told == 0 && matches!(call.kind, Kind::Set | Kind::Remove) {
                let record = given.journal.0.add(start);
                std::slice::from_raw_parts_mut(record.add(6), 6).rotate_left(2);
            }
            told
        }),
        ("a person of one byte", |call, given| {
            let record = RecordKind::Four(call.record.person() & 0xFF);
            let call = Call {
                record,
                ..call.clone()
            };
            proved(&call, given)
        }),
        ("records of the kind 1", |call, given| {
            by_reference(&call.clone().old(), given, 0)
        }),
        (
            "a record of the kind 1 for person 0",
            |call, given| match call.record.person() {
                0 => by_reference(&call.clone().old(), given, 0),
                _ => proved(call, given),
            },
        ),
        ("room for a record of 18 bytes", |call, given| {
            by_reference(call, given, 2)
        }),
        ("the kind 1 is damage", |call, given| unsafe {
            let has_record = 6 < *given.used && *given.used <= given.journal.1 as u64;
            let told = proved(call, given);
            match told == 0 && has_record && *given.journal.0.add(4) == 1 {
                true => 14,
                false => told,
            }
        }),
    ];
    assert!(!is_noticed(&|call, given| by_reference(call, given, 0)));
    for (what, editor) in editors {
        assert!(is_noticed(&editor), "{what}");
    }
}

/// Whether a difference shows in a case about a journal, worked, foreign or damaged.
fn is_seen_in_journals(
    case: fn(State, &mut Random) -> Case,
    differs: impl Fn(&mut Asker, Case) -> bool,
) -> bool {
    let mut asker = Asker::new(1);
    (1..=3_000).any(|seed| {
        let mut random = Random::new(seed);
        let journal = match seed % 3 {
            0 => lists::worked_journal,
            1 => lists::foreign_journal,
            _ => lists::damaged_journal,
        };
        differs(&mut asker, lists::cases(journal, case)(&mut random))
    })
}

/// A call that forgets edits, over the journal, its used and its standing bytes.
type Forget = fn(&mut [u8], &mut u64, &mut u64, u64) -> Result<(), Refusal>;

/// Whether single calls show that a call that forgets edits is not the right one.
fn is_forget_noticed(forget: Forget) -> bool {
    let editor = |call: &Call, given: &Given| {
        let Kind::Forget(k) = call.kind else {
            return proved(call, given);
        };
        // SAFETY: the numbers are lent, and the journal if it has bytes.
        unsafe {
            let journal = match given.journal {
                (_, 0) => &mut [],
                (pointer, length) => std::slice::from_raw_parts_mut(pointer, length),
            };
            let told = forget(journal, &mut *given.used, &mut *given.standing, k);
            let Refusal { number, place, .. } = told.err().unwrap_or(Refusal::new(0));
            *given.place = place;
            number
        }
    };
    is_seen_in_journals(lists::forget_in, |asker, case| match case {
        Case::Edits(list) => asker.edits(&list, &editor).is_err(),
        _ => false,
    })
}

/// Forgets and asks nothing: the records are found by their lengths alone, those that wait too. 12 where there are not so many.
fn unasked(journal: &mut [u8], used: &mut u64, standing: &mut u64, k: u64) -> Result<(), Refusal> {
    let used_bytes = &mut journal[..*used as usize];
    let starts = journals::records(used_bytes);
    let went = usize::try_from(k).ok().and_then(|k| starts.get(k));
    let went = *went.ok_or(Refusal::new(12))?;
    used_bytes[..went].fill(0);
    used_bytes.rotate_left(went);
    *used -= went as u64;
    *standing = standing.saturating_sub(went as u64);
    Ok(())
}

/// The right call, or [`unasked`] where a reason to refuse is overlooked.
fn despite(
    journal: &mut [u8],
    (used, standing): (&mut u64, &mut u64),
    k: u64,
    is_overlooked: bool,
) -> Result<(), Refusal> {
    match is_overlooked {
        true => unasked(journal, used, standing, k),
        false => reference::forget(journal, used, standing, k),
    }
}

/// Whether the lengths and the records of a journal are sound.
fn is_sound(journal: &[u8], used: u64, standing: u64) -> bool {
    reference::person(journal, used, standing, u64::MAX) == Err(Refusal::new(12))
}

/// The right call, but other edits go: so many as `other` says, by how many are to go and how many stand.
fn forget_others(
    journal: &mut [u8],
    (used, standing): (&mut u64, &mut u64),
    k: u64,
    other: fn(u64, u64) -> u64,
) -> Result<(), Refusal> {
    let stand = journals::count(journal, *standing);
    let (mut as_used, mut as_standing) = (*used, *standing);
    reference::forget(&mut journal.to_vec(), &mut as_used, &mut as_standing, k)?;
    reference::forget(journal, used, standing, other(k, stand))
}

/// A call that forgets edits and is right but for one thing.
#[test]
fn edits_that_are_forgotten_wrongly() {
    let wrongs: [(&str, Forget); 23] = [
        ("standing is not lowered", |journal, used, standing, k| {
            let lowered = &mut { *standing };
            reference::forget(journal, used, lowered, k)
        }),
        ("used is not lowered", |journal, used, standing, k| {
            let lowered = &mut { *used };
            reference::forget(journal, lowered, standing, k)
        }),
        ("waiting records go", |journal, used, standing, k| {
            reference::forget(journal, used, standing, k)?;
            journal[*standing as usize..*used as usize].fill(0);
            *used = *standing;
            Ok(())
        }),
        (
            "waiting records do not move",
            |journal, used, standing, k| {
                let stood = *standing as usize;
                let end = *used as usize;
                reference::forget(journal, used, standing, k)?;
                journal[*standing as usize..end].rotate_right(stood - *standing as usize);
                Ok(())
            },
        ),
        ("freed places stay", |journal, used, standing, k| {
            let (before, end) = (journal.to_vec(), *used as usize);
            reference::forget(journal, used, standing, k)?;
            let freed = *used as usize..end;
            journal[freed.clone()].copy_from_slice(&before[freed]);
            Ok(())
        }),
        ("one byte less is freed", |journal, used, standing, k| {
            let (before, end) = (journal.to_vec(), *used as usize);
            reference::forget(journal, used, standing, k)?;
            if (*used as usize) < end {
                journal[end - 1] = before[end - 1];
            }
            Ok(())
        }),
        ("zeros behind the old used", |journal, used, standing, k| {
            let end = *used as usize;
            reference::forget(journal, used, standing, k)?;
            journal[end..].fill(0);
            Ok(())
        }),
        ("one more", |journal, used, standing, k| {
            forget_others(journal, (used, standing), k, |k, stand| stand.min(k + 1))
        }),
        ("one fewer", |journal, used, standing, k| {
            forget_others(journal, (used, standing), k, |k, _| k.saturating_sub(1))
        }),
        ("all that stand", |journal, used, standing, k| {
            forget_others(journal, (used, standing), k, |_, stand| stand)
        }),
        (
            "the newest, not the oldest",
            |journal, used, standing, k| {
                let (end, stood) = (*used as usize, *standing as usize);
                let starts = journals::records(&journal[..stood.min(journal.len())]);
                reference::forget(&mut journal.to_vec(), used, standing, k)?;
                let start = starts[starts.len() - 1 - k as usize];
                journal[start..stood].fill(0);
                journal[start..end].rotate_left(stood - start);
                (*used, *standing) = ((end - (stood - start)) as u64, start as u64);
                Ok(())
            },
        ),
        ("as many as there are", |journal, used, standing, k| {
            let stand = journals::count(journal, *standing);
            reference::forget(journal, used, standing, k.min(stand))
        }),
        ("waiting ones make it up", |journal, used, standing, k| {
            let is_sound = is_sound(journal, *used, *standing);
            despite(journal, (used, standing), k, is_sound)
        }),
        (
            "a refusal changes a number",
            |journal, used, standing, k| {
                let told = reference::forget(journal, used, standing, k);
                told.inspect_err(|_| *standing ^= 1)
            },
        ),
        ("a refusal changes a byte", |journal, used, standing, k| {
            let told = reference::forget(journal, used, standing, k);
            told.inspect_err(|_| journal.iter_mut().take(1).for_each(|byte| *byte ^= 1))
        }),
        ("a number of 32 bits", |journal, used, standing, k| {
            reference::forget(journal, used, standing, k & 0xFFFF_FFFF)
        }),
        ("12 before 14", |journal, used, standing, k| {
            match k > journals::count(journal, *standing) {
                true => Err(Refusal::new(12)),
                false => reference::forget(journal, used, standing, k),
            }
        }),
        (
            "no question where none is to go",
            |journal, used, standing, k| match k {
                0 => Ok(()),
                _ => reference::forget(journal, used, standing, k),
            },
        ),
        ("used bytes over the room", |journal, used, standing, k| {
            let most = &mut (*used).min(journal.len() as u64);
            reference::forget(journal, most, standing, k)?;
            *used = *most;
            Ok(())
        }),
        ("used bytes over the bound", |journal, used, standing, k| {
            let is_over = *used > JOURNAL_BOUND as u64 && *used <= journal.len() as u64;
            despite(journal, (used, standing), k, is_over)
        }),
        (
            "a standing number over the used one",
            |journal, used, standing, k| {
                let most = &mut (*standing).min(*used);
                reference::forget(journal, used, most, k)?;
                *standing = *most;
                Ok(())
            },
        ),
        (
            "a standing number inside a record",
            |journal, used, standing, k| {
                let are_there = k <= journals::count(journal, *standing);
                let is_between = *standing <= *used && is_sound(journal, *used, 0);
                despite(journal, (used, standing), k, are_there && is_between)
            },
        ),
        ("damaged records", |journal, used, standing, k| {
            let do_fit = *standing <= *used && *used <= journal.len().min(JOURNAL_BOUND) as u64;
            let is_damaged = do_fit && !is_sound(journal, *used, 0);
            despite(journal, (used, standing), k, is_damaged)
        }),
    ];
    assert!(!is_forget_noticed(reference::forget));
    for (what, wrong) in wrongs {
        assert!(is_forget_noticed(wrong), "{what}");
    }
}

/// The reference's book, and beside it the calls that stand and wait in it and how many were forgotten.
struct Kept {
    book: Book,
    /// A book of the same start that nothing was done with.
    fresh: Book,
    standing: Vec<Call>,
    waiting: Vec<Call>,
    forgotten: u64,
}

impl Kept {
    fn of(list: &List) -> Kept {
        let book = Book::new(list.file(), list.start.file.len(), list.start.journal.len());
        Kept {
            fresh: book.clone(),
            book,
            standing: Vec::new(),
            waiting: Vec::new(),
            forgotten: 0,
        }
    }

    /// The sets and removes of a call, up to the first that is refused.
    fn edits(&self, call: &Call) -> Vec<Call> {
        let singles = match call.kind {
            Kind::Set | Kind::Remove => vec![call.clone()],
            _ => call.singles().unwrap_or_default(),
        };
        let mut book = self.book.clone();
        let singles = singles.into_iter();
        singles
            .take_while(|single| single.on_book(&mut book).is_ok())
            .collect()
    }

    fn page(&mut self, call: &Call) -> Page {
        let edits = self.edits(call);
        let page = Page::of(call, &mut self.book);
        if !edits.is_empty() {
            self.standing.extend(edits);
            self.waiting.clear();
        }
        match call.kind {
            Kind::Set | Kind::Remove | Kind::Batch => {}
            _ if page.told.is_err() => {}
            Kind::Undo => self.waiting.extend(self.standing.pop()),
            Kind::Redo => self.standing.extend(self.waiting.pop()),
            Kind::Forget(k) => {
                self.standing.drain(..k as usize);
                self.forgotten += k;
            }
        }
        page
    }
}

/// Something wrong that is put into the page of a call.
type WrongPage = fn(&Kept, &Call, &mut Page);

/// Whether lists of calls show that a book with wrong pages is not the right one.
fn is_book_noticed(wrong: WrongPage) -> bool {
    let mut asker = Asker::new(1);
    (1..=600).any(|seed| {
        let mut random = Random::new(seed);
        let file = files::sound(&mut random, 3, 4);
        let list = lists::started(&file, 12, &mut random);
        let mut kept = Kept::of(&list);
        let mut book = |call: &Call| {
            let mut page = kept.page(call);
            wrong(&kept, call, &mut page);
            Some(page)
        };
        asker.edits_in_book(&list, &proved, &mut book).is_err()
    })
}

#[test]
fn a_book_that_has_a_batch_wrongly() {
    let wrongs: [(&str, WrongPage); 3] = [
        ("edits before a refusal are gone", |kept, call, page| {
            if call.kind == Kind::Batch && page.told.is_err() {
                page.file = kept.fresh.file();
            }
        }),
        ("one request for all", |_, call, page| {
            if call.kind == Kind::Batch && page.told.is_ok() {
                page.persons.pop();
            }
        }),
        ("the refused one is not tried", |_, call, page| {
            if call.kind == Kind::Batch {
                page.told = Ok(());
            }
        }),
    ];
    assert!(!is_book_noticed(|_, _, _| {}));
    for (what, wrong) in wrongs {
        assert!(is_book_noticed(wrong), "{what}");
    }
}

#[test]
fn a_book_that_forgets_wrongly() {
    let wrongs: [(&str, WrongPage); 4] = [
        ("the start stays", |kept, _, page| {
            let mut book = kept.fresh.clone();
            for call in &kept.standing {
                let _ = call.on_book(&mut book);
            }
            page.file = book.file();
        }),
        ("forgotten edits are undone", |kept, call, page| {
            if call.kind == Kind::Undo && kept.forgotten > 0 {
                page.told = Ok(());
            }
        }),
        ("forgotten edits stand", |kept, call, page| {
            if matches!(call.kind, Kind::Forget(1..)) && page.told.is_ok() {
                page.standing += kept.forgotten;
            }
        }),
        ("waiting edits are forgotten", |kept, call, page| {
            if matches!(call.kind, Kind::Forget(1..)) && page.told.is_ok() {
                page.persons.truncate(kept.standing.len());
            }
        }),
    ];
    assert!(!is_book_noticed(|_, _, _| {}));
    for (what, wrong) in wrongs {
        assert!(is_book_noticed(wrong), "{what}");
    }
}

/// Whether journals show that a call that tells a person is not the right one.
fn is_teller_noticed(teller: &dyn Fn(&persons::Given) -> u32) -> bool {
    is_seen_in_journals(lists::person_in, |asker, case| match case {
        Case::Person(question) => asker.person(&question, teller).is_err(),
        _ => false,
    })
}

/// The used bytes of a journal, as far as it has them.
fn used_bytes(given: &persons::Given) -> Vec<u8> {
    let length = given.journal.1.min(given.used as usize);
    // SAFETY: the journal has so many bytes.
    (0..length)
        .map(|at| unsafe { *given.journal.0.add(at) })
        .collect()
}

/// The record that is asked for, with its start, as far as the lengths of records lead to it.
fn asked(given: &persons::Given) -> Option<(u64, Vec<u8>)> {
    let used = used_bytes(given);
    let starts = journals::records(&used);
    let n = usize::try_from(given.n).ok()?;
    let (start, end) = (*starts.get(n)?, *starts.get(n.checked_add(1)?)?);
    Some((start as u64, used[start..end].to_vec()))
}

/// The proved call with its person changed, where it tells one.
fn changing(given: &persons::Given, change: impl Fn(u16) -> u16) -> u32 {
    let told = persons::proved(given);
    if told == 0 {
        // SAFETY: the number is lent.
        unsafe { *given.person = change(*given.person) };
    }
    told
}

/// The proved call, but 12 for a record that `is_hidden` says not to see, by its start.
fn hiding(given: &persons::Given, is_hidden: impl Fn(u64) -> bool) -> u32 {
    let mut unseen = 0;
    let person: *mut u16 = match asked(given) {
        Some((start, _)) if is_hidden(start) => &mut unseen,
        _ => given.person,
    };
    match persons::proved(&persons::Given { person, ..*given }) {
        0 if person != given.person => 12,
        told => told,
    }
}

/// The proved call, but where a 14 is overlooked, the records up to the one asked for suffice to tell its person.
fn overlooking(given: &persons::Given, is_overlooked: bool) -> u32 {
    match (persons::proved(given), asked(given)) {
        (14, Some((start, record))) if is_overlooked => persons::proved(&persons::Given {
            used: start + record.len() as u64,
            standing: 0,
            ..*given
        }),
        (told, _) => told,
    }
}

/// A call that tells a person and is right but for one thing.
#[test]
fn a_person_that_is_told_wrongly() {
    type Teller = fn(&persons::Given) -> u32;
    // SAFETY of all: what is written is lent.
    let tellers: [(&str, Teller); 17] = [
        ("person and place exchanged", |given| unsafe {
            let told = persons::proved(given);
            if told == 0 {
                *given.place = u64::from(*given.person);
                *given.person = 0;
            }
            told
        }),
        ("a person in the kind 1", |given| {
            changing(given, |person| match asked(given) {
                Some((_, record)) if record[4] == 1 => u16::from_le_bytes([record[6], record[7]]),
                _ => person,
            })
        }),
        ("the person of the record after", |given| {
            let n = given.n.saturating_add(1);
            persons::proved(&persons::Given { n, ..*given })
        }),
        ("records that wait do not count", |given| {
            hiding(given, |start| start >= given.standing)
        }),
        ("records that stand do not count", |given| {
            hiding(given, |start| start < given.standing)
        }),
        ("a person of one byte", |given| {
            changing(given, |person| person & 0xFF)
        }),
        ("the person's bytes exchanged", |given| {
            changing(given, u16::swap_bytes)
        }),
        ("damage behind the record", |given| {
            overlooking(given, given.lengths_fit())
        }),
        ("used bytes over the bound", |given| {
            let has_them = given.used <= given.journal.1 as u64;
            overlooking(given, has_them && given.used > JOURNAL_BOUND as u64)
        }),
        ("used bytes over the room", |given| {
            let used = given.used.min(given.journal.1 as u64);
            persons::proved(&persons::Given { used, ..*given })
        }),
        ("a standing number between two records", |given| {
            let standing = match given.lengths_fit() {
                true => 0,
                false => given.standing,
            };
            persons::proved(&persons::Given { standing, ..*given })
        }),
        ("a standing number over the used one", |given| {
            let standing = given.standing.min(given.used);
            persons::proved(&persons::Given { standing, ..*given })
        }),
        ("12 before 14", |given| {
            match (persons::proved(given), asked(given)) {
                (14, None) => 12,
                (told, _) => told,
            }
        }),
        ("a person where it is refused", |given| unsafe {
            let told = persons::proved(given);
            if told != 0 {
                *given.person = 0;
            }
            told
        }),
        ("no place", |given| {
            let place = &mut 0;
            persons::proved(&persons::Given { place, ..*given })
        }),
        ("a number of 32 bits", |given| {
            let n = given.n & 0xFFFF_FFFF;
            persons::proved(&persons::Given { n, ..*given })
        }),
        ("the journal's first byte", |given| unsafe {
            if given.journal.1 > 0 {
                *given.journal.0.cast_mut() ^= 1;
            }
            persons::proved(given)
        }),
    ];
    assert!(!is_teller_noticed(&persons::proved));
    for (what, teller) in tellers {
        assert!(is_teller_noticed(&teller), "{what}");
    }
}
