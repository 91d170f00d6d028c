//! Lists of calls that edit. After every call both buffers and all numbers are held against the reference's journal and,
//! from a sound start with an empty journal or with that of 01's calls, against its book.

use kveldrim::{ffi, Buffers, Person};
use reference::{Book, RecordKind, Refusal, Request, State};

use crate::asker::{bound, named, Asker};
use crate::lent::{Lent, Numbers};
use crate::outcomes::{fault_of, forget_of};
use crate::persons::Question;
use crate::requests;

#[derive(Clone, Copy, PartialEq, Eq)]
pub enum Kind {
    Set,
    Remove,
    Undo,
    Redo,
    /// So many edits are to be forgotten.
    Forget(u64),
    /// Many sets and removes.
    Batch,
}

/// A call with its arguments; those that it does not take are empty.
#[derive(Clone)]
pub struct Call {
    pub kind: Kind,
    /// What a set, remove or batch records: the kind 1 for 01's calls, else the kind 4 with the person.
    pub record: RecordKind,
    pub group: Vec<u8>,
    pub key: Vec<u8>,
    pub text: Vec<u8>,
    /// The list of a batch.
    pub requests: Vec<u8>,
}

/// What a call tells, and of a batch how many edits were made.
pub type Counted<R> = (Result<(), R>, Option<u64>);

/// Two buffers with their numbers, 01's calls that were made on them, and calls to make on what these left.
#[derive(Clone)]
pub struct List {
    pub start: State,
    pub old_calls: Vec<Call>,
    pub calls: Vec<Call>,
}

/// What a call is handed: buffers and arguments by pointer and length, and its numbers.
pub struct Given {
    pub file: (*mut u8, usize),
    pub journal: (*mut u8, usize),
    pub arguments: [(*const u8, usize); 4],
    pub file_len: *mut u64,
    pub used: *mut u64,
    pub standing: *mut u64,
    pub place: *mut u64,
    pub byte: *mut u64,
    pub done: *mut u64,
}

/// Makes a call of the C interface with what is given, the person, these of the arguments and perhaps one more number.
macro_rules! made {
    ($call:path, $given:expr $(; $person:expr $(, $argument:expr)* $(; $number:expr)?)?) => {
        // SAFETY: the bytes and the numbers outlive the call.
        unsafe {
            $call(
                $given.file.0,
                $given.file.1,
                $given.file_len,
                $given.journal.0,
                $given.journal.1,
                $given.used,
                $given.standing,
                $($person, $($argument.0, $argument.1,)*)?
                $given.place,
                $given.byte,
                $($($number,)?)?
            )
        }
    };
}

/// The calls of the proved library.
pub fn proved(call: &Call, given: &Given) -> u32 {
    let [group, key, text, requests] = given.arguments;
    let person = call.record.person();
    match call.kind {
        Kind::Set => made!(ffi::kveldrim_set, given; person, group, key, text),
        Kind::Remove => made!(ffi::kveldrim_remove, given; person, group, key),
        Kind::Undo => made!(ffi::kveldrim_undo, given),
        Kind::Redo => made!(ffi::kveldrim_redo, given),
        Kind::Batch => made!(ffi::kveldrim_batch, given; person, requests; given.done),
        // SAFETY: the bytes and the numbers outlive the call.
        Kind::Forget(k) => unsafe {
            ffi::kveldrim_forget(
                given.journal.0,
                given.journal.1,
                given.used,
                given.standing,
                k,
                given.place,
            )
        },
    }
}

impl Call {
    /// A call without names and text: an undo, a redo or a forget.
    pub fn step(kind: Kind) -> Call {
        Call {
            kind,
            record: RecordKind::Four(0),
            group: Vec::new(),
            key: Vec::new(),
            text: Vec::new(),
            requests: Vec::new(),
        }
    }

    /// A set in the group Desktop Entry by person 7.
    pub fn set(key: &str, text: &[u8]) -> Call {
        Call {
            record: RecordKind::Four(7),
            group: b"Desktop Entry".to_vec(),
            key: key.into(),
            text: text.to_vec(),
            ..Call::step(Kind::Set)
        }
    }

    /// A batch by a person.
    pub fn batch(person: u16, requests: Vec<u8>) -> Call {
        Call {
            record: RecordKind::Four(person),
            requests,
            ..Call::step(Kind::Batch)
        }
    }

    /// The same as a call of 01's.
    pub fn old(mut self) -> Call {
        self.record = RecordKind::One;
        self
    }

    /// The single calls of a batch; none if it is no batch or its list is damaged.
    pub fn singles(&self) -> Option<Vec<Call>> {
        if self.kind != Kind::Batch {
            return None;
        }
        let single = |request| match request {
            Request::Set { group, key, text } => Call {
                record: self.record,
                group,
                key,
                text,
                ..Call::step(Kind::Set)
            },
            Request::Remove { group, key } => Call {
                record: self.record,
                group,
                key,
                ..Call::step(Kind::Remove)
            },
        };
        let requests = reference::read_requests(&self.requests)?;
        Some(requests.into_iter().map(single).collect())
    }

    pub fn name(&self) -> &'static str {
        match self.kind {
            Kind::Set => "set",
            Kind::Remove => "remove",
            Kind::Undo => "undo",
            Kind::Redo => "redo",
            Kind::Forget(_) => "forget",
            Kind::Batch => "batch",
        }
    }

    /// The name, and for a set, remove or batch what it records, for a forget how many.
    fn words(&self) -> String {
        let name = self.name();
        match (self.kind, self.record) {
            (Kind::Undo | Kind::Redo, _) => name.to_string(),
            (Kind::Forget(k), _) => format!("{name} {k}"),
            (_, RecordKind::One) => format!("{name} of 01"),
            (_, RecordKind::Four(person)) => format!("{name} by person {person}"),
        }
    }

    fn arguments(&self) -> [&[u8]; 4] {
        [&self.group, &self.key, &self.text, &self.requests]
    }

    /// The call on the reference's journal.
    pub fn on_state(&self, state: &mut State) -> Result<(), Refusal> {
        self.counted_on_state(state).0
    }

    /// The same, with how many edits a batch made.
    pub fn counted_on_state(&self, state: &mut State) -> Counted<Refusal> {
        let told = match self.kind {
            Kind::Set => reference::set(state, self.record, &self.group, &self.key, &self.text),
            Kind::Remove => reference::remove(state, self.record, &self.group, &self.key),
            Kind::Undo => reference::undo(state),
            Kind::Redo => reference::redo(state),
            Kind::Forget(k) => {
                let (used, standing) = (&mut state.used, &mut state.standing);
                reference::forget(&mut state.journal, used, standing, k)
            }
            Kind::Batch => {
                let batch = reference::batch(state, self.record.person(), &self.requests);
                return (batch.stopped.map_or(Ok(()), Err), Some(batch.done));
            }
        };
        (told, None)
    }

    /// The call in a book of the reference.
    pub fn on_book(&self, book: &mut Book) -> Result<(), Refusal> {
        match self.kind {
            Kind::Set => book.set(self.record, &self.group, &self.key, &self.text),
            Kind::Remove => book.remove(self.record, &self.group, &self.key),
            Kind::Undo => book.undo(),
            Kind::Redo => book.redo(),
            Kind::Forget(k) => book.forget(k),
            // "The single calls tried, the refused one too, take the place of this one": of a damaged list none.
            Kind::Batch => {
                let singles = self.singles().ok_or(Refusal::new(14))?;
                singles.iter().try_for_each(|single| single.on_book(book))
            }
        }
    }

    /// The call over the bindings.
    pub fn on_buffers(&self, buffers: &mut Buffers) -> Result<(), kveldrim::Refusal> {
        self.counted_on_buffers(buffers).0
    }

    /// The same, with how many edits a batch made.
    pub fn counted_on_buffers(&self, buffers: &mut Buffers) -> Counted<kveldrim::Refusal> {
        let person = Person(self.record.person());
        let told = match self.kind {
            Kind::Set => buffers.set(person, &self.group, &self.key, &self.text),
            Kind::Remove => buffers.remove(person, &self.group, &self.key),
            Kind::Undo => buffers.undo(),
            Kind::Redo => buffers.redo(),
            Kind::Forget(k) => buffers.forget(k),
            Kind::Batch => {
                let batch = buffers.batch(person, &self.requests);
                return (batch.stopped.map_or(Ok(()), Err), Some(batch.done));
            }
        };
        (told, None)
    }
}

/// The list of these sets and removes.
pub fn list_of(singles: &[Call]) -> Vec<u8> {
    let records = singles.iter().map(|single| match single.kind {
        Kind::Set => requests::record(5, &[&single.group, &single.key, &single.text]),
        _ => requests::record(6, &[&single.group, &single.key]),
    });
    records.collect::<Vec<_>>().concat()
}

impl List {
    /// The file's bytes, as far as the buffer has them.
    pub fn file(&self) -> &[u8] {
        let room = self.start.file.len();
        &self.start.file[..room.min(self.start.file_len as usize)]
    }

    /// The same with another file, and as much room behind it.
    pub fn about(&self, file: &[u8]) -> List {
        let mut list = self.clone();
        let rest = &self.start.file[self.file().len()..];
        list.start.file = [file, rest].concat();
        list.start.file_len = self.start.file_len - self.file().len() as u64 + file.len() as u64;
        list
    }

    /// The same without one of the calls, 01's first, or behind these without one of the requests of its batches, or behind these
    /// without one of the records that the journal starts with; none if there is no such one.
    pub fn without(&self, number: usize) -> Option<List> {
        let mut list = self.clone();
        let Some(call) = number.checked_sub(list.old_calls.len()) else {
            list.old_calls.remove(number);
            return Some(list);
        };
        let Some(mut request) = call.checked_sub(list.calls.len()) else {
            list.calls.remove(call);
            return Some(list);
        };
        for batch in &mut list.calls {
            let mut singles = batch.singles().unwrap_or_default();
            if request < singles.len() {
                singles.remove(request);
                batch.requests = list_of(&singles);
                return Some(list);
            }
            request -= singles.len();
        }
        self.without_record(request)
    }

    /// The same without one of the records that the journal starts with.
    fn without_record(&self, record: usize) -> Option<List> {
        let mut list = self.clone();
        let start = &mut list.start;
        let question = Question {
            journal: start.journal.clone(),
            used: start.used,
            standing: start.standing,
            n: 0,
        };
        let fewer = question.without(record)?;
        (start.used, start.standing) = (fewer.used, fewer.standing);
        start.journal = fewer.journal;
        Some(list)
    }

    /// What 01's calls left.
    pub fn left(&self) -> State {
        let mut state = self.start.clone();
        for call in &self.old_calls {
            let _ = call.on_state(&mut state);
        }
        state
    }

    /// The numbers and the calls in words.
    pub fn words(&self) -> String {
        let State {
            file,
            file_len,
            journal,
            used,
            standing,
        } = &self.start;
        let mut words = format!(
            "\n{file_len} bytes in a room of {}; journal: used {used}, standing {standing}, room {}, \"{}\"",
            file.len(),
            journal.len(),
            journal[..journal.len().min(*used as usize)].escape_ascii()
        );
        for call in self.old_calls.iter().chain(&self.calls) {
            words += "\n";
            words += &call.words();
            for argument in call.arguments() {
                words += &format!(" \"{}\"", argument.escape_ascii());
            }
        }
        words
    }

    /// The book of the list after 01's calls, if its start is what a book asks for.
    fn book(&self) -> Option<Book> {
        let State {
            file,
            file_len,
            journal,
            used: 0,
            standing: 0,
        } = &self.start
        else {
            return None;
        };
        if *file_len > file.len() as u64 || reference::check(self.file()).is_err() {
            return None;
        }
        let mut book = Book::new(self.file(), file.len(), journal.len());
        for call in &self.old_calls {
            let _ = call.on_book(&mut book);
        }
        Some(book)
    }
}

fn numbers(state: &State) -> [u64; 3] {
    [state.file_len, state.used, state.standing]
}

/// Makes a call on the reference's journal; what it tells, and the name under which it is counted.
fn counted(call: &Call, state: &mut State) -> (Counted<Refusal>, &'static str) {
    let before = state.standing;
    let name = match call.kind {
        Kind::Forget(k) => Some(forget_of(k, state)),
        Kind::Batch => fault_of(state, &call.requests),
        _ => None,
    };
    let told = call.counted_on_state(state);
    let name = name
        .or_else(|| step_of_kind_1(call, before, state))
        .or_else(|| end_of(told))
        .unwrap_or(call.name());
    (told, name)
}

/// The name of a batch by how far it came.
fn end_of((told, done): Counted<Refusal>) -> Option<&'static str> {
    Some(match (told, done?) {
        (Ok(()), 0) => "batch, empty",
        (Ok(()), _) => "batch, all done",
        (Err(_), 0) => "batch, stopped at once",
        (Err(_), _) => "batch, stopped later",
    })
}

/// The name of an undo or redo that went over a record of the kind 1, from this standing number to that of `state`.
fn step_of_kind_1(call: &Call, before: u64, state: &State) -> Option<&'static str> {
    let name = match call.kind {
        Kind::Undo => "undo of kind 1",
        Kind::Redo => "redo of kind 1",
        _ => return None,
    };
    let start = before.min(state.standing) as usize;
    (before != state.standing && state.journal[start + 4] == 1).then_some(name)
}

impl Asker {
    /// Makes the calls of a list, by `editor` and by the bindings, and tells the first difference.
    pub fn edits(
        &mut self,
        list: &List,
        editor: &dyn Fn(&Call, &Given) -> u32,
    ) -> Result<(), String> {
        match list.book() {
            Some(mut book) => {
                self.edits_in_book(list, editor, &mut |call| Some(Page::of(call, &mut book)))
            }
            None => self.edits_in_book(list, editor, &mut |_| None),
        }
    }

    /// As [`Asker::edits`], with a book that tells each call's page, or with none.
    pub fn edits_in_book(
        &mut self,
        list: &List,
        editor: &dyn Fn(&Call, &Given) -> u32,
        book: &mut dyn FnMut(&Call) -> Option<Page>,
    ) -> Result<(), String> {
        let mut state = list.left();
        let mut bound = state.clone();
        let mut file = self.lend(&state.file);
        let mut journal = self.lend(&state.journal);
        for (at, call) in list.calls.iter().enumerate() {
            let mut given = Numbers::given(numbers(&state));
            if let Kind::Forget(_) = call.kind {
                given = given.without_byte();
            }
            let (expected, name) = counted(call, &mut state);
            self.count(name, &expected.0);
            let outcome = self
                .edit(
                    call,
                    given,
                    [&mut file, &mut journal],
                    &state,
                    expected,
                    editor,
                )
                .and_then(|()| on_bindings(call, &mut bound, &state, expected))
                .and_then(|()| match book(call) {
                    Some(page) => in_book(page, &state, expected.0),
                    None => Ok(()),
                });
            named(
                &format!("call {at}, {}", call.words()),
                &call.arguments(),
                outcome,
            )?;
        }
        Ok(())
    }

    /// Makes one call on the lent buffers, which should be as those of `state` after it.
    fn edit(
        &mut self,
        call: &Call,
        mut given: Numbers,
        [file, journal]: [&mut Lent; 2],
        state: &State,
        (told, done): Counted<Refusal>,
        editor: &dyn Fn(&Call, &Given) -> u32,
    ) -> Result<(), String> {
        let arguments = call.arguments().map(|argument| self.lend(argument));
        let [place, byte, file_len, used, standing, to_done] = given.pointers();
        let result = editor(
            call,
            &Given {
                file: (file.pointer_mut(), file.len()),
                journal: (journal.pointer_mut(), journal.len()),
                arguments: arguments
                    .each_ref()
                    .map(|lent| (lent.pointer(), lent.len())),
                file_len,
                used,
                standing,
                place,
                byte,
                done: to_done,
            },
        );
        let mut kept = arguments.iter().zip(call.arguments());
        let numbers = numbers(state).to_vec();
        let outcome = match done {
            Some(done) => given.tell_both(result, told, &[numbers, vec![done]].concat()),
            None => given.tell(result, &told.map(|()| numbers)),
        };
        outcome
            .and_then(|()| file.holds(&state.file))
            .and_then(|()| journal.holds(&state.journal))
            .and_then(|()| kept.try_for_each(|(lent, bytes)| lent.holds(bytes)))
    }
}

/// Lends the buffers and numbers of a state to calls of the bindings.
pub fn with_buffers<A>(state: &mut State, calls: impl FnOnce(&mut Buffers) -> A) -> A {
    let mut numbers = kveldrim::Numbers {
        file_len: state.file_len,
        used: state.used,
        standing: state.standing,
    };
    let answer = calls(&mut Buffers {
        file: &mut state.file,
        journal: &mut state.journal,
        numbers: &mut numbers,
    });
    (state.file_len, state.used, state.standing) =
        (numbers.file_len, numbers.used, numbers.standing);
    answer
}

/// The call over the bindings, on buffers of its own.
fn on_bindings(
    call: &Call,
    own: &mut State,
    state: &State,
    (expected, expected_done): Counted<Refusal>,
) -> Result<(), String> {
    let (answer, done) = with_buffers(own, |buffers| call.counted_on_buffers(buffers));
    bound(answer, expected)?;
    match (&*own, done) == (state, expected_done) {
        true => Ok(()),
        false => Err(format!(
            "the bindings left  {own:?}, done {done:?}\nthe reference      {state:?}, done {expected_done:?}"
        )),
    }
}

/// What a book tells of a call, and has after it.
#[derive(Debug, PartialEq)]
pub struct Page {
    pub told: Result<(), Refusal>,
    pub file: Vec<u8>,
    pub standing: u64,
    pub persons: Vec<u16>,
}

impl Page {
    /// The page of the reference's book.
    pub fn of(call: &Call, book: &mut Book) -> Page {
        Page {
            told: call.on_book(book),
            file: book.file(),
            standing: book.standing(),
            persons: book.persons(),
        }
    }
}

/// Whether the book tells the same as the journal and has the same file, standing number and persons.
fn in_book(page: Page, state: &State, expected: Result<(), Refusal>) -> Result<(), String> {
    let person = |n| reference::person(&state.journal, state.used, state.standing, n);
    let journal = Page {
        told: expected,
        file: state.file[..state.file_len as usize].to_vec(),
        standing: state.standing,
        persons: (0..).map_while(|n| person(n).ok()).collect(),
    };
    match page == journal {
        true => Ok(()),
        false => Err(format!("the book has  {page:?}\nthe journal   {journal:?}")),
    }
}
