//! The person of a journal's record: the call over the C interface and over the bindings, held against the reference.

use kveldrim::{ffi, Buffers, Person};
use reference::Refusal;

use crate::asker::{bound, named, Asker};
use crate::bounds::JOURNAL_BOUND;
use crate::journals;
use crate::lent::Numbers;

/// A journal's buffer with its numbers, and which record is asked for.
#[derive(Clone)]
pub struct Question {
    pub journal: Vec<u8>,
    pub used: u64,
    pub standing: u64,
    pub n: u64,
}

/// What the call is handed: the journal by pointer and length, and its numbers.
#[derive(Clone, Copy)]
pub struct Given {
    pub journal: (*const u8, usize),
    pub used: u64,
    pub standing: u64,
    pub n: u64,
    pub place: *mut u64,
    pub person: *mut u16,
}

/// The call of the proved library.
pub fn proved(given: &Given) -> u32 {
    // SAFETY: the bytes and the numbers outlive the call.
    unsafe {
        ffi::kveldrim_person(
            given.journal.0,
            given.journal.1,
            given.used,
            given.standing,
            given.n,
            given.place,
            given.person,
        )
    }
}

impl Given {
    /// Whether the numbers fit the journal's room and its bound; if not, the call refuses with 14.
    pub fn lengths_fit(&self) -> bool {
        let most = self.journal.1.min(JOURNAL_BOUND) as u64;
        self.standing <= self.used && self.used <= most
    }

    /// The call's name, which says whether a refusal 14 is for its lengths.
    fn name(&self) -> &'static str {
        match self.lengths_fit() {
            true => "person",
            false => "person by wrong lengths",
        }
    }
}

impl Question {
    /// The same about a journal in which bytes are left out; the numbers behind these go along.
    pub fn about(&self, journal: Vec<u8>) -> Question {
        let pairs = self.journal.iter().zip(&journal);
        let kept = pairs.take_while(|(old, new)| old == new).count() as u64;
        let left_out = self.journal.len().saturating_sub(journal.len()) as u64;
        let along = |number: u64| match number <= kept {
            true => number,
            false => number.saturating_sub(left_out),
        };
        Question {
            journal,
            used: along(self.used),
            standing: along(self.standing),
            n: self.n,
        }
    }

    /// The same without one of the journal's records; none if there is no such record.
    pub fn without(&self, record: usize) -> Option<Question> {
        let used = self.journal.len().min(self.used as usize);
        let ends = journals::records(&self.journal[..used]);
        let (start, end) = (*ends.get(record)?, *ends.get(record + 1)?);
        let mut question = self.about([&self.journal[..start], &self.journal[end..]].concat());
        question.n -= u64::from((record as u64) < self.n);
        Some(question)
    }

    /// The numbers in words.
    pub fn words(&self) -> String {
        let Question {
            used, standing, n, ..
        } = self;
        format!("\nused {used}, standing {standing}, record {n}")
    }

    fn on_bindings(&self) -> Result<u16, kveldrim::Refusal> {
        let mut numbers = kveldrim::Numbers {
            file_len: 0,
            used: self.used,
            standing: self.standing,
        };
        let buffers = Buffers {
            file: &mut [],
            journal: &mut self.journal.clone(),
            numbers: &mut numbers,
        };
        buffers.person(self.n).map(|Person(number)| number)
    }
}

impl Asker {
    /// Asks `teller` and the bindings for the person of a record.
    pub fn person(
        &mut self,
        question: &Question,
        teller: &dyn Fn(&Given) -> u32,
    ) -> Result<(), String> {
        let Question {
            journal,
            used,
            standing,
            n,
        } = question;
        let expected: Result<u16, Refusal> = reference::person(journal, *used, *standing, *n);
        let lent = self.lend(journal);
        let mut numbers = Numbers::new().without_byte();
        let [place, _, person, ..] = numbers.pointers();
        let given = Given {
            journal: (lent.pointer(), lent.len()),
            used: *used,
            standing: *standing,
            n: *n,
            place,
            person: person.cast(),
        };
        self.count(given.name(), &expected);
        let result = teller(&given);
        let outcome = numbers
            .tell(
                result,
                &expected.map(|person| vec![Numbers::two_bytes(person)]),
            )
            .and_then(|()| lent.holds(journal))
            .and_then(|()| bound(question.on_bindings(), expected));
        named("person", &[], outcome)
    }
}
