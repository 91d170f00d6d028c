//! Who asks: lends the library and the reference the same, holds their answers against each other, and counts these.

use std::collections::BTreeMap;

use reference::Refusal;

use crate::encodings::Encodings;
use crate::lent::{Lent, Numbers, Output};
use crate::random::Random;

/// How often each call gave each number, 0 for an answer.
pub type Tally = BTreeMap<(&'static str, u32), u64>;

/// Asks the library and the reference the same.
pub struct Asker {
    random: Random,
    pub tally: Tally,
    /// What encodings have to do with choices, by where these are made: in `choose`, for Name and for Icon of an expansion, for
    /// the label of an action.
    pub encodings: BTreeMap<&'static str, Encodings>,
}

/// A call with an output: it gets its inputs by pointer and length.
pub type OutputCall<'a, const N: usize> = &'a dyn Fn([(*const u8, usize); N], Output) -> u32;

impl Asker {
    pub fn new(seed: u64) -> Asker {
        Asker {
            random: Random::new(seed),
            tally: Tally::new(),
            encodings: BTreeMap::new(),
        }
    }

    /// The same buffers again, for a case of its own seed.
    pub fn start(&mut self, seed: u64) {
        self.random = Random::new(seed);
    }

    pub(crate) fn lend(&mut self, bytes: &[u8]) -> Lent {
        Lent::new(bytes, &mut self.random)
    }

    pub(crate) fn count<A>(&mut self, call: &'static str, expected: &Result<A, Refusal>) {
        let number = expected.as_ref().err().map_or(0, |refusal| refusal.number);
        *self.tally.entry((call, number)).or_default() += 1;
    }

    /// Counts what an encoding has to do with a choice by a locale.
    pub(crate) fn count_encodings(
        &mut self,
        of: &'static str,
        file: &[u8],
        locale: &[u8],
        answer: Result<(usize, usize), Refusal>,
    ) {
        if let Ok(value) = answer {
            let counts = self.encodings.entry(of).or_default();
            counts.count(file, locale, value);
        }
    }

    /// The sizes of an output for an answer of so many bytes: some, one byte too few, just enough, more.
    pub(crate) fn sizes(&mut self, length: usize) -> Vec<usize> {
        let some = self.random.below(length.max(1));
        let more = length + self.random.within(1, 40);
        vec![some, length.saturating_sub(1), length, more]
    }

    /// The sizes of an output for what a call answers with room enough; any size where it is refused.
    pub(crate) fn sizes_for(&mut self, answer: &Result<Vec<u8>, Refusal>) -> Vec<usize> {
        match answer {
            Ok(records) => self.sizes(records.len()),
            Err(_) => vec![self.random.below(100)],
        }
    }

    /// A call with an output, which is lent in each of the sizes, with every buffer between guards.
    pub(crate) fn output_calls<const N: usize>(
        &mut self,
        name: &'static str,
        inputs: [&[u8]; N],
        mut sizes: Vec<usize>,
        call: OutputCall<N>,
        reference: &dyn Fn(&mut [u8]) -> Result<usize, Refusal>,
    ) -> Result<(), String> {
        sizes.dedup();
        for size in sizes {
            let lent = inputs.map(|bytes| self.lend(bytes));
            let mut out = Lent::output(size, &mut self.random);
            let mut expected_out = out.bytes().to_vec();
            let expected = reference(&mut expected_out);
            self.count(name, &expected);
            let mut numbers = Numbers::new();
            let [place, byte, written, ..] = numbers.pointers();
            let output = Output {
                out: (out.pointer_mut(), out.len()),
                place,
                byte,
                written,
            };
            let slices = lent.each_ref().map(|lent| (lent.pointer(), lent.len()));
            let result = call(slices, output);
            let mut kept = lent.iter().zip(inputs);
            numbers
                .tell(result, &expected.map(|written| vec![written as u64]))
                .and_then(|()| kept.try_for_each(|(lent, bytes)| lent.holds(bytes)))
                .and_then(|()| out.holds(&expected_out))
                .map_err(|difference| format!("with room for {size} bytes\n{difference}"))?;
        }
        Ok(())
    }
}

/// Names the call in which a difference was found.
pub(crate) fn named(
    call: &str,
    arguments: &[&[u8]],
    outcome: Result<(), String>,
) -> Result<(), String> {
    outcome.map_err(|difference| {
        let mut call = call.to_string();
        for argument in arguments {
            call += &format!(" \"{}\"", argument.escape_ascii());
        }
        format!("{call}\n{difference}")
    })
}

/// A refusal of the bindings, to be held against one of the reference.
pub(crate) fn refusal(refusal: kveldrim::Refusal) -> Refusal {
    let kveldrim::Refusal { kind, place, byte } = refusal;
    Refusal {
        number: kind.number(),
        place,
        byte,
    }
}

/// Whether the bindings answer as the reference does.
pub(crate) fn bound<A: PartialEq + std::fmt::Debug>(
    answer: Result<A, kveldrim::Refusal>,
    expected: Result<A, Refusal>,
) -> Result<(), String> {
    let answer = answer.map_err(refusal);
    if answer == expected {
        return Ok(());
    }
    Err(format!(
        "the bindings tell  {answer:?}\nthe reference      {expected:?}"
    ))
}
