//! The calls on a file and on a text, over the C interface and over the bindings, held against the reference.

use kveldrim::ffi;
use reference::Refusal;

use crate::asker::{bound, named, Asker};
use crate::files::Ask;
use crate::lent::Numbers;

/// A value's two ends as numbers.
fn ends(expected: Result<(usize, usize), Refusal>) -> Result<Vec<u64>, Refusal> {
    expected.map(|(from, to)| vec![from as u64, to as u64])
}

/// Whether the bindings hand back just this part of the file, not a copy of it.
fn part(
    file: &[u8],
    answer: Result<&[u8], kveldrim::Refusal>,
    expected: Result<(usize, usize), Refusal>,
) -> Result<(), String> {
    let start = file.as_ptr() as usize;
    let ends = answer.map(|value| {
        let from = value.as_ptr() as usize - start;
        (from, from + value.len())
    });
    bound(ends, expected)
}

/// A call that finds a value in a file, the first of its arguments: it gets each by pointer and length, and pointers to its place
/// and byte and the two ends.
pub type ValueCall<'a, const N: usize> = &'a dyn Fn([(*const u8, usize); N], [*mut u64; 6]) -> u32;

impl Asker {
    pub fn check(&mut self, file: &[u8]) -> Result<(), String> {
        self.check_by(ffi::kveldrim_check, file)
    }

    /// A check of any library, held against the reference; the bindings too.
    pub fn check_by(&mut self, call: ffi::FileCall, file: &[u8]) -> Result<(), String> {
        self.file_call(
            "check",
            file,
            call,
            reference::check(file),
            kveldrim::check(file),
        )
    }

    pub fn complete(&mut self, file: &[u8]) -> Result<(), String> {
        self.file_call(
            "complete",
            file,
            ffi::kveldrim_complete,
            reference::complete(file),
            kveldrim::complete(file),
        )
    }

    /// A call that takes just a file, with the answers of the reference and of the bindings.
    fn file_call(
        &mut self,
        name: &'static str,
        file: &[u8],
        call: ffi::FileCall,
        expected: Result<(), Refusal>,
        answer: Result<(), kveldrim::Refusal>,
    ) -> Result<(), String> {
        self.count(name, &expected);
        let lent = self.lend(file);
        let mut numbers = Numbers::new();
        let [place, byte, ..] = numbers.pointers();
        // SAFETY: the bytes and the numbers outlive the call.
        let result = unsafe { call(lent.pointer(), lent.len(), place, byte) };
        let outcome = numbers
            .tell(result, &expected.map(|()| Vec::new()))
            .and_then(|()| lent.holds(file))
            .and_then(|()| bound(answer, expected));
        named(name, &[], outcome)
    }

    pub fn lookup(&mut self, file: &[u8], ask: &Ask) -> Result<(), String> {
        self.lookup_by(
            // SAFETY: the bytes and the numbers outlive the call.
            &|[(file, f), (group, g), (key, k)], [place, byte, from, to, ..]| unsafe {
                ffi::kveldrim_lookup(file, f, group, g, key, k, place, byte, from, to)
            },
            file,
            ask,
        )
    }

    /// A lookup of any library, held against the reference; the bindings too.
    pub fn lookup_by(&mut self, call: ValueCall<3>, file: &[u8], ask: &Ask) -> Result<(), String> {
        let (group, key) = (&ask.group[..], &ask.key[..]);
        self.value_call(
            "lookup",
            [file, group, key],
            call,
            reference::lookup(file, group, key),
            kveldrim::lookup(file, group, key),
        )
    }

    pub fn choose(&mut self, file: &[u8], ask: &Ask) -> Result<(), String> {
        self.choose_by(
            // SAFETY: the bytes and the numbers outlive the call.
            &|[(file, f), (group, g), (key, k), (locale, l)], [place, byte, from, to, ..]| unsafe {
                ffi::kveldrim_choose(file, f, group, g, key, k, locale, l, place, byte, from, to)
            },
            file,
            ask,
        )
    }

    /// A choice of any library, held against the reference; the bindings too.
    pub fn choose_by(&mut self, call: ValueCall<4>, file: &[u8], ask: &Ask) -> Result<(), String> {
        let (group, key, locale) = (&ask.group[..], &ask.plain[..], &ask.locale[..]);
        let expected = reference::choose(file, group, key, locale);
        self.count_encodings("choose", file, locale, expected);
        self.value_call(
            "choose",
            [file, group, key, locale],
            call,
            expected,
            kveldrim::choose(file, group, key, locale),
        )
    }

    /// A call with the answers of the reference and of the bindings.
    fn value_call<const N: usize>(
        &mut self,
        name: &'static str,
        arguments: [&[u8]; N],
        call: ValueCall<N>,
        expected: Result<(usize, usize), Refusal>,
        answer: Result<&[u8], kveldrim::Refusal>,
    ) -> Result<(), String> {
        self.count(name, &expected);
        let lent = arguments.map(|bytes| self.lend(bytes));
        let mut numbers = Numbers::new();
        let slices = lent.each_ref().map(|lent| (lent.pointer(), lent.len()));
        let result = call(slices, numbers.pointers());
        let mut kept = lent.iter().zip(arguments);
        let outcome = numbers
            .tell(result, &ends(expected))
            .and_then(|()| kept.try_for_each(|(lent, bytes)| lent.holds(bytes)))
            .and_then(|()| part(arguments[0], answer, expected));
        named(name, &arguments[1..], outcome)
    }

    pub fn read_text(&mut self, raw: &[u8]) -> Result<(), String> {
        let whole = reference::text::unescape(raw);
        let length = whole.as_ref().map_or(raw.len(), Vec::len);
        let outcome = self
            .text_calls(
                "read_text",
                raw,
                length,
                ffi::kveldrim_read_text,
                reference::read_text,
            )
            .and_then(|()| bound(kveldrim::read_text_vec(raw), whole));
        named("read_text", &[], outcome)
    }

    pub fn write_text(&mut self, text: &[u8]) -> Result<(), String> {
        let whole = reference::text::escape(text);
        let length = whole.as_ref().map_or(text.len(), Vec::len);
        let outcome = self
            .text_calls(
                "write_text",
                text,
                length,
                ffi::kveldrim_write_text,
                reference::write_text,
            )
            .and_then(|()| bound(kveldrim::write_text_vec(text), whole));
        named("write_text", &[], outcome)
    }

    pub fn read_list(&mut self, raw: &[u8]) -> Result<(), String> {
        let whole = reference::text::split_list(raw);
        let length = whole.as_ref().map_or(raw.len(), |elements| {
            elements.iter().map(|element| 6 + element.len()).sum()
        });
        let outcome = self
            .text_calls(
                "read_list",
                raw,
                length,
                ffi::kveldrim_read_list,
                reference::read_list,
            )
            .and_then(|()| bound(kveldrim::read_list_vec(raw), whole));
        named("read_list", &[], outcome)
    }

    /// A call that reads bytes and writes others: without room for them too.
    fn text_calls(
        &mut self,
        name: &'static str,
        input: &[u8],
        length: usize,
        call: ffi::OutputCall,
        reference: fn(&[u8], &mut [u8]) -> Result<usize, Refusal>,
    ) -> Result<(), String> {
        let sizes = [vec![0], self.sizes(length)].concat();
        self.output_calls(
            name,
            [input],
            sizes,
            &|[(input, length)], output| {
                let (out, out_len) = output.out;
                // SAFETY: the bytes and the numbers outlive the call, which is lent no byte.
                unsafe {
                    *output.byte = 0;
                    call(input, length, out, out_len, output.place, output.written)
                }
            },
            &|out| reference(input, out),
        )
    }
}
