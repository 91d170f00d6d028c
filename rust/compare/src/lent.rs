//! What is lent to a call: bytes and numbers with guards on both sides, so that a stray write shows; and what a call written here
//! makes of it.

use reference::Refusal;

use crate::random::Random;

/// Guard bytes that would go on with whatever stands beside them, so that reading too far changes an answer.
const GUARD: &[u8] = b"\\s;a]=\n\xBFb[de]=x\n\x80_A.B@C]=\n#\\;\\\\ =t\n\xBF\x80[Z]\nName=1\n\\n;]";

/// Bytes in the middle of a larger allocation.
pub struct Lent {
    whole: Vec<u8>,
    start: usize,
    end: usize,
    /// Where the pointer of an empty slice points: "an empty slice may have any pointer".
    nowhere: Option<usize>,
}

impl Lent {
    pub fn new(bytes: &[u8], random: &mut Random) -> Lent {
        let left = &GUARD[..random.within(16, GUARD.len())];
        let right = &GUARD[random.below(GUARD.len() - 16)..];
        let whole = [left, bytes, right].concat();
        let nowhere = match random.below(4) {
            0 => None,
            1 => Some(0),
            2 => Some(1),
            _ => Some(usize::MAX),
        };
        Lent {
            start: left.len(),
            end: left.len() + bytes.len(),
            whole,
            nowhere,
        }
    }

    /// An output with a pattern in it that no call writes by chance.
    pub fn output(length: usize, random: &mut Random) -> Lent {
        let first = random.below(256);
        let pattern: Vec<u8> = (0..length).map(|at| (first + at * 167) as u8).collect();
        Lent::new(&pattern, random)
    }

    pub fn bytes(&self) -> &[u8] {
        &self.whole[self.start..self.end]
    }

    pub fn len(&self) -> usize {
        self.end - self.start
    }

    pub fn is_empty(&self) -> bool {
        self.start == self.end
    }

    pub fn pointer(&self) -> *const u8 {
        match self.nowhere {
            Some(address) if self.is_empty() => address as *const u8,
            _ => self.bytes().as_ptr(),
        }
    }

    pub fn pointer_mut(&mut self) -> *mut u8 {
        match self.nowhere {
            Some(address) if self.is_empty() => address as *mut u8,
            _ => self.whole[self.start..self.end].as_mut_ptr(),
        }
    }

    /// Whether the bytes are these and the guards are as they were.
    pub fn holds(&self, expected: &[u8]) -> Result<(), String> {
        let right = &GUARD[GUARD.len() - (self.whole.len() - self.end)..];
        if self.whole[..self.start] != GUARD[..self.start] {
            return Err("bytes before the buffer were written".into());
        }
        if &self.whole[self.end..] != right {
            return Err("bytes after the buffer were written".into());
        }
        if self.bytes() != expected {
            let found = self.bytes().escape_ascii();
            let expected = expected.escape_ascii();
            return Err(format!(
                "the buffer holds   {found}\nbut should hold    {expected}"
            ));
        }
        Ok(())
    }
}

/// The bytes that are lent to a call.
pub fn bytes<'a>((pointer, length): (*const u8, usize)) -> &'a [u8] {
    match length {
        0 => &[],
        // SAFETY: so many bytes are lent, and for longer than they are used here.
        _ => unsafe { std::slice::from_raw_parts(pointer, length) },
    }
}

/// Where a call with an output writes: the output by pointer and length, and its numbers.
#[derive(Clone, Copy)]
pub struct Output {
    pub out: (*mut u8, usize),
    pub place: *mut u64,
    pub byte: *mut u64,
    pub written: *mut u64,
}

impl Output {
    /// What a function makes of the output, told as a call tells it.
    pub fn told(self, write: impl FnOnce(&mut [u8]) -> Result<usize, Refusal>) -> u32 {
        let out = match self.out {
            (_, 0) => &mut [],
            // SAFETY: so many bytes are lent.
            (pointer, length) => unsafe { std::slice::from_raw_parts_mut(pointer, length) },
        };
        let written = write(out).map(|written| [written]);
        tell(written, [self.place, self.byte], [self.written])
    }
}

/// Writes an answer's numbers, or a refusal's, and gives the result of the call.
pub fn tell<const N: usize>(
    answer: Result<[usize; N], Refusal>,
    [place, byte]: [*mut u64; 2],
    numbers: [*mut u64; N],
) -> u32 {
    let refusal = answer.err().unwrap_or(Refusal::new(0));
    // SAFETY: the numbers are lent.
    unsafe {
        (*place, *byte) = (refusal.place, refusal.byte);
        for (to, number) in numbers.into_iter().zip(answer.into_iter().flatten()) {
            *to = number as u64;
        }
    }
    refusal.number
}

/// The numbers of a call: its place, its byte, up to three more, which may go in as well as come out, and one more that comes
/// out, with guards between them.
pub struct Numbers {
    slots: [u64; 13],
    given: [u64; 4],
}

/// What every number is before the call that does not go in, and every guard.
const BEFORE: u64 = 0xA5C3_9669_3CA5_5A0F;

impl Numbers {
    pub fn new() -> Numbers {
        Numbers::given([BEFORE; 3])
    }

    /// Three numbers that go in.
    pub fn given(given: [u64; 3]) -> Numbers {
        let mut slots = [BEFORE; 13];
        [slots[5], slots[7], slots[9]] = given;
        let [first, second, third] = given;
        let given = [first, second, third, BEFORE];
        Numbers { slots, given }
    }

    /// The same for a call that is lent no byte, which is then 0.
    pub fn without_byte(mut self) -> Numbers {
        self.slots[3] = 0;
        self
    }

    /// A number that was not written but for its first two bytes, which are these.
    pub fn two_bytes(written: u16) -> u64 {
        let mut bytes = BEFORE.to_ne_bytes();
        bytes[..2].copy_from_slice(&written.to_ne_bytes());
        u64::from_ne_bytes(bytes)
    }

    /// Pointers to the place, the byte and the four further numbers.
    pub fn pointers(&mut self) -> [*mut u64; 6] {
        let start = self.slots.as_mut_ptr();
        [1, 3, 5, 7, 9, 11].map(|slot| start.wrapping_add(slot))
    }

    /// Whether the call told this: the numbers of its answer, or a refusal.
    pub fn tell(&self, result: u32, expected: &Result<Vec<u64>, Refusal>) -> Result<(), String> {
        match expected {
            Ok(answer) => self.tell_both(result, Ok(()), answer),
            Err(refusal) => self.tell_both(result, Err(*refusal), &[]),
        }
    }

    /// Whether the call told this, accepted or refused, and these numbers in either case.
    pub fn tell_both(
        &self,
        result: u32,
        expected: Result<(), Refusal>,
        answer: &[u64],
    ) -> Result<(), String> {
        let refusal = expected.err().unwrap_or(Refusal::new(0));
        if self.slots.iter().step_by(2).any(|guard| *guard != BEFORE) {
            return Err("a number beside the lent ones was written".into());
        }
        let more = [0, 1, 2, 3].map(|at| answer.get(at).copied().unwrap_or(self.given[at]));
        let [_, place, _, byte, _, first, _, second, _, third, _, fourth, _] = self.slots;
        let told = Refusal {
            number: result,
            place,
            byte,
        };
        let found = [first, second, third, fourth];
        if (told, found) == (refusal, more) {
            return Ok(());
        }
        Err(format!(
            "the library tells  {}\nthe reference      {}",
            words(told, found),
            words(refusal, more)
        ))
    }
}

/// A result, its place and byte and its further numbers.
fn words(told: Refusal, numbers: [u64; 4]) -> String {
    let word = |number| match number {
        BEFORE => "-".to_string(),
        number => number.to_string(),
    };
    let (result, place, byte) = (told.number, word(told.place), word(told.byte));
    let numbers = numbers.map(word).join(" ");
    format!("result {result}, place {place}, byte {byte}, numbers {numbers} (-: not written)")
}

impl Default for Numbers {
    fn default() -> Numbers {
        Numbers::new()
    }
}
