//! What the tests share: file T, a person, buffers, lists, and short forms of the calls.

use reference::{RecordKind, Refusal, State};

/// File T of paper 01, 71 bytes.
pub const T: &[u8] =
    b"[Desktop Entry]\nType=Application\nName=Lesen\nName[fr]=Lire\nExec=view %F\n";

/// The records of person 7.
pub const SEVEN: RecordKind = RecordKind::Four(7);

/// A refusal with its number and place.
pub fn refused<A>(number: u32, place: u64) -> Result<A, Refusal> {
    Err(Refusal {
        number,
        place,
        byte: 0,
    })
}

/// Refusal 2 with its line and byte.
pub fn bad_line<A>(place: u64, byte: u64) -> Result<A, Refusal> {
    Err(Refusal {
        number: 2,
        place,
        byte,
    })
}

/// A file that starts with the header Desktop Entry and a LF.
pub fn with_header(rest: &[u8]) -> Vec<u8> {
    [b"[Desktop Entry]\n", rest].concat()
}

/// Buffers of the two sizes with a file and an empty journal; the room left over holds 0xAA.
pub fn state(file: &[u8], file_room: usize, journal_room: usize) -> State {
    let mut buffer = file.to_vec();
    buffer.resize(file_room, 0xAA);
    State {
        file: buffer,
        file_len: file.len() as u64,
        journal: vec![0xAA; journal_room],
        used: 0,
        standing: 0,
    }
}

/// The file that a state holds.
pub fn file_of(s: &State) -> &[u8] {
    &s.file[..s.file_len as usize]
}

/// Records of one kind, one after another.
pub fn records<A: AsRef<[u8]>>(kind: u16, items: &[A]) -> Vec<u8> {
    let mut list = Vec::new();
    for item in items {
        let item = item.as_ref();
        list.extend((item.len() as u32 + 6).to_le_bytes());
        list.extend(kind.to_le_bytes());
        list.extend(item);
    }
    list
}

/// A record of a request: "group, key with postfix and, for 5, the text, each after its own 4-byte length".
pub fn request(kind: u16, fields: &[&[u8]]) -> Vec<u8> {
    let fields = fields.iter().map(|field| {
        let length = (field.len() as u32).to_le_bytes();
        [&length[..], field].concat()
    });
    records(kind, &[fields.collect::<Vec<_>>().concat()])
}

/// A journal record of a kind, with its own length.
pub fn journal_record(kind: RecordKind, place: u32, old: &[u8], new: &[u8]) -> Vec<u8> {
    let (length, front) = match kind {
        RecordKind::One => (18, vec![1, 0]),
        RecordKind::Four(person) => (20, [[4, 0], person.to_le_bytes()].concat()),
    };
    let mut record = Vec::new();
    record.extend((length + old.len() as u32 + new.len() as u32).to_le_bytes());
    record.extend(front);
    record.extend(place.to_le_bytes());
    record.extend((old.len() as u32).to_le_bytes());
    record.extend((new.len() as u32).to_le_bytes());
    record.extend(old);
    record.extend(new);
    record
}

/// A call with an output: what it wrote, after asking that it fits exactly, that one byte less is 11,
/// that the rest keeps its bytes, and that a refusal writes nothing.
pub fn output(
    call: impl Fn(&mut [u8]) -> Result<usize, Refusal>,
    room: usize,
) -> Result<Vec<u8>, Refusal> {
    let mut out = vec![0xAA; room];
    let answer = call(&mut out);
    let length = answer.unwrap_or(0);
    assert!(out[length..].iter().all(|byte| *byte == 0xAA));
    answer?;
    out.truncate(length);
    let mut exact = vec![0xAA; length];
    assert_eq!(call(&mut exact), Ok(length));
    assert_eq!(exact, out);
    if length > 0 {
        let mut small = vec![0xAA; length - 1];
        assert_eq!(call(&mut small), refused(11, 0));
        assert_eq!(small, vec![0xAA; length - 1]);
    }
    Ok(out)
}

/// Text that is read.
pub fn read(raw: &[u8]) -> Result<Vec<u8>, Refusal> {
    output(|out| reference::read_text(raw, out), 1_000)
}

/// Text that is written.
pub fn write(text: &[u8]) -> Result<Vec<u8>, Refusal> {
    output(|out| reference::write_text(text, out), 1_000)
}

/// A list that is read; its elements' records of kind 2 are taken apart.
pub fn list(raw: &[u8]) -> Result<Vec<Vec<u8>>, Refusal> {
    let out = output(|out| reference::read_list(raw, out), 1_000)?;
    Ok(split(2, &out))
}

/// Records of one kind taken apart.
pub fn split(kind: u16, mut rest: &[u8]) -> Vec<Vec<u8>> {
    let mut items = Vec::new();
    while !rest.is_empty() {
        let length = u32::from_le_bytes([rest[0], rest[1], rest[2], rest[3]]) as usize;
        assert_eq!(u16::from_le_bytes([rest[4], rest[5]]), kind);
        items.push(rest[6..length].to_vec());
        rest = &rest[length..];
    }
    items
}

/// The arguments of one run of a whole file.
pub fn expand_file(
    file: &[u8],
    locale: &[u8],
    location: &[u8],
    items: &[&str],
    run: u64,
) -> Result<Vec<String>, Refusal> {
    let list = records(2, items);
    let call = |out: &mut [u8]| reference::expand(file, locale, location, &list, run, out);
    texts(3, call)
}

/// A call that writes records of one kind, all of them text; these are taken apart.
pub fn texts(
    kind: u16,
    call: impl Fn(&mut [u8]) -> Result<usize, Refusal>,
) -> Result<Vec<String>, Refusal> {
    let items = split(kind, &output(call, 1_000)?).into_iter();
    Ok(items
        .map(|bytes| String::from_utf8(bytes).unwrap())
        .collect())
}

/// The arguments of run 0 of a raw Exec, with Name `N`, Icon `I` and location `L`.
pub fn expand_exec(exec: &str, items: &[&str]) -> Result<Vec<String>, Refusal> {
    let rest = format!("Name=N\nIcon=I\nExec={exec}\n");
    expand_file(&with_header(rest.as_bytes()), b"", b"L", items, 0)
}

/// The arguments as the tests write them.
pub fn arguments(expected: &[&str]) -> Result<Vec<String>, Refusal> {
    Ok(expected
        .iter()
        .map(|argument| argument.to_string())
        .collect())
}
