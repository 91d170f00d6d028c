//! A table of requests: CSV as spreadsheets save it, with the columns action, group, key and text. Fields stay bytes.

use std::ffi::OsStr;
use std::io::{self, IsTerminal};

use csv::{ByteRecord, ReaderBuilder};
use kveldrim::{Request, DESKTOP_ENTRY};

use crate::faults::{named, BYTE_ORDER_MARK};
use crate::report::Trouble;
use crate::streams;

/// The most bytes that are read of a table; the requests of a batch have at most 65,536.
const MOST: usize = 1_048_576;

/// What a row of a table asks for.
pub struct Row {
    /// The line in which it starts, from 1.
    pub line: usize,
    pub group: Vec<u8>,
    pub key: Vec<u8>,
    /// What the key is set to; none if it is removed.
    pub text: Option<Vec<u8>>,
}

impl Row {
    pub fn request(&self) -> Request<'_> {
        let Row { group, key, .. } = self;
        match &self.text {
            Some(text) => Request::Set { group, key, text },
            None => Request::Remove { group, key },
        }
    }

    /// Whether its text can be read as UTF-8.
    pub fn is_utf8(&self) -> bool {
        let text = self.text.as_deref().unwrap_or_default();
        std::str::from_utf8(text).is_ok()
    }
}

/// A line, from 1, and what is wrong in it.
type Wrong = (usize, String);

/// The rows of a table in a file or in standard input.
pub fn read(table: &OsStr) -> Result<Vec<Row>, Trouble> {
    if table == streams::STDIN && io::stdin().is_terminal() {
        let words = "reading the table from the keyboard; Ctrl-D ends it";
        Trouble::note(OsStr::new("kveldrim"), words).tell();
    }
    let bytes = streams::read_most(table, MOST)?;
    if bytes.len() > MOST {
        let words = "the table is over 1,048,576 bytes; make several tables of it";
        return Err(Trouble::refused(table, words));
    }
    rows(&bytes).map_err(|(line, words)| Trouble::of_line(table, line, words))
}

fn rows(bytes: &[u8]) -> Result<Vec<Row>, Wrong> {
    let bytes = bytes.strip_prefix(BYTE_ORDER_MARK).unwrap_or(bytes);
    check_kind(bytes).map_err(|words| (1, words.into()))?;
    let delimiter = delimiter(bytes);
    let lines = Lines::of(bytes);
    let of_place = |(place, words): (usize, &str)| (lines.at(place), words.into());
    check_quotes(bytes, delimiter).map_err(of_place)?;
    let mut reader = ReaderBuilder::new()
        .has_headers(false)
        .flexible(true)
        .delimiter(delimiter)
        .from_reader(bytes);
    let mut columns = None;
    let mut rows = Vec::new();
    for record in reader.byte_records() {
        let record = record.map_err(|error| {
            let line = error.position().map_or(1, |place| place.line() as usize);
            (line, error.to_string())
        })?;
        let line = lines.of_record(bytes, &record);
        let wrong = |words| (line, words);
        match &columns {
            None => columns = Some(Columns::of(&record).map_err(wrong)?),
            Some(columns) => rows.extend(columns.row(&record, line).map_err(wrong)?),
        }
    }
    match columns {
        Some(_) => Ok(rows),
        None => Err((1, format!("the table is empty; {FIRST}"))),
    }
}

/// What should stand in the first line of a table.
const FIRST: &str = "its first line names the columns, as action,group,key,text";

/// Other files that a spreadsheet saves are no tables: text in UTF-16, and its own files, xlsx, ods and xls.
fn check_kind(bytes: &[u8]) -> Result<(), &'static str> {
    match bytes {
        [0xFF, 0xFE, ..] | [0xFE, 0xFF, ..] => Err("this table is UTF-16; save it as CSV in UTF-8"),
        [b'P', b'K', 3, 4, ..] | [0xD0, 0xCF, 0x11, 0xE0, ..] => {
            Err("this is a spreadsheet's own file; save it as CSV in UTF-8")
        }
        _ => Ok(()),
    }
}

/// What parts the fields: a comma, a semicolon or a tab. No column has one in its name, so the first line tells which it is.
fn delimiter(bytes: &[u8]) -> u8 {
    let bytes = bytes.iter().skip_while(|byte| is_end(byte));
    let mut first = bytes.take_while(|byte| !is_end(byte));
    let found = first.find(|byte| b",;\t".contains(byte));
    *found.unwrap_or(&b',')
}

fn is_end(byte: &u8) -> bool {
    matches!(byte, b'\r' | b'\n')
}

/// Whether each field that starts with a quote ends with one, and nothing follows that: csv would read over both. An Err has the
/// place of the first quote, and what is wrong.
fn check_quotes(bytes: &[u8], delimiter: u8) -> Result<(), (usize, &'static str)> {
    #[derive(Clone, Copy)]
    enum Part {
        Start,
        Plain,
        /// Behind the quote at this place.
        Quoted(usize),
        /// Behind one more, which ends the field or is the first of two.
        Ended(usize),
    }
    let mut part = Part::Start;
    for (place, byte) in bytes.iter().enumerate() {
        part = match (part, *byte) {
            (Part::Quoted(first), b'"') => Part::Ended(first),
            (Part::Quoted(first), _) | (Part::Ended(first), b'"') => Part::Quoted(first),
            (_, byte) if byte == delimiter || is_end(&byte) => Part::Start,
            (Part::Start, b'"') => Part::Quoted(place),
            (Part::Start | Part::Plain, _) => Part::Plain,
            (Part::Ended(first), _) => {
                let words = "something follows the quotes of a field that starts here; a quote within them is written twice";
                return Err((first, words));
            }
        };
    }
    match part {
        Part::Quoted(first) => Err((first, "a field starts with a quote here, and none ends it")),
        _ => Ok(()),
    }
}

/// Where the lines of a table end.
struct Lines(Vec<usize>);

impl Lines {
    /// A line ends with LF, CR LF or CR.
    fn of(bytes: &[u8]) -> Lines {
        let is_last = |at: &usize| match bytes[*at] {
            b'\n' => true,
            b'\r' => bytes.get(at + 1) != Some(&b'\n'),
            _ => false,
        };
        Lines((0..bytes.len()).filter(is_last).collect())
    }

    /// The line of a place, from 1.
    fn at(&self, place: usize) -> usize {
        self.0.partition_point(|end| *end < place) + 1
    }

    /// The line in which a record starts. csv tells where the one before ends, and blank lines may lie between them.
    fn of_record(&self, bytes: &[u8], record: &ByteRecord) -> usize {
        let place = record.position().map_or(0, |place| place.byte() as usize);
        let ends = bytes[place..].iter().take_while(|byte| is_end(byte));
        self.at(place + ends.count())
    }
}

#[derive(Clone, Copy, PartialEq)]
enum Column {
    Action,
    Group,
    Key,
    Text,
}

const NAMES: [(&str, Column); 4] = [
    ("action", Column::Action),
    ("group", Column::Group),
    ("key", Column::Key),
    ("text", Column::Text),
];

impl Column {
    fn name(self) -> &'static str {
        let name = NAMES.iter().find(|(_, column)| *column == self);
        name.map_or("", |(name, _)| name)
    }
}

/// The columns of a table, in its order.
struct Columns(Vec<Column>);

impl Columns {
    /// The columns that the first line names. Those without which nothing can be asked for are there.
    fn of(record: &ByteRecord) -> Result<Columns, String> {
        let mut columns = Vec::new();
        for name in record {
            let is_named = |(other, _): &&(&str, _)| name.eq_ignore_ascii_case(other.as_bytes());
            let Some((name, column)) = NAMES.iter().find(is_named) else {
                return Err(match name {
                    b"" => format!("a column has no name; {FIRST}"),
                    _ => format!("\"{}\" is no column of a table; {FIRST}", named(name)),
                });
            };
            if columns.contains(column) {
                return Err(format!("the column {name} stands twice"));
            }
            columns.push(*column);
        }
        for column in [Column::Action, Column::Key] {
            if !columns.contains(&column) {
                return Err(format!("there is no column {}; {FIRST}", column.name()));
            }
        }
        Ok(Columns(columns))
    }

    /// What a row asks for; none if it is blank, as that of a spreadsheet may be whose fields were cleared. Where it removes a
    /// key, it may end before a text.
    fn row(&self, record: &ByteRecord, line: usize) -> Result<Option<Row>, String> {
        if record.iter().all(|field| field.trim_ascii().is_empty()) {
            return Ok(None);
        }
        let field = |column| {
            let at = self.0.iter().position(|other| *other == column)?;
            record.get(at)
        };
        let action = field(Column::Action).unwrap_or_default();
        let is_remove = action.eq_ignore_ascii_case(b"remove");
        match self.0.get(record.len()..) {
            Some([] | [Column::Text]) if is_remove => {}
            Some([]) => {}
            Some([next, ..]) => return Err(format!("this row ends before its {}", next.name())),
            None => return Err(self.too_many(record)),
        }
        let text = match field(Column::Text) {
            text if action.eq_ignore_ascii_case(b"set") => {
                Some(text.ok_or("a set needs a text, and there is no column text")?)
            }
            _ if !is_remove => return Err(no_action(action)),
            None | Some(b"") => None,
            Some(text) => {
                let text = named(text);
                return Err(format!("a remove has no text, but here it has \"{text}\""));
            }
        };
        let group = field(Column::Group).filter(|group| !group.is_empty());
        Ok(Some(Row {
            line,
            group: group.unwrap_or(DESKTOP_ENTRY).to_vec(),
            key: field(Column::Key).unwrap_or_default().to_vec(),
            text: text.map(<[u8]>::to_vec),
        }))
    }

    fn too_many(&self, record: &ByteRecord) -> String {
        let (fields, columns) = (record.len(), self.0.len());
        format!("this row has {fields} fields, and the table {columns} columns; a field with a comma, semicolon or tab in it stands in quotes")
    }
}

fn no_action(action: &[u8]) -> String {
    let action = match action {
        b"" => "empty".into(),
        _ => format!("\"{}\"", named(action)),
    };
    format!("the action is {action}, but it may only be set or remove")
}

#[cfg(test)]
mod tests {
    use compare::random::Random;
    use csv::{QuoteStyle, Terminator, WriterBuilder};

    use super::*;

    /// The line, group, key and text of each row, or what is wrong.
    type Read = Result<Vec<(usize, Vec<u8>, Vec<u8>, Option<Vec<u8>>)>, Wrong>;

    fn read(bytes: &[u8]) -> Read {
        let rows = rows(bytes)?.into_iter();
        Ok(rows
            .map(|row| (row.line, row.group, row.key, row.text))
            .collect())
    }

    const BYTES: &[u8] = b"ab =,;\t\"\r\n\xC3\xFF\0";

    fn field(random: &mut Random, least: usize) -> Vec<u8> {
        let length = random.within(least, 6);
        (0..length).map(|_| random.byte_of(BYTES)).collect()
    }

    /// The line that starts behind these bytes.
    fn line_behind(bytes: &[u8]) -> usize {
        let text = bytes.escape_ascii().to_string();
        let text = text.replace("\\r\\n", "\\n").replace("\\r", "\\n");
        text.matches("\\n").count() + 1
    }

    /// Whatever delimiter, line end and quoting a table is written with, its rows are read as they are.
    #[test]
    fn what_is_written_is_read() {
        let mut random = Random::new(4);
        let mut seen = 0;
        for case in 0..600 {
            let delimiter = b",;\t"[case % 3];
            let terminator = match case / 3 % 3 {
                0 => Terminator::CRLF,
                1 => Terminator::Any(b'\n'),
                _ => Terminator::Any(b'\r'),
            };
            let style = match case / 9 % 2 {
                0 => QuoteStyle::Necessary,
                _ => QuoteStyle::Always,
            };
            let written = |record: &[Vec<u8>; 4]| {
                let mut writer = WriterBuilder::new()
                    .delimiter(delimiter)
                    .terminator(terminator)
                    .quote_style(style)
                    .from_writer(Vec::new());
                writer.write_record(record).unwrap();
                writer.into_inner().unwrap()
            };
            let mut columns = NAMES;
            random.shuffle(&mut columns);
            let mut table = written(&columns.map(|(name, _)| name.into()));
            let mut expected = Vec::new();
            for _ in 0..random.below(6) {
                let (group, key) = (field(&mut random, 1), field(&mut random, 0));
                let text = (!random.once_in(3)).then(|| field(&mut random, 0));
                let line = line_behind(&table);
                table.extend(written(&columns.map(|(_, column)| match (column, &text) {
                    (Column::Action, Some(_)) => b"set".to_vec(),
                    (Column::Action, None) => b"remove".to_vec(),
                    (Column::Group, _) => group.clone(),
                    (Column::Key, _) => key.clone(),
                    (Column::Text, text) => text.clone().unwrap_or_default(),
                })));
                expected.push((line, group, key, text));
            }
            seen += expected.len();
            let shown = table.escape_ascii().to_string();
            assert_eq!(read(&table), Ok(expected.clone()), "{shown}");
            // Excel and LibreOffice start with a mark; the last line need not end.
            let end = table.iter().rposition(|byte| !is_end(byte)).unwrap();
            let marked = [BYTE_ORDER_MARK, &table[..=end]].concat();
            assert_eq!(read(&marked), Ok(expected), "{shown}");
        }
        assert!(seen > 1_000, "{seen}");
    }

    /// Whatever the bytes are, they are rows or there is a line that is wrong.
    #[test]
    fn other_bytes() {
        let mut random = Random::new(5);
        let mut seen = [0; 2];
        for _ in 0..20_000 {
            let mut table = b"action,group,key,text\n".to_vec();
            for _ in 0..random.below(12) {
                let piece = random.pick(&[
                    "set,", "remove,", ",", "\"", "\"\"", "\n", "\r\n", "x,y", ";",
                ]);
                table.extend(piece.as_bytes());
            }
            let lines = line_behind(&table);
            match read(&table) {
                Ok(rows) => {
                    seen[0] += 1;
                    assert!(rows.is_sorted_by_key(|(line, ..)| *line));
                    assert!(rows.iter().all(|(line, ..)| (2..=lines).contains(line)));
                }
                Err((line, words)) => {
                    seen[1] += 1;
                    assert!((2..=lines).contains(&line), "{line}: {words}");
                }
            }
        }
        assert!(seen.iter().all(|seen| *seen > 1_000), "{seen:?}");
    }
}
