//! `kveldrim batch`: many sets and removes of a file's keys at once, as a table says.

use std::ffi::OsStr;
use std::process::ExitCode;

use kveldrim::{requests_of, Document, Kind, Person, Refusal, Request, LIST_BOUND};
use serde_json::json;

use crate::arguments::Batch;
use crate::editing::{editor, full, open, to_forget, trouble, Accepted};
use crate::log::{edits_from, Recorded, State, Tense};
use crate::persons::Persons;
use crate::report::{command, shown, Trouble};
use crate::store::Store;
use crate::table::{self, Row};
use crate::{json, streams};

pub fn batch(asked: &Batch) -> ExitCode {
    match made(asked) {
        Ok(None) => ExitCode::SUCCESS,
        // It is in the last object.
        Ok(Some(refused)) if asked.json.json => ExitCode::from(refused.status()),
        Ok(Some(trouble)) | Err(trouble) => trouble.tell(),
    }
}

/// Makes the requests of a table and saves what they have made, all at once. Answers the refusal that stopped them.
fn made(asked: &Batch) -> Result<Option<Trouble>, Trouble> {
    let Batch { file, editing, .. } = asked;
    let (person, mut persons) = editor(file, &editing.who, "batch")?;
    let rows = table::read(&asked.table)?;
    fits(&asked.table, &rows)?;
    let store = open(file, editing.discard_journal, &editing.manner)?;
    let call = Call::make(asked, person, &rows, &store)?;
    let tells_edits = asked.json.json || editing.manner.dry_run;
    let edits = match tells_edits && call.done > 0 {
        true => call.edits()?,
        false => Vec::new(),
    };
    let is_saved = call.done > 0 && !editing.manner.dry_run;
    if is_saved {
        store.save(&call.after)?;
    }
    if call.done > 0 && !editing.no_warn {
        persons.warn(tells_edits.then_some(person));
        call.accepted().warn(&persons);
    }
    streams::put(&call.answer(&edits, &persons)).map_err(|trouble| match is_saved {
        // Who runs it again would have them made twice.
        true => trouble.although(counted(call.done, Tense::Past) + " all the same"),
        false => trouble,
    })?;
    let tail = call.tail();
    Ok(call.refused.map(|refused| refused.although(tail)))
}

/// Whether the list of the requests is not too long. The first row that is too much is told.
fn fits(table: &OsStr, rows: &[Row]) -> Result<(), Trouble> {
    let length = |row: &Row| requests_of(&[row.request()]).len();
    let mut sum = 0;
    let too_much = rows.iter().find(|row| {
        sum += length(row);
        sum > LIST_BOUND
    });
    let Some(row) = too_much else {
        return Ok(());
    };
    let (which, take, way_out) = match length(row) {
        alone if alone > LIST_BOUND => ("this one takes", alone, "no file has room for it"),
        _ => (
            "these take",
            rows.iter().map(length).sum(),
            "make several tables of it, the first of the rows before this one",
        ),
    };
    let words = format!(
        "a batch has room for {} bytes of requests, and {which} {}; {way_out}",
        grouped(LIST_BOUND),
        grouped(take)
    );
    Err(Trouble::refused(table, &words).at_line(table, row.line))
}

/// A number with commas, as 65,536.
fn grouped(number: usize) -> String {
    match number {
        0..1_000 => number.to_string(),
        _ => format!("{},{:03}", grouped(number / 1_000), number % 1_000),
    }
}

/// So many requests, in words.
fn counted(requests: usize, tense: Tense) -> String {
    match (requests, tense) {
        (1, Tense::Past) => "1 request is done".into(),
        (_, Tense::Past) => format!("{requests} requests are done"),
        (1, Tense::Conditional) => "1 request would be done".into(),
        (_, Tense::Conditional) => format!("{requests} requests would be done"),
    }
}

/// A call of the core, and what is to become of it.
struct Call<'a> {
    asked: &'a Batch,
    person: Person,
    rows: &'a [Row],
    before: Document,
    /// The file with its journal after the requests that stand, and how many these are.
    after: Document,
    done: usize,
    /// Why the next one was refused.
    refused: Option<Trouble>,
}

impl<'a> Call<'a> {
    /// Makes the call. An Err is a refusal of the file or of its journal.
    fn make(
        asked: &'a Batch,
        person: Person,
        rows: &'a [Row],
        store: &Store,
    ) -> Result<Call<'a>, Trouble> {
        let before = store.document();
        let mut call = Call {
            asked,
            person,
            rows,
            after: before.clone(),
            before,
            done: 0,
            refused: None,
        };
        let kveldrim::Batch { done, stopped } = call.after.batch(person, &requests(rows));
        call.done = done as usize;
        let Some(refusal) = stopped else {
            return Ok(call);
        };
        let of_file = || Trouble::of_file(&asked.file, store.bytes(), refusal);
        if refusal.kind == Kind::Damaged || kveldrim::check(store.bytes()).is_err() {
            return Err(trouble(store, refusal, of_file));
        }
        call.refused = Some(call.of_row(&rows[call.done], refusal));
        if asked.all_or_nothing {
            call.after = call.before.clone();
            call.done = 0;
        }
        Ok(call)
    }

    /// The refusal of a row's request, told of its line.
    fn of_row(&self, row: &Row, refusal: Refusal) -> Trouble {
        let Batch { file, table, .. } = self.asked;
        let Row { group, key, .. } = row;
        let trouble = match refusal.kind {
            Kind::JournalFull => self.full(),
            _ => Trouble::of_change(file, group, key, self.after.file(), refusal),
        };
        let trouble = match refusal.kind {
            Kind::Unfit if !row.is_utf8() => trouble.although("save the table as CSV in UTF-8"),
            _ => trouble,
        };
        trouble.at_line(table, row.line).of_kind(refusal.kind)
    }

    /// The journal has no room for the next request. So many edits are to be forgotten that it has room for all that are still
    /// to be made, or at least for that one.
    fn full(&self) -> Trouble {
        let file = &self.asked.file;
        let is_unsaved = self.asked.all_or_nothing || self.tense() == Tense::Conditional;
        let (document, rows, room) = match is_unsaved {
            true => (&self.before, self.rows, "room for the table"),
            false => (
                &self.after,
                &self.rows[self.done..],
                "room for the rest of the table",
            ),
        };
        let stopped = |copy: &mut Document, rows| copy.batch(self.person, &requests(rows)).stopped;
        let has_room = |copy: &mut Document| {
            stopped(copy, rows).is_none_or(|refusal| refusal.kind != Kind::JournalFull)
        };
        match to_forget(document, has_room) {
            Some(count) => Trouble::full(file, count, room),
            None if is_unsaved => {
                let words =
                    "no journal has room for so many edits at once; make several tables of it";
                Trouble::refused(file, words)
            }
            None => full(file, document, |copy| {
                stopped(copy, &rows[..1]).map_or(Ok(()), Err)
            }),
        }
    }

    /// The edits that the requests have made, or would make.
    fn edits(&self) -> Result<Vec<Recorded>, Trouble> {
        let mut edits = edits_from(self.after.clone(), self.before.standing())
            .map_err(|refusal| Trouble::of_file(&self.asked.file, self.after.file(), refusal))?;
        if self.tense() == Tense::Conditional {
            for edit in &mut edits {
                edit.state = State::WouldStand;
            }
        }
        Ok(edits)
    }

    fn tense(&self) -> Tense {
        match self.asked.editing.manner.dry_run {
            true => Tense::Conditional,
            false => Tense::Past,
        }
    }

    fn accepted(&self) -> Accepted<'_> {
        let done = self.rows[..self.done].iter();
        Accepted {
            file: &self.asked.file,
            person: self.person,
            before: self.before.file(),
            after: self.after.file(),
            keys: done.map(|row| (&row.group[..], &row.key[..])).collect(),
        }
    }

    /// What is written to standard output: the edits, and how many they are, unless a refusal tells that.
    fn answer(&self, edits: &[Recorded], persons: &Persons) -> Vec<u8> {
        if self.asked.json.json {
            return self.objects(edits, persons);
        }
        let line =
            |edit: &Recorded| [edit.done.line(self.tense(), persons), b"\n".to_vec()].concat();
        let mut lines: Vec<u8> = edits.iter().flat_map(line).collect();
        match &self.refused {
            Some(_) => {}
            None if self.rows.is_empty() => {
                let table = shown(&self.asked.table);
                lines.extend([b"no request in ", &table[..], b"\n"].concat());
            }
            None => lines.extend((counted(self.done, self.tense()) + "\n").into_bytes()),
        }
        lines
    }

    /// An object for each edit, with the line of its row, and a last one (docs/JSON.md).
    fn objects(&self, edits: &[Recorded], persons: &Persons) -> Vec<u8> {
        let object = |(edit, row): (&Recorded, &Row)| {
            let mut object = edit.object(persons);
            object["line"] = row.line.into();
            json::line(&object)
        };
        let objects = edits.iter().zip(self.rows).flat_map(object);
        let refusal = self.refused.as_ref().map(Trouble::object);
        let last = json::line(&json!({ "done": self.done, "refusal": refusal }));
        objects.chain(last).collect()
    }

    /// What became of the requests before a refused one.
    fn tail(&self) -> Vec<u8> {
        let (before, stand, them) = match self.done {
            1 => ("the request before it".into(), "stands", "it"),
            done => (format!("the {done} requests before it"), "stand", "them"),
        };
        match (self.done, self.tense()) {
            (0, Tense::Past) => b"nothing was changed".to_vec(),
            (0, Tense::Conditional) => b"nothing would be changed".to_vec(),
            (_, Tense::Conditional) => format!("{before} would be done").into_bytes(),
            (done, Tense::Past) => {
                let undo = command("undo", &self.asked.file, done);
                let [start, end] = [
                    format!("{before} {stand} ("),
                    format!(" takes {them} back)"),
                ];
                [start.as_bytes(), &undo, end.as_bytes()].concat()
            }
        }
    }
}

fn requests(rows: &[Row]) -> Vec<Request<'_>> {
    rows.iter().map(Row::request).collect()
}
