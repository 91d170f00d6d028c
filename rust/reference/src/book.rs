//! Paper 01, "Edits and the journal", its last paragraph: the book of demand 3; paper 02, A9: the book of mixed journals; A10:
//! the book after edits are forgotten. Of a batch (A4) it is fed "the single calls tried, the refused one too".

use crate::edit::{edit, edit_within};
use crate::records::RecordKind;
use crate::refusal::Refusal;
use crate::requests::Request;

/// "It keeps two lists of requests, standing and waiting, empty at first." Each is here with the kind of its record.
#[derive(Debug, Clone)]
pub struct Book {
    start: Vec<u8>,
    file_room: usize,
    journal_room: usize,
    standing: Vec<(RecordKind, Request)>,
    waiting: Vec<(RecordKind, Request)>,
}

impl Book {
    /// The book "is fed the starting file, both buffer sizes and the calls". The calls may start with 01's, whose records
    /// are of kind 1: "the starting file is then that of their start".
    pub fn new(start: &[u8], file_room: usize, journal_room: usize) -> Book {
        Book {
            start: start.to_vec(),
            file_room,
            journal_room,
            standing: Vec::new(),
            waiting: Vec::new(),
        }
    }

    /// A set with group, key and text.
    pub fn set(
        &mut self,
        kind: RecordKind,
        group: &[u8],
        key: &[u8],
        text: &[u8],
    ) -> Result<(), Refusal> {
        let request = Request::Set {
            group: group.to_vec(),
            key: key.to_vec(),
            text: text.to_vec(),
        };
        self.ask(kind, request)
    }

    /// A remove with group and key.
    pub fn remove(&mut self, kind: RecordKind, group: &[u8], key: &[u8]) -> Result<(), Refusal> {
        let request = Request::Remove {
            group: group.to_vec(),
            key: key.to_vec(),
        };
        self.ask(kind, request)
    }

    /// "Undo: 12 if none stands; else the last standing becomes the first waiting."
    pub fn undo(&mut self) -> Result<(), Refusal> {
        let request = self.standing.pop().ok_or(Refusal::new(12))?;
        self.waiting.insert(0, request);
        Ok(())
    }

    /// "Redo: 12 if none waits; else the first waiting becomes the last standing."
    pub fn redo(&mut self) -> Result<(), Refusal> {
        if self.waiting.is_empty() {
            return Err(Refusal::new(12));
        }
        self.standing.push(self.waiting.remove(0));
        Ok(())
    }

    /// "The third demand's starting bytes are those after the forgotten edits, in 01's book too, where only these leave the
    /// standing list."
    pub fn forget(&mut self, k: u64) -> Result<(), Refusal> {
        if k > self.standing.len() as u64 {
            return Err(Refusal::new(12));
        }
        let kept = self.standing.split_off(k as usize);
        self.start = self.file();
        self.standing = kept;
        Ok(())
    }

    /// "Its file is the starting bytes after the standing requests, in order."
    pub fn file(&self) -> Vec<u8> {
        self.replay().0
    }

    /// "Its standing number sums those requests' record lengths", "each with its own record's length".
    pub fn standing(&self) -> u64 {
        self.replay().1
    }

    /// The persons of the requests, those that stand before those that wait.
    pub fn persons(&self) -> Vec<u16> {
        let requests = self.standing.iter().chain(&self.waiting);
        requests.map(|(kind, _)| kind.person()).collect()
    }

    /// "The first of 7, 10, 8, 6, 17, 11, 13 that applies refuses"; else the request is the last standing.
    fn ask(&mut self, kind: RecordKind, request: Request) -> Result<(), Refusal> {
        let (file, standing) = self.replay();
        let (file_room, journal_room) = (self.file_room, self.journal_room);
        edit_within(&file, kind, &request, file_room, journal_room, standing)?;
        self.standing.push((kind, request));
        self.waiting.clear();
        Ok(())
    }

    /// The file and the standing number from the start; every standing request was accepted once.
    fn replay(&self) -> (Vec<u8>, u64) {
        let mut file = self.start.clone();
        let mut standing = 0;
        for (kind, request) in &self.standing {
            if let Ok(edit) = edit(&file, request) {
                file = edit.apply(&file);
                standing += edit.record_length(*kind);
            }
        }
        (file, standing)
    }
}
