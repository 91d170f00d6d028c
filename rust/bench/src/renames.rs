//! Sixty names of one file are changed: by one batch, by sixty sets, and by GLib.

use std::ffi::{CStr, CString};
use std::hint::black_box;

use kveldrim::{Batch, Buffers, Numbers, Person, Request, FILE_BOUND, JOURNAL_BOUND};

use crate::glib::{KeyFile, Made};
use crate::row;

const COUNT: usize = 60;

const KEY: &CStr = c"Name";

const PERSON: Person = Person(7);

/// A file of 9 KB with sixty actions, and for each its group and a new name.
pub struct Renames {
    file: Vec<u8>,
    names: Vec<(CString, CString)>,
    /// The list of a batch.
    requests: Vec<u8>,
}

/// Room for a file and its journal.
struct Room {
    file: Vec<u8>,
    journal: Vec<u8>,
    numbers: Numbers,
}

impl Renames {
    pub fn new() -> Renames {
        let mut file =
            "[Desktop Entry]\nType=Application\nName=Courses\nExec=courses\n".to_string();
        let mut names = Vec::new();
        for number in 0..COUNT {
            let group = format!("Desktop Action course-{number:02}");
            file += &format!(
                "\n[{group}]\nName=Course {number:02} in the spring term\nName[de]=Kurs {number:02} im Fr\u{FC}hjahr\n\
                 Comment=Files of course {number:02}\nIcon=course-{number:02}\nExec=courses --open {number:02}\n"
            );
            let name = format!("Course {number:02} in the autumn term");
            let [group, name] = [group, name].map(|text| CString::new(text).unwrap_or_default());
            names.push((group, name));
        }
        let requests: Vec<Request> = names
            .iter()
            .map(|(group, name)| Request::Set {
                group: group.to_bytes(),
                key: KEY.to_bytes(),
                text: name.to_bytes(),
            })
            .collect();
        let requests = kveldrim::requests_of(&requests);
        Renames {
            file: file.into(),
            names,
            requests,
        }
    }

    fn by_batch(&self, room: &mut Room) -> Batch {
        room.lend(black_box(&self.file))
            .batch(PERSON, &self.requests)
    }

    fn by_sets(&self, room: &mut Room) -> Batch {
        let mut buffers = room.lend(black_box(&self.file));
        for (done, (group, name)) in (0..).zip(&self.names) {
            let told = buffers.set(PERSON, group.to_bytes(), KEY.to_bytes(), name.to_bytes());
            if let Err(refusal) = told {
                return Batch {
                    done,
                    stopped: Some(refusal),
                };
            }
        }
        Batch {
            done: self.names.len() as u64,
            stopped: None,
        }
    }

    fn by_glib(&self) -> Option<Made> {
        let mut file = KeyFile::load(black_box(&self.file))?;
        for (group, name) in &self.names {
            file.set(group, KEY, name);
        }
        file.data()
    }

    /// Asks that all three end in the same: the first two in the same bytes, GLib's file in the same sixty names.
    pub fn agree(&self) {
        let (mut batch, mut sets) = (Room::new(), Room::new());
        let done = Batch {
            done: COUNT as u64,
            stopped: None,
        };
        assert_eq!(self.by_batch(&mut batch), done);
        assert_eq!(self.by_sets(&mut sets), done);
        assert!(batch.left() == sets.left(), "batch and sets differ");
        let glib = self.by_glib().expect("GLib writes the file");
        let (file, _) = batch.left();
        for (group, name) in &self.names {
            let value = |file| kveldrim::lookup(file, group.to_bytes(), KEY.to_bytes());
            assert_eq!(value(file), Ok(name.to_bytes()));
            assert_eq!(value(glib.bytes()), Ok(name.to_bytes()));
        }
        let length = self.file.len();
        println!("{COUNT} names of a file of {length} bytes changed, the same by all three");
    }

    pub fn rows(&self) {
        let mut room = Room::new();
        let glib = |renames: &&Renames| drop(black_box(renames.by_glib()));
        let name = "9 KB of sixty actions";
        row(
            name,
            "sixty renames, one batch",
            &[self],
            |renames| {
                black_box(renames.by_batch(&mut room));
            },
            glib,
        );
        row(
            name,
            "sixty renames, sixty sets",
            &[self],
            |renames| {
                black_box(renames.by_sets(&mut room));
            },
            glib,
        );
    }
}

impl Room {
    fn new() -> Room {
        Room {
            file: vec![0; FILE_BOUND],
            journal: vec![0; JOURNAL_BOUND],
            numbers: Numbers::default(),
        }
    }

    /// The room with a file in it and an empty journal.
    fn lend(&mut self, file: &[u8]) -> Buffers<'_> {
        self.file[..file.len()].copy_from_slice(file);
        self.numbers = Numbers {
            file_len: file.len() as u64,
            ..Numbers::default()
        };
        Buffers {
            file: &mut self.file,
            journal: &mut self.journal,
            numbers: &mut self.numbers,
        }
    }

    /// The file and the journal.
    fn left(&self) -> (&[u8], &[u8]) {
        let Numbers { file_len, used, .. } = self.numbers;
        (
            &self.file[..file_len as usize],
            &self.journal[..used as usize],
        )
    }
}
