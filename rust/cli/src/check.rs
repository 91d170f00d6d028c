//! `kveldrim check` and `kveldrim complete`: what is wrong with files.

use std::ffi::{OsStr, OsString};
use std::io::{self, IsTerminal};
use std::os::unix::ffi::OsStrExt;
use std::path::Path;
use std::process::ExitCode;

use serde_json::json;
use walkdir::{DirEntry, WalkDir};

use crate::arguments::Files;
use crate::faults::{self, Ask, Fault};
use crate::json::{line, text};
use crate::report::Trouble;
use crate::streams;

/// Asks of every file whether it is so; the status is that of the worst.
pub fn each(files: &Files, ask: Ask, so: &str) -> ExitCode {
    let mut answers = Answers {
        files,
        count: 0,
        status: 0,
        objects: Vec::new(),
    };
    for found in files.files.iter().flat_map(|named| desktop_files(named)) {
        match found {
            Ok(file) => answers.take(&file, troubles(&file, files.all, ask)),
            Err(trouble) => answers.tell(&trouble),
        }
    }
    answers.end(so)
}

/// What has been told so far.
struct Answers<'a> {
    files: &'a Files,
    count: usize,
    status: u8,
    objects: Vec<u8>,
}

impl Answers<'_> {
    /// Tells what is wrong with a file.
    fn take(&mut self, file: &OsStr, troubles: Vec<Trouble>) {
        self.count += 1;
        if troubles.is_empty() {
            let good = json!({ "file": text(file.as_bytes()), "ok": true });
            self.objects.extend(line(&good));
        }
        for trouble in troubles {
            self.tell(&trouble);
        }
    }

    fn tell(&mut self, trouble: &Trouble) {
        self.status = self.status.max(trouble.status());
        match (self.files.json.json, self.files.quiet) {
            (true, _) => self.objects.extend(line(&trouble.object())),
            (false, false) => {
                trouble.tell();
            }
            (false, true) => {}
        }
    }

    /// Writes the objects, or to a terminal that all is well.
    fn end(self, so: &str) -> ExitCode {
        let Files { json, quiet, .. } = self.files;
        let is_shown = !quiet && self.status == 0 && io::stdout().is_terminal();
        let written = match json.json {
            true => streams::write(&self.objects),
            false if is_shown => streams::write(all_well(self.count, so).as_bytes()),
            false => ExitCode::SUCCESS,
        };
        match self.status {
            0 => written,
            status => ExitCode::from(status),
        }
    }
}

/// A line that says what all files are.
fn all_well(count: usize, so: &str) -> String {
    match count {
        1 => format!("1 file is {so}\n"),
        _ => format!("{count} files are {so}\n"),
    }
}

/// What is wrong with a file.
fn troubles(file: &OsStr, all: bool, ask: Ask) -> Vec<Trouble> {
    let bytes = match streams::read(file) {
        Ok(bytes) => bytes,
        Err(trouble) => return vec![trouble],
    };
    let faults = match all {
        true => faults::all(&bytes, ask),
        false => {
            let first = ask(&bytes).err();
            first
                .map(|refusal| Fault::of(&bytes, refusal))
                .into_iter()
                .collect()
        }
    };
    let told = faults
        .iter()
        .map(|fault| Trouble::of_fault(file, &bytes, fault));
    told.collect()
}

/// The file that is named, or the .desktop files in and below a folder, by name. Links below a folder lead to files alone.
fn desktop_files(named: &OsStr) -> Vec<Result<OsString, Trouble>> {
    if named == streams::STDIN || !Path::new(named).is_dir() {
        return vec![Ok(named.into())];
    }
    let found = WalkDir::new(named).sort_by_file_name().into_iter();
    let mut files: Vec<_> = found
        .filter_map(|found| desktop_file(named, found))
        .collect();
    if files.is_empty() {
        files.push(Err(Trouble::without_files(named)));
    }
    files
}

/// Something found in a folder, if it is a .desktop file or cannot be read.
fn desktop_file(
    folder: &OsStr,
    found: walkdir::Result<DirEntry>,
) -> Option<Result<OsString, Trouble>> {
    let entry = match found {
        Ok(entry) => entry,
        Err(error) => {
            let path = error.path().unwrap_or(Path::new(folder)).to_owned();
            let error = error.into_io_error();
            let error = error.unwrap_or_else(|| io::Error::other("a link leads back to it"));
            return Some(Err(Trouble::unreadable(path.as_os_str(), &error)));
        }
    };
    let path = entry.path();
    let is_broken_link = entry.path_is_symlink() && !path.exists();
    let is_named = path.extension() == Some(OsStr::new("desktop"));
    (is_named && (path.is_file() || is_broken_link)).then(|| Ok(entry.into_path().into()))
}
