//! What is read and written besides edits.

use std::ffi::OsStr;
use std::io::{self, ErrorKind, Read, Write};
use std::path::Path;
use std::process::ExitCode;

use kveldrim::FILE_BOUND;

use crate::disk;
use crate::report::Trouble;

/// The name of standard input.
pub const STDIN: &str = "-";

/// The bytes of a file or of standard input, or so many of them that the core refuses it as too long.
pub fn read(file: &OsStr) -> Result<Vec<u8>, Trouble> {
    read_most(file, FILE_BOUND)
}

/// The bytes of a file or of standard input, at most one more than `most`.
pub fn read_most(file: &OsStr, most: usize) -> Result<Vec<u8>, Trouble> {
    let bytes = match file == STDIN {
        true => {
            let mut bytes = Vec::new();
            let most = most as u64 + 1;
            let stdin = io::stdin().lock().take(most).read_to_end(&mut bytes);
            stdin.map(|_| bytes)
        }
        false => disk::read(Path::new(file), most),
    };
    bytes.map_err(|error| Trouble::unreadable(file, &error))
}

/// Writes what is answered of a file, or tells why there is no answer.
pub fn answer(file: &OsStr, answer: impl FnOnce(&[u8]) -> Result<Vec<u8>, Trouble>) -> ExitCode {
    match read(file).and_then(|bytes| answer(&bytes)) {
        Ok(bytes) => write(&bytes),
        Err(trouble) => trouble.tell(),
    }
}

/// Writes an answer; the status is what came of it.
pub fn write(bytes: &[u8]) -> ExitCode {
    match put(bytes) {
        Ok(()) => ExitCode::SUCCESS,
        Err(trouble) => trouble.tell(),
    }
}

/// Writes an answer. A reader that stops early has read what it wanted.
pub fn put(bytes: &[u8]) -> Result<(), Trouble> {
    let mut out = io::stdout().lock();
    match out.write_all(bytes).and_then(|()| out.flush()) {
        Err(error) if error.kind() != ErrorKind::BrokenPipe => Err(Trouble::unwritable(&error)),
        _ => Ok(()),
    }
}
