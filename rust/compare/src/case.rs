//! Cases: questions of every kind, to be compared, told in words and made smaller.

use crate::asker::Asker;
use crate::edits::{self, List};
use crate::{actions, expand, files, persons};

/// A question to the library.
#[derive(Clone)]
pub enum Case {
    /// A file to check, and what is looked up and chosen in it.
    File(files::Question),
    /// Bytes to read as text and as a list, and to write as text.
    Text(Vec<u8>),
    /// The actions of a file.
    Actions(actions::Question),
    /// An expansion of a file's Exec, or of an action's.
    Expand(Box<expand::Question>),
    /// Calls that edit, one after another.
    Edits(List),
    /// A record of a journal whose person is asked for.
    Person(persons::Question),
}

impl Case {
    /// The bytes that the question is about.
    pub fn bytes(&self) -> &[u8] {
        match self {
            Case::File(question) => &question.file,
            Case::Text(text) => text,
            Case::Actions(question) => &question.file,
            Case::Expand(question) => &question.file,
            Case::Edits(list) => list.file(),
            Case::Person(question) => &question.journal,
        }
    }

    /// The same question about other bytes.
    pub fn about(&self, bytes: Vec<u8>) -> Case {
        match self {
            Case::File(question) => Case::File(question.about(bytes)),
            Case::Text(_) => Case::Text(bytes),
            Case::Actions(question) => Case::Actions(question.about(bytes)),
            Case::Expand(question) => Case::Expand(Box::new(question.about(bytes))),
            Case::Edits(list) => Case::Edits(list.about(&bytes)),
            Case::Person(question) => Case::Person(question.about(bytes)),
        }
    }

    /// The same without one of its calls that edit, or of the records of its journal; none if there is no such one.
    pub fn without(&self, number: usize) -> Option<Case> {
        match self {
            Case::Edits(list) => Some(Case::Edits(list.without(number)?)),
            Case::Person(question) => Some(Case::Person(question.without(number)?)),
            _ => None,
        }
    }

    /// The question in words.
    pub fn words(&self) -> String {
        let words = format!("\"{}\"", self.bytes().escape_ascii());
        match self {
            Case::Edits(list) => words + &list.words(),
            Case::Person(question) => words + &question.words(),
            _ => words,
        }
    }

    /// Asks both, and tells the first difference.
    pub fn compare(&self, asker: &mut Asker) -> Result<(), String> {
        match self {
            Case::File(files::Question { file, asks }) => {
                asker.check(file)?;
                asker.complete(file)?;
                for ask in asks {
                    asker.lookup(file, ask)?;
                    asker.choose(file, ask)?;
                }
                Ok(())
            }
            Case::Text(text) => {
                asker.read_text(text)?;
                asker.write_text(text)?;
                asker.read_list(text)
            }
            Case::Actions(question) => question.compare(asker),
            Case::Expand(question) => question.compare(asker),
            Case::Edits(list) => asker.edits(list, &edits::proved),
            Case::Person(question) => asker.person(question, &persons::proved),
        }
    }
}
