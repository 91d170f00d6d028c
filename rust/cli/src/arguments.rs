//! The words of the command line. Names, keys and texts stay as the bytes that came in.

use std::ffi::OsString;
use std::time::Duration;

use clap::{ArgGroup, Args, Parser, Subcommand, ValueHint};
use clap_complete::Shell;

use crate::streams;

/// Checks .desktop files, reads, edits and merges them, and expands their commands
#[derive(Parser)]
#[command(name = "kveldrim", version, after_help = AFTER_HELP)]
pub struct Line {
    #[command(subcommand)]
    pub command: Command,
}

/// The variables for --person and --persons.
pub const PERSON: &str = "KVELDRIM_PERSON";
pub const PERSONS: &str = "KVELDRIM_PERSONS";

const AFTER_HELP: &str = "\
`kveldrim COMMAND --help` tells more of each. A word -- ends the options; - as FILE is standard input, for commands that \
only read. Faults are told as FILE:LINE:BYTE: what is wrong, as far as line and byte are known; both count from 1. On a \
terminal the line follows, with a caret under the byte.

Variables: KVELDRIM_PERSON is who edits, where there is no --person; KVELDRIM_PERSONS is the file of persons, where there is \
no --persons.

Exit status: 0 all is well; 1 a file, a question or an edit was refused; 2 bad usage, or a file that cannot be read or \
written; 75 another kveldrim edits the file just now, so try again. Of merge 1 means conflicts, and a file that is refused is 2.";

#[derive(Subcommand)]
pub enum Command {
    /// Tells whether files are well formed
    Check(Files),
    /// Tells whether files are well formed and have what an entry needs (Type, Name, Exec or URL ..)
    Complete(Files),
    /// Writes the value of a key, its escapes read
    Get(Get),
    /// Writes the elements of a list, each on a line of its own
    List(List),
    /// Lists an application's actions, its further ways to start
    Actions(Actions),
    /// Sets a key to a text, which is escaped as needed
    Set(Set),
    /// Removes a key with its line
    Remove(Remove),
    /// Sets and removes many keys at once, as a table says
    Batch(Batch),
    /// Takes the latest edits back
    Undo(Step),
    /// Makes the edits once more that were taken back last
    Redo(Step),
    /// Tells the edits that stand, those that wait for redo, and who made them
    Log(Log),
    /// Forgets the oldest edits: they can no longer be undone, and the journal has room for new ones
    Forget(Forget),
    /// Makes one file of two changed copies of it
    Merge(Merge),
    /// Writes a file's command, with the files to open put in; starts nothing
    Expand(Expand),
    /// Writes a script that completes these commands in a shell
    Completions {
        /// The shell
        shell: Shell,
    },
}

#[derive(Args)]
pub struct Files {
    /// Files, folders to search for .desktop files, or - for standard input
    #[arg(value_name = "FILE", required = true)]
    pub files: Vec<OsString>,
    /// Tells every fault of a file, not only the first
    #[arg(long)]
    pub all: bool,
    /// Tells nothing; the exit status does
    #[arg(long, short, conflicts_with = "json")]
    pub quiet: bool,
    #[command(flatten)]
    pub json: Json,
}

#[derive(Args)]
pub struct Json {
    /// Writes one JSON object a line (docs/JSON.md)
    #[arg(long)]
    pub json: bool,
}

/// A group that is asked about or edited.
#[derive(Args)]
pub struct Group {
    /// The group, without brackets
    #[arg(long, value_name = "GROUP", default_value = "Desktop Entry")]
    pub group: OsString,
}

/// The value that is asked for.
#[derive(Args)]
pub struct Wanted {
    /// The file, or - for standard input
    pub file: OsString,
    /// The key; it may have a locale of its own, as Name[de], if there is no --locale
    pub key: OsString,
    #[command(flatten)]
    pub group: Group,
    #[command(flatten)]
    pub locale: Locale,
    #[command(flatten)]
    pub json: Json,
}

#[derive(Args)]
pub struct Locale {
    /// The value that suits the locale L best, as de_AT.UTF-8 (encodings do not count); auto: the locales of LANGUAGE, LC_ALL,
    /// LC_MESSAGES or LANG, the first that is set
    #[arg(long, value_name = "L")]
    pub locale: Option<OsString>,
}

#[derive(Args)]
pub struct Get {
    #[command(flatten)]
    pub wanted: Wanted,
    /// The value as it stands in the file
    #[arg(long)]
    pub raw: bool,
}

#[derive(Args)]
pub struct List {
    #[command(flatten)]
    pub wanted: Wanted,
    /// A zero byte after each element, in place of a line feed
    #[arg(long, conflicts_with = "json")]
    pub null: bool,
}

#[derive(Args)]
#[command(after_help = "\
The key Actions has the identifiers, and the group Desktop Action ID is that of the identifier ID. A line has an identifier, a \
tab and the action's label, the Name in its group. What would alter a terminal is shown by its bytes, as \\x0A; --null and \
--json write it as it is. An action without a group or a Name is not listed. `kveldrim expand FILE --action ID` writes the \
command of an action.")]
pub struct Actions {
    /// The file, or - for standard input
    pub file: OsString,
    #[command(flatten)]
    pub locale: Locale,
    /// A zero byte after each identifier and each label, in place of a tab and a line feed
    #[arg(long, conflicts_with = "json")]
    pub null: bool,
    /// Warns of nothing: neither of an identifier in Actions that is not listed, nor of one that stands there more than once
    #[arg(long)]
    pub no_warn: bool,
    #[command(flatten)]
    pub json: Json,
}

/// The key that is set or removed.
#[derive(Args)]
pub struct Key {
    /// The file
    pub file: OsString,
    /// The key
    pub key: OsString,
}

/// How a key is edited.
#[derive(Args)]
pub struct Change {
    #[command(flatten)]
    pub group: Group,
    /// The key KEY[L]
    #[arg(long, value_name = "L")]
    pub locale: Option<OsString>,
    #[command(flatten)]
    pub editing: Editing,
}

/// How keys are edited, whichever they are.
#[derive(Args)]
pub struct Editing {
    /// Puts the journal aside under another name and starts a new one
    #[arg(long)]
    pub discard_journal: bool,
    /// Warns of nothing: neither of a file that is no longer complete, nor of an Exec that can no longer be expanded, nor of a
    /// key that its own locale does not read, nor of a person without a name
    #[arg(long)]
    pub no_warn: bool,
    #[command(flatten)]
    pub who: Who,
    #[command(flatten)]
    pub manner: Manner,
}

/// Who edits.
#[derive(Args)]
pub struct Who {
    /// Who edits: a number from 0 to 65535, or a name in the file of persons; without it nobody is named, which is number 0
    #[arg(
        long,
        value_name = "WHO",
        env = PERSON,
        hide_env_values = true
    )]
    pub person: Option<OsString>,
    #[command(flatten)]
    pub persons: PersonsFile,
}

/// The names of those who edit.
#[derive(Args)]
pub struct PersonsFile {
    /// The file of persons, on each line a number, a space and a name; without it kveldrim-persons.txt beside the edited file, if
    /// that is there
    #[arg(
        long,
        value_name = "FILE",
        value_hint = ValueHint::FilePath,
        env = PERSONS,
        hide_env_values = true
    )]
    pub persons: Option<OsString>,
}

/// How an edit is made.
#[derive(Args)]
pub struct Manner {
    #[command(flatten)]
    pub wait: Wait,
    /// Tells what would change, and changes nothing; whether you may write is not asked
    #[arg(long)]
    pub dry_run: bool,
}

#[derive(Args)]
pub struct Wait {
    /// Waits up to so many seconds for another kveldrim that edits the file
    #[arg(long, value_name = "SECONDS", default_value = "0", hide_default_value = true, value_parser = seconds)]
    pub wait: Duration,
}

fn seconds(word: &str) -> Result<Duration, String> {
    let seconds: Option<f64> = word.parse().ok();
    let wait = seconds.and_then(|seconds| Duration::try_from_secs_f64(seconds).ok());
    wait.ok_or_else(|| "a number of seconds is needed, as 5 or 0.5".into())
}

#[derive(Args)]
pub struct Set {
    #[command(flatten)]
    pub key: Key,
    /// The text, as it is to be read back
    pub text: OsString,
    #[command(flatten)]
    pub change: Change,
}

#[derive(Args)]
pub struct Remove {
    #[command(flatten)]
    pub key: Key,
    #[command(flatten)]
    pub change: Change,
}

#[derive(Args)]
#[command(after_help = "\
TABLE is CSV in UTF-8, as a spreadsheet saves it, with commas, semicolons or tabs. Its first line names the columns, in any \
order. An empty group is Desktop Entry:

  action,group,key,text
  set,,Name,Write a letter
  set,,Name[de],Einen Brief schreiben
  set,Desktop Action new,Name,New letter
  remove,,Icon,

The requests are made in turn, as by set and remove, and FILE is written once. The first that is refused is told as \
TABLE:LINE: what is wrong, and ends it: those before it stand, unless there is --all-or-nothing. `kveldrim undo FILE 4` takes \
four of them back.")]
pub struct Batch {
    /// The file
    pub file: OsString,
    /// The table of requests; without it, and as -, standard input
    #[arg(default_value = streams::STDIN, hide_default_value = true, value_hint = ValueHint::FilePath)]
    pub table: OsString,
    /// Changes nothing if one of the requests is refused
    #[arg(long)]
    pub all_or_nothing: bool,
    #[command(flatten)]
    pub editing: Editing,
    #[command(flatten)]
    pub json: Json,
}

/// What --person is to undo and redo, which record nobody.
const WHO_STEPS: &str = "Who you are: a number from 0 to 65535, or a name in the file of persons; each edit of another person is \
then told on standard error";

#[derive(Args)]
#[command(mut_arg("person", |person| person.help(WHO_STEPS)))]
pub struct Step {
    /// The file
    pub file: OsString,
    /// How many edits
    #[arg(value_name = "N", default_value = "1", value_parser = clap::value_parser!(u32).range(1..))]
    pub steps: u32,
    #[command(flatten)]
    pub who: Who,
    #[command(flatten)]
    pub manner: Manner,
}

#[derive(Args)]
pub struct Log {
    /// The file
    pub file: OsString,
    #[command(flatten)]
    pub persons: PersonsFile,
    #[command(flatten)]
    pub json: Json,
}

#[derive(Args)]
#[command(
    group(ArgGroup::new("which").args(["count", "keep"]).required(true)),
    override_usage = "kveldrim forget [OPTIONS] <FILE> <N|--keep <N>>",
    after_help = "\
The file stays as it is, and so do the edits that wait for redo. Each edit that is forgotten is told, and how many are left. \
Nothing brings a forgotten edit back."
)]
pub struct Forget {
    /// The file
    pub file: OsString,
    /// Forgets the oldest N edits that stand
    #[arg(value_name = "N")]
    pub count: Option<u64>,
    /// Forgets all edits that stand but the newest N
    #[arg(long, value_name = "N")]
    pub keep: Option<u64>,
    #[command(flatten)]
    pub persons: PersonsFile,
    #[command(flatten)]
    pub manner: Manner,
    #[command(flatten)]
    pub json: Json,
}

#[derive(Args)]
#[command(after_help = "\
What only one copy changed is as that copy has it: values by their keys, comments, blank lines and groups by their places. \
What both changed in different ways is a conflict: each is told as FILE:LINE: conflict: .., and nothing is written. One of the \
three may be -, standard input. `> MINE` would empty MINE before it is read, so write `--output MINE`. README.md tells how \
git merges by this command.

Exit status: 0 merged; 1 conflicts; 2 bad usage, a file that is not well formed, or one that cannot be read or written; 75 \
another kveldrim edits FILE just now, so try again.")]
pub struct Merge {
    /// The file as it was before both changes
    pub base: OsString,
    /// A changed copy; where the order is free, its lines come first
    pub mine: OsString,
    /// The other changed copy
    pub theirs: OsString,
    /// Writes FILE, all of it or nothing, in place of standard output; it may be one of the three
    #[arg(long, short, value_name = "FILE")]
    pub output: Option<OsString>,
    /// Tells of a file under NAME in place of its own name; up to three times, for BASE, MINE and THEIRS
    #[arg(long, short = 'L', value_name = "NAME")]
    pub label: Vec<OsString>,
    /// Puts the journal of FILE aside under another name: its edits are not those of the merged file
    #[arg(long, requires = "output")]
    pub discard_journal: bool,
    /// Warns of nothing: neither of a merged file that is not complete, nor of an Exec that cannot be expanded, where both
    /// copies were and could
    #[arg(long)]
    pub no_warn: bool,
    #[command(flatten)]
    pub wait: Wait,
}

#[derive(Args)]
#[command(after_help = "\
A run is one line: its arguments parted by spaces, quoted where needed, so that it can be pasted into dash, bash and zsh. \
With %f or %u in Exec each file has a run of its own, numbered from 0. Without --run and --all run 0 is written, and it is \
told on standard error if there are more.")]
pub struct Expand {
    /// The file with the command, or - for standard input
    pub file: OsString,
    /// The files to open
    pub files: Vec<OsString>,
    /// Writes the command of the action ID, with its own Exec and Icon (`kveldrim actions FILE` lists the actions)
    #[arg(long, value_name = "ID")]
    pub action: Option<OsString>,
    #[command(flatten)]
    pub locale: Locale,
    /// Where FILE is, for %k (without: FILE)
    #[arg(long, value_name = "PATH")]
    pub location: Option<OsString>,
    /// Writes run N, from 0
    #[arg(long, value_name = "N", conflicts_with_all = ["all", "runs"])]
    pub run: Option<u64>,
    /// Writes all runs, a line for each
    #[arg(long, conflicts_with = "runs")]
    pub all: bool,
    /// Writes just how many runs there are
    #[arg(long)]
    pub runs: bool,
    /// Writes a zero byte after each argument and quotes none; one run only, so not with --all: ask for each by --run N
    #[arg(long, conflicts_with_all = ["all", "runs", "json"])]
    pub null: bool,
    #[command(flatten)]
    pub json: Json,
}
