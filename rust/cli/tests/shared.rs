//! Files that several people or programs use: who may do what with a file after an edit, and readers beside editors.

mod common;

use std::fs::{self, File};
use std::os::unix::fs::{chown, MetadataExt};
use std::sync::atomic::{AtomicBool, Ordering};
use std::thread;

use common::{tool, Folder, Shared, JOURNAL, T};
use nix::unistd::User;
use xattr::FileExt;

/// Users that every Debian has, with their groups, and one that no system has.
const GAMES: (u32, u32) = (5, 60);
const MAN: (u32, u32) = (6, 12);
const NOBODY_KNOWS: (u32, u32) = (4_111_222, 4_111_222);

/// A file of an owner and a group with a mode, in a folder of that owner.
fn owned(owner: (u32, u32), mode: u32, folder_mode: u32) -> Folder {
    let folder = Folder::new().with(b"t", T);
    for name in [".", "t"] {
        chown(folder.0.join(name), Some(owner.0), Some(owner.1)).unwrap();
    }
    folder.mode("t", mode);
    folder.mode(".", folder_mode);
    folder
}

impl Folder {
    /// The owner, the group and the mode of a file.
    fn access(&self, name: &str) -> (u32, u32, u32) {
        let found = fs::metadata(self.0.join(name)).unwrap();
        (found.uid(), found.gid(), found.mode() & 0o7777)
    }

    /// The rights of a file with its access list.
    fn list(&self, name: &str) -> String {
        let words = ["--numeric", "--omit-header", "--absolute-names"];
        let list = tool("getfacl", "acl", &words, &self.0.join(name));
        String::from_utf8(list).unwrap()
    }

    fn set_list(&self, name: &str, words: &[&str]) {
        tool("setfacl", "acl", words, &self.0.join(name));
    }

    fn open(&self, name: &str) -> File {
        File::open(self.0.join(name)).unwrap()
    }
}

const SET: [&[u8]; 4] = [b"set", b"t", b"Name", b"Les"];
const FORGET: [&[u8]; 3] = [b"forget", b"t", b"1"];

/// Two members of a group edit a file in turn, in a folder that gives its group to new files.
#[test]
fn members_of_a_group_edit_in_turn_as_root() {
    let shared = Shared::new();
    let [sync, apt] = ["sync", "_apt"].map(|name| {
        let user = User::from_name(name).unwrap();
        let user = user.unwrap_or_else(|| panic!("{name}, a user of every Debian, is missing"));
        (user.uid.as_raw(), user.gid.as_raw())
    });
    let group = sync.1;
    assert_eq!(apt.1, group);
    for mode in [0o664, 0o660] {
        let folder = owned(sync, mode, 0o2775);
        let run = |user: (u32, u32), words: &[&[u8]]| {
            folder
                .run_by(shared.command(user.0, user.1, None), words)
                .writes(b"");
            for name in ["t", JOURNAL] {
                assert_eq!(folder.access(name), (user.0, group, mode), "{name}");
            }
        };
        run(apt, &SET);
        run(sync, &[b"set", b"t", b"Icon", b"x"]);
        run(apt, &[b"undo", b"t"]);
        // Root keeps the owner.
        folder.run(&[b"undo", b"t"]).writes(b"");
        assert_eq!(folder.access("t"), (apt.0, group, mode));
        assert_eq!(folder.read("t"), T);
    }
}

/// Who forgets edits has the journal then, as after an edit, and the file stays its owner's. The journal has the rights that the
/// file has by now.
#[test]
fn forgetting_as_root() {
    let shared = Shared::new();
    let games = || shared.command(GAMES.0, GAMES.1, None);
    let man = || shared.command(MAN.0, MAN.1, Some(GAMES.1));
    let folder = owned(GAMES, 0o644, 0o2775);
    for _ in 0..3 {
        folder.run_by(games(), &SET).writes(b"");
    }
    folder.mode("t", 0o660);
    folder.set_list("t", &["-m", "u:7:r"]);
    let list = folder.list("t");
    let left =
        "forgotten: Name in Desktop Entry: \"Lesen\" became \"Les\"\nnow standing: 2, waiting: 0\n";
    folder.run_by(man(), &FORGET).writes(left.as_bytes());
    assert_eq!(folder.access("t"), (GAMES.0, GAMES.1, 0o660));
    assert_eq!(folder.access(JOURNAL), (MAN.0, GAMES.1, 0o660));
    assert_eq!(
        (folder.list("t"), folder.list(JOURNAL)),
        (list.clone(), list)
    );
    folder.run_by(games(), &[b"undo", b"t"]).writes(b"");
    // The rights of this one cannot be those of a journal of another owner.
    folder.mode("t", 0o760);
    let before = folder.both();
    let told = "t: cannot be edited: its owner cannot be kept, and with another one the edit would take from games the \
        right to run it";
    folder.run_by(man(), &FORGET).tells(2, &[told]);
    assert_eq!(folder.both(), before);
}

/// Who is in a group for this run alone counts as its member.
#[test]
fn a_group_of_the_run_as_root() {
    let shared = Shared::new();
    let folder = owned(GAMES, 0o664, 0o2775);
    let man = || shared.command(MAN.0, MAN.1, Some(GAMES.1));
    folder.run_by(man(), &SET).writes(b"");
    assert_eq!(folder.access("t"), (MAN.0, GAMES.1, 0o664));
    folder.run_by(man(), &[b"undo", b"t"]).writes(b"");
    assert_eq!(folder.read("t"), T);
}

/// A group that cannot be kept is no matter where it has the rights of all others.
#[test]
fn a_group_without_rights_of_its_own_as_root() {
    let shared = Shared::new();
    let folder = owned(GAMES, 0o666, 0o777);
    folder
        .run_by(shared.command(MAN.0, MAN.1, None), &SET)
        .writes(b"");
    assert_eq!(folder.access("t"), (MAN.0, MAN.1, 0o666));
    assert_eq!(folder.access(JOURNAL), (MAN.0, MAN.1, 0o666));
}

/// An edit that would give somebody a right or take one is refused, with the reason.
#[test]
fn edits_that_would_change_rights_as_root() {
    let shared = Shared::new();
    let owner = "its owner cannot be kept, and with another one the edit would";
    let member = || shared.command(MAN.0, MAN.1, Some(GAMES.1));
    let guest = || shared.command(MAN.0, MAN.1, None);
    let cases = [
        (
            GAMES,
            0o764,
            0o2775,
            member(),
            format!("{owner} take from games the right to run it"),
        ),
        (
            GAMES,
            0o674,
            0o2775,
            member(),
            format!("{owner} give games the right to run it"),
        ),
        (
            NOBODY_KNOWS,
            0o646,
            0o777,
            guest(),
            "its group 4111222 cannot be kept, and has rights of its own".into(),
        ),
        (
            GAMES,
            0o646,
            0o777,
            guest(),
            "its group 60 cannot be kept, and has rights of its own".into(),
        ),
        (
            GAMES,
            0o4666,
            0o777,
            guest(),
            "it is set-user-ID, and its owner cannot be kept".into(),
        ),
        (
            GAMES,
            0o2666,
            0o777,
            guest(),
            "it is set-group-ID, and its group cannot be kept".into(),
        ),
        // Only a member of a group can make a file set-group-ID.
        (
            (GAMES.0, MAN.1),
            0o2664,
            0o2775,
            shared.command(GAMES.0, GAMES.1, None),
            "its owner, group, mode or access list cannot be kept".into(),
        ),
    ];
    for (of, mode, folder_mode, command, reason) in cases {
        let folder = owned(of, mode, folder_mode);
        let told = format!("t: cannot be edited: {reason}");
        folder.run_by(command, &SET).tells(2, &[&told]);
        assert_eq!(folder.read("t"), T);
        assert_eq!(folder.access("t"), (of.0, of.1, mode));
        assert_eq!(folder.names(), ["t"], "{mode:o}");
    }
    // Whoever is not known to the system may be in the file's group or not.
    let folder = owned(NOBODY_KNOWS, 0o664, 0o2775);
    let member = shared.command(MAN.0, MAN.1, Some(NOBODY_KNOWS.1));
    let told = format!("t: cannot be edited: {owner} take from user 4111222 the right to write it");
    folder.run_by(member, &SET).tells(2, &[&told]);
    assert_eq!(folder.names(), ["t"]);
}

/// The group must not get what the list gives to one user.
#[test]
fn an_access_list_stays() {
    let folder = Folder::new().with(b"t", T);
    folder.mode("t", 0o640);
    folder.set_list("t", &["-m", "u:65534:rw"]);
    let (list, access) = (folder.list("t"), folder.access("t"));
    assert!(
        list.contains("user:65534:rw-") && list.contains("group::r--"),
        "{list}"
    );
    folder.run(&SET).writes(b"");
    folder
        .run(&[b"set", b"t", b"Name", b"x", b"--discard-journal"])
        .writes(b"");
    for name in ["t", JOURNAL, ".t.kveldrim-journal-1"] {
        assert_eq!(folder.list(name), list, "{name}");
        assert_eq!(folder.access(name), access, "{name}");
    }
}

/// What a folder gives to new files does not come to the edited one.
#[test]
fn a_folder_with_a_default_list() {
    let folder = Folder::new().with(b"t", T);
    folder.mode("t", 0o640);
    let list = folder.list("t");
    folder.set_list(".", &["-d", "-m", "u:65534:rwx,g::rwx,o::rwx"]);
    folder.run(&SET).writes(b"");
    for name in ["t", JOURNAL] {
        assert_eq!(folder.list(name), list, "{name}");
    }
}

/// A member edits a file with a list. His own entry in it is then the owner's, so it must say the same.
#[test]
fn a_list_and_a_new_owner_as_root() {
    let shared = Shared::new();
    let man = || shared.command(MAN.0, MAN.1, Some(GAMES.1));
    let folder = owned(GAMES, 0o660, 0o2775);
    folder.set_list("t", &["-m", "u:7:r,u:6:rw"]);
    let list = folder.list("t");
    folder.run_by(man(), &SET).writes(b"");
    assert_eq!(folder.access("t"), (MAN.0, GAMES.1, 0o660));
    assert_eq!(folder.list("t"), list);

    let folder = owned(GAMES, 0o660, 0o2775);
    folder.set_list("t", &["-m", "u:5:r"]);
    let told = "t: cannot be edited: its owner cannot be kept, and with another one the edit would take from \
        games the right to write it";
    folder.run_by(man(), &SET).tells(2, &[told]);
    assert_eq!(folder.names(), ["t"]);
}

#[test]
fn extended_attributes_stay() {
    let folder = Folder::new().with(b"t", T);
    folder
        .open("t")
        .set_xattr("user.note", b"from \xFF")
        .unwrap();
    folder.open("t").set_xattr("user.empty", b"").unwrap();
    folder.run(&SET).writes(b"");
    folder.run(&[b"undo", b"t"]).writes(b"");
    let value = |name| folder.open("t").get_xattr(name).unwrap();
    assert_eq!(value("user.note").as_deref(), Some(&b"from \xFF"[..]));
    assert_eq!(value("user.empty").as_deref(), Some(&b""[..]));
}

/// Root can keep an attribute that the owner cannot; he is told which.
#[test]
fn an_attribute_that_cannot_be_kept_as_root() {
    let shared = Shared::new();
    let folder = owned(GAMES, 0o644, 0o755);
    folder
        .open("t")
        .set_xattr("security.kveldrim", b"x")
        .unwrap();
    let told = "t: cannot be edited: its extended attribute security.kveldrim cannot be kept: \
        Operation not permitted";
    let games = shared.command(GAMES.0, GAMES.1, None);
    folder.run_by(games, &SET).tells(2, &[told]);
    assert_eq!(folder.names(), ["t"]);
    folder.run(&SET).writes(b"");
    let value = folder.open("t").get_xattr("security.kveldrim").unwrap();
    assert_eq!(value.as_deref(), Some(&b"x"[..]));
    assert_eq!(folder.access("t"), (GAMES.0, GAMES.1, 0o644));
}

/// In a sticky folder a file is replaced by its owner alone. Who may not is told before anything is written.
#[test]
fn a_sticky_folder_as_root() {
    let shared = Shared::new();
    let folder = owned(GAMES, 0o666, 0o755);
    chown(&folder.0, Some(0), Some(0)).unwrap();
    folder.mode(".", 0o1777);
    let man = || shared.command(MAN.0, MAN.1, None);
    let games = || shared.command(GAMES.0, GAMES.1, None);
    let told = "t: cannot be edited: its folder is sticky: only the owners of the file and of the folder may replace it";
    folder.run_by(man(), &SET).tells(2, &[told]);
    assert_eq!(folder.names(), ["t"]);
    folder.run_by(games(), &SET).writes(b"");
    // A set of the value that is there would change no byte; it is refused all the same.
    let (edited, journal) = (folder.read("t"), folder.read(JOURNAL));
    folder.run_by(man(), &SET).tells(2, &[told]);
    folder.run_by(man(), &FORGET).tells(2, &[told]);
    assert_eq!((folder.read("t"), folder.read(JOURNAL)), (edited, journal));
    folder.run_by(games(), &[b"undo", b"t"]).writes(b"");
    assert_eq!(folder.read("t"), T);
}

/// Where the owner of a sticky folder forgets edits of another's file, the journal is his then. Who owns the file is told why he
/// cannot edit it.
#[test]
fn a_sticky_folder_with_a_journal_of_its_owner_as_root() {
    let shared = Shared::new();
    let games = || shared.command(GAMES.0, GAMES.1, None);
    let folder = owned(GAMES, 0o664, 0o1777);
    for _ in 0..2 {
        folder.run_by(games(), &SET).writes(b"");
    }
    chown(&folder.0, Some(MAN.0), None).unwrap();
    let man = shared.command(MAN.0, MAN.1, Some(GAMES.1));
    assert_eq!(folder.run_by(man, &FORGET).status, 0);
    let owners = ["t", JOURNAL].map(|name| folder.access(name).0);
    assert_eq!(owners, [GAMES.0, MAN.0]);
    let before = folder.all();
    let told = "t: cannot be edited: its folder is sticky: only the owners of its journal .t.kveldrim-journal and of the \
        folder may replace it";
    for words in [&SET[..], &[b"undo", b"t"], &FORGET] {
        folder.run_by(games(), words).tells(2, &[told]);
        assert_eq!(folder.all(), before);
    }
}

/// Somebody who may put files into a sticky folder, but may not replace one there, cannot do so by a journal.
#[test]
fn a_journal_of_somebody_else_as_root() {
    let shared = Shared::new();
    let games = || shared.command(GAMES.0, GAMES.1, None);
    let own = owned(MAN, 0o644, 0o755);
    own.run_by(shared.command(MAN.0, MAN.1, None), &SET)
        .writes(b"");
    let folder = owned(GAMES, 0o644, 0o1777);
    fs::write(folder.0.join("t"), own.read("t")).unwrap();
    let folder = folder.with(JOURNAL.as_bytes(), &own.read(JOURNAL));
    let journal = folder.0.join(JOURNAL);
    chown(&journal, Some(MAN.0), Some(MAN.1)).unwrap();
    let told = "t: cannot be read: its journal .t.kveldrim-journal was made by somebody who may not replace the file";
    for words in [&[&b"undo"[..], b"t"][..], &[b"log", b"t"], &SET, &FORGET] {
        folder.run_by(games(), words).tells(2, &[told]);
        assert_eq!(folder.read("t"), own.read("t"));
    }
    // Where the folder is not sticky, he may replace the file as well.
    folder.mode(".", 0o777);
    folder.run_by(games(), &[b"undo", b"t"]).writes(b"");
    assert_eq!(folder.read("t"), T);
}

/// Nor can he say there who made an edit.
#[test]
fn persons_of_somebody_else_as_root() {
    let shared = Shared::new();
    let games = || shared.command(GAMES.0, GAMES.1, None);
    let name = "kveldrim-persons.txt";
    let folder = owned(GAMES, 0o644, 0o1777).with(name.as_bytes(), b"5 Anna\n");
    let path = fs::canonicalize(&folder.0).unwrap().join(name);
    chown(&path, Some(MAN.0), Some(MAN.1)).unwrap();
    let set = [&SET[..], &[b"--person", b"Anna"]].concat();
    let why = "the file of persons cannot be read: it was made by somebody who may not replace the edited file \
        (--persons FILE names another)";
    let told = format!("{}: {why}", path.display());
    folder.run_by(games(), &set).tells(2, &[&told]);
    assert_eq!(folder.read("t"), T);
    for owner in [GAMES, (0, 0)] {
        chown(&path, Some(owner.0), Some(owner.1)).unwrap();
        folder.run_by(games(), &set).writes(b"");
    }
    chown(&path, Some(MAN.0), Some(MAN.1)).unwrap();
    folder.run_by(games(), &set).tells(2, &[&told]);
    // Where no name is needed, it is a warning.
    let warning = |about: &str| format!("{}: warning: {about}: {why}", path.display());
    let without_names = warning("persons are told without names");
    let edit = "Name in Desktop Entry: \"Les";
    let log = format!(
        "stands: {edit}en\" became \"Les\", by person 5\n\
        stands: {edit}\" became \"Les\", by person 5\n"
    );
    folder
        .run_by(games(), &[b"log", b"t"])
        .tells_and_writes(0, &[&without_names], log.as_bytes());
    let undo = |who: &[u8]| folder.run_by(games(), &[b"undo", b"t", b"--person", who]);
    undo(b"7").tells(0, &[&without_names, "t: warning: Name in Desktop Entry"]);
    undo(b"Anna").tells(0, &[&warning("edits of others are not told as such")]);
    folder.run_by(games(), &[b"redo", b"t", b"2"]).writes(b"");
    // His own file of persons counts for himself.
    let log = folder.run_by(shared.command(MAN.0, MAN.1, None), &[b"log", b"t"]);
    let line = "Name in Desktop Entry: \"Lesen\" became \"Les\", by \"Anna\" (person 5)";
    let again = line.replace("Lesen", "Les");
    log.writes(format!("stands: {line}\nstands: {again}\n").as_bytes());
    folder.mode(".", 0o777);
    folder.run_by(games(), &set).writes(b"");
}

/// A file of persons that may not be read is as one with a fault.
#[test]
fn persons_that_may_not_be_read_as_root() {
    let shared = Shared::new();
    let games = |words: &[&[u8]], folder: &Folder| {
        folder.run_by(shared.command(GAMES.0, GAMES.1, None), words)
    };
    let name = "kveldrim-persons.txt";
    let folder = owned(GAMES, 0o644, 0o777).with(name.as_bytes(), b"5 Anna\n");
    folder.mode(name, 0o600);
    let path = fs::canonicalize(&folder.0).unwrap().join(name);
    let why = "cannot be read: Permission denied";
    let told = format!("{}: the file of persons {why}", path.display());
    let by_name: [&[u8]; 2] = [b"--person", b"Anna"];
    games(&[&SET[..], &by_name].concat(), &folder).tells(2, &[&told]);
    games(&[&SET[..], &[b"--person", b"5"]].concat(), &folder).writes(b"");
    let named = format!("{name}: the file of persons (--persons or KVELDRIM_PERSONS) {why}");
    let log: [&[u8]; 4] = [b"log", b"t", b"--persons", name.as_bytes()];
    games(&log, &folder).tells(2, &[&named]);
    let undo = games(&[&[b"undo", &b"t"[..]], &by_name[..]].concat(), &folder);
    let about = "warning: edits of others are not told as such";
    let warning = format!("{}: {about}: the file of persons {why}", path.display());
    undo.tells(0, &[&warning]);
    assert_eq!(folder.read("t"), T);
}

/// A killed run of one user does not hold up another, whatever rights its files have.
#[test]
fn what_another_user_left_behind_as_root() {
    let shared = Shared::new();
    let folder = owned(GAMES, 0o664, 0o2775);
    for name in [".t.kveldrim-new", ".t.kveldrim-journal-new"] {
        fs::write(folder.0.join(name), b"[Desk").unwrap();
        folder.mode(name, 0);
    }
    let man = shared.command(MAN.0, MAN.1, Some(GAMES.1));
    folder.run_by(man, &SET).writes(b"");
    assert_eq!(folder.names(), [JOURNAL, "t"]);
}

/// In a sticky folder anybody can take the names of the files that are written aside: which one is in the way is told.
#[test]
fn names_that_somebody_else_has_as_root() {
    let shared = Shared::new();
    let games = || shared.command(GAMES.0, GAMES.1, None);
    for name in [".t.kveldrim-new", ".t.kveldrim-journal-new"] {
        let folder = owned(GAMES, 0o644, 0o1777);
        folder.run_by(games(), &SET).writes(b"");
        chown(&folder.0, Some(0), Some(0)).unwrap();
        let folder = folder.with(name.as_bytes(), b"");
        chown(folder.0.join(name), Some(MAN.0), Some(MAN.1)).unwrap();
        let before = folder.all();
        let told = format!("t: cannot be edited: you may not remove {name} beside it");
        for words in [&SET[..], &FORGET] {
            folder.run_by(games(), words).tells(2, &[&told]);
            assert_eq!(folder.all(), before);
        }
    }
}

/// A reader beside an editor disturbs nobody, and is not disturbed.
#[test]
fn a_reader_beside_an_editor() {
    let folder = Folder::new().with(b"t", T);
    let done = AtomicBool::new(false);
    thread::scope(|scope| {
        scope.spawn(|| loop {
            let log = folder.run(&[b"log", b"t"]);
            let told = String::from_utf8_lossy(&log.told);
            assert_eq!((log.status, &*told), (0, ""));
            if done.load(Ordering::Relaxed) {
                break;
            }
        });
        let failed: Vec<String> = (0..60)
            .map(|number| folder.run(&[b"set", b"t", b"Name", number.to_string().as_bytes()]))
            .filter(|set| set.status != 0)
            .map(|set| String::from_utf8_lossy(&set.told).into_owned())
            .collect();
        done.store(true, Ordering::Relaxed);
        assert_eq!(failed, [""; 0]);
    });
    let log = folder.run(&[b"log", b"t"]).out;
    assert_eq!(log.iter().filter(|byte| **byte == b'\n').count(), 60);
}
