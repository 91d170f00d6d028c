//! The access and the extended attributes of a file, and how a new file gets them: at no moment has anybody a right that he
//! did not have.

use std::ffi::{CString, OsStr, OsString};
use std::fs::{File, Permissions};
use std::io;
use std::os::unix::ffi::OsStrExt;
use std::os::unix::fs::{fchown, MetadataExt, PermissionsExt};

use nix::unistd::{getegid, geteuid, getgrouplist, getgroups, Gid, Uid, User};
use rustix::io::Errno;
use xattr::FileExt;

use crate::access::{Access, List, Person};
use crate::disk::step;
use crate::report::{plain, shown};

/// The extended attribute that holds the access list.
const LIST: &str = "system.posix_acl_access";

/// The number that stands for every user whom a user namespace does not know.
const UNMAPPED: u32 = 65_534;

/// What a file has besides its bytes.
pub struct Attributes {
    pub access: Access,
    /// The bytes of the access list.
    list: Option<Vec<u8>>,
    /// All other extended attributes.
    extended: Vec<(OsString, Vec<u8>)>,
}

impl Attributes {
    pub fn of(file: &File) -> io::Result<Attributes> {
        let list = get(file, OsStr::new(LIST))?;
        let known = list.as_deref().map_or(Ok(None), List::read);
        let known = known.map_err(|()| io::Error::other("its access list has an unknown form"))?;
        let made = file.metadata()?;
        let access = Access {
            uid: made.uid(),
            gid: made.gid(),
            mode: made.mode() & 0o7777,
            list: known,
        };
        Ok(Attributes {
            access,
            list,
            extended: extended(file)?,
        })
    }

    /// Gives all of this to a file that was just made with mode 600. An Err says what cannot be given.
    pub fn give(&self, new: &File) -> io::Result<()> {
        // Only who may write a file may set the attributes of users.
        self.give_extended(new, true)?;
        // A file system without owners and modes does not let them be set.
        let all_there = Attributes::of(new)?.access == self.access;
        let access = match all_there {
            true => self.access.clone(),
            false => self.give_owner(new)?,
        };
        self.give_extended(new, false)?;
        if !all_there {
            self.give_rights(new)?;
        }
        self.kept(new, &access)
    }

    /// Sets the extended attributes of users, or the others, as far as they are not there.
    fn give_extended(&self, new: &File, of_users: bool) -> io::Result<()> {
        for (name, value) in &self.extended {
            let of_user = name.as_bytes().starts_with(b"user.");
            if of_user == of_users && get(new, name)?.as_ref() != Some(value) {
                new.set_xattr(name, value)
                    .map_err(|error| lost(name, &error))?;
            }
        }
        Ok(())
    }

    /// Gives the owner and the group as far as that is allowed, and nobody any right. Answers what the file is to have; an
    /// Err if that would give somebody a right or take one.
    fn give_owner(&self, new: &File) -> io::Result<Access> {
        // The folder may have given it a list, whose mask a later mode would raise.
        if get(new, OsStr::new(LIST))?.is_some() {
            new.remove_xattr(LIST)?;
        }
        new.set_permissions(Permissions::from_mode(0o000))?;
        step();
        let Access { uid, gid, .. } = self.access;
        if !own(new, Some(uid), gid)? {
            own(new, None, gid)?;
        }
        step();
        let made = new.metadata()?;
        let access = Access {
            uid: made.uid(),
            gid: made.gid(),
            ..self.access.clone()
        };
        let people = [uid, made.uid()].map(person);
        match self.access.hinders(&access, &people) {
            Some(words) => Err(io::Error::other(words)),
            None => Ok(access),
        }
    }

    /// Gives the list and the mode.
    fn give_rights(&self, new: &File) -> io::Result<()> {
        if let Some(list) = &self.list {
            new.set_xattr(LIST, list)
                .map_err(|error| lost(OsStr::new(LIST), &error))?;
        }
        step();
        new.set_permissions(Permissions::from_mode(self.access.mode))
    }

    /// Whether all has come to the new file.
    fn kept(&self, new: &File, access: &Access) -> io::Result<()> {
        let found = Attributes::of(new)?;
        if found.access != *access {
            let words = "its owner, group, mode or access list cannot be kept";
            return Err(io::Error::other(words));
        }
        let missing = |attribute: &&(OsString, Vec<u8>)| !found.extended.contains(attribute);
        match self.extended.iter().find(missing) {
            Some((name, _)) => Err(lost(name, &io::Error::other("it has changed"))),
            None => Ok(()),
        }
    }
}

/// An extended attribute that a new file cannot be given.
fn lost(name: &OsStr, error: &io::Error) -> io::Error {
    let (name, reason) = (shown(name), plain(error));
    let name = String::from_utf8_lossy(&name);
    io::Error::other(format!(
        "its extended attribute {name} cannot be kept: {reason}"
    ))
}

/// What an answer is where the file system has no extended attributes.
fn unless_unsupported<T>(answer: io::Result<T>, none: T) -> io::Result<T> {
    let unsupported = [Errno::NOTSUP, Errno::OPNOTSUPP].map(|errno| Some(errno.raw_os_error()));
    match answer {
        Err(error) if unsupported.contains(&error.raw_os_error()) => Ok(none),
        answer => answer,
    }
}

/// The value of an extended attribute, if it is there.
fn get(file: &File, name: &OsStr) -> io::Result<Option<Vec<u8>>> {
    unless_unsupported(file.get_xattr(name), None).map_err(|error| lost(name, &error))
}

/// All extended attributes but the access list.
fn extended(file: &File) -> io::Result<Vec<(OsString, Vec<u8>)>> {
    let names = unless_unsupported(file.list_xattr().map(Iterator::collect), Vec::new())?;
    let others = names.into_iter().filter(|name| name != LIST);
    let with_value = |name: OsString| Ok(get(file, &name)?.map(|value| (name, value)));
    others
        .filter_map(|name| with_value(name).transpose())
        .collect()
}

/// Gives a file to an owner and a group; false if that is not allowed.
fn own(file: &File, uid: Option<u32>, gid: u32) -> io::Result<bool> {
    let made = file.metadata()?;
    if made.gid() == gid && uid.is_none_or(|uid| made.uid() == uid) {
        return Ok(true);
    }
    // In a user namespace that does not know the number it is an invalid one.
    let refusals = [Errno::PERM, Errno::INVAL].map(|errno| Some(errno.raw_os_error()));
    match fchown(file, uid, Some(gid)) {
        Err(error) if refusals.contains(&error.raw_os_error()) => Ok(false),
        owned => owned.map(|()| true),
    }
}

/// A user by his number, with his groups: of this process if it is his, else by the system's lists.
fn person(uid: u32) -> Person {
    let user = User::from_uid(Uid::from_raw(uid)).ok().flatten();
    let listed = |user: &User| {
        let name = CString::new(user.name.as_bytes()).ok()?;
        getgrouplist(&name, user.gid).ok()
    };
    let groups = match uid {
        _ if uid == geteuid().as_raw() => getgroups()
            .ok()
            .map(|more| [more, vec![getegid()]].concat()),
        UNMAPPED => None,
        _ => user.as_ref().and_then(listed),
    };
    Person {
        uid,
        name: user.map_or(format!("user {uid}"), |user| user.name),
        groups: groups.map(|groups| groups.into_iter().map(Gid::as_raw).collect()),
    }
}
