//! Who may do what with a file, by its owner, group, mode and access list, and whom a new owner or group would give a right
//! or take one from.

/// Reading, writing and running, as the bits of a mode.
const RIGHTS: [(u32, &str); 3] = [(4, "read"), (2, "write"), (1, "run")];

const SET_USER: u32 = 0o4000;
const SET_GROUP: u32 = 0o2000;

/// What an entry of an access list is about.
#[derive(Debug, Clone, Copy, PartialEq, Eq)]
enum Tag {
    Owner,
    User(u32),
    OwningGroup,
    Group(u32),
    Mask,
    Others,
}

#[derive(Debug, Clone, Copy, PartialEq, Eq)]
struct Entry {
    tag: Tag,
    rights: u32,
}

/// An access list beyond what the mode says (acl(5)).
#[derive(Debug, Clone, PartialEq, Eq)]
pub struct List(Vec<Entry>);

impl List {
    /// The list in the bytes of `system.posix_acl_access`; Err if they are not of that form. One that says no more than a
    /// mode can is none.
    pub fn read(bytes: &[u8]) -> Result<Option<List>, ()> {
        let entries = bytes.strip_prefix(&2u32.to_le_bytes()).ok_or(())?;
        let entries = entries.chunks(8).map(Entry::read).collect::<Option<_>>();
        let list = List(entries.ok_or(())?);
        let plain = |tag| matches!(tag, Tag::Owner | Tag::OwningGroup | Tag::Others);
        let plain = list.0.iter().all(|entry| plain(entry.tag));
        Ok((!plain).then_some(list))
    }

    /// The rights that an entry gives, those of users and groups as far as the mask lets them.
    fn rights(&self, wanted: Tag) -> Option<u32> {
        let find = |tag| self.0.iter().find(|entry| entry.tag == tag);
        let rights = find(wanted)?.rights;
        Some(match (wanted, find(Tag::Mask)) {
            (Tag::User(_) | Tag::OwningGroup | Tag::Group(_), Some(mask)) => rights & mask.rights,
            _ => rights,
        })
    }

    fn groups(&self) -> impl Iterator<Item = u32> + '_ {
        self.0.iter().filter_map(|entry| match entry.tag {
            Tag::Group(gid) => Some(gid),
            _ => None,
        })
    }
}

impl Entry {
    /// An entry of 8 bytes: what it is about, its rights, and a user's or group's number.
    fn read(bytes: &[u8]) -> Option<Entry> {
        let [t0, t1, r0, r1, number @ ..]: [u8; 8] = bytes.try_into().ok()?;
        let number = u32::from_le_bytes(number);
        let tag = match u16::from_le_bytes([t0, t1]) {
            0x01 => Tag::Owner,
            0x02 => Tag::User(number),
            0x04 => Tag::OwningGroup,
            0x08 => Tag::Group(number),
            0x10 => Tag::Mask,
            0x20 => Tag::Others,
            _ => return None,
        };
        let rights = u16::from_le_bytes([r0, r1]).into();
        Some(Entry { tag, rights })
    }
}

/// The owner, the group, the mode and the list of a file.
#[derive(Debug, Clone, PartialEq, Eq)]
pub struct Access {
    pub uid: u32,
    pub gid: u32,
    /// The rights, and the bits for set-user-ID, set-group-ID and sticky.
    pub mode: u32,
    pub list: Option<List>,
}

/// A user and the groups that he is in; none if they are not known.
pub struct Person {
    pub uid: u32,
    pub name: String,
    pub groups: Option<Vec<u32>>,
}

impl Access {
    /// Whether somebody gets all the rights that he wants. One entry alone must give them.
    fn grants(&self, uid: u32, groups: &[u32], want: u32) -> bool {
        let gives = |rights: u32| rights & want == want;
        let listed = |tag| self.list.as_ref().and_then(|list| list.rights(tag));
        if uid == self.uid {
            return gives(self.mode >> 6);
        }
        if let Some(rights) = listed(Tag::User(uid)) {
            return gives(rights);
        }
        let owning = listed(Tag::OwningGroup).unwrap_or(self.mode >> 3);
        let owning = groups.contains(&self.gid).then_some(owning);
        let named = groups.iter().filter_map(|gid| listed(Tag::Group(*gid)));
        let mut by_group = named.chain(owning).peekable();
        match by_group.peek() {
            Some(_) => by_group.any(gives),
            None => gives(self.mode),
        }
    }

    /// Every set of groups that matters for a person: his own, or, where they are not known, none and each one that has rights
    /// of its own here.
    fn groups_of(&self, person: &Person) -> Vec<Vec<u32>> {
        if let Some(groups) = &person.groups {
            return vec![groups.clone()];
        }
        let named = self.list.iter().flat_map(List::groups);
        let each = named.chain([self.gid]).map(|gid| vec![gid]);
        each.chain([Vec::new()]).collect()
    }

    /// Why a file with this access must not be replaced by one with the other, in words; none if everybody keeps what he may
    /// do and nobody gains. Both have the same mode and list; the people are the owners of both.
    pub fn hinders(&self, other: &Access, people: &[Person]) -> Option<String> {
        if self.gid != other.gid && (self.list.is_some() || (self.mode >> 3) & 7 != self.mode & 7) {
            return Some(format!(
                "its group {} cannot be kept, and has rights of its own",
                self.gid
            ));
        }
        if self.gid != other.gid && self.mode & SET_GROUP != 0 {
            return Some("it is set-group-ID, and its group cannot be kept".into());
        }
        if self.uid != other.uid && self.mode & SET_USER != 0 {
            return Some("it is set-user-ID, and its owner cannot be kept".into());
        }
        people
            .iter()
            .find_map(|person| self.changes_for(other, person))
    }

    /// The right that a person would lose or gain, in words. Root loses none with a file that was his; a new owner may be root
    /// in a user namespace alone.
    fn changes_for(&self, other: &Access, person: &Person) -> Option<String> {
        if (person.uid, self.uid) == (0, 0) {
            return None;
        }
        let cases = [self, other].map(|access| access.groups_of(person));
        for groups in cases.concat() {
            // A single right first, then several at once.
            for want in [4, 2, 1, 6, 5, 3, 7] {
                let granted = |access: &Access| access.grants(person.uid, &groups, want);
                let change = match (granted(self), granted(other)) {
                    (true, false) => "take from",
                    (false, true) => "give",
                    _ => continue,
                };
                let (name, right) = (&person.name, right(want));
                return Some(format!(
                    "its owner cannot be kept, and with another one the edit would {change} {name} the right to {right} it"
                ));
            }
        }
        None
    }
}

fn right(want: u32) -> String {
    let words = RIGHTS.into_iter().filter(|(bit, _)| want & bit != 0);
    words
        .map(|(_, word)| word)
        .collect::<Vec<_>>()
        .join(" and ")
}

#[cfg(test)]
mod tests {
    use super::*;

    const A: u32 = 1001;
    const B: u32 = 1002;
    const GROUP: u32 = 2000;
    const OTHER: u32 = 3000;

    fn access(mode: u32, list: &[(Tag, u32)]) -> Access {
        let entries = list.iter().map(|(tag, rights)| Entry {
            tag: *tag,
            rights: *rights,
        });
        let list = List(entries.collect());
        Access {
            uid: A,
            gid: GROUP,
            mode,
            list: (!list.0.is_empty()).then_some(list),
        }
    }

    fn person(uid: u32, groups: Option<&[u32]>) -> Person {
        Person {
            uid,
            name: format!("u{uid}"),
            groups: groups.map(<[u32]>::to_vec),
        }
    }

    /// What hinders B from having A's file, if A is in these groups and B in the file's.
    fn hinders(access: &Access, a: Option<&[u32]>) -> Option<String> {
        let other = Access {
            uid: B,
            ..access.clone()
        };
        access.hinders(&other, &[person(A, a), person(B, Some(&[GROUP]))])
    }

    fn told(change: &str) -> Option<String> {
        let words = "its owner cannot be kept, and with another one the edit would";
        Some(format!("{words} {change} it"))
    }

    #[test]
    fn a_shared_file() {
        let members: &[u32] = &[7, GROUP];
        for mode in [0o664, 0o660, 0o666, 0o775, 0o1664] {
            assert_eq!(hinders(&access(mode, &[]), Some(members)), None, "{mode:o}");
        }
    }

    #[test]
    fn what_an_owner_would_lose_or_gain() {
        let lost = |mode, groups: Option<&[u32]>| hinders(&access(mode, &[]), groups);
        assert_eq!(
            lost(0o664, Some(&[])),
            told("take from u1001 the right to write")
        );
        assert_eq!(
            lost(0o660, Some(&[7])),
            told("take from u1001 the right to read")
        );
        assert_eq!(
            lost(0o764, Some(&[GROUP])),
            told("take from u1001 the right to run")
        );
        assert_eq!(
            lost(0o467, Some(&[])),
            told("give u1001 the right to write")
        );
        assert_eq!(
            lost(0o460, Some(&[GROUP])),
            told("give u1001 the right to write")
        );
        // A is bound as before, B is not.
        assert_eq!(lost(0o666, Some(&[])), None);
        assert_eq!(
            lost(0o676, Some(&[])),
            told("take from u1002 the right to run")
        );
        assert_eq!(lost(0o767, Some(&[])), told("give u1002 the right to run"));
    }

    /// Somebody whose groups are not known may be in the file's group or not.
    #[test]
    fn an_owner_who_is_not_known() {
        assert_eq!(
            hinders(&access(0o664, &[]), None),
            told("take from u1001 the right to write")
        );
        assert_eq!(
            hinders(&access(0o646, &[]), None),
            told("take from u1001 the right to write")
        );
        assert_eq!(hinders(&access(0o666, &[]), None), None);
    }

    #[test]
    fn root() {
        let given = |from: u32, to: u32, mode: u32| {
            let file = Access {
                uid: from,
                ..access(mode, &[])
            };
            let other = Access {
                uid: to,
                ..file.clone()
            };
            let people = [person(from, Some(&[])), person(to, Some(&[GROUP]))];
            file.hinders(&other, &people)
        };
        assert_eq!(given(0, B, 0o664), None);
        assert_eq!(given(A, 0, 0o767), told("give u0 the right to run"));
    }

    const BASE: [(Tag, u32); 4] = [
        (Tag::Owner, 6),
        (Tag::OwningGroup, 6),
        (Tag::Mask, 6),
        (Tag::Others, 0),
    ];

    #[test]
    fn lists() {
        let with = |more: &[(Tag, u32)]| access(0o660, &[&BASE[..], more].concat());
        // A named entry of A comes before the groups; the mask bounds it.
        assert_eq!(hinders(&with(&[(Tag::User(A), 7)]), Some(&[])), None);
        assert_eq!(
            hinders(&with(&[(Tag::User(A), 4)]), Some(&[GROUP])),
            told("take from u1001 the right to write")
        );
        // B's named entry was all that he had.
        assert_eq!(
            hinders(&with(&[(Tag::User(A), 6), (Tag::User(B), 4)]), Some(&[])),
            told("give u1002 the right to write")
        );
        // A group's entry serves, but its others' rights do not.
        assert_eq!(
            hinders(&with(&[(Tag::Group(OTHER), 6)]), Some(&[OTHER])),
            None
        );
        assert_eq!(
            hinders(&with(&[(Tag::Group(OTHER), 4)]), Some(&[OTHER])),
            told("take from u1001 the right to write")
        );
        assert_eq!(
            hinders(&with(&[(Tag::Group(OTHER), 4)]), Some(&[OTHER, GROUP])),
            None
        );
    }

    /// Two entries that give a right each do not give both at once.
    #[test]
    fn rights_that_must_come_together() {
        let list = [
            (Tag::Owner, 6),
            (Tag::OwningGroup, 4),
            (Tag::Group(OTHER), 2),
            (Tag::User(B), 6),
            (Tag::Mask, 6),
            (Tag::Others, 0),
        ];
        assert_eq!(
            hinders(&access(0o660, &list), Some(&[GROUP, OTHER])),
            told("take from u1001 the right to read and write")
        );
    }

    #[test]
    fn a_group_that_cannot_be_kept() {
        let people = || [person(A, Some(&[GROUP])), person(B, Some(&[OTHER]))];
        let hinders = |access: Access| {
            let other = Access {
                uid: B,
                gid: OTHER,
                ..access.clone()
            };
            access.hinders(&other, &people())
        };
        let group = Some("its group 2000 cannot be kept, and has rights of its own".to_string());
        assert_eq!(hinders(access(0o666, &[])), None);
        assert_eq!(hinders(access(0o664, &[])), group);
        assert_eq!(hinders(access(0o646, &[])), group);
        assert_eq!(hinders(access(0o666, &BASE)), group);
        let set = hinders(access(0o2666, &[])).unwrap();
        assert!(set.starts_with("it is set-group-ID"), "{set}");
    }

    #[test]
    fn set_user_id() {
        let set = hinders(&access(0o4777, &[]), Some(&[GROUP])).unwrap();
        assert!(set.starts_with("it is set-user-ID"), "{set}");
        assert_eq!(hinders(&access(0o2777, &[]), Some(&[GROUP])), None);
    }

    /// The bytes of `setfacl -m u:65534:rw` on a file of mode 640.
    #[test]
    fn the_bytes_of_a_list() {
        let none = [0xFF; 4];
        let entry =
            |tag: u8, rights: u8, number: [u8; 4]| [&[tag, 0, rights, 0][..], &number].concat();
        let entries = [
            entry(1, 6, none),
            entry(2, 6, [0xFE, 0xFF, 0, 0]),
            entry(4, 4, none),
            entry(0x10, 6, none),
            entry(0x20, 0, none),
        ];
        let bytes = [&[2, 0, 0, 0][..], &entries.concat()].concat();
        let list = List::read(&bytes).unwrap().unwrap();
        let rights = [
            (Tag::Owner, Some(6)),
            (Tag::User(65_534), Some(6)),
            (Tag::User(1), None),
            (Tag::OwningGroup, Some(4)),
            (Tag::Mask, Some(6)),
            (Tag::Others, Some(0)),
        ];
        for (tag, expected) in rights {
            assert_eq!(list.rights(tag), expected, "{tag:?}");
        }
        for wrong in [&bytes[..3], &bytes[..15], &[&[3], &bytes[1..]].concat()] {
            assert_eq!(List::read(wrong), Err(()));
        }
        let plain = [0, 2, 4].map(|at| entries[at].clone()).concat();
        assert_eq!(List::read(&[&bytes[..4], &plain].concat()), Ok(None));
    }
}
