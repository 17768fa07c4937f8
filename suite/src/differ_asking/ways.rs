//! The ways in which an answer teaches a table something, or doesn't.
use super::asked::Asked;
use crate::second_asking::{Heard, Learned};

/// One of them.
#[derive(Clone, Copy, Debug, PartialEq, Eq)]
pub(super) enum Way {
    Variables,
    FewerGroups,
    AllGroups,
    NextGroup,
    OtherMembers,
    SameGroups,
    Curves,
    Functions,
    Made,
    NotMade,
    Removed,
}

/// Their names, in that order.
pub(super) const WAYS: [&str; 11] = [
    "02",
    "04 with fewer groups",
    "04 with all known",
    "06 of the next group",
    "06 with other members",
    "06 with nothing new",
    "08",
    "0C",
    "30",
    "30 that can't be followed",
    "32",
];

impl Way {
    /// The way of an answer that was heard, with the tables before and after it; none if it teaches nothing.
    pub(super) fn of(asked: &Asked, heard: &Heard, from: &Learned, to: &Learned) -> Option<Way> {
        let same = from.groups == to.groups;
        Some(match heard {
            Heard::Variables(_) => Way::Variables,
            Heard::Groups(_) if same => Way::AllGroups,
            Heard::Groups(_) => Way::FewerGroups,
            Heard::Members(_) if same => Way::SameGroups,
            Heard::Members(_) if from.groups.len() < to.groups.len() => Way::NextGroup,
            Heard::Members(_) => Way::OtherMembers,
            Heard::Curves(_) => Way::Curves,
            Heard::Functions(_) => Way::Functions,
            Heard::Done if asked.code == 0x30 && same => Way::NotMade,
            Heard::Done if asked.code == 0x30 => Way::Made,
            Heard::Done if asked.code == 0x32 => Way::Removed,
            _ => return None,
        })
    }
}
