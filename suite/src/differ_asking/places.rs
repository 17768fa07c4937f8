//! Where a member's bytes stand in the reply to a read of its group, by hand.
use super::second_side::is_usable;
use crate::lent;
use crate::second_asking::Learned;
use cruachvel::raw::ToldPlace;

const TABLE_UNUSABLE: u8 = 1;
const NO_SUCH_VARIABLE: u8 = 9;
const HEAD: usize = 4;

/// The variables of a group, ascending; none if the table lacks the group.
pub(super) fn members(known: &Learned, group: usize) -> Option<Vec<usize>> {
    let count = known.variables.len();
    let of_type = |writable: bool| {
        let belongs = |variable: &usize| known.variables[*variable].0 == writable;
        (0..count).filter(belongs).collect()
    };
    match group {
        0 => Some((0..count).collect()),
        1 => Some(of_type(false)),
        2 => Some(of_type(true)),
        _ => {
            let set = *known.groups.get(group - 3)?;
            Some(lent::members(set).filter(|id| *id < count).collect())
        }
    }
}

/// Behind the head of the reply and the members before it.
pub(super) fn by_hand(known: &Learned, group: usize, variable: usize) -> ToldPlace {
    if !is_usable(known) {
        return refused(TABLE_UNUSABLE);
    }
    let members = members(known, group).unwrap_or_default();
    if !members.contains(&variable) {
        return refused(NO_SUCH_VARIABLE);
    }
    let size = |variable: usize| usize::from(known.variables[variable].1);
    let before = members.iter().take_while(|member| **member != variable);
    ToldPlace {
        refusal: 0,
        place: HEAD + before.map(|member| size(*member)).sum::<usize>(),
        length: size(variable),
    }
}

fn refused(refusal: u8) -> ToldPlace {
    ToldPlace {
        refusal,
        place: 0,
        length: 0,
    }
}
