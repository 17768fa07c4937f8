//! Learning: what an answer changes in the table.
#![forbid(unsafe_code)]

use super::reply::Heard;
use super::request::Request;
use super::table::{Learned, MADE_MOST, STANDING};

/// Puts into the table what an answer told; `data` is what went with the request.
pub fn learn(learned: &mut Learned, request: Request, data: &[u8], heard: &Heard) {
    match (request, heard) {
        (_, Heard::Variables(variables)) => {
            learned.variables.clone_from(variables);
            // They name variables of the list that was known before.
            learned.groups.clear();
        }
        (_, Heard::Groups(groups)) => {
            let made = groups.len().saturating_sub(STANDING);
            learned.groups.truncate(made);
        }
        (_, Heard::Curves(curves)) => learned.curves.clone_from(curves),
        (_, Heard::Functions(functions)) => learned.functions.clone_from(functions),
        (Request::ShowGroup(group), Heard::Members(ids)) => shown(learned, group, ids),
        (Request::MakeGroup, Heard::Done) => made(learned, data),
        (Request::RemoveGroups, Heard::Done) => learned.groups.clear(),
        _ => {}
    }
}

/// A group past the next place is left out, since those before it are not known yet.
fn shown(learned: &mut Learned, group: usize, ids: &[u8]) {
    let place = match group.checked_sub(STANDING) {
        Some(place) if place < MADE_MOST => place,
        _ => return,
    };
    if let Some(set) = learned.set_of(ids) {
        if place == learned.groups.len() {
            learned.groups.push(set);
        } else if let Some(known) = learned.groups.get_mut(place) {
            *known = set;
        }
    }
}

fn made(learned: &mut Learned, ids: &[u8]) {
    if learned.groups.len() >= MADE_MOST {
        return;
    }
    if let Some(set) = learned.set_of(ids) {
        learned.groups.push(set);
    }
}
