//! What to ask to learn a node whole.
use super::{Answer, Request};
use crate::wire::WireError;
use crate::GroupNumber;

/// What to ask next to learn a node whole: its variables (02), its groups (04) and the members of each made one (06), its curves (08) and its
/// functions (0C).
///
/// The gateway learns by hearing the answers; this only says what is still to be asked. See [`Gateway`](super::Gateway) for an example.
#[derive(Clone, Copy, Debug, PartialEq, Eq)]
pub struct Lists {
    step: Step,
}

#[derive(Clone, Copy, Debug, PartialEq, Eq)]
enum Step {
    Variables,
    Groups,
    // The next group, and how many groups there are.
    Members(usize, usize),
    Curves,
    Functions,
    Learned,
}

const FIRST_MADE_GROUP: usize = 3;

// Groups 0 to 2 are known with the variables.
fn members(next: usize, groups: usize) -> Step {
    if next < groups {
        Step::Members(next, groups)
    } else {
        Step::Curves
    }
}

impl Lists {
    /// Nothing was asked yet.
    pub const fn new() -> Lists {
        Lists {
            step: Step::Variables,
        }
    }

    /// What to ask next; none if all lists were heard.
    pub fn to_ask(&self) -> Option<Request<'static>> {
        match self.step {
            Step::Variables => Some(Request::ListVariables),
            Step::Groups => Some(Request::ListGroups),
            Step::Members(next, _) => Some(Request::ShowGroup(GroupNumber(next))),
            Step::Curves => Some(Request::ListCurves),
            Step::Functions => Some(Request::ListFunctions),
            Step::Learned => None,
        }
    }

    /// Takes the answer to what was to be asked. An error is given back, and the same is to be asked again; so it is after an answer to
    /// something else.
    pub fn heard(&mut self, answer: &Answer) -> Result<(), WireError> {
        self.step = match (self.step, answer) {
            (_, Answer::Error(error)) => return Err(*error),
            (Step::Variables, Answer::Variables(_)) => Step::Groups,
            (Step::Groups, Answer::Groups(groups)) => members(FIRST_MADE_GROUP, groups.len()),
            (Step::Members(next, groups), Answer::Members(_)) => members(next + 1, groups),
            (Step::Curves, Answer::Curves(_)) => Step::Functions,
            (Step::Functions, Answer::Functions(_)) => Step::Learned,
            (step, _) => step,
        };
        Ok(())
    }
}

impl Default for Lists {
    fn default() -> Lists {
        Lists::new()
    }
}
