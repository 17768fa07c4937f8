//! What was met on the way.
use super::calls::{Call, Entry};
use super::lengths::{self, Lengths};
use super::sums::Sums;
use super::Ending;
use crate::packets::{Wrong, COMMANDS};
use crate::second_lent::SecondLent;

/// Counts of what was met.
pub struct Tally {
    pub calls: u64,
    /// How often a request of code `r` was answered with code `a`, at `r * 256 + a`.
    answers: Vec<u64>,
    /// How often each local refusal was given, by its number.
    refusals: [u64; 13],
    /// How often a function was to be run: with an answer due, and without.
    runs: [u64; 2],
    silences: u64,
    /// How often 28 was answered with E8: for the variable written, and for the one read alone.
    busy_halves: [u64; 2],
    lengths: Lengths,
    sums: Sums,
    /// The drafts that were sent: by command, then by the first thing wrong in it, then by the second.
    drafts: Vec<u64>,
}

/// What the counts have to know of a board as it was before a call.
pub(super) struct Before {
    lengths: lengths::Before,
    sums: Vec<u8>,
}

impl Before {
    pub(super) fn of(call: &Call, second: &SecondLent) -> Before {
        Before {
            lengths: lengths::Before::of(call, second),
            sums: second.sums.clone(),
        }
    }
}

// Nothing wrong, or one of 01's wire errors.
const WAYS: usize = 1 + Wrong::ALL.len();

fn draft_place(command: u8, wrongs: &[Wrong]) -> usize {
    let way = |place: usize| wrongs.get(place).map_or(0, |wrong| 1 + *wrong as usize);
    (usize::from(command) * WAYS + way(0)) * WAYS + way(1)
}

impl Tally {
    pub(super) fn new() -> Tally {
        Tally {
            calls: 0,
            answers: vec![0; 256 * 256],
            refusals: [0; 13],
            runs: [0; 2],
            silences: 0,
            busy_halves: [0; 2],
            lengths: Lengths::default(),
            sums: Sums::default(),
            drafts: vec![0; 256 * WAYS * WAYS],
        }
    }

    /// A call that both nodes ended so, with what is to be known of before it and all else as it left it.
    pub(super) fn note(
        &mut self,
        call: &Call,
        ending: &Ending,
        before: &Before,
        after: &SecondLent,
    ) {
        let buffer = &after.buffer;
        self.calls += 1;
        self.lengths.note(call, ending, &before.lengths, after);
        self.sums.note(call, ending, &before.sums, after);
        match *ending {
            Ending::Refused(number) => self.refusals[usize::from(number)] += 1,
            Ending::Run { due, .. } => self.runs[usize::from(due)] += 1,
            Ending::Silence => self.silences += 1,
            Ending::Reply(_) => {
                if let (Entry::Packet { busy, .. }, [_, request, rest @ ..]) =
                    (&call.entry, &call.given[..])
                {
                    self.answers[usize::from(*request) * 256 + usize::from(buffer[1])] += 1;
                    if (*request, buffer[1]) == (0x28, 0xE8) {
                        self.busy_halves[usize::from(busy >> rest[2] & 1 == 0)] += 1;
                    }
                }
            }
            _ => (),
        }
        if let Entry::Packet {
            draft: Some(draft), ..
        } = &call.entry
        {
            self.drafts[draft_place(draft.command, &draft.wrongs)] += 1;
        }
    }

    fn drafted(&self, command: u8, wrongs: &[Wrong]) -> u64 {
        self.drafts[draft_place(command, wrongs)]
    }

    fn answered(&self, request: u8, answer: u8) -> u64 {
        self.answers[usize::from(request) * 256 + usize::from(answer)]
    }

    /// How often reads met a busy variable.
    pub fn busy_reads(&self) -> String {
        let [written, read] = self.busy_halves;
        format!(
            "E8 answered to 10 {} times, to 12 {} times, to 28 {} times, {} of them for the variable read alone",
            self.answered(0x10, 0xE8),
            self.answered(0x12, 0xE8),
            written + read,
            read
        )
    }

    /// How often blocks that aren't full were read, written, covered and filled, and wrong lengths refused.
    pub fn lengths(&self) -> String {
        self.lengths.text()
    }

    /// How often sums were read, renewed and worked out, and what else 0A and 42 got.
    pub fn sums(&self) -> String {
        let answered = |answer: u8| [0x0A, 0x42].map(|request| self.answered(request, answer));
        let ([e5, renewal_e5], [e3, renewal_e3]) = (answered(0xE5), answered(0xE3));
        format!(
            "{}; E5 answered to 0A {} times, to 42 {} times, E3 to 0A {} times, to 42 {} times",
            self.sums.text(),
            e5,
            renewal_e5,
            e3,
            renewal_e3
        )
    }

    /// What never came up: a comparison says something only of what did.
    pub fn not_met(&self) -> Vec<String> {
        let mut missing: Vec<String> = (1..=12)
            .filter(|refusal| self.refusals[*refusal] == 0)
            .map(|refusal| format!("refusal {}", refusal))
            .collect();
        if self.runs.contains(&0) {
            missing.push("a function to be run, with an answer due and without".to_string());
        }
        if self.silences == 0 {
            missing.push("silence".to_string());
        }
        if self.busy_halves.contains(&0) {
            missing.push(
                "28 with E8 for the variable written, and for the one read alone".to_string(),
            );
        }
        missing.extend(self.lengths.not_met());
        missing.extend(self.sums.not_met());
        for command in COMMANDS {
            missing.extend(self.answers_not_met(command));
            missing.extend(self.drafts_not_met(command));
        }
        missing
    }

    fn answers_not_met(&self, command: u8) -> Vec<String> {
        let good = match command {
            0x00..=0x0C | 0x10 | 0x12 | 0x40 => Some(command + 1),
            0x28 => Some(0x11),
            0x50 => None,
            _ => Some(0xE0),
        };
        // With an unknown command in its place, the answer is not this command's.
        let errors = wrongs_of(command).filter(|wrong| *wrong != Wrong::Command);
        good.into_iter()
            .chain(errors.map(Wrong::error))
            .filter(|answer| self.answered(command, *answer) == 0)
            .map(|answer| format!("{:02X} answered with {:02X}", command, answer))
            .collect()
    }

    // Messages with nothing wrong, one thing, and every pair of things.
    fn drafts_not_met(&self, command: u8) -> Vec<String> {
        let mut drafts = vec![vec![]];
        for first in wrongs_of(command) {
            drafts.push(vec![first]);
            let later = wrongs_of(command).filter(|second| *second > first);
            drafts.extend(later.map(|second| vec![first, second]));
        }
        drafts
            .iter()
            .filter(|wrongs| self.drafted(command, wrongs) == 0)
            .map(|wrongs| format!("{:02X} with {:?}", command, wrongs))
            .collect()
    }
}

// What a message of this command can have wrong, in 01's order.
fn wrongs_of(command: u8) -> impl Iterator<Item = Wrong> {
    let all = Wrong::ALL.into_iter();
    all.filter(move |wrong| wrong.concerns(command))
}
