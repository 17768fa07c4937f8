//! How often each thing was met, in words, and what never was.
use super::asked::UNWRITABLE;
use super::tally::{Refusals, Tally};
use super::ways::WAYS;
use crate::packets::COMMANDS;

/// Replies by where they come from.
const SOURCES: [&str; 6] = [
    "from the nodes",
    "damaged",
    "to another request",
    "drawn to fit nearly",
    "with another table",
    "of random bytes",
];

/// What is heard, by the archive's numbers from 1 on.
const KINDS: [&str; 13] = [
    "errors",
    "done",
    "versions",
    "lists of variables",
    "lists of groups",
    "lists of members",
    "lists of curves",
    "lists of functions",
    "values",
    "blocks",
    "sums",
    "outputs",
    "functions' errors",
];

type Counts = Vec<(String, u64)>;

impl Tally {
    /// A line for each sort of thing.
    pub fn lines(&self) -> Vec<String> {
        let part = |(name, count): &(String, u64)| format!("{} {}", name, count);
        let line = |(sort, counts): (&str, Counts)| {
            let parts: Vec<String> = counts.iter().map(part).collect();
            format!("{}: {}", sort, parts.join(", "))
        };
        self.sorts().into_iter().map(line).collect()
    }

    /// What never came up: a comparison says something only of what did.
    pub fn not_met(&self) -> Vec<String> {
        let mut missing = vec![];
        for (sort, counts) in self.sorts() {
            let zeros = counts.into_iter().filter(|(_, count)| *count == 0);
            missing.extend(zeros.map(|(name, _)| format!("{}: {}", sort, name)));
        }
        missing
    }

    fn sorts(&self) -> Vec<(&'static str, Counts)> {
        let mut written = by_code(&COMMANDS, |code| self.written[usize::from(code)]);
        written.push(("of 4,104 bytes".to_string(), self.longest));
        let mut heard = named(&KINDS, &self.kinds[1..]);
        let errors = [0xE1, 0xE2, 0xE3, 0xE4, 0xE5, 0xE6, 0xE7, 0xE8];
        heard.extend(by_code(&errors, |code| self.errors[usize::from(code)]));
        let [unfit, fit] = [0, 1].map(|fits| self.sources.map(|counts| counts[fits]));
        let mut unfit = named(&SOURCES[1..], &unfit[1..]);
        unfit.push(("to multicast requests".to_string(), self.multicast));
        let mut learned = named(&WAYS, &self.ways);
        learned.push(("whole nodes from nothing".to_string(), self.nodes));
        vec![
            ("requests written", written),
            ("requests refused", refused(&self.unwritten, &[2, 3, 14])),
            ("refused with 14", named(&UNWRITABLE, &self.unwritable)),
            ("requests answered", self.answered()),
            ("replies heard", heard),
            ("replies refused", refused(&self.unheard, &[1, 2, 4, 5, 13])),
            ("replies that fit", named(&SOURCES, &fit)),
            ("replies that don't fit", unfit),
            ("tables learned by", learned),
            ("places", told_or_refused(&self.places, &[1, 9])),
            (
                "numbers",
                told_or_refused(&self.numbers, &[1, 9, 10, 11, 12]),
            ),
        ]
    }

    fn answered(&self) -> Counts {
        let mut counts = vec![];
        for code in COMMANDS {
            for answer in answers(code) {
                let place = usize::from(code) * 256 + usize::from(answer);
                let name = format!("{:02X} with {:02X}", code, answer);
                counts.push((name, self.answers[place]));
            }
        }
        counts.push(("30 of unsorted IDs with E0".to_string(), self.unsorted));
        counts
    }
}

// What nodes answer to a request that can be written: its answer, and 01's errors but E1 and E2.
fn answers(code: u8) -> Vec<u8> {
    let mut answers = match code {
        0x28 => vec![0x11],
        0x50 => vec![0x51, 0x53],
        0x00..=0x12 | 0x40 => vec![code + 1],
        _ => vec![0xE0],
    };
    let errors: &[u8] = match code {
        0x06 | 0x0A | 0x42 => &[0xE3],
        0x10 | 0x12 => &[0xE3, 0xE8],
        0x20..=0x28 => &[0xE3, 0xE5, 0xE6, 0xE8],
        0x30 => &[0xE3, 0xE4, 0xE5, 0xE7],
        0x40 => &[0xE3, 0xE4],
        0x41 => &[0xE3, 0xE4, 0xE5, 0xE6],
        0x50 => &[0xE3, 0xE5],
        _ => &[],
    };
    answers.extend(errors);
    answers
}

fn named(names: &[&str], counts: &[u64]) -> Counts {
    let pairs = names.iter().zip(counts);
    pairs
        .map(|(name, count)| (name.to_string(), *count))
        .collect()
}

fn by_code(codes: &[u8], count: impl Fn(u8) -> u64) -> Counts {
    let named = |code: &u8| (format!("{:02X}", code), count(*code));
    codes.iter().map(named).collect()
}

fn refused(counts: &Refusals, refusals: &[usize]) -> Counts {
    let named = |refusal: &usize| (format!("with {}", refusal), counts[*refusal]);
    refusals.iter().map(named).collect()
}

fn told_or_refused(counts: &Refusals, refusals: &[usize]) -> Counts {
    let mut all = vec![("told".to_string(), counts[0])];
    let refused = refused(counts, refusals);
    all.extend(
        refused
            .into_iter()
            .map(|(name, count)| (format!("refused {}", name), count)),
    );
    all
}
