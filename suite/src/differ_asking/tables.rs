//! A learned table in both sides' forms.
use crate::lent::Lent;
use crate::second_asking::{self, Heard};
use cruachvel::{Curve, Function, Groups, Learned};

/// So many records of a sort at most are taken over: more than any limit, kind or ID reaches.
const MOST_TAKEN: u64 = 320;

/// A table as the archive takes it, and as the second side does.
#[derive(Clone, Debug)]
pub(crate) struct Table {
    pub(crate) raw: Learned,
    pub(crate) known: second_asking::Learned,
}

impl Table {
    pub(crate) fn of(raw: Learned) -> Table {
        Table {
            known: known(&raw),
            raw,
        }
    }
}

// Records past the places are blank ones.
fn taken<T>(count: u64, record: impl Fn(usize) -> Option<T>, blank: T) -> Vec<T>
where
    T: Clone,
{
    let count = count.min(MOST_TAKEN) as usize;
    let record = |place| record(place).unwrap_or_else(|| blank.clone());
    (0..count).map(record).collect()
}

/// The second side's form.
pub(super) fn known(raw: &Learned) -> second_asking::Learned {
    let variable = |place: usize| {
        let size = raw.sizes.get(place)?;
        Some((raw.writable >> place & 1 == 1, *size))
    };
    let curve = |place: usize| {
        let curve = raw.shapes.get(place)?;
        Some((curve.writable, curve.block_size, curve.blocks))
    };
    let function = |place: usize| {
        let function = raw.calls.get(place)?;
        Some((function.input, function.output))
    };
    second_asking::Learned {
        variables: taken(raw.variables, variable, (false, 0)),
        groups: taken(raw.groups, |place| raw.sets.get(place).copied(), 0),
        curves: taken(raw.curves, curve, (0, 0, 0)),
        functions: taken(raw.functions, function, (0, 0)),
    }
}

/// The table that a board lends to its node, with nothing in the places that it doesn't use.
pub(crate) fn of_board(lent: &Lent, groups: &Groups) -> Learned {
    let mut raw = Learned::new();
    let variables = lent.variables.iter();
    put_variables(&mut raw, variables.map(|v| (v.writable == 1, v.size)));
    put_groups(&mut raw, &groups.sets[..groups.count as usize]);
    let curves = lent.curves.chunks_exact(3);
    put_curves(&mut raw, curves.map(|c| (c[0], c[1], c[2])));
    let functions = lent.functions.chunks_exact(2);
    put_functions(&mut raw, functions.map(|f| (f[0], f[1])));
    raw
}

/// The raw table after an answer that was heard, where the second side's went from one to the other: what the answer tells takes its
/// places, and all others stay.
pub(super) fn taught(before: &Table, heard: &Heard, after: &second_asking::Learned) -> Learned {
    let mut raw = before.raw;
    match heard {
        Heard::Variables(variables) => {
            put_variables(&mut raw, variables.iter().copied());
            raw.groups = 0;
        }
        Heard::Curves(curves) => put_curves(&mut raw, curves.iter().copied()),
        Heard::Functions(functions) => put_functions(&mut raw, functions.iter().copied()),
        _ if after.groups != before.known.groups => {
            let count = raw.groups;
            put_groups(&mut raw, &after.groups);
            if after.groups.len() == before.known.groups.len() {
                raw.groups = count;
            }
        }
        _ => (),
    }
    raw
}

fn put_variables(raw: &mut Learned, variables: impl Iterator<Item = (bool, u8)>) {
    raw.variables = 0;
    raw.writable = 0;
    for (place, (writable, size)) in variables.enumerate() {
        raw.variables += 1;
        if let Some(known) = raw.sizes.get_mut(place) {
            *known = size;
            raw.writable |= u64::from(writable) << place;
        }
    }
}

fn put_groups(raw: &mut Learned, groups: &[u64]) {
    raw.groups = groups.len() as u64;
    for (place, set) in raw.sets.iter_mut().zip(groups) {
        *place = *set;
    }
}

fn put_curves(raw: &mut Learned, curves: impl Iterator<Item = (u32, u32, u32)>) {
    raw.curves = 0;
    for (place, (writable, block_size, blocks)) in curves.enumerate() {
        raw.curves += 1;
        if let Some(known) = raw.shapes.get_mut(place) {
            *known = Curve {
                writable,
                block_size,
                blocks,
            };
        }
    }
}

fn put_functions(raw: &mut Learned, functions: impl Iterator<Item = (u8, u8)>) {
    raw.functions = 0;
    for (place, (input, output)) in functions.enumerate() {
        raw.functions += 1;
        if let Some(known) = raw.calls.get_mut(place) {
            *known = Function { input, output };
        }
    }
}
