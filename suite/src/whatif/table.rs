//! What in a board breaks 01's table, as 2026-03 amends it: the reason of refusal 1.
use super::bytes::{counted, grouped};
use super::things::listed;
use crate::lent::{
    all_declared, byte_place, full_lengths, members, sums_length, values_length, Lent,
};
use cruachvel::{Kind, Variable, MOST_BLOCKS, MOST_CURVE_BYTES, MOST_VALUE_BYTES, MOST_VARIABLES};

/// The first thing that breaks the table, if something does.
pub fn broken(lent: &Lent) -> Option<String> {
    variables(&lent.variables)
        .or_else(|| curves(&lent.curves))
        .or_else(|| functions(&lent.functions))
        .or_else(|| stores(lent))
        .or_else(|| lengths(lent))
        .or_else(|| groups(lent))
}

/// A board as a fresh board looks at it: if there is a length for each block, it may be any, since all blocks are made full.
pub fn filled(lent: &Lent) -> Lent {
    let full = full_lengths(&lent.curves);
    let mut filled = lent.clone();
    if filled.lengths.len() == full.len() {
        filled.lengths = full;
    }
    filled
}

/// Whether the first thing that breaks it are lengths or sums, of which 01 itself says nothing.
pub fn breaks_amendment(lent: &Lent) -> bool {
    let mut mended = lent.clone();
    mended.lengths = full_lengths(&lent.curves);
    mended.sums = vec![0; sums_length(&lent.curves)];
    broken(lent) != broken(&mended)
}

/// The same for the variable records alone, which is what the readings look at.
pub fn variables(variables: &[Variable]) -> Option<String> {
    let (count, bytes) = (variables.len(), values_length(variables));
    if !(1..=MOST_VARIABLES).contains(&count) {
        return Some(format!(
            "{}; 1 to 64 are allowed",
            counted(count, "variable")
        ));
    }
    let records = variables.iter().enumerate();
    let mut wrong = records
        .filter_map(|(number, record)| Some(format!("variable {} {}", number, variable(record)?)));
    wrong.next().or_else(|| {
        let total = counted(bytes, "byte");
        (bytes > MOST_VALUE_BYTES)
            .then(|| format!("the variables have {}; at most 4,096 are allowed", total))
    })
}

fn variable(record: &Variable) -> Option<String> {
    let (size, number) = (record.size, record.kind != Kind::Plain.number());
    if record.writable > 1 {
        Some(format!(
            "has type {}, which is neither 0 nor 1",
            record.writable
        ))
    } else if usize::from(record.kind) >= Kind::ALL.len() {
        Some(format!("has kind {}, which there is not", record.kind))
    } else if !(1..=127).contains(&size) {
        Some(format!(
            "has {}; 1 to 127 are allowed",
            counted(size.into(), "byte")
        ))
    } else if number && !matches!(size, 1 | 2 | 4 | 8) {
        Some(format!(
            "is a number of {} bytes; a number has 1, 2, 4 or 8",
            size
        ))
    } else {
        None
    }
}

/// The same for the curve records, three numbers each.
pub fn curves(curves: &[u32]) -> Option<String> {
    let (count, left) = (curves.len() / 3, curves.len() % 3);
    if left != 0 {
        return Some("a curve record is cut off".to_string());
    }
    if count > 8 {
        return Some(format!("{} curves; 0 to 8 are allowed", count));
    }
    let records = curves.chunks_exact(3).enumerate();
    let mut wrong =
        records.filter_map(|(number, record)| Some(format!("curve {} {}", number, curve(record)?)));
    wrong.next().or_else(|| {
        let bytes = byte_place(curves, count).start;
        let total = grouped(bytes);
        (bytes > MOST_CURVE_BYTES).then(|| {
            format!(
                "the curves have {} bytes; at most 65,536 are allowed",
                total
            )
        })
    })
}

fn curve(record: &[u32]) -> Option<String> {
    let (kind, size, blocks) = (record[0], record[1] as usize, record[2] as usize);
    if kind > 1 {
        Some(format!("has type {}, which is neither 0 nor 1", kind))
    } else if !(1..=4096).contains(&size) {
        Some(format!(
            "has blocks of {}; 1 to 4,096 are allowed",
            counted(size, "byte")
        ))
    } else if !(1..=MOST_BLOCKS).contains(&blocks) {
        Some(format!(
            "has {}; 1 to 65,536 are allowed",
            counted(blocks, "block")
        ))
    } else {
        None
    }
}

/// The same for the function records, two numbers each.
pub fn functions(functions: &[u8]) -> Option<String> {
    let (count, left) = (functions.len() / 2, functions.len() % 2);
    if left != 0 {
        return Some("a function record is cut off".to_string());
    }
    if count > 16 {
        return Some(format!("{} functions; 0 to 16 are allowed", count));
    }
    let place = functions.iter().position(|bytes| *bytes > 15)?;
    let side = ["input", "output"][place % 2];
    Some(format!(
        "function {} has {} bytes of {}; 0 to 15 are allowed",
        place / 2,
        functions[place],
        side
    ))
}

fn stores(lent: &Lent) -> Option<String> {
    let stores = [
        (
            "variables",
            lent.values.len(),
            values_length(&lent.variables),
        ),
        (
            "curves",
            lent.blocks.len(),
            byte_place(&lent.curves, lent.curves.len() / 3).start,
        ),
        ("sums", lent.sums.len(), sums_length(&lent.curves)),
    ];
    let (name, lent, right) = stores.into_iter().find(|(_, lent, right)| lent != right)?;
    Some(format!(
        "the {}' store has {}; the records add up to {}",
        name,
        counted(lent, "byte"),
        grouped(right)
    ))
}

fn lengths(lent: &Lent) -> Option<String> {
    let full = full_lengths(&lent.curves);
    if lent.lengths.len() != full.len() {
        return Some(format!(
            "{} for {}; each block has one",
            counted(lent.lengths.len(), "length"),
            counted(full.len(), "block")
        ));
    }
    let pairs = || lent.lengths.iter().zip(&full);
    let place = pairs().position(|(length, full)| !(1..=*full).contains(length))?;
    let of_curve = |number: &usize| lent.length_place(*number).contains(&place);
    let number = (0..lent.curves.len() / 3).find(of_curve)?;
    Some(format!(
        "block {} of curve {} has length {}; 1 to {} are allowed",
        place - lent.length_place(number).start,
        number,
        grouped(lent.lengths[place].into()),
        grouped(full[place].into())
    ))
}

fn groups(lent: &Lent) -> Option<String> {
    let (count, declared) = (lent.groups.count, all_declared(lent.variables.len()));
    if count > 5 {
        return Some(format!("{} made groups; 0 to 5 are allowed", count));
    }
    let made = &lent.groups.sets[..count as usize];
    let place = made
        .iter()
        .position(|set| *set == 0 || set & !declared != 0)?;
    let unknown = listed(members(made[place] & !declared));
    Some(if made[place] == 0 {
        format!("group {} is empty", place + 3)
    } else {
        format!(
            "group {} has variables that are not declared: {}",
            place + 3,
            unknown
        )
    })
}
