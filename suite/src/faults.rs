//! Every way in which 01's table of the board can be broken, by name.
use crate::boards::fill_up;
use crate::lent::{all_declared, full_lengths, values_length, Lent};
use cruachvel::{Curve, Kind, Variable, MOST_BLOCKS, MOST_VALUE_BYTES, MOST_VARIABLES, SUM_SIZE};

type Change = Box<dyn Fn(&mut Lent) + Send + Sync>;

/// One way to break a usable board.
pub struct Fault {
    pub name: String,
    /// Whether the variable records are what is wrong, so that the readings see it too.
    pub in_variables: bool,
    /// Whether a length is out of range, which a fresh board doesn't look at, as it sets it.
    pub set_by_fresh: bool,
    prepare: Change,
    spoil: Change,
}

impl Fault {
    /// Brings a small usable board to where one more change breaks it; it is usable still.
    pub fn prepare(&self, lent: &mut Lent) {
        (self.prepare)(lent);
        lent.refit();
    }

    /// That change.
    pub fn spoil(&self, lent: &mut Lent) {
        (self.spoil)(lent);
    }
}

/// All of them, by what is wrong: the list of variables, one of them, the list of curves, one of them, functions, stores, lengths, their
/// count, groups.
pub fn sorts_of_faults() -> Vec<Vec<Fault>> {
    let makers: [fn(&mut Vec<Fault>); 9] = [
        of_variables,
        of_each_variable,
        of_curves,
        of_each_curve,
        of_functions,
        of_stores,
        of_lengths,
        of_length_counts,
        of_groups,
    ];
    let made = |maker: fn(&mut Vec<Fault>)| {
        let mut faults = Vec::new();
        maker(&mut faults);
        faults
    };
    makers.into_iter().map(made).collect()
}

/// All of them, one after the other.
pub fn faults() -> Vec<Fault> {
    sorts_of_faults().into_iter().flatten().collect()
}

fn add(
    faults: &mut Vec<Fault>,
    name: impl Into<String>,
    prepare: impl Fn(&mut Lent) + Send + Sync + 'static,
    spoil: impl Fn(&mut Lent) + Send + Sync + 'static,
) {
    faults.push(Fault {
        name: name.into(),
        in_variables: false,
        set_by_fresh: false,
        prepare: Box::new(prepare),
        spoil: Box::new(spoil),
    });
}

// A wrong record is to be the only thing that is wrong, so the stores follow the records.
fn add_records(
    faults: &mut Vec<Fault>,
    name: impl Into<String>,
    prepare: impl Fn(&mut Lent) + Send + Sync + 'static,
    spoil: impl Fn(&mut Lent) + Send + Sync + 'static,
) {
    add(faults, name, prepare, move |lent| {
        spoil(lent);
        lent.refit();
    });
}

const ONE_BYTE: Variable = Variable::writable(1, Kind::Plain);

// So many variables. Those that are new have one byte; where there is no room for them, the last of the others come down to one too.
fn count_to(variables: &mut Vec<Variable>, count: usize) {
    variables.resize(count, ONE_BYTE);
    for place in (0..count).rev() {
        if values_length(variables) > MOST_VALUE_BYTES {
            variables[place] = ONE_BYTE;
        }
    }
}

fn of_variables(faults: &mut Vec<Fault>) {
    let no_groups = |lent: &mut Lent| lent.groups.count = 0;
    add_records(faults, "no variables", no_groups, |lent| {
        lent.variables.clear()
    });
    let sixty_four = |lent: &mut Lent| count_to(&mut lent.variables, MOST_VARIABLES);
    add_records(faults, "65 variables", sixty_four, |lent| {
        lent.variables.push(ONE_BYTE)
    });
    add_records(
        faults,
        "4,097 bytes of variables",
        |lent| fill_up(&mut lent.variables),
        |lent| {
            let grows = lent.variables.iter_mut().rev().find(|v| v.size < 127);
            if let Some(variable) = grows {
                variable.size += 1;
                variable.kind = Kind::Plain.number();
            }
        },
    );
    faults
        .iter_mut()
        .for_each(|fault| fault.in_variables = true);
}

// Where in a list the record stands that is to be wrong.
#[derive(Clone, Copy, Debug)]
enum Place {
    First,
    Middle,
    Last,
}

impl Place {
    const ALL: [Place; 3] = [Place::First, Place::Middle, Place::Last];

    fn of(self, count: usize) -> usize {
        match self {
            Place::First => 0,
            Place::Middle => count / 2,
            Place::Last => count - 1,
        }
    }
}

fn of_each_variable(faults: &mut Vec<Fault>) {
    for place in Place::ALL {
        for size in [0, 128, 255] {
            variable_fault(
                faults,
                place,
                format!("has {} bytes", size),
                move |variable| {
                    variable.size = size;
                    variable.kind = Kind::Plain.number();
                },
            );
        }
        for kind in Kind::ALL.into_iter().skip(1) {
            for size in [3, 5, 6, 7, 9, 16, 127] {
                let name = format!("is a number ({:?}) of {} bytes", kind, size);
                variable_fault(faults, place, name, move |variable| {
                    variable.size = size;
                    variable.kind = kind.number();
                });
            }
        }
        for writable in [2, 128, 255] {
            let name = format!("has type {}", writable);
            variable_fault(faults, place, name, move |variable| {
                variable.writable = writable
            });
        }
        for kind in [5, 128, 255] {
            let name = format!("has kind {}", kind);
            variable_fault(faults, place, name, move |variable| variable.kind = kind);
        }
    }
    faults
        .iter_mut()
        .for_each(|fault| fault.in_variables = true);
}

fn variable_fault(
    faults: &mut Vec<Fault>,
    place: Place,
    name: String,
    spoil: impl Fn(&mut Variable) + Send + Sync + 'static,
) {
    let name = format!("variable {:?} {}", place, name);
    add_records(
        faults,
        name,
        |_| (),
        move |lent| {
            let at = place.of(lent.variables.len());
            spoil(&mut lent.variables[at]);
        },
    );
}

fn with_curves(curves: &'static [Curve]) -> impl Fn(&mut Lent) + Send + Sync {
    move |lent| lent.curves = Curve::numbers(curves).to_vec()
}

fn of_curves(faults: &mut Vec<Fault>) {
    const EIGHT: [Curve; 8] = [Curve::writable(3, 5); 8];
    let ninth = |lent: &mut Lent| lent.curves.extend([1, 3, 5]);
    add_records(faults, "9 curves", with_curves(&EIGHT), ninth);
    for cut in [1, 2] {
        let name = format!("a curve record cut off after {} of its numbers", 3 - cut);
        add_records(faults, name, with_curves(&EIGHT), move |lent| {
            lent.curves.truncate(8 * 3 - cut)
        });
    }
    const FULL: [Curve; 2] = [Curve::writable(4096, 15), Curve::read_only(1, 4096)];
    let one_more = |lent: &mut Lent| lent.curves[5] += 1;
    add_records(
        faults,
        "65,537 bytes of curves",
        with_curves(&FULL),
        one_more,
    );
    add_records(
        faults,
        "curves of 2^64 bytes, which 64 bits count as few",
        with_curves(&EIGHT),
        |lent| {
            let huge = [1, u32::MAX, u32::MAX];
            lent.curves = [huge, huge, [1, 1, 1]].concat();
        },
    );
}

fn of_each_curve(faults: &mut Vec<Fault>) {
    let numbers: [(usize, &str, &[u32]); 3] = [
        (0, "type", &[2, 256, u32::MAX]),
        (1, "block size", &[0, 4097, 65536, u32::MAX]),
        (
            2,
            "number of blocks",
            &[0, MOST_BLOCKS as u32 + 1, 1 << 31, u32::MAX],
        ),
    ];
    const THREE: [Curve; 3] = [
        Curve::writable(1, 1),
        Curve::read_only(1, 1),
        Curve::writable(1, 1),
    ];
    for place in Place::ALL {
        for (field, what, wrong) in numbers {
            for &number in wrong {
                let name = format!("curve {:?} has {} {}", place, what, number);
                add_records(faults, name, with_curves(&THREE), move |lent| {
                    lent.curves[place.of(3) * 3 + field] = number
                });
            }
        }
        let name = format!("curve {:?} has 65,536 blocks of 65,536 bytes", place);
        add_records(faults, name, with_curves(&THREE), move |lent| {
            let start = place.of(3) * 3;
            lent.curves[start + 1..start + 3].fill(65536);
        });
    }
}

fn of_functions(faults: &mut Vec<Fault>) {
    let sixteen = |lent: &mut Lent| lent.functions.resize(16 * 2, 15);
    add(faults, "17 functions", sixteen, |lent| {
        lent.functions.extend([1, 1])
    });
    add(faults, "a function record cut off", sixteen, |lent| {
        lent.functions.pop();
    });
    for (field, what) in ["input", "output"].into_iter().enumerate() {
        for place in Place::ALL {
            for bytes in [16, 255] {
                let name = format!("function {:?} has {} bytes of {}", place, bytes, what);
                add(faults, name, sixteen, move |lent| {
                    lent.functions[place.of(16) * 2 + field] = bytes
                });
            }
        }
    }
}

fn of_stores(faults: &mut Vec<Fault>) {
    type Store = fn(&mut Lent) -> &mut Vec<u8>;
    let stores: [(&str, Store); 3] = [
        ("variables'", |lent| &mut lent.values),
        ("curves'", |lent| &mut lent.blocks),
        ("sums'", |lent| &mut lent.sums),
    ];
    const ONE: [Curve; 1] = [Curve::writable(4, 2)];
    for (name, store) in stores {
        let named = |how: &str| format!("the {} store {}", name, how);
        let shorter = move |lent: &mut Lent| {
            store(lent).pop();
        };
        add(faults, named("one byte short"), with_curves(&ONE), shorter);
        let longer = move |lent: &mut Lent| store(lent).push(0);
        add(faults, named("one byte long"), with_curves(&ONE), longer);
        let empty = move |lent: &mut Lent| store(lent).clear();
        add(faults, named("empty"), with_curves(&ONE), empty);
    }
    let one = |lent: &mut Lent| lent.blocks.push(0);
    add(
        faults,
        "a curves' store without curves",
        with_curves(&[]),
        one,
    );
    // Two wrongs that would even out if only the sum of both lengths were looked at.
    let moved = |lent: &mut Lent| lent.blocks.extend(lent.values.pop());
    add(
        faults,
        "a byte of one store in the other",
        with_curves(&ONE),
        moved,
    );
    of_sums(faults);
}

// The sums are of a whole number of curves, but of too few or too many, or half a sum too many; or what one store lacks is too much in the
// other.
fn of_sums(faults: &mut Vec<Fault>) {
    const TWO: [Curve; 2] = [Curve::writable(4, 2), Curve::read_only(2, 8)];
    let fewer = |lent: &mut Lent| lent.sums.truncate(SUM_SIZE);
    add(faults, "one sum for two curves", with_curves(&TWO), fewer);
    let more = |lent: &mut Lent| lent.sums.extend([0; SUM_SIZE]);
    add(faults, "three sums for two curves", with_curves(&TWO), more);
    add(faults, "a sum without curves", with_curves(&[]), more);
    let half = |lent: &mut Lent| lent.sums.extend([0; SUM_SIZE / 2]);
    add(
        faults,
        "two sums and a half for two curves",
        with_curves(&TWO),
        half,
    );
    let moved = |lent: &mut Lent| lent.blocks.extend(lent.sums.split_off(SUM_SIZE));
    add(faults, "a sum among the blocks", with_curves(&TWO), moved);
}

fn of_lengths(faults: &mut Vec<Fault>) {
    const THREE: [Curve; 3] = [
        Curve::writable(4, 2),
        Curve::read_only(2, 3),
        Curve::writable(4096, 2),
    ];
    const FEW: [Curve; 1] = [Curve::read_only(3, 37)];
    const MOST: [Curve; 1] = [Curve::writable(1, MOST_BLOCKS as u32)];
    for curves in [&THREE[..], &FEW, &MOST] {
        for place in Place::ALL {
            length_fault(faults, curves, place, "0", |_| 0);
            length_fault(faults, curves, place, "its block size + 1", |full| full + 1);
            length_fault(faults, curves, place, "65,535", |_| u16::MAX);
        }
    }
    // Each would be in range where its neighbour stands.
    add(
        faults,
        "a block as long as those of the curve before it",
        with_curves(&THREE),
        |lent| lent.lengths[2] = 4,
    );
    add(
        faults,
        "a block as long as those of the curve after it",
        with_curves(&THREE),
        |lent| lent.lengths[4] = 4096,
    );
    faults
        .iter_mut()
        .for_each(|fault| fault.set_by_fresh = true);
}

// One block of these curves gets a length that is wrong by its block size.
fn length_fault(
    faults: &mut Vec<Fault>,
    curves: &'static [Curve],
    place: Place,
    wrong: &str,
    length: fn(u16) -> u16,
) {
    let blocks: u32 = curves.iter().map(|curve| curve.blocks).sum();
    let name = format!("block {:?} of {} has length {}", place, blocks, wrong);
    add(faults, name, with_curves(curves), move |lent| {
        let full = full_lengths(&lent.curves);
        let at = place.of(full.len());
        lent.lengths[at] = length(full[at]);
    });
}

fn of_length_counts(faults: &mut Vec<Fault>) {
    const TWO: [Curve; 2] = [Curve::writable(4, 2), Curve::read_only(1, 3)];
    let counts = [
        (0, "no lengths"),
        (2, "a length for each curve"),
        (4, "one length too few"),
        (6, "one length too many"),
        (11, "a length for each byte"),
    ];
    for (count, name) in counts {
        add(faults, name, with_curves(&TWO), move |lent| {
            lent.lengths.resize(count, 1)
        });
    }
    let one = |lent: &mut Lent| lent.lengths.push(1);
    add(faults, "a length without curves", with_curves(&[]), one);
    const MOST: [Curve; 1] = [Curve::read_only(1, MOST_BLOCKS as u32)];
    add(faults, "65,537 lengths", with_curves(&MOST), one);
    let fewer = |lent: &mut Lent| {
        lent.lengths.pop();
    };
    add(faults, "65,535 lengths", with_curves(&MOST), fewer);
}

fn of_groups(faults: &mut Vec<Fault>) {
    let five = |lent: &mut Lent| {
        lent.groups.count = 5;
        lent.groups.sets = [1; 5];
    };
    for count in [6, 7, 256, 1 << 32, u64::MAX] {
        let name = format!("{} made groups", count);
        add(faults, name, five, move |lent| lent.groups.count = count);
    }
    // With 63 variables the one after the last is the last that a set has a bit for.
    let sixty_three = move |lent: &mut Lent| {
        count_to(&mut lent.variables, MOST_VARIABLES - 1);
        five(lent);
    };
    let room_left = move |lent: &mut Lent| {
        lent.variables.truncate(MOST_VARIABLES - 1);
        five(lent);
    };
    for place in 0..5 {
        let name = format!("group {} is empty", place + 3);
        add(faults, name, five, move |lent| lent.groups.sets[place] = 0);
        let name = format!("group {} has the variable after the last", place + 3);
        add(faults, name, room_left, move |lent| {
            lent.groups.sets[place] |= 1 << lent.variables.len()
        });
        let name = format!("group {} has variable 63 of 63", place + 3);
        add(faults, name, sixty_three, move |lent| {
            lent.groups.sets[place] |= 1 << 63
        });
        let name = format!("group {} has no declared variable", place + 3);
        add(faults, name, room_left, move |lent| {
            lent.groups.sets[place] = !all_declared(lent.variables.len())
        });
    }
}
