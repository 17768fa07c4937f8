//! What a board file tells: the kinds, which don't travel, and what the node's lists must be.
use cruachvel::{Curve, Function, Kind, Learned, Variable};
use std::ffi::OsStr;
use std::path::Path;
use suite::lent::Lent;
use suite::whatif::board_file;
use suite::whatif::bytes::counted;
use suite::whatif::things::type_name;

pub struct Board {
    pub name: String,
    lent: Lent,
}

impl Board {
    /// The board of a file; else what is wrong with it.
    pub fn read(path: &OsStr) -> Result<Board, String> {
        let path = Path::new(path);
        let setting = board_file::read(path).map_err(|message| {
            let plain = message.split(" (os error").next();
            plain.unwrap_or_default().to_string()
        })?;
        Ok(Board {
            name: path.display().to_string(),
            lent: setting.lent,
        })
    }

    pub fn kinds(&self) -> Vec<Kind> {
        let kind = |variable: &Variable| Kind::ALL.get(usize::from(variable.kind)).copied();
        let kinds = self.lent.variables.iter().map(kind);
        kinds.map(|kind| kind.unwrap_or(Kind::Plain)).collect()
    }

    /// The table that its node's lists would tell, and its made groups, as far as there is room.
    pub fn learned(&self) -> Learned {
        let lent = &self.lent;
        let mut learned = Learned::new();
        learned.variables = lent.variables.len() as u64;
        for (number, variable) in lent.variables.iter().enumerate().take(64) {
            learned.sizes[number] = variable.size;
            learned.writable |= u64::from(variable.writable == 1) << number;
        }
        learned.groups = lent.groups.count;
        learned.sets = lent.groups.sets;
        learned.curves = (lent.curves.len() / 3) as u64;
        let curves = lent.curves.chunks_exact(3);
        for (place, record) in learned.shapes.iter_mut().zip(curves) {
            *place = Curve {
                writable: record[0],
                block_size: record[1],
                blocks: record[2],
            };
        }
        learned.functions = (lent.functions.len() / 2) as u64;
        let functions = lent.functions.chunks_exact(2);
        for (place, record) in learned.calls.iter_mut().zip(functions) {
            *place = Function {
                input: record[0],
                output: record[1],
            };
        }
        learned
    }

    /// In what the node's variables differ from the file's, if they do.
    pub fn other_variables(&self, learned: &Learned) -> Option<String> {
        self.other("variable", variables(learned), variables(&self.learned()))
    }

    pub fn other_curves(&self, learned: &Learned) -> Option<String> {
        self.other("curve", curves(learned), curves(&self.learned()))
    }

    pub fn other_functions(&self, learned: &Learned) -> Option<String> {
        self.other("function", functions(learned), functions(&self.learned()))
    }

    fn other(&self, sort: &str, node: Vec<String>, file: Vec<String>) -> Option<String> {
        let what = if node.len() != file.len() {
            let (has, file) = (counted(node.len(), sort), counted(file.len(), sort));
            format!("it has {}, and the file {}", has, file)
        } else {
            let pairs = node.iter().zip(&file);
            let (place, (node, file)) = pairs.enumerate().find(|(_, (a, b))| a != b)?;
            format!(
                "its {} {} is {}, and the file's {}",
                sort, place, node, file
            )
        };
        Some(format!("the node is not that of {}: {}", self.name, what))
    }
}

/// The known variables in words.
pub fn variables(learned: &Learned) -> Vec<String> {
    let sizes = learned.sizes.iter().enumerate();
    sizes
        .take(known(learned.variables))
        .map(|(number, size)| {
            let writable = type_name(learned.writable >> number & 1 == 1);
            format!("{}, {}", writable, counted((*size).into(), "byte"))
        })
        .collect()
}

/// The known curves in words.
pub fn curves(learned: &Learned) -> Vec<String> {
    let shapes = learned.shapes.iter().take(known(learned.curves));
    shapes
        .map(|shape| {
            let writable = type_name(shape.writable == 1);
            let blocks = counted(shape.blocks as usize, "block");
            let bytes = counted(shape.block_size as usize, "byte");
            format!("{}, {} of {}", writable, blocks, bytes)
        })
        .collect()
}

/// The known functions in words.
pub fn functions(learned: &Learned) -> Vec<String> {
    let calls = learned.calls.iter().take(known(learned.functions));
    calls
        .map(|call| {
            let input = counted(call.input.into(), "byte");
            let output = counted(call.output.into(), "byte");
            format!("{} in, {} out", input, output)
        })
        .collect()
}

fn known(count: u64) -> usize {
    usize::try_from(count).unwrap_or(usize::MAX)
}
