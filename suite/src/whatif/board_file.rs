//! A board described in a text file; docs/BOARD-FILE.md says how.
use super::bytes::{bytes, counted, repeated};
use super::call::variables;
use super::things::{is_signed, missing, missing_of, Setting};
use crate::lent::Lent;
use cruachvel::{md5, Address, Groups, Kind, Refusal, Variable, VariableNumber, SUM_SIZE};
use std::fmt;
use std::path::Path;
use std::str::FromStr;

/// What is wrong with a board file, and in which line; in line 0 if it is no single one.
#[derive(Clone, Debug, PartialEq, Eq)]
pub struct Mistake {
    pub line: usize,
    pub message: String,
}

impl fmt::Display for Mistake {
    fn fmt(&self, f: &mut fmt::Formatter) -> fmt::Result {
        match self.line {
            0 => f.write_str(&self.message),
            line => write!(f, "line {}: {}", line, self.message),
        }
    }
}

/// The board that a file describes; else the file's name, the line and what is wrong.
pub fn read(path: &Path) -> Result<Setting, String> {
    let named = |message: String| format!("{}: {}", path.display(), message);
    let text = std::fs::read_to_string(path).map_err(|error| named(error.to_string()))?;
    parse(&text).map_err(|mistake| named(mistake.to_string()))
}

/// The board that a text describes.
pub fn parse(text: &str) -> Result<Setting, Mistake> {
    let mut draft = Draft::new();
    for (place, line) in text.lines().enumerate() {
        let said = line.split('#').next().unwrap_or_default();
        let told = draft.take(&mut Words::of(said), place + 1);
        told.map_err(|message| Mistake {
            line: place + 1,
            message,
        })?;
    }
    draft.finish()
}

// The words of a line, taken one by one.
struct Words<'a> {
    rest: Vec<&'a str>,
}

impl<'a> Words<'a> {
    fn of(line: &'a str) -> Words<'a> {
        let mut rest: Vec<&str> = line.split_whitespace().collect();
        rest.reverse();
        Words { rest }
    }

    fn next(&mut self, what: &str) -> Result<&'a str, String> {
        self.rest
            .pop()
            .ok_or_else(|| format!("{} is missing", what))
    }

    // A number, as far as its place in the record can hold it; whether the node takes it is the node's to say.
    fn number<T: FromStr>(&mut self, what: &str, most: u32) -> Result<T, String> {
        number(self.next(what)?, what, most)
    }

    // The lengths that all further words stand for; 4*3 is 4 three times.
    fn lengths(&mut self) -> Result<Vec<u16>, String> {
        let mut all = Vec::new();
        while let Some(word) = self.rest.pop() {
            let (length, times) = repeated(word)?;
            let length = number(length, "a length", u16::MAX.into())?;
            all.resize(all.len() + times, length);
        }
        Ok(all)
    }

    // The bytes that all further words stand for.
    fn bytes(&mut self) -> Result<Vec<u8>, String> {
        let mut all = Vec::new();
        while let Some(word) = self.rest.pop() {
            all.extend(bytes(word).map_err(|_| format!("{:?} is no bytes in hex", word))?);
        }
        Ok(all)
    }

    // The set of variables that all further words name.
    fn set(&mut self) -> Result<u64, String> {
        self.rest
            .drain(..)
            .rev()
            .try_fold(0, |set, word| Ok(set | variables(word)?))
    }

    fn end(&self) -> Result<(), String> {
        match self.rest.last() {
            None => Ok(()),
            Some(word) => Err(format!("{:?} is too much", word)),
        }
    }
}

fn number<T: FromStr>(word: &str, what: &str, most: u32) -> Result<T, String> {
    word.parse().map_err(|_| match word.parse::<i128>() {
        Ok(number) => format!(
            "{} can't be {}: what the node is lent has room for 0 to {} there",
            what, number, most
        ),
        Err(_) => format!("{} is a number, and not {:?}", what, word),
    })
}

const ONCE: [&str; 7] = [
    "address",
    "multicast",
    "busy",
    "values",
    "blocks",
    "lengths",
    "sums",
];

// A board in the making.
struct Draft {
    lent: Lent,
    busy: u64,
    // The lines that may stand once, as far as they were met.
    once: Vec<&'static str>,
    // Bytes for a curve's first blocks: the line, the curve and the bytes.
    curve_bytes: Vec<(usize, usize, Vec<u8>)>,
    // Lengths of blocks, each with its line, curve and block.
    block_lengths: Vec<(usize, [usize; 2], u16)>,
    // Likewise a curve's sum.
    curve_sums: Vec<(usize, usize, Vec<u8>)>,
    whole_values: Option<Vec<u8>>,
    whole_blocks: Option<Vec<u8>>,
    whole_lengths: Option<Vec<u16>>,
    whole_sums: Option<Vec<u8>>,
}

impl Draft {
    fn new() -> Draft {
        let lent = Lent {
            variables: Vec::new(),
            curves: Vec::new(),
            functions: Vec::new(),
            groups: Groups::NONE,
            address: Address {
                own: 0,
                multicast: 1,
            },
            values: Vec::new(),
            blocks: Vec::new(),
            lengths: Vec::new(),
            sums: Vec::new(),
        };
        Draft {
            lent,
            busy: 0,
            once: Vec::new(),
            curve_bytes: Vec::new(),
            block_lengths: Vec::new(),
            curve_sums: Vec::new(),
            whole_values: None,
            whole_blocks: None,
            whole_lengths: None,
            whole_sums: None,
        }
    }

    fn take(&mut self, words: &mut Words, line: usize) -> Result<(), String> {
        let name = match words.rest.pop() {
            Some(name) => name,
            None => return Ok(()),
        };
        self.first(name)?;
        match name {
            "address" => self.lent.address.own = words.number("the address", 255)?,
            "multicast" => self.multicast(words)?,
            "variable" => self.variable(words)?,
            "curve" => self.curve(words, line)?,
            "length" => self.length(words, line)?,
            "sum" => self.sum(words, line)?,
            "function" => self.function(words)?,
            "group" => self.group(words)?,
            "busy" => self.busy = words.set()?,
            "values" => self.whole_values = Some(words.bytes()?),
            "blocks" => self.whole_blocks = Some(words.bytes()?),
            "lengths" => self.whole_lengths = Some(words.lengths()?),
            "sums" => self.whole_sums = Some(words.bytes()?),
            _ => return Err(format!("{:?} is none of address, multicast, variable, curve, length, sum, function, group, busy, values, blocks, lengths and sums", name)),
        }
        words.end()
    }

    fn first(&mut self, name: &str) -> Result<(), String> {
        if self.once.contains(&name) {
            return Err(format!("a board has one line with {}", name));
        }
        self.once.extend(ONCE.iter().filter(|once| **once == name));
        Ok(())
    }

    fn multicast(&mut self, words: &mut Words) -> Result<(), String> {
        match words.bytes()?[..] {
            [byte] => self.lent.address.multicast = byte,
            _ => return Err("the multicast byte is one byte in hex".to_string()),
        }
        Ok(())
    }

    fn variable(&mut self, words: &mut Words) -> Result<(), String> {
        let record = Variable {
            writable: writable(words)?.into(),
            size: words.number("the size", 255)?,
            kind: kind(words)?.number(),
        };
        let size = usize::from(record.size);
        let bytes = match words.rest.pop() {
            None => vec![0; size],
            Some("bytes") => words.bytes()?,
            Some("value") => number_bytes(record, words.next("the value")?)?,
            Some(other) => return Err(format!("{:?} is neither value nor bytes", other)),
        };
        if bytes.len() != size {
            return Err(format!(
                "the variable has {}, and {} are given",
                counted(size, "byte"),
                bytes.len()
            ));
        }
        self.lent.variables.push(record);
        self.lent.values.extend(bytes);
        Ok(())
    }

    fn curve(&mut self, words: &mut Words, line: usize) -> Result<(), String> {
        let curves = &mut self.lent.curves;
        let record: [u32; 3] = [
            writable(words)?.into(),
            words.number("the block size", u32::MAX)?,
            words.number("the number of blocks", u32::MAX)?,
        ];
        match words.rest.pop() {
            None => (),
            Some("bytes") => self
                .curve_bytes
                .push((line, curves.len() / 3, words.bytes()?)),
            Some(other) => return Err(format!("{:?} stands where bytes can stand", other)),
        }
        curves.extend(record);
        Ok(())
    }

    fn length(&mut self, words: &mut Words, line: usize) -> Result<(), String> {
        let curve = words.number::<u32>("the curve", u32::MAX)? as usize;
        let block = words.number::<u32>("the block", u32::MAX)? as usize;
        let length = words.number("the length", u16::MAX.into())?;
        let place = [curve, block];
        if self
            .block_lengths
            .iter()
            .any(|(_, given, _)| *given == place)
        {
            return Err(format!(
                "block {} of curve {} has one line with its length",
                block, curve
            ));
        }
        self.block_lengths.push((line, place, length));
        Ok(())
    }

    fn sum(&mut self, words: &mut Words, line: usize) -> Result<(), String> {
        let number = words.number::<u32>("the curve", u32::MAX)? as usize;
        let bytes = words.bytes()?;
        if bytes.len() != SUM_SIZE {
            let given = bytes.len();
            return Err(format!(
                "a sum has {} bytes, and {} are given",
                SUM_SIZE, given
            ));
        }
        if self.curve_sums.iter().any(|(_, given, _)| *given == number) {
            return Err(format!("curve {} has one line with its sum", number));
        }
        self.curve_sums.push((line, number, bytes));
        Ok(())
    }

    fn function(&mut self, words: &mut Words) -> Result<(), String> {
        let input: u8 = words.number("the input", 255)?;
        let output: u8 = words.number("the output", 255)?;
        self.lent.functions.extend([input, output]);
        Ok(())
    }

    fn group(&mut self, words: &mut Words) -> Result<(), String> {
        let (set, groups) = (words.set()?, &mut self.lent.groups);
        // Of more groups than the table has room for, the node sees that they are too many.
        if let Some(place) = groups.sets.get_mut(groups.count as usize) {
            *place = set;
        }
        groups.count += 1;
        Ok(())
    }

    fn finish(self) -> Result<Setting, Mistake> {
        if !self.once.contains(&"address") {
            return Err(Mistake {
                line: 0,
                message: "the line with the address is missing".to_string(),
            });
        }
        let mut whole = self.lent;
        let lent = &mut whole;
        lent.refit();
        for (line, number, bytes) in self.curve_bytes {
            let told = put_curve(lent, number, &bytes);
            told.map_err(|message| Mistake { line, message })?;
        }
        if let Some(values) = self.whole_values {
            lent.values = values;
        }
        if let Some(blocks) = self.whole_blocks {
            lent.blocks = blocks;
        }
        for (line, place, length) in self.block_lengths {
            let told = put_length(lent, place, length);
            told.map_err(|message| Mistake { line, message })?;
        }
        if let Some(lengths) = self.whole_lengths {
            lent.lengths = lengths;
        }
        for number in 0..lent.curves.len() / 3 {
            let sum = md5(&lent.curve_bytes(number));
            lent.sums[number * SUM_SIZE..(number + 1) * SUM_SIZE].copy_from_slice(&sum);
        }
        for (line, number, sum) in self.curve_sums {
            let told = put_sum(lent, number, &sum);
            told.map_err(|message| Mistake { line, message })?;
        }
        if let Some(sums) = self.whole_sums {
            lent.sums = sums;
        }
        Ok(Setting::new(whole, self.busy))
    }
}

// The first bytes of a curve, as far as the store has it: where the curves are too long for the node, it is shorter.
fn put_curve(lent: &mut Lent, number: usize, bytes: &[u8]) -> Result<(), String> {
    let place = lent.curve_place(number);
    if bytes.len() > place.len() {
        let has = counted(place.len(), "byte");
        return Err(format!(
            "the curve has {}, and {} are given",
            has,
            bytes.len()
        ));
    }
    let places = lent.blocks.iter_mut().skip(place.start);
    places.zip(bytes).for_each(|(place, byte)| *place = *byte);
    Ok(())
}

fn put_length(lent: &mut Lent, [number, block]: [usize; 2], length: u16) -> Result<(), String> {
    known_curve(lent, number)?;
    let place = lent.length_place(number);
    missing_of("curve", "block", block, place.len()).map_or(Ok(()), Err)?;
    // Where the blocks are too many for the node, there are fewer lengths.
    if let Some(given) = lent.lengths.get_mut(place.start + block) {
        *given = length;
    }
    Ok(())
}

fn put_sum(lent: &mut Lent, number: usize, sum: &[u8]) -> Result<(), String> {
    known_curve(lent, number)?;
    let start = number * SUM_SIZE;
    lent.sums[start..start + SUM_SIZE].copy_from_slice(sum);
    Ok(())
}

fn known_curve(lent: &Lent, number: usize) -> Result<(), String> {
    missing("curve", number, lent.curves.len() / 3).map_or(Ok(()), Err)
}

fn writable(words: &mut Words) -> Result<bool, String> {
    match words.next("read-only or writable")? {
        "read-only" => Ok(false),
        "writable" => Ok(true),
        other => Err(format!("{:?} is neither read-only nor writable", other)),
    }
}

fn kind(words: &mut Words) -> Result<Kind, String> {
    let name = words.next("the kind")?;
    if name == "plain" {
        return Ok(Kind::Plain);
    }
    match (name, words.next("big or little")?) {
        ("unsigned", "big") => Ok(Kind::UnsignedBig),
        ("unsigned", "little") => Ok(Kind::UnsignedLittle),
        ("signed", "big") => Ok(Kind::SignedBig),
        ("signed", "little") => Ok(Kind::SignedLittle),
        (name, order) => Err(format!("\"{} {}\" is none of plain, unsigned big, unsigned little, signed big and signed little", name, order)),
    }
}

/// The bytes of a number as a variable with this record has it, by the proved readings.
pub fn number_bytes(record: Variable, number: &str) -> Result<Vec<u8>, String> {
    let mut bytes = vec![0; record.size.into()];
    let (variable, long) = (VariableNumber(0), || {
        format!("{:?} is no number of 64 bits", number)
    });
    let written = if is_signed(&record) {
        let number = number.parse().map_err(|_| long())?;
        cruachvel::write_signed(&[record], variable, number, &mut bytes)
    } else {
        let number = number.parse().map_err(|_| long())?;
        cruachvel::write_unsigned(&[record], variable, number, &mut bytes)
    };
    match written {
        // The node refuses a record that breaks the table, whatever the variable holds.
        Ok(()) | Err(Refusal::BoardUnusable) => Ok(bytes),
        Err(refusal) => Err(format!(
            "{} is refused with {}, {}",
            number,
            refusal.number(),
            refusal
        )),
    }
}
