//! What the program is asked to do, in words.
use crate::arguments::{text, whole};
use cruachvel::Masking;
use std::ffi::OsString;
use std::path::PathBuf;
use suite::whatif::bytes::bytes;

/// A use of the program. Values are words until the variable's kind is known.
#[derive(Clone, Debug, PartialEq, Eq)]
pub enum Use {
    List,
    Version,
    Read(Vec<usize>),
    Write(Vec<(usize, String)>),
    WriteRead {
        written: usize,
        read: usize,
        value: String,
    },
    Mask(usize, Masking, Vec<u8>),
    Group(usize),
    WriteGroup(usize, Vec<String>),
    MaskGroup(usize, Masking, Vec<u8>),
    MakeGroup(Vec<u8>),
    RemoveGroups,
    Block(usize, usize),
    WriteBlock(usize, usize, Vec<u8>),
    Download(usize, PathBuf),
    Upload(usize, PathBuf),
    Sum(usize),
    Renew(usize),
    Run(usize, Vec<u8>),
    Watch(Vec<usize>),
}

// The words behind the use, taken one by one.
struct Words {
    name: String,
    rest: std::vec::IntoIter<OsString>,
}

impl Words {
    fn next(&mut self, what: &str) -> Result<OsString, String> {
        let word = self.rest.next();
        word.ok_or_else(|| format!("{}: {} is missing", self.name, what))
    }

    fn number(&mut self, what: &str) -> Result<usize, String> {
        let word = text(self.next(what)?);
        self.number_of(&word, what)
    }

    fn number_of(&self, word: &str, what: &str) -> Result<usize, String> {
        whole(word)
            .ok_or_else(|| format!("{}: {} is a number, and not {:?}", self.name, what, word))
    }

    // At least one.
    fn numbers(&mut self, what: &str) -> Result<Vec<usize>, String> {
        let mut all = vec![self.number(what)?];
        while let Some(word) = self.rest.next() {
            all.push(self.number_of(&text(word), what)?);
        }
        Ok(all)
    }

    fn hex(&mut self, what: &str) -> Result<Vec<u8>, String> {
        let word = text(self.next(what)?);
        hex(&word).map_err(|message| format!("{}: {}", self.name, message))
    }

    fn masking(&mut self) -> Result<Masking, String> {
        let word = text(self.next("the operation")?);
        let known = Masking::ALL
            .into_iter()
            .find(|masking| masking_name(*masking) == word);
        known.ok_or_else(|| {
            format!(
                "{}: the operation is set, or, clear, toggle, xor or and, and not {:?}",
                self.name, word
            )
        })
    }
}

/// An operation's name.
pub fn masking_name(masking: Masking) -> &'static str {
    match masking {
        Masking::Set => "set",
        Masking::Or => "or",
        Masking::Clear => "clear",
        Masking::Toggle => "toggle",
        Masking::Xor => "xor",
        Masking::And => "and",
    }
}

/// The bytes of a word in hex. What looks like a number is none: 0x1234 and 4660 could be meant in either order.
pub fn hex(word: &str) -> Result<Vec<u8>, String> {
    let digits = word.strip_suffix(":hex").unwrap_or(word);
    let is_number = digits.contains('-') || digits.contains(['x', 'X']);
    match bytes(digits) {
        Ok(bytes) if !is_number && !bytes.is_empty() => Ok(bytes),
        Err(message) if !is_number => Err(format!("{:?} is no bytes in hex: {}", word, message)),
        _ => Err(format!(
            "{:?} is no bytes in hex, such as 3412 or 34:12",
            word
        )),
    }
}

impl Use {
    /// What the words mean; else what is wrong with them.
    pub fn of(words: Vec<OsString>) -> Result<Use, String> {
        let mut rest = words.into_iter();
        let name = text(rest.next().ok_or("what to do is missing")?);
        let mut words = Words { name, rest };
        let wanted = Use::named(&mut words)?;
        match words.rest.next() {
            None => Ok(wanted),
            Some(word) => Err(format!("{}: {:?} is too much", words.name, text(word))),
        }
    }

    fn named(words: &mut Words) -> Result<Use, String> {
        Ok(match words.name.as_str() {
            "list" => Use::List,
            "version" => Use::Version,
            "read" => Use::Read(words.numbers("the variable")?),
            "write" => Use::Write(pairs(words)?),
            "write-read" => Use::WriteRead {
                written: words.number("the variable written")?,
                read: words.number("the variable read")?,
                value: text(words.next("the value")?),
            },
            "mask" => {
                let variable = words.number("the variable")?;
                Use::Mask(variable, words.masking()?, words.hex("the mask")?)
            }
            "group" => Use::Group(words.number("the group")?),
            "write-group" => {
                let group = words.number("the group")?;
                let first = text(words.next("the value")?);
                let others = words.rest.by_ref().map(text);
                Use::WriteGroup(group, std::iter::once(first).chain(others).collect())
            }
            "mask-group" => {
                let group = words.number("the group")?;
                Use::MaskGroup(group, words.masking()?, words.hex("the masks")?)
            }
            "make-group" => {
                let numbers = words.numbers("the variable")?;
                let bytes = numbers.iter().map(|number| u8::try_from(*number).ok());
                let bytes: Option<Vec<u8>> = bytes.collect();
                Use::MakeGroup(bytes.ok_or("make-group: a variable is a number up to 255")?)
            }
            "remove-groups" => Use::RemoveGroups,
            "block" => Use::Block(words.number("the curve")?, words.number("the block")?),
            "write-block" => Use::WriteBlock(
                words.number("the curve")?,
                words.number("the block")?,
                words.hex("the block's bytes")?,
            ),
            "curve" => {
                let curve = words.number("the curve")?;
                let way = text(words.next("download or upload")?);
                let file = PathBuf::from(words.next("the file")?);
                match way.as_str() {
                    "download" => Use::Download(curve, file),
                    "upload" => Use::Upload(curve, file),
                    _ => return Err(format!("curve: {:?} is neither download nor upload", way)),
                }
            }
            "sum" => Use::Sum(words.number("the curve")?),
            "renew" => Use::Renew(words.number("the curve")?),
            "run" => {
                let function = words.number("the function")?;
                let input = match words.rest.len() {
                    0 => Vec::new(),
                    _ => words.hex("the input")?,
                };
                Use::Run(function, input)
            }
            "watch" => Use::Watch(words.numbers("the variable")?),
            name => return Err(format!("{:?} is nothing that can be asked", name)),
        })
    }

    /// The word that asks for it.
    pub fn name(&self) -> &'static str {
        match self {
            Use::List => "list",
            Use::Version => "version",
            Use::Read(_) => "read",
            Use::Write(_) => "write",
            Use::WriteRead { .. } => "write-read",
            Use::Mask(..) => "mask",
            Use::Group(_) => "group",
            Use::WriteGroup(..) => "write-group",
            Use::MaskGroup(..) => "mask-group",
            Use::MakeGroup(_) => "make-group",
            Use::RemoveGroups => "remove-groups",
            Use::Block(..) => "block",
            Use::WriteBlock(..) => "write-block",
            Use::Download(..) | Use::Upload(..) => "curve",
            Use::Sum(_) => "sum",
            Use::Renew(_) => "renew",
            Use::Run(..) => "run",
            Use::Watch(_) => "watch",
        }
    }
}

fn pairs(words: &mut Words) -> Result<Vec<(usize, String)>, String> {
    let mut all = vec![(
        words.number("the variable")?,
        text(words.next("the value")?),
    )];
    while words.rest.len() > 0 {
        all.push((
            words.number("the variable")?,
            text(words.next("the value")?),
        ));
    }
    Ok(all)
}

#[cfg(test)]
mod tests {
    use super::*;
    use crate::arguments::HELP;

    fn of(words: &str) -> Result<Use, String> {
        Use::of(words.split(' ').map(OsString::from).collect())
    }

    #[test]
    fn each_use_of_the_help_is_known() {
        let mut count = 0;
        for line in HELP.lines().skip_while(|line| !line.starts_with("  list")) {
            let name = match line.strip_prefix("  ") {
                Some(line) => line.split(' ').next().unwrap_or_default(),
                None => break,
            };
            let told = of(name).map_or_else(|message| message, |wanted| wanted.name().to_string());
            assert!(told.starts_with(name), "{}: {}", name, told);
            count += 1;
        }
        assert_eq!(count, 19);
    }

    #[test]
    fn words_are_taken_as_they_are_meant() {
        let mask = Use::Mask(1, Masking::Toggle, vec![0x0F]);
        assert_eq!(of("mask 1 toggle 0F"), Ok(mask));
        assert_eq!(of("make-group 2 0"), Ok(Use::MakeGroup(vec![2, 0])));
        assert_eq!(of("run 0"), Ok(Use::Run(0, vec![])));
        let two = Use::Write(vec![(1, "5A".to_string()), (2, "0x1234".to_string())]);
        assert_eq!(of("write 1 5A 2 0x1234"), Ok(two));
    }

    #[test]
    fn what_is_wrong_is_said() {
        let wrong = [
            ("raed 0", "\"raed\" is nothing that can be asked"),
            ("read", "read: the variable is missing"),
            ("read x", "read: the variable is a number, and not \"x\""),
            ("write 1", "write: the value is missing"),
            ("mask 1 nand 0F", "mask: the operation is set, or, clear, toggle, xor or and, and not \"nand\""),
            ("group 1 2", "group: \"2\" is too much"),
            ("make-group 256", "make-group: a variable is a number up to 255"),
            ("curve 0 sideways f", "curve: \"sideways\" is neither download nor upload"),
            ("write-block 0 1 0x11", "write-block: \"0x11\" is no bytes in hex, such as 3412 or 34:12"),
            ("write-block 0 1 123", "write-block: \"123\" is no bytes in hex: a byte has two digits, and at place 3 stands one"),
        ];
        for (words, message) in wrong {
            assert_eq!(of(words), Err(message.to_string()));
        }
    }

    #[test]
    fn bytes_are_in_hex_and_numbers_are_not() {
        for word in ["3412", "34:12", "34,12", "3412:hex", "34:12:hex"] {
            assert_eq!(hex(word), Ok(vec![0x34, 0x12]), "{}", word);
        }
        assert_eq!(hex("00*3"), Ok(vec![0; 3]));
        for word in ["0x1234", "-30", "0X12", "", ":hex", "12-34", "x", "1"] {
            assert!(hex(word).is_err(), "{}", word);
        }
    }
}
