//! A request by its meaning, as a gateway is told to ask it: written in words, or read off a packet.
use super::bytes::{bytes, counted, hex};
use super::call::number;
use super::commands::{Command, Field, Rest, COMMANDS};
use super::packet::Packet;
use super::things::listed;
use cruachvel::{
    CurveNumber, FunctionNumber, GroupNumber, Masking, Request, VariableNumber, MOST_PACKET,
};

/// A request and where it goes. An operation that it has is one of the six.
#[derive(Clone, Debug, PartialEq, Eq)]
pub struct Asked {
    destination: u8,
    command: &'static Command,
    // One for each field of the command's front; an operation by its code.
    numbers: Vec<usize>,
    // What follows the front.
    bytes: Vec<u8>,
}

const OPERATIONS: [(&str, Masking); 6] = [
    ("set", Masking::Set),
    ("or", Masking::Or),
    ("clear", Masking::Clear),
    ("toggle", Masking::Toggle),
    ("xor", Masking::Xor),
    ("and", Masking::And),
];

impl Asked {
    /// A command that names these numbers and carries nothing. An operation is set.
    pub fn bare(
        destination: u8,
        command: &'static Command,
        number: impl Fn(Field) -> usize,
    ) -> Asked {
        let numbers = command.front.iter().map(|field| match field {
            Field::Operation => Masking::Set.code().into(),
            field => number(*field),
        });
        Asked {
            destination,
            command,
            numbers: numbers.collect(),
            bytes: Vec::new(),
        }
    }

    /// The request that words stand for; else what is wrong with them.
    pub fn of_words(words: &[&str]) -> Result<Asked, String> {
        let (destination, word, rest) = match words {
            [destination, word, rest @ ..] => (number(destination)?, *word, rest),
            _ => return Err("an ask is written so: ask DESTINATION REQUEST".to_string()),
        };
        let found = COMMANDS.iter().find(|command| command.word == word);
        let command = found.ok_or_else(|| format!("{:?} is no request", word))?;
        let wrong = || {
            let form = form(command);
            format!("{} is asked so: ask DESTINATION {}", command.word, form)
        };
        let count = command.front.len();
        let (front, rest) = match rest.get(..count) {
            Some(front) => (front, &rest[count..]),
            None => return Err(wrong()),
        };
        let fields = command.front.iter().zip(front);
        let numbers = fields.map(|(field, word)| field_number(*field, word));
        let numbers = numbers.collect::<Result<_, _>>()?;
        let bytes = match command.rest {
            Rest::Nothing if !rest.is_empty() => return Err(wrong()),
            Rest::Members => rest.iter().map(|word| number(word)).collect(),
            _ => bytes(&rest.join(" ")),
        };
        Ok(Asked {
            destination,
            command,
            numbers,
            bytes: bytes?,
        })
    }

    /// What a packet asks, if it is a request that 01's table has, whole and with its checksum. A gateway sends no other.
    pub fn of_packet(packet: Packet) -> Option<Asked> {
        let has_form =
            (2..=MOST_PACKET).contains(&packet.0.len()) && packet.sum() == 0 && packet.is_whole();
        let command = packet.command().filter(|_| has_form)?;
        let numbers = command.front.iter().map(|field| packet.field(*field));
        let bytes = packet.rest().to_vec();
        let asked = Asked {
            destination: packet.destination()?,
            command,
            numbers: numbers.collect::<Option<_>>()?,
            bytes,
        };
        let is_known = match asked.number(Field::Operation) {
            Some(code) => masking(code).is_some(),
            None => true,
        };
        let is_short = command.rest != Rest::Nothing || asked.bytes.is_empty();
        (is_known && is_short).then_some(asked)
    }

    pub fn destination(&self) -> u8 {
        self.destination
    }

    pub fn command(&self) -> &'static Command {
        self.command
    }

    pub fn bytes(&self) -> &[u8] {
        &self.bytes
    }

    /// What it names in this field, if the command has it.
    pub fn number(&self, wanted: Field) -> Option<usize> {
        let place = self
            .command
            .front
            .iter()
            .position(|field| *field == wanted)?;
        self.numbers.get(place).copied()
    }

    /// Whether what is known of the node counts for its answer.
    pub fn is_sized(&self) -> bool {
        matches!(self.command.code, 0x0A | 0x10 | 0x12 | 0x28 | 0x40 | 0x50)
    }

    pub fn is_multicast(&self) -> bool {
        self.destination >= 248
    }

    /// The words that stand for it.
    pub fn words(&self) -> String {
        let mut words = vec![self.destination.to_string(), self.command.word.to_string()];
        let fields = self.command.front.iter().zip(&self.numbers);
        words.extend(fields.map(|(field, number)| field_word(*field, *number)));
        words.push(match self.command.rest {
            Rest::Members => listed(self.bytes.iter().map(|id| usize::from(*id))),
            _ => hex(&self.bytes),
        });
        words.join(" ").trim_end().to_string()
    }

    /// What it asks, for a reader.
    pub fn text(&self) -> String {
        let named = self.named();
        let carried = match self.command.rest {
            Rest::Nothing => String::new(),
            Rest::Members => format!(": {}", counted(self.bytes.len(), "variable")),
            _ => format!(", with {}", counted(self.bytes.len(), "byte")),
        };
        format!(
            "{:02X}, {}{}{}",
            self.command.code, self.command.name, named, carried
        )
    }

    fn named(&self) -> String {
        let fields = self.command.front.iter().zip(&self.numbers);
        let named = fields.map(|(field, number)| match field {
            Field::Operation => field_word(*field, *number),
            Field::VariableRead => format!("variable {} read", number),
            field => format!("{} {}", field.name(), number),
        });
        let named: Vec<String> = named.collect();
        match named.is_empty() {
            true => String::new(),
            false => format!(": {}", named.join(", ")),
        }
    }

    /// The request for the proved asking side.
    pub fn request(&self) -> Request<'_> {
        let at = |place: usize| self.numbers.get(place).copied().unwrap_or_default();
        let (bytes, block) = (self.bytes.as_slice(), at(1));
        let (variable, group) = (VariableNumber(at(0)), GroupNumber(at(0)));
        let curve = CurveNumber(at(0));
        match self.command.code {
            0x00 => Request::Version,
            0x02 => Request::ListVariables,
            0x04 => Request::ListGroups,
            0x06 => Request::ShowGroup(group),
            0x08 => Request::ListCurves,
            0x0A => Request::ReadSum(curve),
            0x0C => Request::ListFunctions,
            0x10 => Request::ReadVariable(variable),
            0x12 => Request::ReadGroup(group),
            0x20 => Request::WriteVariable(variable, bytes),
            0x22 => Request::WriteGroup(group, bytes),
            0x24 => Request::MaskVariable(variable, self.masking(), bytes),
            0x26 => Request::MaskGroup(group, self.masking(), bytes),
            0x28 => Request::WriteRead {
                written: variable,
                read: VariableNumber(at(1)),
                bytes,
            },
            0x30 => Request::MakeGroup(bytes),
            0x32 => Request::RemoveGroups,
            0x40 => Request::ReadBlock { curve, block },
            0x41 => Request::WriteBlock {
                curve,
                block,
                bytes,
            },
            0x42 => Request::RenewSum(curve),
            _ => Request::RunFunction(FunctionNumber(at(0)), bytes),
        }
    }

    /// The operation of 24 and 26; of others, which have none, it is set.
    pub fn masking(&self) -> Masking {
        let code = self.number(Field::Operation);
        code.and_then(masking).unwrap_or(Masking::Set)
    }
}

fn masking(code: usize) -> Option<Masking> {
    let mut all = Masking::ALL.into_iter();
    all.find(|masking| usize::from(masking.code()) == code)
}

// The number that a word stands for in this field.
fn field_number(field: Field, word: &str) -> Result<usize, String> {
    if field != Field::Operation {
        return number(word);
    }
    let found = OPERATIONS.iter().find(|(name, _)| *name == word);
    let wrong = || format!("{:?} is none of set, or, clear, toggle, xor and and", word);
    found
        .map(|(_, masking)| masking.code().into())
        .ok_or_else(wrong)
}

fn field_word(field: Field, number: usize) -> String {
    let is_it = |(_, masking): &&(&str, Masking)| usize::from(masking.code()) == number;
    match OPERATIONS.iter().find(is_it) {
        Some((name, _)) if field == Field::Operation => name.to_string(),
        _ => number.to_string(),
    }
}

/// How a request is written: its word, and what belongs to it.
pub fn form(command: &Command) -> String {
    let written = command.front.contains(&Field::VariableRead);
    let front = command.front.iter().map(|field| match field {
        Field::Variable if written => "WRITTEN",
        Field::Variable => "VARIABLE",
        Field::VariableRead => "READ",
        Field::Group => "GROUP",
        Field::Operation => "OPERATION",
        Field::Curve => "CURVE",
        Field::Block => "BLOCK",
        Field::Function => "FUNCTION",
    });
    let rest = match command.rest {
        Rest::Nothing => None,
        Rest::Members => Some("VARIABLE .."),
        _ => Some("BYTES"),
    };
    let words = [command.word].into_iter().chain(front).chain(rest);
    words.collect::<Vec<&str>>().join(" ")
}
