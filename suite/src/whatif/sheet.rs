//! An explanation: facts with their names, for a reader or in JSON.
use super::bytes::{hex, shown};
use super::json;

#[derive(Debug, Default)]
pub struct Sheet(Vec<(&'static str, Fact)>);

/// A fact of an explanation.
#[derive(Debug)]
enum Fact {
    Text(String),
    List(Vec<String>),
    Parts(Given, Vec<Part>),
    /// A number, or a text, that is for programs alone.
    Number(u8),
    Word(String),
}

/// What a call or a part of it was given as.
#[derive(Debug)]
enum Given {
    Bytes(Vec<u8>),
    Words(String),
}

impl Given {
    fn shown(&self) -> String {
        match self {
            Given::Bytes(bytes) => shown(bytes),
            Given::Words(words) => words.clone(),
        }
    }

    fn json(&self) -> (&'static str, String) {
        match self {
            Given::Bytes(bytes) => ("bytes", json::string(&hex(bytes))),
            Given::Words(words) => ("words", json::string(words)),
        }
    }
}

/// A part of a packet or another call: its name, how it is given, and what it means.
#[derive(Debug)]
pub struct Part {
    name: String,
    given: Given,
    meaning: String,
}

impl Part {
    pub fn new(name: impl Into<String>, bytes: &[u8], meaning: impl Into<String>) -> Part {
        Part {
            name: name.into(),
            given: Given::Bytes(bytes.to_vec()),
            meaning: meaning.into(),
        }
    }

    /// A part that is given in words.
    pub fn said(
        name: impl Into<String>,
        words: impl Into<String>,
        meaning: impl Into<String>,
    ) -> Part {
        Part {
            name: name.into(),
            given: Given::Words(words.into()),
            meaning: meaning.into(),
        }
    }

    fn line(&self) -> String {
        let given = self.given.shown();
        format!("  {:<13} {:<15} {}", self.name, given, self.meaning)
    }

    fn json(&self) -> String {
        json::object([
            ("name", json::string(&self.name)),
            self.given.json(),
            ("meaning", json::string(&self.meaning)),
        ])
    }
}

impl Sheet {
    pub fn text(&mut self, name: &'static str, text: impl Into<String>) {
        self.0.push((name, Fact::Text(text.into())));
    }

    pub fn list(&mut self, name: &'static str, lines: Vec<String>) {
        self.0.push((name, Fact::List(lines)));
    }

    pub fn packet(&mut self, name: &'static str, packet: &[u8], parts: Vec<Part>) {
        let given = Given::Bytes(packet.to_vec());
        self.0.push((name, Fact::Parts(given, parts)));
    }

    pub fn words(&mut self, name: &'static str, words: String, parts: Vec<Part>) {
        self.0.push((name, Fact::Parts(Given::Words(words), parts)));
    }

    /// For programs alone.
    pub fn number(&mut self, name: &'static str, number: Option<u8>) {
        let fact = number.map(|number| (name, Fact::Number(number)));
        self.0.extend(fact);
    }

    /// For programs alone.
    pub fn word(&mut self, name: &'static str, word: String) {
        self.0.push((name, Fact::Word(word)));
    }

    /// The facts for a reader, in lines.
    pub fn lines(&self) -> String {
        let lines = self.0.iter().flat_map(|(name, fact)| fact.lines(name));
        lines
            .map(|line| line.trim_end().to_string() + "\n")
            .collect()
    }

    /// The facts as one object, in one line.
    pub fn json(&self) -> String {
        let facts = self.0.iter().map(|(name, fact)| (*name, fact.json()));
        json::object(facts) + "\n"
    }
}

impl Fact {
    fn lines(&self, name: &str) -> Vec<String> {
        let line = |name: &str, text: &str| format!("{:<10}{}", name, text);
        match self {
            Fact::Text(text) => vec![line(name, text)],
            Fact::List(texts) if texts.is_empty() => vec![line(name, "nothing")],
            Fact::List(texts) => {
                let names = std::iter::once(name).chain(std::iter::repeat(""));
                names
                    .zip(texts)
                    .map(|(name, text)| line(name, text))
                    .collect()
            }
            Fact::Parts(given, parts) => {
                let first = line(name, &given.shown());
                std::iter::once(first)
                    .chain(parts.iter().map(Part::line))
                    .collect()
            }
            Fact::Number(_) | Fact::Word(_) => Vec::new(),
        }
    }

    fn json(&self) -> String {
        match self {
            Fact::Text(text) | Fact::Word(text) => json::string(text),
            Fact::List(texts) => json::array(texts.iter().map(|text| json::string(text))),
            Fact::Parts(given, parts) => {
                let parts = json::array(parts.iter().map(Part::json));
                json::object([given.json(), ("parts", parts)])
            }
            Fact::Number(number) => number.to_string(),
        }
    }
}
