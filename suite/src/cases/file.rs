//! How a file of cases is read: questions or settled examples. Each line is a keyword and what belongs to it.
use crate::whatif::asked::Asked;
use crate::whatif::bytes::repeated;
use crate::whatif::call::{Call, Line};

/// A question with all that answers it, or an example, which has calls on board A alone.
#[derive(Clone, Debug, Default)]
pub struct Case {
    pub line: usize,
    pub section: String,
    pub question: String,
    pub answer: Vec<String>,
    /// The name of the board file, and lines that are added to it.
    pub board: String,
    pub with: Vec<String>,
    pub acts: Vec<Act>,
    /// 01's sentences, with their lines in the file.
    pub says: Vec<(usize, String)>,
}

/// A call, and what is expected of it: its outcome first.
#[derive(Clone, Debug)]
pub struct Act {
    pub line: usize,
    /// The call as the file writes it.
    pub text: String,
    /// The variables that are busy, where a line before it says so.
    pub busy: Option<u64>,
    pub call: Call,
    pub expected: Vec<(usize, String)>,
}

const OUTCOMES: [&str; 9] = [
    "reply", "silence", "run", "refused", "done", "number", "bytes", "sends", "heard",
];
const STATES: [&str; 9] = [
    "step",
    "unchanged",
    "variable",
    "reads",
    "block",
    "length",
    "sum",
    "group",
    "known",
];

/// The questions of a file, or the line and what is wrong with it.
pub fn parse(text: &str) -> Result<Vec<Case>, String> {
    let cases = cases(text, "question")?;
    cases.iter().try_for_each(complete)?;
    Ok(cases)
}

/// The examples of a file, or the line and what is wrong with it. A file without any is wrong too.
pub fn examples(text: &str) -> Result<Vec<Case>, String> {
    let cases = cases(text, "example")?;
    if cases.is_empty() {
        return Err("there is no example".to_string());
    }
    match cases.iter().find(|case| case.acts.is_empty()) {
        Some(case) => Err(format!("line {}: the example has no call", case.line)),
        None => Ok(cases),
    }
}

// The cases of a file in which each starts with this keyword.
fn cases(text: &str, start: &'static str) -> Result<Vec<Case>, String> {
    let mut reader = Reader {
        start,
        line: 0,
        section: String::new(),
        busy: None,
        asked: None,
        cases: Vec::new(),
    };
    for (place, line) in text.lines().enumerate() {
        let line = line.trim();
        if line.is_empty() || line.starts_with('#') {
            continue;
        }
        let (keyword, rest) = line.split_once(' ').unwrap_or((line, ""));
        reader.line = place + 1;
        reader
            .take(keyword, rest.trim())
            .map_err(|message| format!("line {}: {}", place + 1, message))?;
    }
    Ok(reader.cases)
}

fn complete(case: &Case) -> Result<(), String> {
    let lacks = if case.board.is_empty() {
        "board"
    } else if case.acts.is_empty() {
        "call"
    } else if case.says.is_empty() {
        "sentence of 01"
    } else if case.answer.is_empty() {
        "answer"
    } else {
        return Ok(());
    };
    Err(format!("line {}: the question has no {}", case.line, lacks))
}

struct Reader {
    start: &'static str,
    line: usize,
    section: String,
    busy: Option<u64>,
    // What the gateway of the case asked last.
    asked: Option<Asked>,
    cases: Vec<Case>,
}

impl Reader {
    fn take(&mut self, keyword: &str, rest: &str) -> Result<(), String> {
        match Line::of(keyword, rest, self.asked.as_ref())? {
            Some(Line::Call(call)) => {
                if let Call::Ask(asked) = &call {
                    self.asked = Some(asked.clone());
                }
                self.act(call, rest)
            }
            Some(Line::Busy(marks)) => {
                self.busy = Some(marks);
                Ok(())
            }
            None => self.told(keyword, rest),
        }
    }

    // A line that carries nothing out.
    fn told(&mut self, keyword: &str, rest: &str) -> Result<(), String> {
        match keyword {
            "section" => self.section = rest.to_string(),
            start if start == self.start => self.start(rest)?,
            "answer" => self.case()?.answer.push(rest.to_string()),
            "board" => self.case()?.board = rest.to_string(),
            "with" => self.case()?.with.push(rest.to_string()),
            "says" => {
                let line = self.line;
                self.case()?.says.push((line, rest.to_string()));
            }
            expected if OUTCOMES.contains(&expected) || STATES.contains(&expected) => {
                self.expect(expected, rest)?
            }
            _ => return Err(format!("{:?} is no keyword", keyword)),
        }
        Ok(())
    }

    fn start(&mut self, rest: &str) -> Result<(), String> {
        let (question, board) = match (self.start, rest) {
            ("question", question) => (question, ""),
            (_, "" | "P") => ("", "a"),
            _ => return Err(format!("an example is marked P or not, and not {:?}", rest)),
        };
        self.busy = None;
        self.asked = None;
        self.cases.push(Case {
            line: self.line,
            section: self.section.clone(),
            question: question.to_string(),
            board: board.to_string(),
            ..Case::default()
        });
        Ok(())
    }

    fn case(&mut self) -> Result<&mut Case, String> {
        let start = self.start;
        self.cases
            .last_mut()
            .ok_or_else(|| format!("no {} stands before this line", start))
    }

    fn act(&mut self, call: Call, rest: &str) -> Result<(), String> {
        let act = Act {
            line: self.line,
            text: rest.to_string(),
            busy: self.busy,
            call,
            expected: Vec::new(),
        };
        self.case()?.acts.push(act);
        Ok(())
    }

    // The outcome comes first, and there is one; then what holds after it.
    fn expect(&mut self, keyword: &str, rest: &str) -> Result<(), String> {
        let (line, text) = (self.line, format!("{} {}", keyword, rest));
        let acts = &mut self.case()?.acts;
        let act = acts.last_mut().ok_or("no call stands before this line")?;
        if OUTCOMES.contains(&keyword) != act.expected.is_empty() {
            return Err("a call has one outcome, in the line after it".to_string());
        }
        act.expected.push((line, text.trim().to_string()));
        Ok(())
    }
}

/// A line with its repetitions written out: 00*3 stands for 00 00 00.
pub fn expanded(line: &str) -> Result<String, String> {
    let mut words = Vec::new();
    for word in line.split_whitespace() {
        let (piece, times) = repeated(word)?;
        words.extend((0..times).map(|_| piece));
    }
    Ok(words.join(" "))
}
