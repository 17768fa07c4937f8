//! Values, groups, the version and functions.
use super::{array, named, numbers, text_fact, Run};
use crate::failure::Failure;
use crate::told::Item;
use crate::values::Value;
use cruachvel::{Answer, FunctionNumber, GroupNumber, Request, VariableNumber};
use suite::whatif::bytes::hex;
use suite::whatif::json;

impl Run<'_> {
    pub(super) fn version(&mut self) -> Result<(), Failure> {
        let take = |answer: Answer| match answer {
            Answer::Version(version) => Some(version),
            _ => None,
        };
        let version = self.asker.ask(self.teller, &Request::Version, take)?;
        let short = format!("{}.{:02}", version[0], version[1]);
        self.teller.tell(Item {
            text: format!("BSMP {} ({})", short, hex(&version)),
            facts: vec![
                ("version", json::string(&short)),
                ("bytes", text_fact(&version)),
            ],
            value: Some(short),
        })
    }

    pub(super) fn value(&mut self, variable: VariableNumber) -> Result<Value, Failure> {
        let mut values = self.values(&Request::ReadVariable(variable))?;
        values
            .pop()
            .ok_or_else(|| Failure::Broken("no value".to_string()))
    }

    fn values(&mut self, request: &Request) -> Result<Vec<Value>, Failure> {
        let take = |answer: Answer| match answer {
            Answer::Values(values) => {
                let owned = values.map(|(variable, bytes)| (variable, bytes.to_vec()));
                Some(owned.collect::<Vec<_>>())
            }
            _ => None,
        };
        let values = self.asker.ask(self.teller, request, take)?;
        let gateway = &self.asker.gateway;
        let read =
            |(variable, bytes): (VariableNumber, Vec<u8>)| Value::read(gateway, variable, &bytes);
        Ok(values.into_iter().map(read).collect())
    }

    pub(super) fn read(&mut self, variables: &[usize]) -> Result<(), Failure> {
        for variable in variables {
            let value = self.value(VariableNumber(*variable))?;
            self.tell_value(value)?;
        }
        Ok(())
    }

    fn tell_value(&mut self, value: Value) -> Result<(), Failure> {
        self.teller.tell(Item {
            text: format!("variable {}: {}", value.variable.0, value.text()),
            value: Some(value.short()),
            facts: value.facts(),
        })
    }

    pub(super) fn group(&mut self, group: usize) -> Result<(), Failure> {
        let values = self.values(&Request::ReadGroup(GroupNumber(group)))?;
        let line = |value: &Value| format!("variable {}: {}", value.variable.0, value.text());
        let text = match values.is_empty() {
            true => format!("group {} has no variable", group),
            false => values.iter().map(line).collect::<Vec<String>>().join("\n"),
        };
        let short: Vec<String> = values.iter().map(Value::short).collect();
        let mut facts = named("group", group);
        let objects = values.iter().map(|value| json::object(value.facts()));
        facts.push(("values", json::array(objects)));
        self.teller.tell(Item {
            text,
            value: (!short.is_empty()).then(|| short.join("\n")),
            facts,
        })
    }

    pub(super) fn write_read(
        &mut self,
        written: usize,
        read: usize,
        word: &str,
    ) -> Result<(), Failure> {
        let value = self.meant(written, word)?;
        let request = Request::WriteRead {
            written: value.variable,
            read: VariableNumber(read),
            bytes: &value.bytes,
        };
        for told in self.values(&request)? {
            let mut facts = told.facts();
            facts.push(("written", json::object(value.facts())));
            self.teller.tell(Item {
                text: format!(
                    "variable {} is written: {}\nvariable {}: {}",
                    written,
                    value.sent(),
                    read,
                    told.text()
                ),
                value: Some(told.short()),
                facts,
            })?;
        }
        Ok(())
    }

    pub(super) fn make_group(&mut self, variables: &[u8]) -> Result<(), Failure> {
        let request = Request::MakeGroup(variables);
        self.asker.ask_done(self.teller, &request)?;
        // The new group is the last one.
        let take = |answer: Answer| match answer {
            Answer::Groups(groups) => Some(groups.len().saturating_sub(1)),
            _ => None,
        };
        let group = self.asker.ask(self.teller, &Request::ListGroups, take)?;
        let mut sorted = variables.to_vec();
        sorted.sort_unstable();
        let members = || sorted.iter().map(|variable| usize::from(*variable));
        let mut facts = named("group", group);
        facts.push(("variables", array(members())));
        facts.push(("outcome", json::string("done")));
        self.teller.tell(Item {
            text: format!("group {} is made: variables {}", group, numbers(members())),
            value: Some(group.to_string()),
            facts,
        })
    }

    pub(super) fn run(&mut self, function: usize, input: &[u8]) -> Result<(), Failure> {
        let take = |answer: Answer| match answer {
            Answer::Output(output) => Some(Ok(output.to_vec())),
            Answer::Failed(error) => Some(Err(error)),
            _ => None,
        };
        let request = Request::RunFunction(FunctionNumber(function), input);
        let ran = self.asker.ask(self.teller, &request, take)?;
        let output = ran.map_err(Failure::Failed)?;
        let mut facts = named("function", function);
        facts.push(("output", text_fact(&output)));
        let shown = match output.is_empty() {
            true => "nothing".to_string(),
            false => hex(&output),
        };
        self.teller.tell(Item {
            text: format!("function {} gives {}", function, shown),
            value: Some(hex(&output)),
            facts,
        })
    }
}
