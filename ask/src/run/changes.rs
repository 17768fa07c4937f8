//! What only is to be done.
use super::{named, text_fact, Run};
use crate::failure::Failure;
use crate::told::{Facts, Item};
use crate::uses::{masking_name, Use};
use crate::values::Value;
use cruachvel::{CurveNumber, GroupNumber, Masking, Request, VariableNumber};
use suite::whatif::bytes::{counted, hex};
use suite::whatif::json;

impl Run<'_> {
    pub(super) fn changes(&mut self, wanted: &Use) -> Result<(), Failure> {
        match wanted {
            Use::Write(pairs) => {
                // All words are understood before anything is sent.
                let values = pairs
                    .iter()
                    .map(|(variable, word)| self.meant(*variable, word));
                for value in values.collect::<Result<Vec<Value>, Failure>>()? {
                    let variable = value.variable.0;
                    let request = Request::WriteVariable(value.variable, &value.bytes);
                    let text = format!(
                        "variable {} {} written: {}",
                        variable,
                        self.is(),
                        value.sent()
                    );
                    self.change(&request, text, value.facts())?;
                }
                Ok(())
            }
            Use::WriteGroup(group, words) => {
                let (bytes, facts, said) = self.group_value(*group, words)?;
                let request = Request::WriteGroup(GroupNumber(*group), &bytes);
                self.change(
                    &request,
                    format!("group {} {} written: {}", group, self.is(), said),
                    facts,
                )
            }
            Use::Mask(variable, masking, mask) => {
                let number = VariableNumber(*variable);
                let request = Request::MaskVariable(number, *masking, mask);
                self.mask(&request, "variable", *variable, *masking, mask)
            }
            Use::MaskGroup(group, masking, mask) => {
                let request = Request::MaskGroup(GroupNumber(*group), *masking, mask);
                self.mask(&request, "group", *group, *masking, mask)
            }
            Use::RemoveGroups => {
                let text = match self.multicast {
                    true => "groups 3 to 7 are to be removed".to_string(),
                    false => "groups 3 to 7 are gone".to_string(),
                };
                self.change(&Request::RemoveGroups, text, Facts::new())
            }
            Use::WriteBlock(curve, block, bytes) => {
                let request = Request::WriteBlock {
                    curve: CurveNumber(*curve),
                    block: *block,
                    bytes,
                };
                let mut facts = named("curve", *curve);
                facts.push(("block", block.to_string()));
                facts.push(("bytes", text_fact(bytes)));
                let text = format!(
                    "block {} of curve {} {} written: {}",
                    block,
                    curve,
                    self.is(),
                    hex(bytes)
                );
                self.change(&request, text, facts)
            }
            Use::Renew(curve) => {
                let request = Request::RenewSum(CurveNumber(*curve));
                let text = format!("the sum of curve {} {} renewed", curve, self.is());
                self.change(&request, text, named("curve", *curve))
            }
            _ => Ok(()),
        }
    }

    fn mask(
        &mut self,
        request: &Request,
        sort: &'static str,
        number: usize,
        masking: Masking,
        mask: &[u8],
    ) -> Result<(), Failure> {
        let mut facts = named(sort, number);
        facts.push(("operation", json::string(masking_name(masking))));
        facts.push(("mask", text_fact(mask)));
        let name = masking_name(masking);
        let text = format!(
            "{} {} {} masked: {} {}",
            sort,
            number,
            self.is(),
            name,
            hex(mask)
        );
        self.change(request, text, facts)
    }

    fn change(&mut self, request: &Request, text: String, facts: Facts) -> Result<(), Failure> {
        let (outcome, text) = if self.multicast {
            self.asker.tell(request)?;
            let address = self.asker.gateway.destination;
            (
                "sent",
                format!(
                    "sent to {}, unanswered as every multicast: {}",
                    address, text
                ),
            )
        } else {
            self.asker.ask_done(self.teller, request)?;
            ("done", text)
        };
        let mut facts = facts;
        facts.push(("outcome", json::string(outcome)));
        self.teller.tell(Item {
            text,
            value: None,
            facts,
        })
    }

    // Nobody says whether what was sent by multicast is done.
    fn is(&self) -> &'static str {
        match self.multicast {
            true => "is to be",
            false => "is",
        }
    }

    pub(super) fn meant(&self, variable: usize, word: &str) -> Result<Value, Failure> {
        Value::meant(&self.asker.gateway, VariableNumber(variable), word)
    }

    // The bytes for all members of a group: all in one word in hex, or a word for each.
    fn group_value(
        &self,
        group: usize,
        words: &[String],
    ) -> Result<(Vec<u8>, Facts, String), Failure> {
        let number = GroupNumber(group);
        let members: Vec<VariableNumber> = self.asker.gateway.members(number).collect();
        // Bytes in any case: all words in hex, or one for all members.
        let all_hex = words.iter().all(|word| word.ends_with(":hex"));
        let mut values = Vec::new();
        if self.board.is_some() && !all_hex {
            // What could be meant as a number is never taken as bytes only because a member isn't known.
            if members.len() != words.len() {
                let (has, given) = (counted(members.len(), "known member"), words.len());
                let message = format!(
                    "group {} has {}, and takes as many values, not {}",
                    group, has, given
                );
                return Err(Failure::Misused(message));
            }
            for (variable, word) in members.iter().zip(words) {
                values.push(self.meant(variable.0, word)?);
            }
        }
        let mut facts = named("group", group);
        if values.is_empty() {
            let mut bytes = Vec::new();
            for word in words {
                bytes.extend(crate::uses::hex(word).map_err(Failure::Misused)?);
            }
            facts.push(("bytes", text_fact(&bytes)));
            let said = format!("{}, as bytes", hex(&bytes));
            return Ok((bytes, facts, said));
        }
        let bytes: Vec<u8> = values
            .iter()
            .flat_map(|value| value.bytes.clone())
            .collect();
        facts.push(("bytes", text_fact(&bytes)));
        let objects = values.iter().map(|value| json::object(value.facts()));
        facts.push(("values", json::array(objects)));
        let said = values
            .iter()
            .map(|value| format!("variable {} with {}", value.variable.0, value.sent()));
        let said: Vec<String> = said.collect();
        Ok((bytes, facts, said.join("; ")))
    }
}
