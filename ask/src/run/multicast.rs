//! Uses by multicast: requests are sent, and nothing is waited for.
use super::Run;
use crate::failure::Failure;
use crate::told::Item;
use crate::uses::Use;
use cruachvel::{CurveNumber, FunctionNumber, GroupNumber, Request, VariableNumber};
use suite::whatif::json;

impl Run<'_> {
    pub(super) fn tell_all(&mut self, wanted: &Use) -> Result<(), Failure> {
        // What can't be learned is taken from the board file.
        if let Some(board) = &self.board {
            self.asker.gateway.learned = board.learned();
        }
        let block = |curve, block| Request::ReadBlock {
            curve: CurveNumber(curve),
            block,
        };
        match wanted {
            Use::List | Use::Watch(_) | Use::Download(..) | Use::Upload(..) => {
                let name = wanted.name();
                Err(Failure::Misused(format!(
                    "{}: a multicast is never answered, so nothing can be learned by it",
                    name
                )))
            }
            Use::Version => self.sent(&Request::Version),
            Use::Read(variables) => variables.iter().try_for_each(|variable| {
                self.sent(&Request::ReadVariable(VariableNumber(*variable)))
            }),
            Use::Group(group) => self.sent(&Request::ReadGroup(GroupNumber(*group))),
            Use::WriteRead {
                written,
                read,
                value,
            } => {
                let value = self.meant(*written, value)?;
                self.sent(&Request::WriteRead {
                    written: value.variable,
                    read: VariableNumber(*read),
                    bytes: &value.bytes,
                })
            }
            Use::MakeGroup(variables) => self.sent(&Request::MakeGroup(variables)),
            Use::Block(curve, number) => self.sent(&block(*curve, *number)),
            Use::Sum(curve) => self.sent(&Request::ReadSum(CurveNumber(*curve))),
            Use::Run(function, input) => {
                self.sent(&Request::RunFunction(FunctionNumber(*function), input))
            }
            _ => self.changes(wanted),
        }
    }

    fn sent(&mut self, request: &Request) -> Result<(), Failure> {
        self.asker.tell(request)?;
        self.teller.tell(Item {
            text: format!(
                "sent to {}, unanswered as every multicast",
                self.asker.gateway.destination
            ),
            value: None,
            facts: vec![("outcome", json::string("sent"))],
        })
    }
}
