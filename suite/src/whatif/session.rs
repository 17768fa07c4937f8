//! Lines that are run one after the other on the same board.
use super::asked::Asked;
use super::bytes::summed;
use super::call::{Call, Line};
use super::packet::Packet;
use super::rule::BUSY;
use super::sheet::Sheet;
use super::things::{busy_text, listed, set_text};
use super::{explain, Setting};
use crate::lent::{all_declared, members};

/// A board, and whether packets get their checksum added.
#[derive(Clone, Debug)]
pub struct Session {
    pub setting: Setting,
    pub sum: bool,
    // What the gateway asked last.
    asked: Option<Asked>,
}

impl Session {
    /// Starts on this board.
    pub fn new(setting: Setting) -> Session {
        Session {
            setting,
            sum: false,
            asked: None,
        }
    }

    /// Runs a line and explains it; else what is wrong with the line.
    pub fn tell(&mut self, text: &str) -> Result<Sheet, String> {
        Ok(match Line::or_packet(text, self.asked.as_ref())? {
            Line::Busy(marks) => self.busy(marks),
            Line::Call(Call::Packet(given)) if self.sum => self.summed(&given),
            Line::Call(call) => {
                if let Call::Ask(asked) = &call {
                    self.asked = Some(asked.clone());
                }
                explain(&mut self.setting, &call)
            }
        })
    }

    fn summed(&mut self, given: &[u8]) -> Sheet {
        let without = self.setting.would(given);
        let mut sheet = explain(&mut self.setting, &Call::Packet(summed(given)));
        if Packet(given).is_whole() && Packet(given).sum() == 0 {
            let without = without.text();
            sheet.text("hint", format!("the packet has its checksum already, and --sum added another: without --sum the outcome would be: {}", without));
        }
        sheet
    }

    fn busy(&mut self, marks: u64) -> Sheet {
        let before = std::mem::replace(&mut self.setting.busy, marks);
        let unknown = marks & !all_declared(self.setting.lent.variables.len());
        let mut rule = vec![format!("\"{}\"", BUSY)];
        if unknown != 0 {
            rule.push(format!("not declared: {}", set_text(unknown)));
        }
        let change = format!("busy: {} -> {}", set_text(before), set_text(marks));
        let mut sheet = Sheet::default();
        sheet.words("busy", listed(members(marks)), Vec::new());
        let outcome = format!("{} for the lines that follow", busy_text(marks));
        sheet.text("outcome", outcome);
        sheet.list("rule", rule);
        sheet.list(
            "changed",
            Vec::from_iter((before != marks).then_some(change)),
        );
        sheet
    }
}
