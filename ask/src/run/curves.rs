//! Curves: their blocks, their sums, and whole ones up and down.
use super::{named, text_fact, Run};
use crate::failure::{digits, of_file, too_long, Failure};
use crate::line::plain;
use crate::told::Item;
use cruachvel::{md5, Answer, Curve, CurveNumber, Request, SUM_SIZE};
use std::path::Path;
use suite::whatif::bytes::{counted, hex};
use suite::whatif::json;

impl Run<'_> {
    fn read_block(&mut self, curve: usize, block: usize) -> Result<Vec<u8>, Failure> {
        let take = |answer: Answer| match answer {
            Answer::Block(bytes) => Some(bytes.to_vec()),
            _ => None,
        };
        let request = Request::ReadBlock {
            curve: CurveNumber(curve),
            block,
        };
        self.asker.ask(self.teller, &request, take)
    }

    fn read_sum(&mut self, curve: usize) -> Result<[u8; SUM_SIZE], Failure> {
        let take = |answer: Answer| match answer {
            Answer::Sum(sum) => Some(*sum),
            _ => None,
        };
        let request = Request::ReadSum(CurveNumber(curve));
        self.asker.ask(self.teller, &request, take)
    }

    pub(super) fn block(&mut self, curve: usize, block: usize) -> Result<(), Failure> {
        let bytes = self.read_block(curve, block)?;
        let mut facts = named("curve", curve);
        facts.push(("block", block.to_string()));
        facts.push(("bytes", text_fact(&bytes)));
        self.teller.tell(Item {
            text: format!("block {} of curve {}: {}", block, curve, hex(&bytes)),
            value: Some(hex(&bytes)),
            facts,
        })
    }

    pub(super) fn sum(&mut self, curve: usize) -> Result<(), Failure> {
        let sum = digits(&self.read_sum(curve)?);
        let mut facts = named("curve", curve);
        facts.push(("sum", json::string(&sum)));
        self.teller.tell(Item {
            text: format!("curve {}: sum {}", curve, sum),
            value: Some(sum),
            facts,
        })
    }

    // The shape of a curve; of one that there isn't, the node's error.
    fn shape(&mut self, curve: usize) -> Result<Curve, Failure> {
        self.read_sum(curve)?;
        let shape = self.asker.gateway.learned.shapes.get(curve).copied();
        shape.ok_or_else(|| Failure::Broken(format!("curve {}: its shape is not known", curve)))
    }

    // Has the node's sum renewed, and holds it against these bytes.
    fn compare(&mut self, curve: usize, bytes: &[u8]) -> Result<String, Failure> {
        let request = Request::RenewSum(CurveNumber(curve));
        self.asker.ask_done(self.teller, &request)?;
        let (node, ours) = (self.read_sum(curve)?, md5(bytes));
        if node != ours {
            return Err(Failure::SumDiffers(node, ours));
        }
        Ok(digits(&node))
    }

    pub(super) fn download(&mut self, curve: usize, file: &Path) -> Result<(), Failure> {
        let blocks = self.shape(curve)?.blocks as usize;
        let mut bytes = Vec::new();
        for block in 0..blocks {
            bytes.extend(self.read_block(curve, block)?);
            self.teller.progress(curve, block + 1, blocks);
        }
        let sum = self.compare(curve, &bytes)?;
        std::fs::write(file, &bytes).map_err(|error| of_file(file, &plain(&error)))?;
        self.moved(curve, "received", blocks, bytes.len(), sum, file)
    }

    pub(super) fn upload(&mut self, curve: usize, file: &Path) -> Result<(), Failure> {
        let bytes = std::fs::read(file).map_err(|error| of_file(file, &plain(&error)))?;
        if bytes.is_empty() {
            return Err(of_file(
                file,
                "it is empty, and a block has at least one byte",
            ));
        }
        let shape = self.shape(curve)?;
        let (size, blocks) = (shape.block_size as usize, shape.blocks as usize);
        if bytes.len() > size * blocks {
            return Err(too_long(file, bytes.len(), curve, size * blocks));
        }
        let pieces = bytes.chunks(size.max(1));
        let count = pieces.len();
        for (block, piece) in pieces.enumerate() {
            let request = Request::WriteBlock {
                curve: CurveNumber(curve),
                block,
                bytes: piece,
            };
            self.asker.ask_done(self.teller, &request)?;
            self.teller.progress(curve, block + 1, count);
        }
        // The sum is of the whole curve, so what the file doesn't reach is read.
        let mut whole = bytes.clone();
        for block in count..blocks {
            whole.extend(self.read_block(curve, block)?);
        }
        let sum = self.compare(curve, &whole)?;
        if count < blocks {
            let left = match blocks - count {
                1 => format!("block {} is", count),
                _ => format!("blocks {} to {} are", count, blocks - 1),
            };
            let note = format!(
                "the file ends before the curve: {} as before, and counted in the sum",
                left
            );
            self.teller.note(&note);
        }
        self.moved(curve, "sent", count, bytes.len(), sum, file)
    }

    fn moved(
        &mut self,
        curve: usize,
        way: &'static str,
        blocks: usize,
        bytes: usize,
        sum: String,
        file: &Path,
    ) -> Result<(), Failure> {
        let (count, pieces) = (counted(bytes, "byte"), counted(blocks, "block"));
        let name = file.display().to_string();
        let text = match way {
            "sent" => format!("curve {}: {} of {} sent in {}", curve, count, name, pieces),
            _ => format!(
                "curve {}: {} in {} received into {}",
                curve, count, pieces, name
            ),
        };
        let mut facts = named("curve", curve);
        facts.push(("file", json::string(&name)));
        facts.push(("bytes", bytes.to_string()));
        facts.push(("blocks", blocks.to_string()));
        facts.push(("sum", json::string(&sum)));
        facts.push(("outcome", json::string(way)));
        self.teller.tell(Item {
            text: format!("{}; the sum {} is the node's too", text, sum),
            value: None,
            facts,
        })
    }
}
