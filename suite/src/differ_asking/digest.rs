//! What the proved side tells and leaves, for the number by which runs of two libraries are compared.
use super::numbers::Told;
use crate::differ::digest::Digest;
use cruachvel::raw::{ToldAsked, ToldHeard, ToldPlace};
use cruachvel::{Curve, Function, Learned};

impl Digest {
    pub(super) fn asked(&mut self, told: &ToldAsked, buffer: &[u8]) {
        self.number(told.refusal.into());
        self.number(told.length as u64);
        self.bytes(buffer);
    }

    pub(super) fn heard(&mut self, told: &ToldHeard, table: &Learned) {
        let head = [told.kind, told.refusal, told.error];
        self.bytes(&head);
        self.number(told.place as u64);
        self.number(told.length as u64);
        self.table(table);
    }

    fn table(&mut self, table: &Learned) {
        let counts = [
            table.variables,
            table.writable,
            table.groups,
            table.curves,
            table.functions,
        ];
        for number in counts.iter().chain(&table.sets) {
            self.number(*number);
        }
        for number in Curve::numbers(&table.shapes) {
            self.number((*number).into());
        }
        self.bytes(&table.sizes);
        self.bytes(Function::numbers(&table.calls));
    }

    pub(super) fn place(&mut self, told: &ToldPlace) {
        self.number(told.refusal.into());
        self.number(told.place as u64);
        self.number(told.length as u64);
    }

    pub(super) fn told(&mut self, told: &Told) {
        self.number(told.refusal.into());
        self.number(told.number);
        self.bytes(&told.bytes);
    }
}
