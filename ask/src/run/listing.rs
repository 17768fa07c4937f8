//! The node's lists.
use super::{array, named, numbers, Run};
use crate::board;
use crate::failure::Failure;
use crate::told::Item;
use cruachvel::{Answer, GroupNumber, Lists};
use suite::whatif::bytes::counted;
use suite::whatif::json;
use suite::whatif::things::{kind_name, type_name};

impl Run<'_> {
    pub(super) fn list(&mut self) -> Result<(), Failure> {
        let mut lists = Lists::new();
        let mut writable = Vec::new();
        while let Some(request) = lists.to_ask() {
            let take = |answer: Answer| {
                let mut next = lists;
                let groups = match &answer {
                    Answer::Groups(groups) => groups.clone().map(|group| group.writable).collect(),
                    _ => Vec::new(),
                };
                next.heard(&answer).ok().map(|()| (next, groups))
            };
            let (next, groups) = self.asker.ask(self.teller, &request, take)?;
            lists = next;
            writable.extend(groups);
        }
        let item = self.listed(&writable);
        self.teller.tell(item)?;
        self.held(|board, learned| {
            let curves = board.other_curves(learned);
            curves.or_else(|| board.other_functions(learned))
        })
    }

    // The learned table; of the groups, whether they are writable is told by their list.
    fn listed(&self, writable: &[bool]) -> Item {
        let gateway = &self.asker.gateway;
        let learned = &gateway.learned;
        let kind = |number: usize| {
            gateway
                .kinds
                .get(number)
                .map(|kind| kind_name(kind.number()))
        };
        let mut lines = vec![format!("node {}", gateway.destination)];
        let mut sort = |name: &str, things: Vec<String>| {
            let count = counted(things.len(), name);
            lines.push(count);
            let numbered = things.into_iter().enumerate();
            lines.extend(numbered.map(|(number, thing)| format!("  {:>2}  {}", number, thing)));
        };
        let variables = board::variables(learned).into_iter().enumerate();
        let with_kind = variables.map(|(number, text)| match kind(number) {
            Some(kind) => format!("{}, {}", text, kind),
            None => text,
        });
        sort("variable", with_kind.collect());
        let members = |group: usize| gateway.members(GroupNumber(group)).map(|number| number.0);
        let groups = writable.iter().enumerate().map(|(group, writable)| {
            let members = match numbers(members(group)) {
                none if none.is_empty() => "no variable".to_string(),
                members => format!("variables {}", members),
            };
            format!("{}, {}", type_name(*writable), members)
        });
        sort("group", groups.collect());
        sort("curve", board::curves(learned));
        sort("function", board::functions(learned));
        if let Some(board) = &self.board {
            lines.push(format!("kinds are those of {}", board.name));
        }

        let variables = (0..board::variables(learned).len()).map(|number| {
            let mut facts = named("variable", number);
            let writable = learned.writable >> number & 1 == 1;
            facts.push(("writable", writable.to_string()));
            facts.push(("size", learned.sizes[number].to_string()));
            facts.extend(kind(number).map(|kind| ("kind", json::string(&kind))));
            json::object(facts)
        });
        let groups = writable.iter().enumerate().map(|(group, writable)| {
            let mut facts = named("group", group);
            facts.push(("writable", writable.to_string()));
            facts.push(("variables", array(members(group))));
            json::object(facts)
        });
        let shapes = learned.shapes.iter().take(board::curves(learned).len());
        let curves = shapes.enumerate().map(|(number, shape)| {
            let mut facts = named("curve", number);
            facts.push(("writable", (shape.writable == 1).to_string()));
            facts.push(("blockSize", shape.block_size.to_string()));
            facts.push(("blocks", shape.blocks.to_string()));
            json::object(facts)
        });
        let calls = learned.calls.iter().take(board::functions(learned).len());
        let functions = calls.enumerate().map(|(number, call)| {
            let mut facts = named("function", number);
            facts.push(("input", call.input.to_string()));
            facts.push(("output", call.output.to_string()));
            json::object(facts)
        });
        let text = lines.join("\n");
        Item {
            value: Some(text.clone()),
            text,
            facts: vec![
                ("variables", json::array(variables)),
                ("groups", json::array(groups)),
                ("curves", json::array(curves)),
                ("functions", json::array(functions)),
            ],
        }
    }
}
