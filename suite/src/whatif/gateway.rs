//! The proved asking side on a board: what a gateway knows of it, what it sends, and what it hears.
use super::asked::Asked;
use super::changes::group_lines;
use super::ended::{Came, FILLING};
use super::heard::{curves_line, functions_line, slots_line, Heard, Slot};
use super::things::{Curve, Setting};
use crate::lent::Lent;
use cruachvel::{Gateway, Groups, Kind, Learned, Lists, Outcome, Variable};
use cruachvel::{Refusal, Request, REPLY_ROOM};

impl Setting {
    /// A board with its busy marks, and a gateway that has learned it.
    pub fn new(lent: Lent, busy: u64) -> Setting {
        let setting = Setting {
            lent,
            busy,
            known: Learned::new(),
        };
        setting.learned()
    }

    /// The same board, with a gateway that learns it anew from its lists. Of a board that answers nothing it learns nothing.
    pub fn learned(mut self) -> Setting {
        self.known = learned(&self.lent).unwrap_or_default();
        self
    }

    /// The gateway, with the board's kinds as far as they are any.
    pub fn gateway(&self, destination: u8) -> Gateway {
        let kind = |record: &Variable| Kind::ALL.get(usize::from(record.kind)).copied();
        Gateway {
            destination,
            learned: self.known,
            kinds: self.lent.variables.iter().map_while(kind).collect(),
        }
    }

    /// The board as far as the gateway knows it: its records and made groups.
    pub fn seen(&self) -> Lent {
        let known = &self.known;
        let record = |place: usize| Variable {
            writable: (known.writable >> place & 1) as u8,
            size: known.sizes[place],
            kind: self.lent.variables.get(place).map_or(0, |lent| lent.kind),
        };
        let variables = (0..known.sizes.len().min(known.variables as usize)).map(record);
        let curves = known.shapes.iter().take(known.curves as usize).copied();
        let functions = known.calls.iter().take(known.functions as usize);
        let functions: Vec<u8> = functions.flat_map(|f| [f.input, f.output]).collect();
        let curves: Vec<cruachvel::Curve> = curves.collect();
        let mut lent = Lent::declared(variables.collect(), &curves, &functions);
        lent.groups = Groups {
            count: known.groups,
            sets: known.sets,
        };
        lent
    }
}

fn learned(lent: &Lent) -> Option<Learned> {
    let mut lent = lent.clone();
    let mut gateway = Gateway::new(lent.address.own);
    let mut lists = Lists::new();
    while let Some(request) = lists.to_ask() {
        let reply = answered(&mut lent, &gateway, &request)?;
        let answer = gateway.hear(&request, &reply).ok()?;
        lists.heard(&answer).ok()?;
    }
    Some(gateway.learned)
}

fn answered(lent: &mut Lent, gateway: &Gateway, request: &Request) -> Option<Vec<u8>> {
    let (mut packet, mut reply) = ([0; REPLY_ROOM], [0; REPLY_ROOM]);
    let packet = gateway.ask(request, &mut packet).ok()?;
    match lent.packet(0, packet, &mut reply) {
        Outcome::Reply(reply) => Some(reply.to_vec()),
        _ => None,
    }
}

/// What the proved side sends.
pub fn ask(setting: &Setting, asked: &Asked) -> Came {
    let mut buffer = [FILLING; REPLY_ROOM];
    let gateway = setting.gateway(asked.destination());
    let sent = gateway.ask(&asked.request(), &mut buffer);
    let sent = sent.map(<[u8]>::to_vec);
    let written = sent.as_ref().map_or(0, Vec::len);
    let kept = buffer[written..].iter().all(|byte| *byte == FILLING);
    assert!(kept, "{:?} wrote more than its packet", asked);
    Came::of(sent, Came::Sends)
}

/// What the proved side hears, and learns from it.
pub fn hear(setting: &mut Setting, asked: &Asked, reply: &[u8]) -> Came {
    let mut gateway = setting.gateway(asked.destination());
    let heard = heard(&mut gateway, asked, reply);
    setting.known = gateway.learned;
    Came::of(heard, Came::Heard)
}

/// What the proved side would hear.
pub fn would_hear(setting: &Setting, asked: &Asked, reply: &[u8]) -> Result<Heard, Refusal> {
    heard(&mut setting.gateway(asked.destination()), asked, reply)
}

fn heard(gateway: &mut Gateway, asked: &Asked, reply: &[u8]) -> Result<Heard, Refusal> {
    let answer = gateway.hear(&asked.request(), reply)?;
    Ok(Heard::of(answer, gateway))
}

/// What is known of a sort of things, as a line of the cases says it; "none" if nothing is.
pub fn known_line(seen: &Lent, sort: &str) -> Option<String> {
    let line = match sort {
        "variables" => {
            let slot = |record: &Variable| Slot {
                writable: record.writable == 1,
                count: record.size.into(),
            };
            slots_line(&seen.variables.iter().map(slot).collect::<Vec<Slot>>())
        }
        "curves" => {
            let curves = seen.curves.chunks_exact(3).map(|record| Curve {
                writable: record[0] == 1,
                size: record[1] as usize,
                blocks: record[2] as usize,
            });
            curves_line(&curves.collect::<Vec<Curve>>())
        }
        "functions" => {
            let functions = seen.functions.chunks_exact(2);
            let functions = functions.map(|record| (record[0].into(), record[1].into()));
            functions_line(&functions.collect::<Vec<(usize, usize)>>())
        }
        _ => return None,
    };
    Some(if line.is_empty() {
        "none".to_string()
    } else {
        line
    })
}

/// What the gateway knows otherwise than before.
pub fn known_changes(before: &Setting, after: &Setting) -> Vec<String> {
    if before.known == after.known {
        return Vec::new();
    }
    let (old, new) = (before.seen(), after.seen());
    let mut lines = Vec::new();
    for sort in ["variables", "curves", "functions"] {
        let (old, new) = (known_line(&old, sort), known_line(&new, sort));
        if let (Some(old), Some(new), false) = (&old, &new, old == new) {
            lines.push(format!("known {}: {} -> {}", sort, old, new));
        }
    }
    lines.extend(group_lines("known group", &old.groups, &new.groups));
    lines
}
