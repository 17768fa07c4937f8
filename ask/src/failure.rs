//! Why the program ends without having done what was asked, and with which status.
use crate::told::Facts;
use cruachvel::{Refusal, WireError, SUM_SIZE};
use suite::whatif::bytes::{counted, hex, shown};
use suite::whatif::json;

#[derive(Clone, Debug, PartialEq, Eq)]
pub enum Failure {
    /// It can't be asked so.
    Misused(String),
    /// No answer came: asked so often, each time waiting so many milliseconds.
    Silent {
        tries: u32,
        milliseconds: u128,
        repeatable: bool,
    },
    /// What came is damaged, or doesn't fit the request.
    Unfit(Refusal, Vec<u8>),
    /// The node's lists are not those of the board file.
    OtherBoard(String),
    /// The node answered with an error.
    Error(WireError),
    /// A function failed, with this error byte.
    Failed(u8),
    /// The line, or a file.
    Broken(String),
    /// The node's sum, and that of the bytes sent or received.
    SumDiffers([u8; SUM_SIZE], [u8; SUM_SIZE]),
    /// Of watch: so many rounds failed, the last with this status.
    Rounds {
        failed: u64,
        rounds: u64,
        status: i32,
    },
    /// Nobody reads what is printed.
    Unread,
}

impl Failure {
    /// The exit status.
    pub fn status(&self) -> i32 {
        match self {
            Failure::Misused(_) => 1,
            Failure::Silent { .. } => 2,
            Failure::Unfit(..) | Failure::OtherBoard(_) => 3,
            Failure::Error(_) | Failure::Failed(_) => 4,
            Failure::Broken(_) | Failure::Unread => 5,
            Failure::SumDiffers(..) => 6,
            Failure::Rounds { status, .. } => *status,
        }
    }

    /// What is said of it.
    pub fn message(&self) -> String {
        match self {
            Failure::Misused(message) | Failure::Broken(message) => message.clone(),
            Failure::Silent {
                tries,
                milliseconds,
                repeatable,
            } => {
                let asked = match (tries, repeatable) {
                    (1, true) => "asked once".to_string(),
                    (1, false) => {
                        "asked once, as it may have been carried out all the same".to_string()
                    }
                    (tries, _) => format!("asked {} times", tries),
                };
                format!("no answer within {} ms, {}", milliseconds, asked)
            }
            Failure::Unfit(refusal, reply) => {
                let number = refusal.number();
                format!(
                    "the reply is refused with {}, {}: {}",
                    number,
                    refusal,
                    shown(reply)
                )
            }
            Failure::OtherBoard(difference) => difference.clone(),
            Failure::Error(error) => {
                format!("the node answers {:02X}: {}", error.code(), error)
            }
            Failure::Failed(error) => {
                format!("the function failed with error byte {:02X}", error)
            }
            Failure::SumDiffers(node, ours) => {
                let (node, ours) = (digits(node), digits(ours));
                format!(
                    "the sum differs: the node has {}, and the bytes have {}",
                    node, ours
                )
            }
            Failure::Rounds { failed, rounds, .. } => {
                format!("{} of {} rounds failed", failed, rounds)
            }
            Failure::Unread => String::new(),
        }
    }

    /// The same for programs.
    pub fn facts(&self) -> Facts {
        let mut facts = vec![
            ("status", self.status().to_string()),
            ("message", json::string(&self.message())),
        ];
        match self {
            Failure::Silent { tries, .. } => facts.push(("tries", tries.to_string())),
            Failure::Unfit(refusal, reply) => {
                facts.push(("refusal", refusal.number().to_string()));
                facts.push(("reply", json::string(&hex(reply))));
            }
            Failure::Error(error) => {
                facts.push(("error", json::string(&format!("{:02X}", error.code()))));
            }
            Failure::Failed(error) => {
                facts.push(("failed", json::string(&format!("{:02X}", error))));
            }
            Failure::SumDiffers(node, ours) => {
                facts.push(("sum", json::string(&digits(node))));
                facts.push(("expected", json::string(&digits(ours))));
            }
            _ => (),
        }
        facts
    }
}

/// A request that can't be written.
pub fn unwritable(refusal: Refusal) -> Failure {
    let number = refusal.number();
    let why = match refusal {
        Refusal::BadAddress => ": a node has 1 to 31, a multicast 248 to 255",
        Refusal::RequestUnwritable => {
            ": a number is over 255, a block over 65,535 or the payload over 4,099 bytes"
        }
        _ => "",
    };
    Failure::Misused(format!(
        "this is refused with {}, {}{}",
        number, refusal, why
    ))
}

/// A sum as the RFC and md5sum print it.
pub fn digits(sum: &[u8; SUM_SIZE]) -> String {
    sum.iter().map(|byte| format!("{:02x}", byte)).collect()
}

/// A file that can't be read or written, or not be taken.
pub fn of_file(path: &std::path::Path, message: &str) -> Failure {
    Failure::Broken(format!("{}: {}", path.display(), message))
}

/// A file of a length that doesn't do.
pub fn too_long(path: &std::path::Path, length: usize, curve: usize, room: usize) -> Failure {
    let (has, room) = (counted(length, "byte"), counted(room, "byte"));
    of_file(
        path,
        &format!("it has {}, and curve {} has room for {}", has, curve, room),
    )
}
