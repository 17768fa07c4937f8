//! What does the node do if: a packet or another call on a board, what the proved node makes of it, and which of 01's rules decided it; and what
//! a gateway that asks the board sends and hears.
//!
//! Outcome, reply, new state, what is heard or refused and the numbers that bytes mean are all the proved code's. Only the words are added here.
#[cfg(not(target_arch = "wasm32"))]
pub mod arguments;
pub mod asked;
pub mod board_file;
pub mod bytes;
pub mod call;
mod captured;
pub mod changes;
pub mod commands;
pub mod ended;
mod explain;
pub mod gateway;
pub mod heard;
pub mod json;
pub mod packet;
pub mod refusals;
mod reply;
mod request;
mod rule;
mod session;
mod sheet;
pub mod steps;
pub mod table;
pub mod things;
mod unfit;

pub use captured::captured;
pub use ended::Ended;
pub use explain::explain;
pub use rule::{quotes, rule, rule_of, Rule};
pub use session::Session;
pub use sheet::Sheet;
pub use things::Setting;

/// The version of the program, and of the page in web/.
pub const VERSION: &str = env!("CARGO_PKG_VERSION");

/// What the program takes; tools/whatif reads it too.
pub const HELP: &str = include_str!("help.txt");
