//! whatif: what it prints, that its rules fit whatever the proved node does, and what it says to files and lines that it can't read.
mod asking;
mod board_files;
mod call_rules;
mod calls;
mod captured;
mod hex;
mod json;
mod printed;
mod program;
mod rules;
mod tool;

use suite::boards::board_a;
use suite::whatif::{Session, Setting};

fn board_a_idle() -> Setting {
    Setting::new(board_a(), 0)
}

// What a line is explained with, on this board.
fn explained(setting: &mut Setting, line: &str) -> String {
    let mut session = Session::new(setting.clone());
    let sheet = session.tell(line).expect(line);
    *setting = session.setting;
    sheet.lines()
}
