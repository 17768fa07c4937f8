//! How a test starts another program.
use std::io::Write;
use std::process::{Command, Stdio};
use std::thread;

// Where tests are run through an emulator, cargo is told so by this variable, and so are they.
const RUNNER: &str = "CARGO_TARGET_X86_64_UNKNOWN_LINUX_GNU_RUNNER";

/// A program for x86-64, by the runner that the tests themselves are run by, if there is one.
pub fn program(path: &str) -> Command {
    match std::env::var_os(RUNNER) {
        Some(runner) => {
            let mut command = Command::new(runner);
            // What is put in front of a program for x86-64 is none of the runner's.
            command.arg(path).env_remove("LD_PRELOAD");
            command
        }
        None => Command::new(path),
    }
}

/// What a program prints when it is given this input. It must end well.
pub fn printed(path: &str, input: &[u8]) -> Vec<u8> {
    let mut child = program(path)
        .stdin(Stdio::piped())
        .stdout(Stdio::piped())
        .spawn()
        .unwrap_or_else(|error| panic!("{} can't be started: {}", path, error));
    let mut pipe = child.stdin.take().expect("it was asked for");
    let output = thread::scope(|scope| {
        // Input and output go side by side, so that neither pipe stands full.
        scope.spawn(move || {
            pipe.write_all(input)
                .expect("the program reads all its input")
        });
        child.wait_with_output()
    });
    let output = output.unwrap_or_else(|error| panic!("{} was lost: {}", path, error));
    assert!(
        output.status.success(),
        "{} ended with {}",
        path,
        output.status
    );
    output.stdout
}
