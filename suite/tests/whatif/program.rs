//! The program: its arguments, its input, and packets that can't be read.
use std::io::Write;
use std::process::{Output, Stdio};
use suite::run::program;

pub fn whatif(arguments: &[&str], input: &str) -> Output {
    let mut child = program(env!("CARGO_BIN_EXE_whatif"))
        .args(arguments)
        .stdin(Stdio::piped())
        .stdout(Stdio::piped())
        .stderr(Stdio::piped())
        .spawn()
        .expect("it starts");
    // The program may end without reading.
    let _ = child
        .stdin
        .take()
        .expect("a pipe")
        .write_all(input.as_bytes());
    child.wait_with_output().expect("it ends")
}

pub fn said(output: &Output) -> (Option<i32>, String) {
    let text = String::from_utf8_lossy(&output.stderr);
    (
        output.status.code(),
        text.lines().next().unwrap_or_default().to_string(),
    )
}

// Arguments, how the program ends, and the first line that it says.
const MISUSES: &[(&[&str], i32, &str)] = &[
    (
        &["--busy", "64"],
        2,
        "whatif: --busy: a variable is a number from 0 to 63, and not \"64\"",
    ),
    (
        &["--busy=1,x"],
        2,
        "whatif: --busy: a variable is a number from 0 to 63, and not \"x\"",
    ),
    (
        &["05", "FB"],
        2,
        "whatif: each argument is a whole line: put it in quotes",
    ),
    (
        &["--sum", "05", "05 F"],
        1,
        "whatif: argument 3: a byte has two digits, and at place 4 stands one",
    ),
    (
        &["stroe 1 66"],
        1,
        "whatif: argument 1: \"stroe\" is neither bytes in hex nor packet, store, read, write, result, fresh, ask, hear, forget or busy",
    ),
    (
        &["--reply", "00 1G"],
        1,
        "whatif: --reply: 'G' at place 5 is no hex digit",
    ),
    (
        &["--reply=00", "--request", "05 1"],
        1,
        "whatif: --request: a byte has two digits, and at place 4 stands one",
    ),
    (
        &["--request", "05 FB"],
        2,
        "whatif: --request takes a --reply beside it",
    ),
    (
        &["--board", "/"],
        1,
        "whatif: /: Is a directory (os error 21)",
    ),
];

#[test]
fn the_program_ends_with_what_it_promises() {
    for (arguments, status, message) in MISUSES {
        let output = whatif(arguments, "");
        assert_eq!(said(&output), (Some(*status), message.to_string()));
    }
    let output = whatif(&[], "# one\n\n05 FB\nxx\n");
    let message = "whatif: line 4: \"xx\" is neither bytes in hex nor packet, store, read, write, result, fresh, ask, hear, forget or busy";
    assert_eq!(said(&output), (Some(1), message.to_string()));
    assert!(output.stdout.starts_with(b"packet    05 FB\n"));
}

#[test]
fn a_mistake_in_a_board_file_is_told_with_file_and_line() {
    let path = std::env::temp_dir().join(format!("whatif-{}.board", std::process::id()));
    std::fs::write(&path, "address 5\nvariable writable 300 plain\n").expect("a file");
    let name = path.display().to_string();
    let output = whatif(&[&format!("--board={}", name), "05 FB"], "");
    std::fs::remove_file(&path).expect("the file");
    let message = format!(
        "whatif: {}: line 2: the size can't be 300: what the node is lent has room for 0 to 255 there",
        name
    );
    assert_eq!(said(&output), (Some(1), message));
    assert!(output.stdout.is_empty());
}

#[test]
fn the_program_explains_arguments_and_lines_alike() {
    let packets = ["05 30 00 01 01", "05300001 02"];
    let given = whatif(&["--sum", "--busy", "1,2", packets[0], packets[1]], "");
    let lines = format!("{} # group 3\n\n{}\n", packets[0], packets[1]);
    let read = whatif(&["--busy", "1,2", "--sum"], &lines);
    assert_eq!(said(&given), (Some(0), String::new()));
    assert_eq!(given.stdout, read.stdout);
    let text = String::from_utf8_lossy(&given.stdout);
    assert!(
        text.ends_with("changed   group 4: none -> variable 2\n"),
        "{}",
        text
    );
}
