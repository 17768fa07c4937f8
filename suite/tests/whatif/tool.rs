//! tools/whatif before anything is proved, and the program at a terminal.
use crate::program::{said, whatif};
use std::ffi::OsString;
use std::io::Write;
use std::process::{Command, Output, Stdio};
use suite::run::program;
use suite::whatif::arguments::wanted;
use suite::whatif::HELP;

// The tool where neither the toolchain nor an archive is.
fn tool(arguments: &[&str]) -> Output {
    Command::new(concat!(env!("CARGO_MANIFEST_DIR"), "/../tools/whatif"))
        .args(arguments)
        .env_remove("LD_PRELOAD")
        .env("PATH", "/usr/bin:/bin")
        .env("RATTLE_LIB", "/nowhere")
        .stdin(Stdio::null())
        .output()
        .expect("it starts")
}

#[test]
fn the_tool_answers_at_once_what_needs_no_node() {
    for option in ["--help", "--version", "-h"] {
        let (tool, program) = (tool(&["--sum", option]), whatif(&["--sum", option], ""));
        assert_eq!(said(&tool), (Some(0), String::new()));
        assert_eq!(tool.stdout, program.stdout);
    }
    let version = format!("whatif {}\n", env!("CARGO_PKG_VERSION"));
    assert_eq!(tool(&["--version"]).stdout, version.as_bytes());
    let help = String::from_utf8_lossy(&tool(&["--help"]).stdout).into_owned();
    assert!(help.contains("variable read-only 4 signed big value -3"));
}

const MISUSES: &[(&[&str], &str)] = &[
    (&["--sun"], "--sun is no option"),
    (&["--sun=1"], "--sun is no option"),
    (&["--"], "-- is no option"),
    (&["05 FB", "--board"], "--board takes something after it"),
    (&["--busy"], "--busy takes something after it"),
    (&["--reply"], "--reply takes something after it"),
    (&["--request"], "--request takes something after it"),
    (&["--sum=1"], "--sum takes nothing after it"),
    (&["--board", "no-such-file", "-x"], "-x is no option"),
];

#[test]
fn the_tool_and_the_program_refuse_the_same_arguments() {
    for (arguments, message) in MISUSES {
        let (tool, program) = (tool(arguments), whatif(arguments, ""));
        let expected = (Some(2), format!("whatif: {}", message));
        assert_eq!((said(&tool), said(&program)), (expected.clone(), expected));
        assert_eq!(tool.stderr, program.stderr);
    }
    let missing = "whatif: no-such-file: No such file or directory";
    for arguments in [&["--board=no-such-file"][..], &["--board", "no-such-file"]] {
        assert_eq!(said(&tool(arguments)), (Some(1), missing.to_string()));
        let expected = (Some(1), format!("{} (os error 2)", missing));
        assert_eq!(said(&whatif(arguments, "")), expected);
    }
}

#[test]
fn both_take_every_option_of_the_help() {
    let options = HELP.lines().filter(|line| line.starts_with("  --"));
    let options: Vec<&str> = options
        .filter_map(|line| line.split_whitespace().next())
        .collect();
    assert_eq!(options.len(), 8, "{:?}", options);
    for option in options {
        let arguments = match option {
            "--board" => vec![option, "/dev/null"],
            "--busy" | "--reply" => vec![option, "1"],
            "--request" => vec![option, "1", "--reply", "1"],
            _ => vec![option],
        };
        let asked = wanted(arguments.iter().map(OsString::from));
        assert!(asked.is_ok(), "{:?}", asked);
        if !matches!(option, "--help" | "--version") {
            let text = String::from_utf8_lossy(&tool(&arguments).stderr).into_owned();
            let end = "whatif: /nowhere/libbsmp_c.a is not there\n";
            assert!(text.ends_with(end), "{}", text);
        }
    }
}

#[test]
fn operands_may_follow_an_equals_sign() {
    let lines = ["05 20 00 02 01 66 72", "busy"];
    let apart = whatif(&["--busy", "1", "--board", "/dev/null"], "");
    let joined = whatif(&["--busy=1", "--board=/dev/null"], "");
    assert_eq!(apart, joined);
    let busy = whatif(&["--busy=0,1", lines[0], lines[1]], "");
    let text = String::from_utf8_lossy(&busy.stdout).into_owned();
    assert!(text.contains("outcome   reply E8, resource busy\n"));
    assert!(text.ends_with("changed   busy: variables 0 1 -> no variables\n"));
}

#[test]
fn the_program_decodes_and_writes_json() {
    let reply = "00:11:00:04:ff:ff:ff:fd:f1";
    let output = whatif(&["--reply", reply], "xx\n");
    let text = String::from_utf8_lossy(&output.stdout).into_owned();
    assert!(text.contains("value of 0    FF FF FF FD     means -3\n"));
    let reply = format!("--reply={}", reply);
    let output = whatif(&["--json", &reply, "05 FB", "store 1 66"], "");
    let text = String::from_utf8_lossy(&output.stdout).into_owned();
    let starts: Vec<&str> = text
        .lines()
        .filter_map(|line| line.split(':').next())
        .collect();
    assert_eq!(starts, ["{\"reply\"", "{\"packet\"", "{\"store\""]);
}

// The command of the program, for a shell.
fn command_line() -> String {
    let command = program(env!("CARGO_BIN_EXE_whatif"));
    let words = std::iter::once(command.get_program()).chain(command.get_args());
    let quoted = words.map(|word| format!("'{}'", word.to_string_lossy()));
    quoted.collect::<Vec<String>>().join(" ")
}

#[test]
fn at_a_terminal_it_asks_and_goes_on_after_a_mistake() {
    let mut child = Command::new("script")
        .args(["-qec", &command_line(), "/dev/null"])
        .env_remove("LD_PRELOAD")
        .stdin(Stdio::piped())
        .stdout(Stdio::piped())
        .spawn()
        .expect("it starts");
    let mut input = child.stdin.take().expect("a pipe");
    input.write_all(b"xx\n05 FB\n").expect("it reads");
    drop(input);
    let output = child.wait_with_output().expect("it ends");
    let text = String::from_utf8_lossy(&output.stdout).into_owned();
    assert_eq!(output.status.code(), Some(0), "{}", text);
    assert_eq!(text.matches("whatif> ").count(), 3, "{}", text);
    assert!(text.contains("whatif: \"xx\" is neither bytes"), "{}", text);
    assert!(text.contains("outcome   reply E1, malformed"), "{}", text);
    let unasked = whatif(&[], "05 FB\n");
    assert!(unasked.stderr.is_empty());
}
