//! What is printed of what a gateway asks and hears.
use crate::{board_a_idle, explained};
use suite::whatif::asked::form;
use suite::whatif::commands::COMMANDS;
use suite::whatif::{Session, HELP};

// What a session says of lines, one after the other.
fn told(lines: &[&str]) -> Vec<String> {
    let mut session = Session::new(board_a_idle());
    let tell = |line: &&str| session.tell(line).expect(line).lines();
    lines.iter().map(tell).collect()
}

#[test]
fn a_request_is_explained_with_its_packet() {
    let expected = "\
ask       5 make-group 2 0
  destination   5               this board
  command       30              create a group
  variables     02 00           2 0
outcome   a packet of 7 bytes is sent
rule      no refusal; by 2026-04 \"writes any request of 01's table, 0A and 42 too, from its meaning\"; by 2026-04 \"A new group's IDs are sorted first.\"; the command's row: | 30 | variables of a new group | E0 |
sends     05 30 00 02 00 02 C7
  destination   05              this board
  command       30              create a group
  SIZE          00 02           2 bytes of payload
  variables     00 02           0 2
  checksum      C7              the sum is 0
changed   nothing
";
    let mut setting = board_a_idle();
    assert_eq!(explained(&mut setting, "ask 5 make-group 2 0"), expected);
    let masks = explained(&mut setting, "ask 248 mask-group 2 toggle 0F 00 01");
    let parts = "
  destination   248             multicast 248, joined
  command       26              binary operation on a group
  group         2               group 2: writable, variables 1 2
  operation     54              toggle: inverts the mask's bits
  mask          0F 00 01        3 bytes
";
    assert!(masks.contains(parts), "{}", masks);
    let block = explained(&mut setting, "ask 5 block 0 1");
    assert!(block.contains("  block         1               block 1: 4 bytes\n"));
}

#[test]
fn a_request_that_is_refused_is_explained_with_the_reason() {
    let refused = |line: &str, rule: &str, reason: &str| {
        let text = explained(&mut board_a_idle(), line);
        let end = format!(
            "rule      {}\n          {}\nchanged   nothing\n",
            rule, reason
        );
        assert!(text.ends_with(&end), "{}", text);
    };
    let unwritable = "refusal 14, request can't be written, by 2026-04 \"14 request can't be written (ID over 255, block over 65,535 or payload over 4,099 bytes)\"";
    refused(
        "ask 5 read 256",
        unwritable,
        "variable 256; at most 255 can be written",
    );
    refused(
        "ask 5 write-block 0 65536 00",
        unwritable,
        "block 65,536; at most 65,535 can be written",
    );
    refused(
        "ask 5 write-block 0 0 00*4097",
        unwritable,
        "the payload has 4,100 bytes; at most 4,099 can be written",
    );
    refused(
        "ask 32 read 256",
        "refusal 2, bad address, by 2026-04 \"2 is a destination not 1 to 31 or 248 to 255\"",
        "the destination is 32; 1 to 31 and 248 to 255 are allowed",
    );
}

#[test]
fn what_is_heard_is_explained_with_what_is_learned() {
    let lines = [
        "ask 5 make-group 2 0",
        "hear 00 E0 00 00 20",
        "ask 5 group 3",
        "hear 00 13 00 06 FF FF FF FD 34 12 A7",
        "forget",
        "hear 00 13 00 06 FF FF FF FD 34 12 A7",
    ];
    let texts = told(&lines);
    let made = "changed   known group 3: none -> variables 0 2\n";
    assert!(texts[1].ends_with(made), "{}", texts[1]);
    let values = "
  value of 0    FF FF FF FD     means -3
  value of 2    34 12           means 4660
  checksum      A7              the sum is 0
outcome   heard: variable 0 is FF FF FF FD, the number -3; variable 2 is 34 12, the number 4660
";
    assert!(texts[3].contains(values), "{}", texts[3]);
    let forgot = "\
forget
outcome   the gateway knows nothing of the node
rule      no refusal; by 2026-04 \"learns a node's variables, groups, curves and functions from the lists\"
changed   known variables: read-only 4, writable 1, writable 2 -> none
          known curves: writable 4 2 -> none
          known functions: 1 2 -> none
          known group 3: variables 0 2 -> none
";
    assert_eq!(texts[4], forgot);
    let unknown = "
outcome   refused with 1, board unusable
rule      refusal 1, board unusable: \"a record, store length or group breaks the table above\"
          no variables of the node are known yet; list-variables, 02, asks for them
changed   nothing
";
    assert!(texts[5].ends_with(unknown), "{}", texts[5]);
}

#[test]
fn a_reply_is_heard_to_what_was_asked_last_by_a_gateway_that_knows_the_board_as_it_was() {
    let lines = [
        "ask 5 read 1",
        "05 30 00 02 00 02 C7",
        "ask 5 group 3",
        "hear 00 13 00 06 FF FF FF FD 34 12 A7",
        "hear 00 11 00 01 5A 94",
    ];
    let texts = told(&lines);
    let unknown = "          there is no group 3: the learned table has 0 to 2\n";
    assert!(texts[3].contains(unknown), "{}", texts[3]);
    let other = "          11 is no answer to 12; 13 is, or one of E1 to E8\n";
    assert!(texts[4].contains(other), "{}", texts[4]);
}

#[test]
fn a_checksum_that_is_wrong_in_a_reply_is_pointed_out() {
    let texts = told(&["ask 5 read 0", "hear 00 11 00 03 FF FF FD F2"]);
    let hint = "\nhint      with F1 as its last byte the outcome would be: refused with 13, reply doesn't fit the request\n";
    assert!(texts[1].contains(hint), "{}", texts[1]);
}

#[test]
fn json_has_what_is_sent_and_heard() {
    let mut session = Session::new(board_a_idle());
    let asked = session.tell("ask 5 read 1").expect("a request").json();
    let start = r#"{"ask":{"words":"5 read 1","parts":["#;
    assert!(asked.starts_with(start), "{}", asked);
    let sent = r#""ended":"sends 05 10 00 01 01 E9""#;
    assert!(asked.contains(sent), "{}", asked);
    assert!(asked.contains(r#""sends":{"bytes":"05 10 00 01 01 E9","parts":["#));
    let heard = session.tell("hear 00 11 00 01 5A 94").expect("a reply");
    let heard = heard.json();
    let start = r#"{"hear":{"bytes":"00 11 00 01 5A 94","parts":["#;
    assert!(heard.starts_with(start), "{}", heard);
    let ended = r#""ended":"heard values 1 5A""#;
    assert!(heard.contains(ended), "{}", heard);
    assert!(heard.ends_with("\"changed\":[]}\n"), "{}", heard);
}

#[test]
fn the_help_has_all_requests() {
    let help = HELP.split_whitespace().collect::<Vec<&str>>().join(" ");
    for command in &COMMANDS {
        let form = form(command);
        let listed = [format!(" {},", form), format!(" {}. ", form)];
        assert!(listed.iter().any(|form| help.contains(form)), "{}", form);
    }
}
