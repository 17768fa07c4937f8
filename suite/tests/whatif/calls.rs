//! What is printed of calls that are no packets, and of busy marks.
use crate::{board_a_idle, explained};
use suite::whatif::call::{Call, Line};
use suite::whatif::{board_file, Session};

#[test]
fn after_a_50_the_result_is_handed_in() {
    let mut setting = board_a_idle();
    let run = explained(&mut setting, "05 50 00 02 00 07 A2");
    let hint = "\
hint      the line for its result is: result 0 due gave .. .., or: result 0 due failed ..
changed   nothing
";
    assert!(run.ends_with(hint), "{}", run);
    let expected = "\
result    0 due gave 12 34
  function      0               function 0: 1 byte in, 2 out
  answer        due             an answer is due
  output        12 34           2 bytes
outcome   reply 51, output of a function
rule      no refusal; \"Handed the result, and whether an answer was due, the node writes reply 51 with the output, or 53 with one error byte; if none was due, it stays silent.\"
reply     00 51 00 02 12 34 67
  destination   00              the master
  command       51              output of a function
  SIZE          00 02           2 bytes of payload
  output        12 34           2 bytes
  checksum      67              the sum is 0
changed   nothing
";
    assert_eq!(explained(&mut setting, "result 0 due gave 12 34"), expected);
    let failed = explained(&mut setting, "result 0 due failed 09");
    assert!(failed.contains("outcome   reply 53, error of a function\n"));
    assert!(failed.contains("\n  error         09              1 byte\n"));
    let quiet = explained(&mut setting, "result 0 quiet failed 09");
    assert!(quiet.contains("outcome   silence\n"), "{}", quiet);
}

#[test]
fn a_store_is_explained_with_what_it_changes() {
    let expected = "\
store     0 00 00 00 07
  variable      0               variable 0: read-only, 4 bytes, signed big endian
  value of 0    00 00 00 07     means 7
outcome   the value is stored
rule      no refusal; \"The board may store a new value into any variable, read-only or busy too; only those bytes change.\"
changed   variable 0: FF FF FF FD (-3) -> 00 00 00 07 (7)
";
    let mut setting = board_a_idle();
    assert_eq!(explained(&mut setting, "store 0 00 00 00 07"), expected);
    let read = explained(&mut setting, "05 10 00 01 00 EA");
    assert!(read.contains("value of 0    00 00 00 07     means 7\n"));
}

#[test]
fn both_readings_are_explained() {
    let read = "\
read      signed 0 FF FF FF FD
  variable      0               variable 0: read-only, 4 bytes, signed big endian
  value of 0    FF FF FF FD     means -3
  asked for     signed          a number
outcome   the number -3
rule      no refusal; \"For signed kinds the sign is the top bit of the most significant byte: n bytes with unsigned value u mean u, or u − 2^(8n) if u ≥ 2^(8n−1).\"
changed   nothing
";
    let write = "\
write     unsigned 2 70000 into 2
  variable      2               variable 2: writable, 2 bytes, unsigned little endian
  number        70000           unsigned
  buffer        2               2 bytes
outcome   refused with 12, doesn't fit
rule      refusal 12, doesn't fit: \"number outside the variable's range\"
          variable 2 holds 0 to 65535, and not 70000
changed   nothing
";
    let mut setting = board_a_idle();
    assert_eq!(explained(&mut setting, "read signed 0 FF*3 FD"), read);
    assert_eq!(
        explained(&mut setting, "write unsigned 2 70000 into 2"),
        write
    );
    let written = explained(&mut setting, "write unsigned 2 4660 into 2");
    assert!(written.contains("outcome   the bytes 34 12\n"));
}

#[test]
fn a_fresh_board_is_explained_with_the_blocks_that_it_fills_and_the_sums_that_it_works_out() {
    let board = "address 5\nvariable writable 1 plain\ncurve writable 4 4\ncurve read-only 1 3\nlengths 2 2 4 0 1*3\nsum 0 00*16";
    let mut setting = board_file::parse(board).expect("a board");
    let expected = "\
fresh
  curve         0               curve 0: writable, 4 blocks of 4 bytes, 3 not full
  curve         1               curve 1: read-only, 3 blocks of 1 byte
outcome   all blocks are full, and the sums are worked out
rule      no refusal; by 2026-02 \"Each curve's sum is part of the state: a fresh board works it out, a block write leaves it stale, 42 renews it, for read-only curves too.\"; by 2026-03 \"Each block gets a length of its own, 1 to the block size, full on a fresh board.\"
changed   curve 0, blocks 0 to 1, length: 2 -> 4
          curve 0, block 3, length: 0 -> 4
          sum of curve 0: 00 00 00 00 00 00 00 00 00 00 00 00 00 00 00 00 -> 4A E7 13 36 E4 4B F9 BF 79 D2 75 2E 23 48 18 A5
";
    assert_eq!(explained(&mut setting, "fresh"), expected);
    let again = explained(&mut setting, "fresh");
    assert!(again.ends_with("changed   nothing\n"), "{}", again);
    setting.lent.sums.pop();
    let refused = explained(&mut setting, "fresh");
    let expected = "\
outcome   refused with 1, board unusable
rule      refusal 1, board unusable, by 2026-03 \"A length out of range, lengths not one per block or sums not one per curve make the board unusable.\"
          the sums' store has 31 bytes; the records add up to 32
changed   nothing
";
    assert!(refused.ends_with(expected), "{}", refused);
}

#[test]
fn each_refusal_of_a_call_is_told_with_its_reason() {
    let reasons = [
        ("store 1 00 00", "2 bytes; variable 1 has 1"),
        ("store 3 00", "there is no variable 3: the board has 0 to 2"),
        ("result 0 due gave 12", "1 byte; function 0 gives 2"),
        (
            "result 1 quiet failed 09",
            "there is no function 1: the board has 0 to 0",
        ),
        (
            "read unsigned 0 FF",
            "variable 0 is signed big endian, and the number asked for is unsigned",
        ),
        (
            "read signed 1 FF",
            "variable 1 is plain, and the number asked for is signed",
        ),
        ("read signed 0 FF", "1 byte; variable 0 has 4"),
        ("write unsigned 2 1 into 3", "3 bytes; variable 2 has 2"),
    ];
    for (line, reason) in reasons {
        let text = explained(&mut board_a_idle(), line);
        let end = format!("\n          {}\nchanged   nothing\n", reason);
        assert!(text.ends_with(&end), "{}", text);
    }
}

#[test]
fn busy_marks_hold_for_the_lines_that_follow() {
    let expected = "\
busy      1 5
outcome   variables 1 5 are busy for the lines that follow
rule      \"Busy marks, bit n of a 64-bit number for variable n (higher bits count for nothing), come from the board with each packet.\"
          not declared: variable 5
changed   busy: variable 2 -> variables 1 5
";
    let mut setting = board_a_idle();
    setting.busy = 0b100;
    assert_eq!(explained(&mut setting, "busy 1 5"), expected);
    let write = "packet 05 20 00 02 01 66 72";
    assert!(explained(&mut setting, write).contains("outcome   reply E8, resource busy\n"));
    let none = explained(&mut setting, "busy");
    assert!(none.contains("outcome   no variables are busy for the lines that follow\n"));
    assert!(explained(&mut setting, write).contains("outcome   reply E0, OK\n"));
}

#[test]
fn a_call_is_printed_as_it_is_read() {
    for text in [
        "packet 05 FB",
        "store 1 66",
        "read signed 0 FF FF FF FD",
        "write unsigned 2 4660 into 2",
        "result 0 quiet gave 12 34",
        "result 0 due failed 09",
        "fresh",
        "ask 5 version",
        "ask 248 read 300",
        "ask 5 make-group 2 0",
        "ask 31 mask-group 2 toggle 0F 00 01",
        "ask 5 write-read 1 0 66",
        "ask 5 write-block 0 1 AA BB",
        "forget",
    ] {
        let call = match Line::or_packet(text, None) {
            Ok(Line::Call(call)) => call,
            other => panic!("{} is read as {:?}", text, other),
        };
        let (keyword, rest) = call.words();
        assert_eq!(format!("{} {}", keyword, rest).trim_end(), text);
    }
    let packet = Ok(Line::Call(Call::Packet(vec![5, 0xFB])));
    assert_eq!(Line::or_packet(" 05 FB ", None), packet);
}

#[test]
fn a_line_that_is_written_wrong_is_told_how() {
    let wrong = [
        ("store", "a store is written so: store VARIABLE BYTES"),
        (
            "read 0 FF",
            "a read is written so: read signed|unsigned VARIABLE BYTES",
        ),
        (
            "write signed 0 1",
            "a write is written so: write signed|unsigned VARIABLE NUMBER into N",
        ),
        (
            "result 0 gave 12",
            "a result is written so: result FUNCTION due|quiet gave|failed BYTES",
        ),
        ("fresh 0", "a fresh is written so: fresh"),
        ("ask 5", "an ask is written so: ask DESTINATION REQUEST"),
        ("ask 5 raed 0", "\"raed\" is no request"),
        (
            "ask 5 write-read 1",
            "write-read is asked so: ask DESTINATION write-read WRITTEN READ BYTES",
        ),
        (
            "ask 5 read 0 1",
            "read is asked so: ask DESTINATION read VARIABLE",
        ),
        (
            "ask 256 version",
            "\"256\" is no number that can stand here",
        ),
        (
            "ask 5 make-group 2 256",
            "\"256\" is no number that can stand here",
        ),
        (
            "ask 5 mask 1 invert 0F",
            "\"invert\" is none of set, or, clear, toggle, xor and and",
        ),
        (
            "hear 00 E0 00 00 20",
            "a reply is heard to what was asked before it, and nothing was",
        ),
        ("forget 0", "a forget is written so: forget"),
        (
            "write signed 0 1 into 65536",
            "\"65536\" is no number that can stand here",
        ),
        (
            "busy 0 64",
            "a variable is a number from 0 to 63, and not \"64\"",
        ),
    ];
    for (line, message) in wrong {
        assert_eq!(Line::or_packet(line, None), Err(message.to_string()));
    }
}

#[test]
fn a_checksum_that_is_there_twice_is_pointed_out() {
    let hint = |packet: &str| {
        let mut session = Session::new(board_a_idle());
        session.sum = true;
        let text = session.tell(packet).expect(packet).lines();
        let hint = text.lines().find(|line| line.starts_with("hint"));
        hint.map(str::to_string)
    };
    let twice = "hint      the packet has its checksum already, and --sum added another: without --sum the outcome would be: reply E0, OK";
    assert_eq!(hint("05 20 00 02 01 66 72").as_deref(), Some(twice));
    assert_eq!(hint("05 20 00 02 01 66"), None);
    // A wrong checksum is none; and a sum may be 0 without one.
    assert_eq!(hint("05 20 00 02 01 66 70"), None);
    assert_eq!(hint("05 20 00 02 01 D8"), None);
}
