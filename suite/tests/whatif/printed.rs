//! What is printed of a packet.
use crate::{board_a_idle, explained};

#[test]
fn a_write_to_a_read_only_variable_is_explained() {
    let text = explained(&mut board_a_idle(), "05 20 00 05 00 00 00 00 00 D6");
    let expected = "\
packet    05 20 00 05 00 00 00 00 00 D6
  destination   05              this board
  command       20              write a variable
  SIZE          00 05           5 bytes of payload
  variable      00              variable 0: read-only, 4 bytes, signed big endian
  value of 0    00 00 00 00     means 0
  checksum      D6              the sum is 0
outcome   reply E6, read-only
rule      step 8 of the wire errors: \"E6: the thing to be written is read-only.\"
          variable 0 is read-only
reply     00 E6 00 00 1A
  destination   00              the master
  command       E6              read-only
  SIZE          00 00           0 bytes of payload
  checksum      1A              the sum is 0
changed   nothing
";
    assert_eq!(text, expected);
}

#[test]
fn packets_run_one_after_the_other_on_the_same_board() {
    let mut setting = board_a_idle();
    let made = explained(&mut setting, "05 30 00 02 00 02 C7");
    assert!(made.ends_with("changed   group 3: none -> variables 0 2\n"));
    let text = explained(&mut setting, "05 12 00 01 03 E5");
    let expected = "\
packet    05 12 00 01 03 E5
  destination   05              this board
  command       12              read a group
  SIZE          00 01           1 byte of payload
  group         03              group 3: read-only, variables 0 2
  checksum      E5              the sum is 0
outcome   reply 13, values of a group
rule      no refusal and no wire error; the command's row: | 12 | group | 13: members' values, ascending |
reply     00 13 00 06 FF FF FF FD 34 12 A7
  destination   00              the master
  command       13              values of a group
  SIZE          00 06           6 bytes of payload
  value of 0    FF FF FF FD     means -3
  value of 2    34 12           means 4660
  checksum      A7              the sum is 0
changed   nothing
";
    assert_eq!(text, expected);
}

#[test]
fn a_multicast_error_is_told_though_nothing_is_answered() {
    let mut setting = board_a_idle();
    setting.busy = 0b100;
    let text = explained(&mut setting, "F8 22 00 04 02 01 02 03 DA");
    let expected = "\
outcome   silence
rule      \"Packets to 248..255 are carried out if the multicast byte has that address, and never answered.\"
          to the own address the outcome would be: reply E8, resource busy
          step 9 of the wire errors: \"E8: a variable to be written is busy.\", by 2026-01 \"E8 keeps its place in the order, now for reads too.\"
          variable 2 is busy
changed   nothing
";
    assert!(text.ends_with(expected), "{}", text);
}

#[test]
fn changed_values_are_shown_as_numbers() {
    let text = explained(&mut board_a_idle(), "05 20 00 03 02 FF FF D8");
    let expected = "changed   variable 2: 34 12 (4660) -> FF FF (65535)\n";
    assert!(text.ends_with(expected), "{}", text);
    let text = explained(&mut board_a_idle(), "05 41 00 07 00 00 01 00 BB 00 00 F7");
    let expected = "changed   curve 0, block 1, from byte 1: 00 -> BB\n";
    assert!(text.ends_with(expected), "{}", text);
}

#[test]
fn a_short_write_is_told_with_the_length_that_it_sets_and_the_read_goes_by_it() {
    let mut setting = board_a_idle();
    let written = explained(&mut setting, "05 41 00 06 00 00 01 00 BB 00 F8");
    let parts = "
  curve         00              curve 0: writable, 2 blocks of 4 bytes
  block         00 01           block 1: 4 bytes
  data          00 BB 00        3 bytes
";
    assert!(written.contains(parts), "{}", written);
    let changed = "
changed   curve 0, block 1, from byte 1: 00 -> BB
          curve 0, block 1, length: 4 -> 3
";
    assert!(written.ends_with(changed), "{}", written);
    let read = explained(&mut setting, "05 40 00 03 00 00 01 B7");
    let expected = "
  curve         00              curve 0: writable, 2 blocks of 4 bytes, 1 not full
  block         00 01           block 1: 3 of 4 bytes
  checksum      B7              the sum is 0
outcome   reply 41, curve block
rule      no refusal and no wire error; the command's row: | 40 | curve, block in two bytes | 41: curve, block, the block's bytes |, by 2026-03 \"Each block gets a length of its own, 1 to the block size, full on a fresh board. A write sets it, a read returns that many bytes, and the checksum covers only those, in block order.\"
reply     00 41 00 06 00 00 01 00 BB 00 FD
  destination   00              the master
  command       41              curve block
  SIZE          00 06           6 bytes of payload
  curve         00              curve 0: writable, 2 blocks of 4 bytes, 1 not full
  block         00 01           block 1
  data          00 BB 00        3 of 4 bytes
  checksum      FD              the sum is 0
changed   nothing
";
    assert!(read.ends_with(expected), "{}", read);
    // The same bytes are there already; only the length is another.
    let longer = explained(&mut setting, "05 41 00 07 00 00 01 00 BB 00 00 F7");
    let changed = "\nchanged   curve 0, block 1, length: 3 -> 4\n";
    assert!(longer.ends_with(changed), "{}", longer);
}

#[test]
fn lengths_that_break_the_board_are_told_with_the_block_or_the_count() {
    let reasons = [
        (
            vec![4, 0],
            "block 1 of curve 0 has length 0; 1 to 4 are allowed",
        ),
        (
            vec![5, 0],
            "block 0 of curve 0 has length 5; 1 to 4 are allowed",
        ),
        (
            vec![4, 65535],
            "block 1 of curve 0 has length 65,535; 1 to 4 are allowed",
        ),
        (vec![4], "1 length for 2 blocks; each block has one"),
        (vec![4, 4, 4], "3 lengths for 2 blocks; each block has one"),
    ];
    for (lengths, reason) in reasons {
        let mut setting = board_a_idle();
        setting.lent.lengths = lengths;
        let expected = format!("
outcome   refused with 1, board unusable
rule      refusal 1, board unusable, by 2026-03 \"A length out of range, lengths not one per block or sums not one per curve make the board unusable.\"
          {}
changed   nothing
", reason);
        let text = explained(&mut setting, "05 00 00 00 FB");
        assert!(text.ends_with(&expected), "{}", text);
        let store = explained(&mut setting, "store 1 66");
        assert!(store.ends_with(&expected), "{}", store);
    }
    // What 01 itself names is told in its words, also where a length is wrong too.
    let mut setting = board_a_idle();
    setting.lent.lengths = vec![0];
    setting.lent.functions[0] = 16;
    let text = explained(&mut setting, "05 00 00 00 FB");
    let rule = "unusable: \"a record, store length or group breaks the table above\"\n";
    assert!(text.contains(rule), "{}", text);
}

#[test]
fn a_sum_is_read_and_told_as_stale_until_it_is_renewed() {
    let mut setting = board_a_idle();
    let expected = "\
packet    05 0A 00 01 00 F0
  destination   05              this board
  command       0A              query the checksum of a curve
  SIZE          00 01           1 byte of payload
  curve         00              curve 0: writable, 2 blocks of 4 bytes
  checksum      F0              the sum is 0
outcome   reply 0B, checksum of a curve
rule      no refusal and no wire error; by 2026-02 \"0A (payload: curve; answer 0B with 16 bytes)\"
reply     00 0B 00 10 7D EA 36 2B 3F AC 8E 00 95 6A 49 52 A3 D4 F4 74 2B
  destination   00              the master
  command       0B              checksum of a curve
  SIZE          00 10           16 bytes of payload
  sum           7D EA 36 2B 3F AC 8E 00 95 6A 49 52 A3 D4 F4 74 of what curve 0 holds
  checksum      2B              the sum is 0
changed   nothing
";
    assert_eq!(explained(&mut setting, "05 0A 00 01 00 F0"), expected);
    let hint = "\nhint      the sum of curve 0 is stale; 42 renews it\n";
    let written = explained(&mut setting, "05 41 00 07 00 00 01 57 41 53 48 7F");
    assert!(written.contains(hint), "{}", written);
    let stale = explained(&mut setting, "05 0A 00 01 00 F0");
    assert!(stale.contains(hint), "{}", stale);
    let part = "F4 74 stale: curve 0 holds something else now\n";
    assert!(stale.contains(part), "{}", stale);
    let renewed = explained(&mut setting, "05 42 00 01 00 B8");
    let end = "\
changed   sum of curve 0: 7D EA 36 2B 3F AC 8E 00 95 6A 49 52 A3 D4 F4 74 -> ";
    assert!(renewed.contains(end), "{}", renewed);
    let rule = "wire error; by 2026-02 \"42 (payload: curve; answer E0)\", by 2026-03 \"Each ";
    assert!(renewed.contains(rule), "{}", renewed);
    assert!(!explained(&mut setting, "05 0A 00 01 00 F0").contains("stale"));
}

#[test]
fn the_request_is_named_beside_the_steps_that_0a_and_42_meet() {
    let amended = "by 2026-02 \"E5 then E3 for both\"\n";
    let reasons = [
        ("05 0A 00 02 00 00 EF", "2 bytes; 0A takes 1"),
        ("05 42 00 00 B9", "0 bytes; 42 takes 1"),
        (
            "05 0A 00 01 01 EF",
            "there is no curve 1: the board has 0 to 0",
        ),
        (
            "05 42 00 01 01 B7",
            "there is no curve 1: the board has 0 to 0",
        ),
    ];
    for (packet, reason) in reasons {
        let text = explained(&mut board_a_idle(), packet);
        assert!(text.contains(amended) && text.contains(reason), "{}", text);
    }
    let others = explained(&mut board_a_idle(), "05 10 00 01 03 E7");
    assert!(
        others.contains("step 4") && !others.contains("2026-02"),
        "{}",
        others
    );
}

#[test]
fn a_checksum_that_was_left_out_is_pointed_out() {
    let hint = |packet: &str| {
        let text = explained(&mut board_a_idle(), packet);
        let hint = text.lines().find(|line| line.starts_with("hint"));
        hint.map(str::to_string)
    };
    let left_out = "hint      the checksum seems to be left out: with 72 added, as --sum does, the outcome would be: reply E0, OK";
    assert_eq!(hint("05 20 00 02 01 66").as_deref(), Some(left_out));
    let wrong = "hint      with 72 as its last byte the outcome would be: reply E0, OK";
    assert_eq!(hint("05 20 00 02 01 66 70").as_deref(), Some(wrong));
    assert_eq!(hint("05 20 00 02 01 66 72"), None);
}
