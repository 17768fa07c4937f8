//! The same facts in JSON.
use crate::board_a_idle;
use suite::whatif::{captured, json, Session};

fn told(line: &str) -> String {
    let mut session = Session::new(board_a_idle());
    session.tell(line).expect(line).json()
}

#[test]
fn a_packet_is_one_object_in_one_line() {
    let expected = concat!(
        r#"{"packet":{"bytes":"05 FB","parts":["#,
        r#"{"name":"destination","bytes":"05","meaning":"this board"},"#,
        r#"{"name":"checksum","bytes":"FB","meaning":"the sum is 0"}]},"#,
        r#""outcome":"reply E1, malformed message","ended":"reply 00 E1 00 00 1F","step":1,"#,
        r#""rule":["step 1 of the wire errors: "#,
        r#"\"E1: message under 3 bytes, or SIZE not the number of bytes that follow.\"","#,
        r#""the message has 0 bytes"],"#,
        r#""reply":{"bytes":"00 E1 00 00 1F","parts":["#,
        r#"{"name":"destination","bytes":"00","meaning":"the master"},"#,
        r#"{"name":"command","bytes":"E1","meaning":"malformed message"},"#,
        r#"{"name":"SIZE","bytes":"00 00","meaning":"0 bytes of payload"},"#,
        r#"{"name":"checksum","bytes":"1F","meaning":"the sum is 0"}]},"#,
        r#""changed":[]}"#,
        "\n"
    );
    assert_eq!(told("05 FB"), expected);
}

#[test]
fn other_calls_and_replies_have_their_facts_too() {
    let expected = concat!(
        r#"{"store":{"words":"1 66","parts":["#,
        r#"{"name":"variable","words":"1","meaning":"variable 1: writable, 1 byte, plain"},"#,
        r#"{"name":"value of 1","bytes":"66","meaning":"plain"}]},"#,
        r#""outcome":"the value is stored","ended":"done","rule":["no refusal; "#,
        r#"\"The board may store a new value into any variable, read-only or busy too; only those bytes change.\""],"#,
        r#""changed":["variable 1: 5A -> 66"]}"#,
        "\n"
    );
    assert_eq!(told("store 1 66"), expected);
    let reply = captured(&[0, 0xE0, 0, 0, 0x21], None, &board_a_idle()).json();
    let end = "\"wrong\":[\"the checksum should be 20\"]}\n";
    assert!(reply.ends_with(end), "{}", reply);
    for (line, ended) in [
        ("05 20 00 02 01 66 71", "refused 5"),
        ("fresh", "done"),
        ("FF 10 00 01 00 F0", "silence"),
        ("05 50 00 02 00 07 A2", "run 0 due 07"),
        ("read signed 0 FF*4", "number -1"),
        ("write signed 0 -1 into 4", "bytes FF FF FF FF"),
    ] {
        let ended = format!("\"ended\":\"{}\"", ended);
        assert!(told(line).contains(&ended), "{}", told(line));
    }
}

#[test]
fn a_renewed_sum_is_told_too() {
    let mut setting = board_a_idle();
    setting.lent.sums.fill(0);
    let mut session = Session::new(setting);
    let text = session.tell("05 42 00 01 00 B8").expect("a packet").json();
    let zeros = ["00"; 16].join(" ");
    let end = format!(
        "\"changed\":[\"sum of curve 0: {} -> 7D EA 36 2B 3F AC 8E 00 95 6A 49 52 A3 D4 F4 74\"]}}\n",
        zeros
    );
    assert!(text.ends_with(&end), "{}", text);
}

#[test]
fn a_length_that_is_set_is_told_too() {
    let text = told("05 41 00 06 00 00 01 00 00 00 B3");
    let block = r#"{"name":"block","bytes":"00 01","meaning":"block 1: 4 bytes"}"#;
    assert!(text.contains(block), "{}", text);
    let end = "\"changed\":[\"curve 0, block 1, length: 4 -> 3\"]}\n";
    assert!(text.ends_with(end), "{}", text);
}

#[test]
fn no_byte_is_left_out_in_json() {
    let text = told("05 7F 00 1E 00*30 5E");
    let bytes = format!("\"bytes\":\"05 7F 00 1E{} 5E\"", " 00".repeat(30));
    assert!(text.contains(&bytes), "{}", text);
}

#[test]
fn a_text_is_escaped() {
    assert_eq!(json::string("a\"b\\c\n−"), "\"a\\\"b\\\\c\\u000a−\"");
}
