//! Bytes in hex, as people write them.
use suite::whatif::bytes::{bytes, placed};

#[test]
fn bytes_are_read_as_people_write_them() {
    let expected = Ok(vec![5, 0x10, 0, 0xEA]);
    for text in [
        "051000EA",
        "05 10\t00  ea ",
        "0x05, 0x10, 0x00, 0xEA",
        "0X051000 0xea",
        "05:10:00:ea",
        "05-10-00-EA",
        "0x5,0x10,0x0,0xea",
        "05 10 00*1 EA",
    ] {
        assert_eq!(bytes(text), expected, "{}", text);
    }
    assert_eq!(bytes("00*3 0102*2"), Ok(vec![0, 0, 0, 1, 2, 1, 2]));
    assert_eq!(bytes(""), Ok(vec![]));
}

#[test]
fn bad_hex_is_told_with_its_place() {
    let wrong = [
        ("05 2G", "'G' at place 5 is no hex digit"),
        ("0x0x", "'x' at place 4 is no hex digit"),
        ("05 x05", "'x' at place 4 is no hex digit"),
        ("05 0x", "no digit follows the 0x at place 4"),
        (
            "05 2 00",
            "a byte has two digits, and at place 4 stands one",
        ),
        ("051", "a byte has two digits, and at place 3 stands one"),
        (
            "0x05,0x051",
            "a byte has two digits, and at place 10 stands one",
        ),
        ("05 é0", "'é' at place 4 is no hex digit"),
        ("05*x", "\"x\" is no number that can stand here"),
        ("05*99999", "\"99999\" is no number that can stand here"),
    ];
    for (text, message) in wrong {
        assert_eq!(bytes(text), Err(message.to_string()));
    }
}

#[test]
fn the_place_of_bad_hex_is_a_number_too() {
    let wrong = [
        ("05 2G", 5),
        ("05 0x", 4),
        ("05 2 00", 4),
        ("05 é0", 4),
        ("05 06*x", 4),
    ];
    for (text, place) in wrong {
        let told = placed(text).map_err(|wrong| wrong.place);
        assert_eq!(told, Err(place), "{}", text);
    }
}
