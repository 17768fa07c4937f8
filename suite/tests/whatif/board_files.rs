//! Board files, and what is said to those that can't be read.
use crate::{board_a_idle, explained};
use cruachvel::md5;
use suite::whatif::board_file::parse;
use suite::whatif::things::length_words;
use suite::whatif::{table, Setting};

// The first block of code in a page.
fn sample(page: &str) -> &str {
    page.split("```\n").nth(1).expect("a sample")
}

#[test]
fn the_page_about_board_files_describes_board_a() {
    let page = include_str!("../../../docs/BOARD-FILE.md");
    assert_eq!(parse(sample(page)), Ok(board_a_idle()));
}

#[test]
fn a_board_file_says_all_that_a_board_has() {
    let text = "
        address 9            # anywhere
        busy 0 2
        variable writable 2 signed little value -2
        variable writable 3 plain
        variable read-only 1 unsigned big bytes FE
        curve read-only 2 3 bytes 01 02 03
        curve writable 1 2 bytes 0A0B
        curve writable 1 1
        length 0 1 1
        sum 1 00 01 02 03 04 05 06 07 08 09 0A 0B 0C 0D 0E 0F
        function 15 0
        function 0 3
        group 0 1
        group 2";
    let Setting { lent, busy, .. } = parse(text).expect("a board");
    assert_eq!(busy, 0b101);
    assert_eq!((lent.address.own, lent.address.multicast), (9, 1));
    assert_eq!(lent.values, [0xFE, 0xFF, 0, 0, 0, 0xFE]);
    assert_eq!(lent.curves, [0, 2, 3, 1, 1, 2, 1, 1, 1]);
    assert_eq!(lent.blocks, [1, 2, 3, 0, 0, 0, 0x0A, 0x0B, 0]);
    let given = std::array::from_fn(|place| place as u8);
    assert_eq!(lent.lengths, [2, 1, 2, 1, 1, 1]);
    let sums = [md5(&[1, 2, 3, 0, 0]), given, md5(&[0])];
    assert_eq!(lent.sums, sums.concat());
    assert_eq!(lent.functions, [15, 0, 0, 3]);
    assert_eq!(
        (lent.groups.count, &lent.groups.sets[..2]),
        (2, &[0b011, 0b100][..])
    );
    assert_eq!(table::broken(&lent), None);
}

// Lines of a board that has an address already, and why the node refuses it.
const REFUSED: &[(&str, &str)] = &[
    (
        "variable writable 128 plain",
        "variable 0 has 128 bytes; 1 to 127 are allowed",
    ),
    (
        "variable writable 3 signed big",
        "variable 0 is a number of 3 bytes; a number has 1, 2, 4 or 8",
    ),
    (
        "variable writable 1 plain\nvalues",
        "the variables' store has 0 bytes; the records add up to 1",
    ),
    (
        "variable writable 1 plain\ncurve writable 4096 17",
        "the curves have 69,632 bytes; at most 65,536 are allowed",
    ),
    ("variable writable 1 plain\ngroup", "group 3 is empty"),
    (
        "variable writable 1 plain\ngroup 0 4",
        "group 3 has variables that are not declared: 4",
    ),
    (
        "variable writable 1 plain\ncurve writable 1 1\ncurve writable 4 2\nlength 1 1 5",
        "block 1 of curve 1 has length 5; 1 to 4 are allowed",
    ),
    (
        "variable writable 1 plain\ncurve writable 4 2\nlengths 4",
        "1 length for 2 blocks; each block has one",
    ),
    (
        "variable writable 1 plain\ncurve writable 1 65536\nlengths 1*65535 1*2",
        "65,537 lengths for 65,536 blocks; each block has one",
    ),
    (
        "variable writable 1 plain\nlengths 1",
        "1 length for 0 blocks; each block has one",
    ),
    (
        "variable writable 1 plain\ncurve writable 1 4294967295\nlength 0 4294967294 1",
        "curve 0 has 4,294,967,295 blocks; 1 to 65,536 are allowed",
    ),
    (
        "variable writable 1 plain\ncurve writable 4 2\nsums 00*15",
        "the sums' store has 15 bytes; the records add up to 16",
    ),
    (
        "variable writable 1 plain\nsums 00*16",
        "the sums' store has 16 bytes; the records add up to 0",
    ),
    ("", "0 variables; 1 to 64 are allowed"),
    (
        "variable writable 3 signed big value -3",
        "variable 0 is a number of 3 bytes; a number has 1, 2, 4 or 8",
    ),
    (
        "variable writable 0 plain",
        "variable 0 has 0 bytes; 1 to 127 are allowed",
    ),
    (
        "variable writable 1 plain\nfunction 16 255",
        "function 0 has 16 bytes of input; 0 to 15 are allowed",
    ),
    (
        "variable writable 1 plain\ncurve writable 4294967295 2 bytes 0102",
        "curve 0 has blocks of 4,294,967,295 bytes; 1 to 4,096 are allowed",
    ),
    (
        "variable writable 1 plain\ngroup 0\ngroup 0\ngroup 0\ngroup 0\ngroup 0\ngroup 0",
        "6 made groups; 0 to 5 are allowed",
    ),
];

#[test]
fn a_board_file_may_describe_what_01_refuses() {
    for (lines, reason) in REFUSED {
        let setting = parse(&format!("address 5\n{}", lines)).expect(lines);
        assert_eq!(table::broken(&setting.lent).as_deref(), Some(*reason));
        let text = explained(&mut setting.clone(), "05 00 00 00 FB");
        assert!(text.contains("outcome   refused with 1, board unusable"));
    }
}

const MISTAKES: &[(&str, &str)] = &[
        ("addres 5", "line 2: \"addres\" is none of address, multicast, variable, curve, length, sum, function, group, busy, values, blocks, lengths and sums"),
        ("address", "line 2: the address is missing"),
        ("address 256", "line 2: the address can't be 256: what the node is lent has room for 0 to 255 there"),
        ("address -1", "line 2: the address can't be -1: what the node is lent has room for 0 to 255 there"),
        ("address five", "line 2: the address is a number, and not \"five\""),
        ("variable writable 300 plain", "line 2: the size can't be 300: what the node is lent has room for 0 to 255 there"),
        ("function 1 256", "line 2: the output can't be 256: what the node is lent has room for 0 to 255 there"),
        ("curve writable 1 4294967296", "line 2: the number of blocks can't be 4294967296: what the node is lent has room for 0 to 4294967295 there"),
        ("address 5\naddress 6", "line 3: a board has one line with address"),
        ("multicast 81\n\nmulticast 81", "line 4: a board has one line with multicast"),
        ("busy 0\nbusy 1", "line 3: a board has one line with busy"),
        ("values\nvalues", "line 3: a board has one line with values"),
        ("blocks 01\nblocks 01", "line 3: a board has one line with blocks"),
        ("lengths 4\nlengths 4", "line 3: a board has one line with lengths"),
        ("lengths 4 65536", "line 2: a length can't be 65536: what the node is lent has room for 0 to 65535 there"),
        ("lengths 4 four", "line 2: a length is a number, and not \"four\""),
        ("lengths 4*many", "line 2: \"many\" is no number that can stand here"),
        ("length 0 0", "line 2: the length is missing"),
        ("length 0 0 65536", "line 2: the length can't be 65536: what the node is lent has room for 0 to 65535 there"),
        ("length 0 0 1 1", "line 2: \"1\" is too much"),
        ("length 0 0 1\nlength 0 1 1\nlength 0 0 1", "line 4: block 0 of curve 0 has one line with its length"),
        ("address 5\nlength 0 0 1", "line 3: there is no curve 0: the board has none"),
        ("address 5\ncurve writable 1 2\nlength 0 2 1", "line 4: there is no block 2: the curve has 0 to 1"),
        ("sums\nsums 01", "line 3: a board has one line with sums"),
        ("sum", "line 2: the curve is missing"),
        ("sum 0 00*15", "line 2: a sum has 16 bytes, and 15 are given"),
        ("sum 0 00*16\nsum 0 01*16", "line 3: curve 0 has one line with its sum"),
        ("address 5\nsum 0 00*16", "line 3: there is no curve 0: the board has none"),
        ("sum 2 00*16\naddress 5\ncurve writable 1 1\ncurve writable 1 1", "line 2: there is no curve 2: the board has 0 to 1"),
        ("address 5 6", "line 2: \"6\" is too much"),
        ("multicast 8G", "line 2: \"8G\" is no bytes in hex"),
        ("multicast 81 82", "line 2: the multicast byte is one byte in hex"),
        ("variable written 1 plain", "line 2: \"written\" is neither read-only nor writable"),
        ("variable writable 1 signed", "line 2: big or little is missing"),
        ("variable writable 1 signed middle", "line 2: \"signed middle\" is none of plain, unsigned big, unsigned little, signed big and signed little"),
        ("variable writable 1 signed big value -129", "line 2: -129 is refused with 12, doesn't fit"),
        ("variable writable 1 plain value 1", "line 2: 1 is refused with 11, wrong kind"),
        ("variable writable 1 unsigned big value x", "line 2: \"x\" is no number of 64 bits"),
        ("variable writable 2 plain bytes 01", "line 2: the variable has 2 bytes, and 1 are given"),
        ("variable writable 2 plain 01", "line 2: \"01\" is neither value nor bytes"),
        ("address 5\ncurve writable 1 1 bytes 0102", "line 3: the curve has 1 byte, and 2 are given"),
        ("curve writable 1 1 0102", "line 2: \"0102\" stands where bytes can stand"),
        ("curve writable 1", "line 2: the number of blocks is missing"),
        ("function 1", "line 2: the output is missing"),
        ("busy 64", "line 2: a variable is a number from 0 to 63, and not \"64\""),
        ("busy 0", "the line with the address is missing"),
    ];

// Some words stand for many lengths, as many as fit into one.
#[test]
fn lengths_are_read_as_they_are_written() {
    let of_many = [vec![1; 65537], vec![2, 2, 3], vec![1; 65535]].concat();
    for lengths in [vec![], vec![4], vec![4, 4, 0, 65535, 4], of_many] {
        let words = length_words(&lengths).join(" ");
        let setting = parse(&format!("address 5\nlengths {}", words)).expect("a board");
        assert_eq!(setting.lent.lengths, lengths);
    }
    assert_eq!(length_words(&[4, 4, 4, 2, 4]), ["4*3", "2", "4"]);
}

#[test]
fn mistakes_in_a_board_file_are_told_with_their_line() {
    for (lines, message) in MISTAKES {
        let mistake = parse(&format!("# a board\n{}", lines)).expect_err(lines);
        assert_eq!(mistake.to_string(), *message);
    }
}
