//! MD5 by three opinions: the library's, the second node's and md5sum's, on RFC 1321's suite and on messages of all lengths that its padding
//! tells apart; and the sum that 42 gives a curve, which is the library's MD5 of the curve's bytes, be its blocks full or not.
use cruachvel::{md5, Curve, Kind, Variable, SUM_SIZE};
use std::fs;
use std::process::Command;
use suite::lent::Lent;
use suite::packets::message;
use suite::random::Random;
use suite::second;

// A.5 of the RFC.
const SUITE: [(&str, &str); 7] = [
    ("", "d41d8cd98f00b204e9800998ecf8427e"),
    ("a", "0cc175b9c0f1b6a831c399e269772661"),
    ("abc", "900150983cd24fb0d6963f7d28e17f72"),
    ("message digest", "f96b697d7cb7938d525a2f31aaf161d0"),
    (
        "abcdefghijklmnopqrstuvwxyz",
        "c3fcd3d76192e4007dfb496cca67e13b",
    ),
    (
        "ABCDEFGHIJKLMNOPQRSTUVWXYZabcdefghijklmnopqrstuvwxyz0123456789",
        "d174ab98d277d9f5a5611c2c9f419d9f",
    ),
    (
        "12345678901234567890123456789012345678901234567890123456789012345678901234567890",
        "57edf4a22be3c955ac49da2e2107b67a",
    ),
];

const MOST: usize = 65536;

fn printed(sum: [u8; SUM_SIZE]) -> String {
    sum.iter().map(|byte| format!("{:02x}", byte)).collect()
}

// Every length from 0 to 300; more of those around which the padding takes 64 bytes more; others; and the longest that a curve has.
fn lengths(random: &mut Random) -> Vec<usize> {
    let mut lengths: Vec<usize> = (0..=300).collect();
    for edge in [55, 63, 119, 127, 4095, MOST - 9] {
        lengths.extend((edge - 1..=edge + 2).chain(edge - 1..=edge + 2));
    }
    lengths.extend((0..300).map(|_| random.below(MOST + 1)));
    lengths.extend([MOST - 1, MOST, MOST]);
    lengths
}

// Random bytes; and of some lengths bytes that could pass for what is appended, zeros and the bit 1, or for none.
fn messages(random: &mut Random) -> Vec<Vec<u8>> {
    let mut messages: Vec<Vec<u8>> = SUITE
        .iter()
        .map(|(text, _)| text.as_bytes().to_vec())
        .collect();
    for length in lengths(random) {
        messages.push(random.bytes(length));
    }
    for length in [1, 55, 56, 63, 64, 119, 120, 128, MOST] {
        messages.extend([0x00, 0x80, 0xFF].map(|byte| vec![byte; length]));
    }
    messages
}

// What md5sum prints, one process for all messages.
fn by_md5sum(messages: &[Vec<u8>]) -> Vec<String> {
    let folder = std::env::temp_dir().join(format!("suite-md5-{}", std::process::id()));
    fs::create_dir(&folder).expect("a folder");
    let names: Vec<String> = (0..messages.len()).map(|place| place.to_string()).collect();
    for (name, message) in names.iter().zip(messages) {
        fs::write(folder.join(name), message).expect("a file");
    }
    let output = Command::new("md5sum")
        .args(&names)
        .current_dir(&folder)
        .env_remove("LD_PRELOAD")
        .output();
    fs::remove_dir_all(&folder).expect("the folder");
    let output = output.expect("md5sum starts");
    assert!(output.status.success(), "{:?}", output);
    let text = String::from_utf8(output.stdout).expect("plain text");
    let sum = |line: &str| line.split(' ').next().unwrap_or_default().to_string();
    text.lines().map(sum).collect()
}

#[test]
fn the_suite_of_the_rfc() {
    for (text, sum) in SUITE {
        let opinions = [md5(text.as_bytes()), second::md5(text.as_bytes())];
        assert_eq!(opinions.map(printed), [sum, sum], "{:?}", text);
    }
}

#[test]
fn three_opinions_agree() {
    let messages = messages(&mut Random::new(1321));
    let third = by_md5sum(&messages);
    assert_eq!(third.len(), messages.len());
    for (message, sum) in messages.iter().zip(third) {
        let opinions = [md5(message), second::md5(message)].map(printed);
        assert_eq!(opinions, [sum.clone(), sum], "{} bytes", message.len());
    }
}

#[test]
fn a_single_bit_changes_the_sum_and_where_the_message_stands_does_not() {
    let mut message = Random::new(1323).bytes(200);
    let sum = md5(&message);
    for bit in 0..8 * message.len() {
        message[bit / 8] ^= 1 << (bit % 8);
        assert_ne!(md5(&message), sum, "bit {}", bit);
        message[bit / 8] ^= 1 << (bit % 8);
    }
    for before in 0..64 {
        let longer = [vec![0xA5; before], message.clone(), vec![0xA5; 64]].concat();
        let part = &longer[before..before + message.len()];
        assert_eq!([md5(part), second::md5(part)], [sum, sum]);
    }
}

// A board whose last curve holds these bytes, in blocks of this size. Before it stands another, if there is room for it.
fn board(bytes: &[u8], block_size: usize) -> Lent {
    let blocks = bytes.len() / block_size;
    let curves = [
        Curve::writable(1, 3),
        Curve::read_only(block_size as u32, blocks as u32),
    ];
    let first = usize::from(bytes.len() + 3 > MOST);
    let variables = vec![Variable::writable(1, Kind::Plain)];
    let mut lent = Lent::declared(variables, &curves[first..], &[]);
    let start = lent.blocks.len() - bytes.len();
    lent.blocks[..start].fill(0xEE);
    lent.blocks[start..].copy_from_slice(bytes);
    lent
}

// A board whose first curve holds these bytes in blocks of drawn lengths, and the bytes after them are anything.
fn unevenly(random: &mut Random, bytes: &[u8]) -> Lent {
    let size = random.within(1, 4096.min(bytes.len()));
    let mut pieces = Vec::new();
    let mut rest = bytes;
    while !rest.is_empty() {
        let length = random.within((size + 1) / 2, size).min(rest.len());
        let (piece, after) = rest.split_at(length);
        pieces.push(piece);
        rest = after;
    }
    let curve = Curve::writable(size as u32, pieces.len() as u32);
    let variables = vec![Variable::writable(1, Kind::Plain)];
    let mut lent = Lent::declared(variables, &[curve], &[]);
    random.fill(&mut lent.blocks);
    for (block, piece) in pieces.into_iter().enumerate() {
        lent.blocks[block * size..][..piece.len()].copy_from_slice(piece);
        lent.lengths[block] = piece.len() as u16;
    }
    lent
}

// The largest size that a block may have and that goes into so many bytes.
fn block_size(length: usize) -> usize {
    let sizes = (1..=length.min(4096)).rev();
    sizes
        .into_iter()
        .find(|size| length % size == 0)
        .unwrap_or(1)
}

#[test]
fn a_renewed_sum_is_the_md5_of_the_whole_curve() {
    let mut random = Random::new(1322);
    for length in lengths(&mut random)
        .into_iter()
        .filter(|length| *length > 0)
    {
        let bytes = random.bytes(length);
        for size in [1, block_size(length)] {
            let mut lent = board(&bytes, size);
            let curve = lent.curves.len() / 3 - 1;
            assert_eq!(lent.ask(&message(0x42, &[curve as u8])), [0xE0, 0, 0]);
            assert_eq!(lent.sum(curve), md5(&bytes), "{} bytes in {}", length, size);
            assert!(curve == 0 || lent.sum(0) == [0; SUM_SIZE]);
        }
    }
}

#[test]
fn a_renewed_sum_of_blocks_that_are_not_full_is_the_md5_of_their_bytes_together() {
    let mut random = Random::new(1324);
    let lengths = lengths(&mut random).into_iter();
    // Blocks that are half full at least have room for so many.
    for length in lengths.filter(|length| (1..=MOST / 3).contains(length)) {
        let bytes = random.bytes(length);
        let mut lent = unevenly(&mut random, &bytes);
        let stale = lent.blocks.len() - length;
        assert_eq!(lent.ask(&message(0x42, &[0])), [0xE0, 0, 0]);
        assert_eq!(
            lent.sum(0),
            md5(&bytes),
            "{} bytes, {} stale",
            length,
            stale
        );
    }
}
