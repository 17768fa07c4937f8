//! Bytes in hex, in and out.

// More bytes than this are not shown one by one.
const SHOWN: usize = 24;

/// What is wrong with a text in hex, and at which place, from 1.
#[derive(Clone, Debug, PartialEq, Eq)]
pub struct Wrong {
    pub place: usize,
    pub message: String,
}

/// The bytes of a text in hex; else what is wrong with it, and at which place, from 1. Spaces, commas, colons and dashes may stand between
/// bytes, 0x before them; 00*3 stands for 00 00 00.
pub fn bytes(text: &str) -> Result<Vec<u8>, String> {
    placed(text).map_err(|wrong| wrong.message)
}

/// The same, with the place of what is wrong as a number too.
pub fn placed(text: &str) -> Result<Vec<u8>, Wrong> {
    let separates = |letter: char| letter.is_whitespace() || matches!(letter, ',' | ':' | '-');
    let (mut all, mut place) = (Vec::new(), 1);
    for word in text.split(separates) {
        let (piece, times) = repeated(word).map_err(|message| Wrong { place, message })?;
        all.extend(word_bytes(piece, place)?.repeat(times));
        place += word.chars().count() + 1;
    }
    Ok(all)
}

/// A word without its repetition, and how many times it is meant: 00*3 is 00 three times.
pub fn repeated(word: &str) -> Result<(&str, usize), String> {
    match word.split_once('*') {
        None => Ok((word, 1)),
        Some((piece, times)) => match times.parse::<u16>() {
            Ok(times) => Ok((piece, times.into())),
            Err(_) => Err(format!("{:?} is no number that can stand here", times)),
        },
    }
}

// The bytes of a word that starts at a place. After 0x, one digit is a byte too.
fn word_bytes(word: &str, place: usize) -> Result<Vec<u8>, Wrong> {
    let prefixed = word.strip_prefix("0x").or_else(|| word.strip_prefix("0X"));
    let start = place + prefixed.map_or(0, |_| 2);
    let wrong = |place: usize, message: String| Wrong { place, message };
    let digit = |(at, letter): (usize, char)| {
        let place = start + at;
        let digit = letter.to_digit(16).map(|digit| digit as u8);
        digit.ok_or_else(|| {
            let message = format!("{:?} at place {} is no hex digit", letter, place);
            wrong(place, message)
        })
    };
    let letters = prefixed.unwrap_or(word).chars();
    let digits: Vec<u8> = letters.enumerate().map(digit).collect::<Result<_, _>>()?;
    match (prefixed, digits.len()) {
        (Some(_), 0) => {
            let message = format!("no digit follows the 0x at place {}", place);
            Err(wrong(place, message))
        }
        (Some(_), 1) => Ok(digits),
        (_, count) if count % 2 == 1 => {
            let place = start + count - 1;
            let message = format!("a byte has two digits, and at place {} stands one", place);
            Err(wrong(place, message))
        }
        _ => {
            let pairs = digits.chunks_exact(2);
            Ok(pairs.map(|pair| pair[0] << 4 | pair[1]).collect())
        }
    }
}

/// Bytes in hex, with a space between them.
pub fn hex(bytes: &[u8]) -> String {
    let pairs: Vec<String> = bytes.iter().map(|byte| format!("{:02X}", byte)).collect();
    pairs.join(" ")
}

/// Bytes for a reader: of many only the first, and how many they are.
pub fn shown(bytes: &[u8]) -> String {
    match bytes.len() {
        0 => "-".to_string(),
        count if count <= SHOWN => hex(bytes),
        count => format!("{} .. ({})", hex(&bytes[..16]), counted(count, "byte")),
    }
}

/// A number of things: 1 byte, 2 bytes.
pub fn counted(count: usize, thing: &str) -> String {
    let plural = if count == 1 { "" } else { "s" };
    format!("{} {}{}", grouped(count), thing, plural)
}

/// A number with a comma before its thousands, as 01 writes it.
pub fn grouped(number: usize) -> String {
    if number < 1000 {
        return number.to_string();
    }
    format!("{},{:03}", grouped(number / 1000), number % 1000)
}

/// The sum that makes all bytes sum to 0 modulo 256.
pub fn checksum(bytes: &[u8]) -> u8 {
    bytes.iter().fold(0, |sum, byte| sum.wrapping_sub(*byte))
}

/// These bytes and their checksum.
pub fn summed(bytes: &[u8]) -> Vec<u8> {
    [bytes, &[checksum(bytes)]].concat()
}
