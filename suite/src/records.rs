//! The bench program's input: records of a two-byte length and a packet.

/// 01's example: its records, and the lines that they print.
pub const SAMPLE: &[u8] = include_bytes!("../../samples/three-packets");
pub const SAMPLE_LINES: &str = "\
1 answer 00110004FFFFFFFDF1
2 silent
3 answer 001100016688
";

/// The record of a packet.
pub fn record(packet: &[u8]) -> Vec<u8> {
    [&(packet.len() as u16).to_be_bytes()[..], packet].concat()
}
