//! What the second side heard, in the archive's form: numbers, and the bytes that stand in the reply at the place that they tell.
use crate::second_asking::Heard;
use cruachvel::raw::ToldHeard;

/// The payload of a reply starts here, and the bytes of a block behind its curve and number.
const PAYLOAD: usize = 4;
const BLOCK: usize = 7;

/// The numbers, and the bytes.
pub(super) fn told(heard: &Result<Heard, u8>) -> (ToldHeard, Vec<u8>) {
    let heard = match heard {
        Ok(heard) => heard,
        Err(refusal) => return (numbers(ToldHeard::REFUSED, *refusal, 0), vec![]),
    };
    match heard {
        Heard::Error(error) => (numbers(ToldHeard::ERROR, 0, *error), vec![]),
        Heard::Done => (numbers(ToldHeard::DONE, 0, 0), vec![]),
        Heard::Failed(error) => (numbers(ToldHeard::FAILED, 0, *error), vec![]),
        Heard::Version(bytes) => shown(ToldHeard::VERSION, bytes.to_vec()),
        Heard::Variables(list) => shown(ToldHeard::VARIABLES, with_top(list)),
        Heard::Groups(list) => shown(ToldHeard::GROUPS, with_top(list)),
        Heard::Members(ids) => shown(ToldHeard::MEMBERS, ids.clone()),
        Heard::Curves(list) => {
            let (told, bytes) = shown(ToldHeard::CURVES, list.iter().flat_map(curve).collect());
            let length = list.len();
            (ToldHeard { length, ..told }, bytes)
        }
        Heard::Functions(list) => shown(ToldHeard::FUNCTIONS, list.iter().map(function).collect()),
        Heard::Values(values) => {
            let bytes = values.iter().flat_map(|(_, bytes)| bytes.iter().copied());
            shown(ToldHeard::VALUES, bytes.collect())
        }
        Heard::Block(bytes) => {
            let (told, bytes) = shown(ToldHeard::BLOCK, bytes.clone());
            (
                ToldHeard {
                    place: BLOCK,
                    ..told
                },
                bytes,
            )
        }
        Heard::Sum(bytes) => shown(ToldHeard::SUM, bytes.to_vec()),
        Heard::Output(bytes) => shown(ToldHeard::OUTPUT, bytes.clone()),
    }
}

fn numbers(kind: u8, refusal: u8, error: u8) -> ToldHeard {
    ToldHeard {
        kind,
        refusal,
        error,
        place: 0,
        length: 0,
    }
}

fn shown(kind: u8, bytes: Vec<u8>) -> (ToldHeard, Vec<u8>) {
    let told = ToldHeard {
        place: PAYLOAD,
        length: bytes.len(),
        ..numbers(kind, 0, 0)
    };
    (told, bytes)
}

fn with_top(list: &[(bool, u8)]) -> Vec<u8> {
    let byte = |&(top, low): &(bool, u8)| u8::from(top) << 7 | low;
    list.iter().map(byte).collect()
}

fn function(&(input, output): &(u8, u8)) -> u8 {
    input << 4 | output
}

// 65,536 blocks are sent as 0.
fn curve(&(sort, block_size, blocks): &(u32, u32, u32)) -> [u8; 5] {
    let [size_high, size_low] = (block_size as u16).to_be_bytes();
    let [blocks_high, blocks_low] = (blocks as u16).to_be_bytes();
    [sort as u8, size_high, size_low, blocks_high, blocks_low]
}
