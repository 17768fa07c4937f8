//! Runs board A over standard input: records of a two-byte length, most significant first,
//! and a packet; one line of outcome for each.
#![forbid(unsafe_code)]

use std::io::{self, BufReader, BufWriter, ErrorKind, Read, Write};
use suite::second::{fresh_board, packet, Address, Groups, Outcome, Table, Variable};

const PIECE: usize = 1 << 18;
const RECORD_MOST: usize = 65_535;
const REPLY: usize = 4104;

const VARIABLES: [Variable; 3] = [
    Variable {
        writable: 0,
        size: 4,
        kind: 3,
    },
    Variable {
        writable: 1,
        size: 1,
        kind: 0,
    },
    Variable {
        writable: 1,
        size: 2,
        kind: 2,
    },
];
const TABLE: Table = Table {
    variables: &VARIABLES,
    curves: &[1, 4, 2],
    functions: &[1, 2],
};
const ADDRESS: Address = Address {
    own: 0x05,
    multicast: 0x81,
};

/// Board A's state.
struct State {
    groups: Groups,
    values: [u8; 7],
    blocks: [u8; 8],
    lengths: [u16; 2],
    sums: [u8; 16],
}

enum Record {
    Whole(usize),
    Cut,
    End,
}

fn main() -> io::Result<()> {
    let mut input = BufReader::with_capacity(PIECE, io::stdin().lock());
    let mut output = BufWriter::with_capacity(PIECE, io::stdout().lock());
    let mut state = State::fresh().expect("board A is usable");
    let mut record = [0; RECORD_MOST];
    let mut reply = [0; REPLY];
    let mut line = Vec::with_capacity(2 * RECORD_MOST);
    let mut number: u64 = 0;
    loop {
        let length = match next_record(&mut input, &mut record)? {
            Record::Whole(length) => length,
            Record::Cut => {
                writeln!(output, "{} cut", number + 1)?;
                break;
            }
            Record::End => break,
        };
        number += 1;
        let request = &record[..length];
        let outcome = state.packet(request, &mut reply);
        line.clear();
        put_decimal(&mut line, number);
        put_outcome(&mut line, outcome, request, &reply);
        output.write_all(&line)?;
    }
    output.flush()
}

impl State {
    /// What board A starts with, its blocks full and its sum worked out.
    fn fresh() -> Result<State, u8> {
        let groups = Groups {
            count: 0,
            sets: [0; 5],
        };
        let values = [0xFF, 0xFF, 0xFF, 0xFD, 0x5A, 0x34, 0x12];
        let blocks = [0; 8];
        let (mut lengths, mut sums) = ([0; 2], [0; 16]);
        fresh_board(&TABLE, &groups, &values, &blocks, &mut lengths, &mut sums)?;
        Ok(State {
            groups,
            values,
            blocks,
            lengths,
            sums,
        })
    }

    fn packet(&mut self, request: &[u8], reply: &mut [u8]) -> Outcome {
        packet(
            &TABLE,
            &mut self.groups,
            ADDRESS,
            0,
            &mut self.values,
            &mut self.blocks,
            &mut self.lengths,
            &mut self.sums,
            request,
            reply,
        )
    }
}

/// Reads the next record's packet to the start of the buffer.
fn next_record(input: &mut impl Read, buffer: &mut [u8; RECORD_MOST]) -> io::Result<Record> {
    let mut length = [0; 2];
    match fill(input, &mut length)? {
        0 => return Ok(Record::End),
        1 => return Ok(Record::Cut),
        _ => {}
    }
    let length = usize::from(u16::from_be_bytes(length));
    if fill(input, &mut buffer[..length])? < length {
        return Ok(Record::Cut);
    }
    Ok(Record::Whole(length))
}

/// Reads until the buffer is full or the input ends; gives how many bytes were read.
fn fill(input: &mut impl Read, buffer: &mut [u8]) -> io::Result<usize> {
    let mut done = 0;
    while done < buffer.len() {
        match input.read(&mut buffer[done..]) {
            Ok(0) => break,
            Ok(count) => done += count,
            Err(error) if error.kind() == ErrorKind::Interrupted => {}
            Err(error) => return Err(error),
        }
    }
    Ok(done)
}

fn put_outcome(line: &mut Vec<u8>, outcome: Outcome, request: &[u8], reply: &[u8]) {
    match outcome {
        Outcome::Reply(length) => {
            line.extend_from_slice(b" answer ");
            put_hex(line, &reply[..length]);
        }
        Outcome::Silent => line.extend_from_slice(b" silent"),
        Outcome::Run {
            function,
            input,
            due,
        } => {
            let word: &[u8] = if due { b" run " } else { b" runquiet " };
            line.extend_from_slice(word);
            put_decimal(line, function as u64);
            line.push(b' ');
            if input == 0 {
                line.push(b'-');
            } else {
                put_hex(line, &request[5..5 + input]);
            }
        }
        Outcome::Refused(refusal) => {
            line.extend_from_slice(b" refused ");
            put_decimal(line, u64::from(refusal));
        }
    }
    line.push(b'\n');
}

fn put_hex(line: &mut Vec<u8>, bytes: &[u8]) {
    const DIGITS: &[u8; 16] = b"0123456789ABCDEF";
    for &byte in bytes {
        let high = DIGITS[usize::from(byte >> 4)];
        let low = DIGITS[usize::from(byte & 0x0F)];
        line.extend_from_slice(&[high, low]);
    }
}

fn put_decimal(line: &mut Vec<u8>, number: u64) {
    let mut digits = [0; 20];
    let mut start = digits.len();
    let mut rest = number;
    loop {
        start -= 1;
        digits[start] = b'0' + (rest % 10) as u8;
        rest /= 10;
        if rest == 0 {
            break;
        }
    }
    line.extend_from_slice(&digits[start..]);
}
