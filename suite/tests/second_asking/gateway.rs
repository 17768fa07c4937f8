//! What a gateway has at hand: a node's table, requests of every sort, and replies.
use suite::second_asking::{hear, Heard, Learned, Masking, Request};

pub const NODE: u8 = 5;
pub const ROOM: usize = 4104;

/// Board A's table.
pub fn a() -> Learned {
    Learned {
        variables: vec![(false, 4), (true, 1), (true, 2)],
        groups: vec![],
        curves: vec![(1, 4, 2)],
        functions: vec![(1, 2)],
    }
}

/// A request of every sort, each about things with these numbers.
pub fn every(number: usize, block: usize) -> [Request; 20] {
    let (curve, written, read) = (number, number, number);
    [
        Request::Version,
        Request::ListVariables,
        Request::ListGroups,
        Request::ShowGroup(number),
        Request::ListCurves,
        Request::ReadSum(number),
        Request::ListFunctions,
        Request::ReadVariable(number),
        Request::ReadGroup(number),
        Request::WriteVariable(number),
        Request::WriteGroup(number),
        Request::MaskVariable(number, Masking::Toggle),
        Request::MaskGroup(number, Masking::And),
        Request::WriteRead { written, read },
        Request::MakeGroup,
        Request::RemoveGroups,
        Request::ReadBlock { curve, block },
        Request::WriteBlock { curve, block },
        Request::RenewSum(number),
        Request::RunFunction(number),
    ]
}

/// Whether the table gives the size of the answer: 0A, 10, 12, 28, 40 and 50.
pub fn table_counts(request: Request) -> bool {
    let commands = answered_by(request);
    let sizes = [0x0B, 0x11, 0x13, 0x41, 0x51];
    sizes.iter().any(|size| commands.contains(size))
}

/// The commands of 01's answers to a request.
pub fn answered_by(request: Request) -> &'static [u8] {
    match request {
        Request::Version => &[0x01],
        Request::ListVariables => &[0x03],
        Request::ListGroups => &[0x05],
        Request::ShowGroup(_) => &[0x07],
        Request::ListCurves => &[0x09],
        Request::ReadSum(_) => &[0x0B],
        Request::ListFunctions => &[0x0D],
        Request::ReadVariable(_) => &[0x11],
        Request::ReadGroup(_) => &[0x13],
        Request::WriteVariable(_) => &[0xE0],
        Request::WriteGroup(_) => &[0xE0],
        Request::MaskVariable(..) => &[0xE0],
        Request::MaskGroup(..) => &[0xE0],
        Request::WriteRead { .. } => &[0x11],
        Request::MakeGroup => &[0xE0],
        Request::RemoveGroups => &[0xE0],
        Request::ReadBlock { .. } => &[0x41],
        Request::WriteBlock { .. } => &[0xE0],
        Request::RenewSum(_) => &[0xE0],
        Request::RunFunction(_) => &[0x51, 0x53],
    }
}

/// A packet: destination, command, SIZE, payload, checksum.
pub fn wire(destination: u8, command: u8, payload: &[u8]) -> Vec<u8> {
    let mut packet = vec![destination, command];
    packet.push((payload.len() / 256) as u8);
    packet.push((payload.len() % 256) as u8);
    packet.extend_from_slice(payload);
    summed(packet)
}

/// The bytes with their checksum behind them.
pub fn summed(mut bytes: Vec<u8>) -> Vec<u8> {
    let sum: usize = bytes.iter().copied().map(usize::from).sum();
    bytes.push(((256 - sum % 256) % 256) as u8);
    bytes
}

/// Bytes of two upper-case digits each, with spaces between them or not.
pub fn hex(text: &str) -> Vec<u8> {
    let digits: Vec<char> = text.chars().filter(|c| *c != ' ').collect();
    let byte = |pair: &[char]| u8::from_str_radix(&pair.iter().collect::<String>(), 16);
    digits
        .chunks(2)
        .map(|pair| byte(pair).expect("hex"))
        .collect()
}

/// What board A's answer says.
pub fn from_a(request: Request, command: u8, payload: &[u8]) -> Result<Heard, u8> {
    hear(&a(), NODE, request, &wire(0, command, payload))
}

/// What an answer says where nothing is known of the node.
pub fn from_anyone(request: Request, command: u8, payload: &[u8]) -> Result<Heard, u8> {
    hear(
        &Learned::default(),
        NODE,
        request,
        &wire(0, command, payload),
    )
}
