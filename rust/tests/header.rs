//! Limits, wire codes, and the asking side's codes and kinds have the names and numbers of the C headers.
use cruachvel::raw::ToldHeard;
use cruachvel::{wire, CurveNumber, FunctionNumber, GroupNumber, VariableNumber};
use cruachvel::{Masking, Request};

const HEADER: &str = include_str!("../../include/bsmp.h");
const ASKING: &str = include_str!("../../include/bsmp_ask.h");

fn given(name: &str) -> Option<usize> {
    given_in(HEADER, name)
}

// The number that an enum of a header gives this name.
fn given_in(header: &str, name: &str) -> Option<usize> {
    let start = format!("    BSMP_{} = ", name);
    let rest = header
        .lines()
        .find_map(|line| line.strip_prefix(start.as_str()))?;
    let number = rest
        .split(|sign: char| !sign.is_ascii_alphanumeric())
        .next()?;
    match number.strip_prefix("0x") {
        Some(digits) => usize::from_str_radix(digits, 16).ok(),
        None => number.parse().ok(),
    }
}

#[test]
fn limits() {
    let limits = [
        ("MOST_VARIABLES", cruachvel::MOST_VARIABLES),
        ("MOST_VALUE_BYTES", cruachvel::MOST_VALUE_BYTES),
        ("MOST_CURVES", cruachvel::MOST_CURVES),
        ("MOST_BLOCKS", cruachvel::MOST_BLOCKS),
        ("MOST_CURVE_BYTES", cruachvel::MOST_CURVE_BYTES),
        ("SUM_SIZE", cruachvel::SUM_SIZE),
        ("MOST_PACKET", cruachvel::MOST_PACKET),
        ("REPLY_ROOM", cruachvel::REPLY_ROOM),
    ];
    for (name, limit) in limits {
        assert_eq!(given(name), Some(limit), "{}", name);
    }
}

#[test]
fn wire_codes() {
    let codes = [
        ("WIRE_OK", wire::OK),
        ("WIRE_MALFORMED", wire::MALFORMED),
        ("WIRE_UNSUPPORTED", wire::UNSUPPORTED),
        ("WIRE_BAD_ID", wire::BAD_ID),
        ("WIRE_BAD_VALUE", wire::BAD_VALUE),
        ("WIRE_BAD_SIZE", wire::BAD_SIZE),
        ("WIRE_READ_ONLY", wire::READ_ONLY),
        ("WIRE_FULL", wire::FULL),
        ("WIRE_BUSY", wire::BUSY),
    ];
    assert_eq!(HEADER.matches("    BSMP_WIRE_").count(), codes.len());
    for (name, code) in codes {
        assert_eq!(given(name), Some(usize::from(code)), "{}", name);
    }
}

// Each of them is in the header, and the header has no others that start so.
fn check(start: &str, codes: &[(&str, u8)]) {
    let all = ASKING.lines().filter(|line| {
        let name = line.strip_prefix("    BSMP_").unwrap_or_default();
        name.starts_with(start) && name.contains(" = ")
    });
    assert_eq!(all.count(), codes.len(), "{}", start);
    for (name, code) in codes {
        let name = format!("{}{}", start, name);
        assert_eq!(given_in(ASKING, &name), Some((*code).into()), "{}", name);
    }
}

#[test]
fn requests() {
    let (v, g, c) = (VariableNumber(0), GroupNumber(0), CurveNumber(0));
    let write_read = Request::WriteRead {
        written: v,
        read: v,
        bytes: &[],
    };
    let write_block = Request::WriteBlock {
        curve: c,
        block: 0,
        bytes: &[],
    };
    let requests = [
        ("VERSION", Request::Version),
        ("LIST_VARIABLES", Request::ListVariables),
        ("LIST_GROUPS", Request::ListGroups),
        ("SHOW_GROUP", Request::ShowGroup(g)),
        ("LIST_CURVES", Request::ListCurves),
        ("READ_SUM", Request::ReadSum(c)),
        ("LIST_FUNCTIONS", Request::ListFunctions),
        ("READ_VARIABLE", Request::ReadVariable(v)),
        ("READ_GROUP", Request::ReadGroup(g)),
        ("WRITE_VARIABLE", Request::WriteVariable(v, &[])),
        ("WRITE_GROUP", Request::WriteGroup(g, &[])),
        ("MASK_VARIABLE", Request::MaskVariable(v, Masking::Set, &[])),
        ("MASK_GROUP", Request::MaskGroup(g, Masking::Set, &[])),
        ("WRITE_READ", write_read),
        ("MAKE_GROUP", Request::MakeGroup(&[])),
        ("REMOVE_GROUPS", Request::RemoveGroups),
        ("READ_BLOCK", Request::ReadBlock { curve: c, block: 0 }),
        ("WRITE_BLOCK", write_block),
        ("RENEW_SUM", Request::RenewSum(c)),
        ("RUN_FUNCTION", Request::RunFunction(FunctionNumber(0), &[])),
    ];
    check(
        "COMMAND_",
        &requests.map(|(name, request)| (name, request.code())),
    );
    let masks = [
        ("SET", Masking::Set),
        ("OR", Masking::Or),
        ("CLEAR", Masking::Clear),
        ("TOGGLE", Masking::Toggle),
        ("XOR", Masking::Xor),
        ("AND", Masking::And),
    ];
    check("MASK_", &masks.map(|(name, mask)| (name, mask.code())));
    let room = given_in(ASKING, "REQUEST_ROOM");
    assert_eq!(room, Some(cruachvel::REQUEST_ROOM));
}

#[test]
fn what_is_heard() {
    let kinds = [
        ("REFUSED", ToldHeard::REFUSED),
        ("ERROR", ToldHeard::ERROR),
        ("DONE", ToldHeard::DONE),
        ("VERSION", ToldHeard::VERSION),
        ("VARIABLES", ToldHeard::VARIABLES),
        ("GROUPS", ToldHeard::GROUPS),
        ("MEMBERS", ToldHeard::MEMBERS),
        ("CURVES", ToldHeard::CURVES),
        ("FUNCTIONS", ToldHeard::FUNCTIONS),
        ("VALUES", ToldHeard::VALUES),
        ("BLOCK", ToldHeard::BLOCK),
        ("SUM", ToldHeard::SUM),
        ("OUTPUT", ToldHeard::OUTPUT),
        ("FAILED", ToldHeard::FAILED),
    ];
    check("HEARD_", &kinds);
}
