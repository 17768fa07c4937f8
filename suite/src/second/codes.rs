//! The numbers of refusals and wire errors, and the commands of replies.
#![forbid(unsafe_code)]

// Local refusals.
pub(super) const BOARD_UNUSABLE: u8 = 1;
pub(super) const BAD_ADDRESS: u8 = 2;
pub(super) const REPLY_BUFFER_SHORT: u8 = 3;
pub(super) const PACKET_LENGTH: u8 = 4;
pub(super) const CHECKSUM: u8 = 5;
pub(super) const NOT_FOR_THIS_BOARD: u8 = 6;
pub(super) const NO_SUCH_FUNCTION: u8 = 7;
pub(super) const OUTPUT_LENGTH: u8 = 8;
pub(super) const NO_SUCH_VARIABLE: u8 = 9;
pub(super) const WRONG_BYTE_COUNT: u8 = 10;
pub(super) const WRONG_KIND: u8 = 11;
pub(super) const DOES_NOT_FIT: u8 = 12;

// The good answer without payload, and the wire errors.
pub(super) const DONE: u8 = 0xE0;
pub(super) const MALFORMED: u8 = 0xE1;
pub(super) const NOT_SUPPORTED: u8 = 0xE2;
pub(super) const NO_SUCH_ID: u8 = 0xE3;
pub(super) const BAD_VALUE: u8 = 0xE4;
pub(super) const PAYLOAD_SIZE: u8 = 0xE5;
pub(super) const READ_ONLY: u8 = 0xE6;
pub(super) const GROUPS_FULL: u8 = 0xE7;
pub(super) const BUSY: u8 = 0xE8;

// Commands of replies.
pub(super) const VERSION: u8 = 0x01;
pub(super) const VARIABLE_LIST: u8 = 0x03;
pub(super) const GROUP_LIST: u8 = 0x05;
pub(super) const GROUP: u8 = 0x07;
pub(super) const CURVE_LIST: u8 = 0x09;
pub(super) const CURVE_SUM: u8 = 0x0B;
pub(super) const FUNCTION_LIST: u8 = 0x0D;
pub(super) const VARIABLE_VALUE: u8 = 0x11;
pub(super) const GROUP_VALUES: u8 = 0x13;
pub(super) const BLOCK: u8 = 0x41;
pub(super) const FUNCTION_OUTPUT: u8 = 0x51;
pub(super) const FUNCTION_ERROR: u8 = 0x53;
