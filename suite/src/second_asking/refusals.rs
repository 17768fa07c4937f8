//! The numbers of the local refusals that the asking side gives.
#![forbid(unsafe_code)]

pub(super) const TABLE_UNUSABLE: u8 = 1;
pub(super) const BAD_DESTINATION: u8 = 2;
pub(super) const BUFFER_SHORT: u8 = 3;
pub(super) const PACKET_LENGTH: u8 = 4;
pub(super) const CHECKSUM: u8 = 5;
pub(super) const NO_SUCH_VARIABLE: u8 = 9;
pub(super) const WRONG_BYTE_COUNT: u8 = 10;
pub(super) const WRONG_KIND: u8 = 11;
pub(super) const OUT_OF_RANGE: u8 = 12;
pub(super) const REPLY_DOES_NOT_FIT: u8 = 13;
pub(super) const CANNOT_BE_WRITTEN: u8 = 14;
