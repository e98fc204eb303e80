//! The library: the board (plate, state, memory), the bench, the reader of tapes behind the answer program,
//! and the handheld programmer with its label tapes.
//!
//! Lines in quotation marks are document 01's own words, or those of the paper named beside them;
//! "reading N" is entry N of the readings, "reading M.N" one of those of document 02's request M.

#![forbid(unsafe_code)]

pub mod answer;
pub mod bench;
pub mod board;
mod cells;
mod fields;
mod label;
mod plate;
mod programmer;
mod refusal;
mod request;
mod state;
mod status;
mod wish;
mod work;

pub use bench::{data_part, judge, write_request, Verdict, BROADCAST, REQUEST_ROOM};
pub use board::{character, fault, measured, poll, power_on, within_limits, Heard, REPLY_ROOM};
pub use label::{Label, LABEL_LENGTH};
pub use plate::Plate;
pub use programmer::{Ended, Programmer, Why};
pub use refusal::Refusal;
pub use request::Request;
pub use state::{Remaining, State, KEPT_LIMIT, QUEUE_LIMIT};
pub use wish::{read_label_tape, TapeFault, WantedField, Wish};
pub use work::ErrorCode;

/// "The checksum is the XOR of all bytes before it" (01; 000, 2.3.3).
pub(crate) fn checksum(bytes: &[u8]) -> u8 {
    bytes.iter().fold(0, |sum, byte| sum ^ byte)
}

/// "Broadcast FFh is taken too."
pub(crate) const BROADCAST_BYTE: u8 = 0xFF;

/// Whether the whole byte is a board's address: "valid from 40h (default) to 5Fh" (000, Set Encoder
/// Address).
pub(crate) fn is_board_address(byte: u8) -> bool {
    matches!(byte, 0x40..=0x5F)
}

/// "Board address byte: 40h + a", for an address 0 to 31.
pub(crate) fn address_byte(address: u32) -> u8 {
    0x40 + address as u8
}
