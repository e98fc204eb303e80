//! The bench: writes requests and judges the replies to them.

use crate::request::Request;
use crate::{address_byte, checksum, is_board_address, Refusal, BROADCAST_BYTE};

/// The number that asks for the broadcast address (reading 23).
pub const BROADCAST: u32 = 255;
/// The least room for a request: address, command, 132 bytes of data, checksum.
pub const REQUEST_ROOM: usize = 135;

const ERROR_COMMAND: u8 = 0x50;
const SET_ADDRESS: u8 = 0x55;
const WARNING_BIT: u8 = 0x80;

/// What an accepted reply says.
#[derive(Clone, Copy, Debug, PartialEq, Eq)]
pub enum Verdict {
    Done,
    DoneWithWarning,
    Error(u8),
    ErrorWithWarning(u8),
}

/// Writes a request to the front of the room and answers its length. R4 comes before R5, even
/// where the request would be shorter than the room (reading 26).
pub fn write_request(
    address: u32,
    command: u8,
    data: &[u8],
    room: &mut [u8],
) -> Result<usize, Refusal> {
    if room.len() < REQUEST_ROOM {
        return Err(Refusal::R4);
    }
    let address = asked_byte(address).ok_or(Refusal::R5)?;
    parse_writable(command, data).ok_or(Refusal::R5)?;
    let end = 2 + data.len();
    room[0] = address;
    room[1] = command;
    room[2..end].copy_from_slice(data);
    room[end] = checksum(&room[..end]);
    Ok(end + 1)
}

/// Judges a reply to a request: B0 to B6 in order.
pub fn judge(request: &[u8], reply: &[u8]) -> Result<Verdict, Refusal> {
    let (asked, asked_data) = parse_request(request).ok_or(Refusal::B0)?;
    let [address, command, data @ .., _checksum] = reply else {
        return Err(Refusal::B1);
    };
    if checksum(reply) != 0 {
        return Err(Refusal::B2);
    }
    let warning = command & WARNING_BIT != 0;
    let command = command & !WARNING_BIT;
    if !answers_for(request[0], &asked, command, *address) {
        return Err(Refusal::B3);
    }
    if command != request[1] && command != ERROR_COMMAND {
        return Err(Refusal::B4);
    }
    // To a request 50h the wire shows no difference: there it is done, and its byte is the data.
    if command == ERROR_COMMAND && asked != Request::ReadStatus {
        return judge_error(data, warning);
    }
    if asked.reply_length() != Some(data.len()) {
        return Err(Refusal::B5);
    }
    let repeated = asked.repeated();
    if data[..repeated] != asked_data[..repeated] {
        return Err(Refusal::B6);
    }
    Ok(if warning {
        Verdict::DoneWithWarning
    } else {
        Verdict::Done
    })
}

/// The data part of an accepted reply, "a piece of the reply itself": all between command and
/// checksum. "On refusal the empty piece at its front."
pub fn data_part<'r>(request: &[u8], reply: &'r [u8]) -> &'r [u8] {
    match judge(request, reply) {
        Ok(_) => &reply[2..reply.len() - 1],
        Err(_) => &reply[..0],
    }
}

/// An error reply carries its code alone (B5).
fn judge_error(data: &[u8], warning: bool) -> Result<Verdict, Refusal> {
    let &[code] = data else {
        return Err(Refusal::B5);
    };
    Ok(if warning {
        Verdict::ErrorWithWarning(code)
    } else {
        Verdict::Error(code)
    })
}

/// The address byte for "an address 0 to 31 or broadcast".
fn asked_byte(address: u32) -> Option<u8> {
    match address {
        0..=31 => Some(address_byte(address)),
        BROADCAST => Some(BROADCAST_BYTE),
        _ => None,
    }
}

/// Whether a reply of this command from `address` answers a request to `asked` (B3).
fn answers_for(asked: u8, request: &Request, command: u8, address: u8) -> bool {
    match request {
        // The good reply carries the new address, an error reply "the old one" (02, Req 01). No
        // board has an address other than 40h to 5Fh (reading 1.12).
        Request::SetAddress { address: new, .. } if command == SET_ADDRESS => {
            address == *new && is_board_address(address)
        }
        _ if asked == BROADCAST_BYTE => is_board_address(address),
        _ => address == asked,
    }
}

/// The request of this command and data, if the bench writes it (R5).
fn parse_writable(command: u8, data: &[u8]) -> Option<Request<'_>> {
    match Request::parse(command, data).ok()? {
        Request::ReadData {
            count: 0 | 129..=255,
            ..
        } => None,
        Request::SetAccessCode {
            number: 4..=255, ..
        } => None,
        request => Some(request),
    }
}

/// A request and its data, if it is "exactly the bytes of one request the bench would write" (B0).
fn parse_request(bytes: &[u8]) -> Option<(Request<'_>, &[u8])> {
    let [0x40..=0x5F | BROADCAST_BYTE, command, data @ .., _checksum] = bytes else {
        return None;
    };
    if checksum(bytes) != 0 {
        return None;
    }
    Some((parse_writable(*command, data)?, data))
}
