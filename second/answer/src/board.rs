//! The board's calls: character, poll, measured, fault and power-on, with their refusals.

use crate::cells::Cells;
use crate::request::Request;
use crate::work::{work, Answer, ErrorCode};
use crate::{checksum, Plate, Refusal, Remaining, State, BROADCAST_BYTE};

/// The least room for a reply: address, command, three numbers, 128 bytes, checksum.
pub const REPLY_ROOM: usize = 134;

const ERROR_COMMAND: u8 = 0x50;
const WARNING_BIT: u8 = 0x80;

/// What a character or a poll is answered with, unless it is refused: a refused call has no
/// remaining ticks (reading 3.6).
#[derive(Clone, Copy, Debug, PartialEq, Eq)]
pub struct Heard {
    /// The length of the reply at the front of the room, 0 for none.
    pub reply: usize,
    /// How long the open frame still waits, "as it stands after the call" (02, Req 03). Never 0
    /// ticks: once the pause is over a poll closes the frame, and a character opens the next one
    /// (reading 3.3).
    pub remaining: Remaining,
    /// How many memory cells the call wrote: those that held another byte than the wanted one (02,
    /// Req 05).
    pub written: usize,
}

/// Whether every plate and state number keeps its limit, else R1.
pub fn within_limits(plate: &Plate, state: &State) -> bool {
    plate.within_limits() && state.within_limits(plate)
}

/// A character came, stamped at its end. A refusal changes nothing.
pub fn character(
    plate: &Plate,
    state: &mut State,
    tick: u32,
    value: u8,
    parity: bool,
    memory: &mut [u8],
    room: &mut [u8],
) -> Result<Heard, Refusal> {
    check_buffers(plate, state, memory, room)?;
    let mut cells = Cells::new(memory);
    // The reply is the old frame's; "such a character then opens the next frame" (reading 8).
    let reply = close_when_due(plate, state, tick, &mut cells, room);
    state.take_character(tick, value, parity);
    Ok(heard(plate, state, tick, reply, &cells))
}

/// The host looks whether a frame has ended. Answers as `character` does; "a poll with no frame
/// open does nothing".
pub fn poll(
    plate: &Plate,
    state: &mut State,
    tick: u32,
    memory: &mut [u8],
    room: &mut [u8],
) -> Result<Heard, Refusal> {
    check_buffers(plate, state, memory, room)?;
    let mut cells = Cells::new(memory);
    let reply = close_when_due(plate, state, tick, &mut cells, room);
    Ok(heard(plate, state, tick, reply, &cells))
}

/// The host gives the measured position, any 32-bit number.
pub fn measured(plate: &Plate, state: &mut State, position: u32) -> Result<(), Refusal> {
    check_numbers(plate, state)?;
    state.measured = position;
    Ok(())
}

/// The host notes a fault code.
pub fn fault(plate: &Plate, state: &mut State, code: u8) -> Result<(), Refusal> {
    check_numbers(plate, state)?;
    state.note_fault(code);
    Ok(())
}

/// The supply was switched on.
pub fn power_on(plate: &Plate, state: &mut State) -> Result<(), Refusal> {
    check_numbers(plate, state)?;
    state.power_on();
    Ok(())
}

/// R1 alone (reading 27).
fn check_numbers(plate: &Plate, state: &State) -> Result<(), Refusal> {
    if within_limits(plate, state) {
        Ok(())
    } else {
        Err(Refusal::R1)
    }
}

/// R1 to R3 in that order.
fn check_buffers(plate: &Plate, state: &State, memory: &[u8], room: &[u8]) -> Result<(), Refusal> {
    check_numbers(plate, state)?;
    if memory.len() != plate.memory_length() {
        return Err(Refusal::R2);
    }
    if room.len() < REPLY_ROOM {
        return Err(Refusal::R3);
    }
    Ok(())
}

/// Closes and judges the open frame if its pause is over at `tick`; the length of its reply.
fn close_when_due(
    plate: &Plate,
    state: &mut State,
    tick: u32,
    memory: &mut Cells,
    room: &mut [u8],
) -> usize {
    if state.remaining(plate, tick) != Remaining::Ticks(0) {
        return 0;
    }
    let length = judge_frame(plate, state, memory, room);
    state.drop_frame();
    length
}

/// The answer of a call at `tick`, when all else of it is done.
fn heard(plate: &Plate, state: &State, tick: u32, reply: usize, memory: &Cells) -> Heard {
    Heard {
        reply,
        remaining: state.remaining(plate, tick),
        written: memory.written(),
    }
}

/// "A closed frame is then judged in this order": step 1, and the reply to the other steps.
/// "Frames are judged by the address in force when they close" (02, Req 01).
fn judge_frame(plate: &Plate, state: &mut State, memory: &mut Cells, room: &mut [u8]) -> usize {
    let bytes = state.kept;
    let [address, command, data @ .., _checksum] = &bytes[..state.kept_number] else {
        return 0;
    };
    if *address != state.address_byte() && *address != BROADCAST_BYTE {
        return 0;
    }
    match work_frame(plate, state, *command, data, memory, &mut room[2..]) {
        Ok(Answer::Data(length)) => finish_reply(state, *command, length, room),
        Ok(Answer::Silence) => 0,
        Err(code) => {
            room[2] = code as u8;
            finish_reply(state, ERROR_COMMAND, 1, room)
        }
    }
}

/// Steps 2 to 7.
fn work_frame(
    plate: &Plate,
    state: &mut State,
    command: u8,
    data: &[u8],
    memory: &mut Cells,
    reply: &mut [u8],
) -> Result<Answer, ErrorCode> {
    if state.parity {
        return Err(ErrorCode::Parity);
    }
    // The XOR over a frame with its right checksum is 0.
    if state.xor != 0 {
        return Err(ErrorCode::Checksum);
    }
    if state.longer {
        return Err(ErrorCode::WrongLength);
    }
    work(plate, state, Request::parse(command, data)?, memory, reply)
}

/// Puts address, command and checksum around the reply data; "the reply always carries the board's
/// own address", so that the one to an accepted 55h "will already use the new Slave address" (000,
/// Set Encoder Address); bit 7 "is set exactly if the fault queue is not empty after the request
/// has been worked". Answers the reply's length.
fn finish_reply(state: &State, command: u8, data_length: usize, room: &mut [u8]) -> usize {
    let warning = if state.queue().is_empty() {
        0
    } else {
        WARNING_BIT
    };
    room[0] = state.address_byte();
    room[1] = command | warning;
    let end = 2 + data_length;
    room[end] = checksum(&room[..end]);
    end + 1
}
