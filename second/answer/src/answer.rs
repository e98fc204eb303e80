//! The answer program: reads a tape record by record, works it on a board, prints what it answers.

use std::io::{self, BufRead, ErrorKind, Write};

use crate::{board, Label, Plate, Remaining, State, REPLY_ROOM};

/// No record that fits has more after its length than a character: kind 2, tick 4, value, parity.
const LONGEST: usize = 8;

/// One record of a tape.
#[derive(Clone, Copy, Debug, PartialEq, Eq)]
enum Record {
    Plate(Plate),
    Character { tick: u32, value: u8, parity: bool },
    Poll { tick: u32 },
    Measured(u32),
    Fault(u8),
    PowerOn,
}

/// What stands at a place of the tape.
enum Next {
    Record { record: Record, length: u64 },
    Bad,
    End,
}

/// A board with its memory and reply room.
struct Board {
    plate: Plate,
    state: State,
    memory: Vec<u8>,
    room: [u8; REPLY_ROOM],
}

/// What a character or a poll of the tape was answered with.
struct Answered<'b> {
    tick: u32,
    remaining: Remaining,
    reply: &'b [u8],
}

/// Prints the line of one answer, if it has one.
type Print<W> = fn(Answered, &mut W) -> io::Result<()>;

/// Reads the whole tape and prints the replies to it.
pub fn answer(tape: &mut impl BufRead, out: &mut impl Write) -> io::Result<()> {
    read_tape(tape, out, print_reply)
}

/// Reads the whole tape and prints the remaining ticks that each character and each poll was
/// answered with (02, Req 03), since the replies do not show them (reading 3.9).
pub fn remaining(tape: &mut impl BufRead, out: &mut impl Write) -> io::Result<()> {
    read_tape(tape, out, print_remaining)
}

/// The tape's run, the same whatever is printed of its answers.
fn read_tape<W: Write>(tape: &mut impl BufRead, out: &mut W, print: Print<W>) -> io::Result<()> {
    out.write_all(b"tick reply\n")?;
    let mut place = 0;
    let mut board: Option<Board> = None;
    loop {
        let (record, length) = match next_record(tape)? {
            Next::Record { record, length } => (record, length),
            Next::Bad => return writeln!(out, "bad {place}"),
            Next::End => return Ok(()),
        };
        match (&mut board, record) {
            // "First and once."
            (None, Record::Plate(plate)) if plate.within_limits() => {
                board = Some(Board::fresh(plate));
            }
            (None, _) | (Some(_), Record::Plate(_)) => return writeln!(out, "bad {place}"),
            (Some(board), event) => {
                if let Some(answered) = board.take(event) {
                    print(answered, out)?;
                }
            }
        }
        place += length;
    }
}

/// "Records of length (2 bytes, little-endian, counting what follows), kind (2 bytes), body."
fn next_record(tape: &mut impl BufRead) -> io::Result<Next> {
    if tape.fill_buf()?.is_empty() {
        return Ok(Next::End);
    }
    let mut length = [0; 2];
    if !read_whole(tape, &mut length)? {
        return Ok(Next::Bad);
    }
    let length = usize::from(u16::from_le_bytes(length));
    if length > LONGEST {
        return Ok(Next::Bad);
    }
    let mut rest = [0; LONGEST];
    if !read_whole(tape, &mut rest[..length])? {
        return Ok(Next::Bad);
    }
    Ok(match parse_record(&rest[..length]) {
        Some(record) => Next::Record {
            record,
            length: 2 + length as u64,
        },
        None => Next::Bad,
    })
}

/// Fills the buffer; false where the tape is cut short.
fn read_whole(tape: &mut impl BufRead, buffer: &mut [u8]) -> io::Result<bool> {
    match tape.read_exact(buffer) {
        Ok(()) => Ok(true),
        Err(error) if error.kind() == ErrorKind::UnexpectedEof => Ok(false),
        Err(error) => Err(error),
    }
}

/// Kind and body taken apart; none for a record "that fits none of this".
fn parse_record(bytes: &[u8]) -> Option<Record> {
    Some(match *bytes {
        [1, 0, total_blocks, position_bits, address, ticks_per_bit, pause] => {
            Record::Plate(Plate {
                total_blocks: total_blocks.into(),
                position_bits: position_bits.into(),
                address: address.into(),
                ticks_per_bit: ticks_per_bit.into(),
                pause: pause.into(),
                label: Label::BLANK,
            })
        }
        [2, 0, t0, t1, t2, t3, value, parity @ 0..=1] => Record::Character {
            tick: u32::from_le_bytes([t0, t1, t2, t3]),
            value,
            parity: parity == 1,
        },
        [3, 0, t0, t1, t2, t3] => Record::Poll {
            tick: u32::from_le_bytes([t0, t1, t2, t3]),
        },
        [4, 0, b0, b1, b2, b3] => Record::Measured(u32::from_le_bytes([b0, b1, b2, b3])),
        [5, 0, code] => Record::Fault(code),
        [6, 0] => Record::PowerOn,
        _ => return None,
    })
}

impl Board {
    /// A board in the fresh state, its memory all 00h.
    fn fresh(plate: Plate) -> Board {
        Board {
            plate,
            state: State::fresh(&plate),
            memory: vec![0; plate.memory_length()],
            room: [0; REPLY_ROOM],
        }
    }

    /// Works one event; only "each character's and poll's answer carries" something (reading 3.5).
    fn take(&mut self, event: Record) -> Option<Answered<'_>> {
        let Board {
            plate,
            state,
            memory,
            room,
        } = self;
        let worked = match event {
            Record::Character {
                tick,
                value,
                parity,
            } => board::character(plate, state, tick, value, parity, memory, room)
                .map(|heard| Some((tick, heard))),
            Record::Poll { tick } => {
                board::poll(plate, state, tick, memory, room).map(|heard| Some((tick, heard)))
            }
            Record::Measured(position) => board::measured(plate, state, position).map(|()| None),
            Record::Fault(code) => board::fault(plate, state, code).map(|()| None),
            Record::PowerOn => board::power_on(plate, state).map(|()| None),
            Record::Plate(_) => Ok(None),
        };
        let (tick, heard) =
            worked.expect("a good plate, its fresh state and its buffers are not refused")?;
        Some(Answered {
            tick,
            remaining: heard.remaining,
            reply: &room[..heard.reply],
        })
    }
}

/// "The event's tick in decimal and the bytes in hex": upper case, single spaces (reading 32).
fn print_reply(answered: Answered, out: &mut impl Write) -> io::Result<()> {
    const DIGITS: &[u8; 16] = b"0123456789ABCDEF";
    let Answered { tick, reply, .. } = answered;
    if reply.is_empty() {
        return Ok(());
    }
    let mut text = [b' '; 3 * REPLY_ROOM];
    for (place, byte) in text.chunks_exact_mut(3).zip(reply) {
        place[1] = DIGITS[usize::from(byte >> 4)];
        place[2] = DIGITS[usize::from(byte & 15)];
    }
    write!(out, "{tick}")?;
    out.write_all(&text[..3 * reply.len()])?;
    out.write_all(b"\n")
}

/// The event's tick in decimal, then its remaining ticks in decimal, or `none` for no frame open.
fn print_remaining(answered: Answered, out: &mut impl Write) -> io::Result<()> {
    let tick = answered.tick;
    match answered.remaining {
        Remaining::NoFrameOpen => writeln!(out, "{tick} none"),
        Remaining::Ticks(ticks) => writeln!(out, "{tick} {ticks}"),
    }
}
