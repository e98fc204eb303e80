//! The requests at work on the board: each is checked left to right and writes its reply data.

use crate::cells::Cells;
use crate::fields::{Field, Fields};
use crate::request::Request;
use crate::status::Status;
use crate::{is_board_address, Plate, State};

/// The codes of error replies.
#[derive(Clone, Copy, Debug, PartialEq, Eq)]
pub enum ErrorCode {
    PositionLocked = 0x02,
    TableUnsound = 0x03,
    Parity = 0x09,
    Checksum = 0x0A,
    UnknownCommand = 0x0B,
    WrongLength = 0x0C,
    WrongArgument = 0x0D,
    ReadOnly = 0x0E,
    WrongCode = 0x0F,
    NoRoom = 0x10,
    WrongOffset = 0x11,
    WrongField = 0x12,
}

/// What an accepted request sends back.
pub enum Answer {
    /// A reply with this many bytes of data.
    Data(usize),
    /// No reply at all.
    Silence,
}

type Worked = Result<Answer, ErrorCode>;

/// Step 7: works a request. The reply data go to the front of `reply`, which an error leaves as it
/// was; so does an error with state and memory.
pub fn work(
    plate: &Plate,
    state: &mut State,
    request: Request,
    memory: &mut Cells,
    reply: &mut [u8],
) -> Worked {
    match request {
        Request::ReadPosition => read_position(plate, state, reply),
        Request::SetPosition { position, code } => set_position(plate, state, position, code),
        Request::ReadCounter => send(reply, &state.counter.to_be_bytes()[1..]),
        Request::IncrementCounter => {
            state.increment_counter();
            send(reply, &[])
        }
        Request::ResetCounter { code } => reset_counter(state, code),
        Request::ReadData {
            field,
            offset,
            count,
            code,
        } => {
            let fields = Fields::survey(memory)?;
            read_data(state, fields, [field, offset, count], code, reply)
        }
        Request::StoreData {
            field,
            offset,
            count,
            code,
            bytes,
        } => {
            let fields = Fields::survey(memory)?;
            store_data(state, fields, [field, offset, count], code, bytes, reply)
        }
        Request::FieldStatus { field } => {
            let fields = Fields::survey(memory)?;
            send(reply, &[field, fields.find(field)?.status.0])
        }
        Request::CreateField {
            field,
            status,
            code,
        } => {
            let fields = Fields::survey(memory)?;
            change_field(state, fields, field, Status(status), code)?;
            send(reply, &[field, status])
        }
        Request::MemoryStatus => {
            let fields = Fields::survey(memory)?;
            send(reply, &[fields.free() as u8, fields.number() as u8])
        }
        Request::SetAccessCode { number, old, new } => {
            set_access_code(state, number, old, new, reply)
        }
        Request::ReadStatus => send(reply, &[state.take_oldest_fault()]),
        // 52h and 56h have no checks of their own (reading 1.9).
        Request::ReadTypeLabel => send(reply, plate.label.type_label()),
        Request::ReadVersion => send(reply, plate.label.version()),
        Request::SetAddress { address, code } => set_address(state, address, code),
        Request::Reset => {
            // Nothing else, and no response (readings 1 and 2).
            state.empty_queue();
            Ok(Answer::Silence)
        }
    }
}

/// Writes the reply data.
fn send(reply: &mut [u8], data: &[u8]) -> Worked {
    reply[..data.len()].copy_from_slice(data);
    Ok(Answer::Data(data.len()))
}

/// The error code unless `condition` holds.
fn ensure(condition: bool, code: ErrorCode) -> Result<(), ErrorCode> {
    if condition {
        Ok(())
    } else {
        Err(code)
    }
}

/// 42h: 02h if locked.
fn read_position(plate: &Plate, state: &State, reply: &mut [u8]) -> Worked {
    ensure(!state.locked, ErrorCode::PositionLocked)?;
    send(reply, &state.position(plate).to_be_bytes())
}

/// 43h: "02h if locked; 0Fh unless Code0; 0Dh if position ≥ 2^P; sets offset".
fn set_position(plate: &Plate, state: &mut State, position: u32, code: u8) -> Worked {
    ensure(!state.locked, ErrorCode::PositionLocked)?;
    ensure(code == state.codes[0], ErrorCode::WrongCode)?;
    ensure(position <= plate.position_mask(), ErrorCode::WrongArgument)?;
    state.set_position(plate, position);
    Ok(Answer::Data(0))
}

/// 49h: "0Fh unless Code0; counter 0".
fn reset_counter(state: &mut State, code: u8) -> Worked {
    ensure(code == state.codes[0], ErrorCode::WrongCode)?;
    state.counter = 0;
    Ok(Answer::Data(0))
}

/// 4Ah, after 03h: "12h; 0Fh; 0Dh if count is 0 or over 128; 11h".
fn read_data(state: &State, fields: Fields, place: [u8; 3], code: u8, reply: &mut [u8]) -> Worked {
    let [number, offset, count] = place;
    let field = fields.find(number)?;
    check_wanted_code(state, field, code)?;
    ensure((1..=128).contains(&count), ErrorCode::WrongArgument)?;
    let bytes = fields.part(field, offset, count)?;
    reply[..3].copy_from_slice(&place);
    reply[3..][..bytes.len()].copy_from_slice(bytes);
    Ok(Answer::Data(3 + bytes.len()))
}

/// 4Bh, after 03h: "12h; 0Fh; 0Eh; 11h; stores".
fn store_data(
    state: &State,
    mut fields: Fields,
    place: [u8; 3],
    code: u8,
    bytes: &[u8],
    reply: &mut [u8],
) -> Worked {
    let [number, offset, _count] = place;
    let field = fields.find(number)?;
    check_wanted_code(state, field, code)?;
    ensure(field.status.writable(), ErrorCode::ReadOnly)?;
    fields.store(field, offset, bytes)?;
    send(reply, &place)
}

/// "0Fh in 4Ah and 4Bh only where the field's status bit 3 is set."
fn check_wanted_code(state: &State, field: Field, code: u8) -> Result<(), ErrorCode> {
    if field.status.wants_code() {
        check_code(state, field.status, code)?;
    }
    Ok(())
}

/// 0Fh unless the code equals the one that the status names.
fn check_code(state: &State, status: Status, code: u8) -> Result<(), ErrorCode> {
    ensure(
        code == state.codes[status.code_number()],
        ErrorCode::WrongCode,
    )
}

/// 4Dh, after 03h: create, modify or delete, "otherwise 12h".
fn change_field(
    state: &State,
    mut fields: Fields,
    number: u8,
    status: Status,
    code: u8,
) -> Result<(), ErrorCode> {
    if status.exists() && usize::from(number) == fields.number() {
        // "Whatever bit 3 says."
        check_code(state, status, code)?;
        return fields.create(status);
    }
    let field = fields.find(number)?;
    // Modify and delete alike: "the one the stored status names".
    check_code(state, field.status, code)?;
    if status.exists() {
        fields.modify(field, status)
    } else {
        fields.delete(field, status)
    }
}

/// 4Fh: "0Dh if number over 3; 0Fh if old differs".
fn set_access_code(state: &mut State, number: u8, old: u8, new: u8, reply: &mut [u8]) -> Worked {
    let stored = state
        .codes
        .get_mut(usize::from(number))
        .ok_or(ErrorCode::WrongArgument)?;
    ensure(old == *stored, ErrorCode::WrongCode)?;
    *stored = new;
    send(reply, &[number])
}

/// 55h: "0Fh, then 0Dh for an address byte that the table does not allow" (02, Req 01; 000,
/// table 30).
fn set_address(state: &mut State, address: u8, code: u8) -> Worked {
    ensure(code == state.codes[0], ErrorCode::WrongCode)?;
    ensure(is_board_address(address), ErrorCode::WrongArgument)?;
    state.address = u32::from(address & 0x1F);
    Ok(Answer::Data(0))
}
