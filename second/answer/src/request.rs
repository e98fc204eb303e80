//! The table of commands: a request's command byte and data taken apart, for board and bench alike.

use crate::work::ErrorCode;

/// A request of 01's table, or of 02's Req 01, with its data in their places.
#[derive(Clone, Copy, Debug, PartialEq, Eq)]
pub enum Request<'d> {
    ReadPosition,
    SetPosition {
        position: u32,
        code: u8,
    },
    ReadCounter,
    IncrementCounter,
    ResetCounter {
        code: u8,
    },
    ReadData {
        field: u8,
        offset: u8,
        count: u8,
        code: u8,
    },
    StoreData {
        field: u8,
        offset: u8,
        count: u8,
        code: u8,
        bytes: &'d [u8],
    },
    FieldStatus {
        field: u8,
    },
    CreateField {
        field: u8,
        status: u8,
        code: u8,
    },
    MemoryStatus,
    SetAccessCode {
        number: u8,
        old: u8,
        new: u8,
    },
    ReadStatus,
    ReadTypeLabel,
    Reset,
    SetAddress {
        address: u8,
        code: u8,
    },
    ReadVersion,
}

impl<'d> Request<'d> {
    /// Steps 5 and 6 of a frame's judging: 0Bh for an unknown command ("C2h, say"), 0Ch for a
    /// data length that is wrong for the command.
    pub fn parse(command: u8, data: &'d [u8]) -> Result<Request<'d>, ErrorCode> {
        let request = match (command, data) {
            (0x42, []) => Request::ReadPosition,
            (0x43, &[b3, b2, b1, b0, code]) => Request::SetPosition {
                position: u32::from_be_bytes([b3, b2, b1, b0]),
                code,
            },
            (0x46, []) => Request::ReadCounter,
            (0x47, []) => Request::IncrementCounter,
            (0x49, &[code]) => Request::ResetCounter { code },
            (0x4A, &[field, offset, count, code]) => Request::ReadData {
                field,
                offset,
                count,
                code,
            },
            // "4Bh needs data length 4 + count and 5 to 132, else 0Ch."
            (0x4B, &[field, offset, count @ 1..=128, code, ref bytes @ ..])
                if bytes.len() == usize::from(count) =>
            {
                Request::StoreData {
                    field,
                    offset,
                    count,
                    code,
                    bytes,
                }
            }
            (0x4C, &[field]) => Request::FieldStatus { field },
            (0x4D, &[field, status, code]) => Request::CreateField {
                field,
                status,
                code,
            },
            (0x4E, []) => Request::MemoryStatus,
            (0x4F, &[number, old, new]) => Request::SetAccessCode { number, old, new },
            (0x50, []) => Request::ReadStatus,
            (0x52, []) => Request::ReadTypeLabel,
            (0x53, []) => Request::Reset,
            (0x55, &[address, code]) => Request::SetAddress { address, code },
            (0x56, []) => Request::ReadVersion,
            (0x42 | 0x43 | 0x46 | 0x47 | 0x49..=0x50 | 0x52 | 0x53 | 0x55 | 0x56, _) => {
                return Err(ErrorCode::WrongLength)
            }
            _ => return Err(ErrorCode::UnknownCommand),
        };
        Ok(request)
    }

    /// The length of the data in an accepted reply; none for 53h, which has no response
    /// (000, Encoder Reset; reading 1).
    pub fn reply_length(&self) -> Option<usize> {
        match self {
            Request::SetPosition { .. }
            | Request::IncrementCounter
            | Request::ResetCounter { .. }
            | Request::SetAddress { .. } => Some(0),
            Request::SetAccessCode { .. } | Request::ReadStatus => Some(1),
            Request::FieldStatus { .. } | Request::CreateField { .. } | Request::MemoryStatus => {
                Some(2)
            }
            Request::ReadCounter | Request::StoreData { .. } => Some(3),
            Request::ReadPosition | Request::ReadTypeLabel => Some(4),
            Request::ReadVersion => Some(37),
            Request::ReadData { count, .. } => Some(3 + usize::from(*count)),
            Request::Reset => None,
        }
    }

    /// How many bytes at the front of an accepted reply's data repeat the request's own (B6).
    pub fn repeated(&self) -> usize {
        match self {
            // Field, offset, count.
            Request::ReadData { .. } | Request::StoreData { .. } => 3,
            // Field and status as received.
            Request::CreateField { .. } => 2,
            // Field alone, since the status is the answer (reading 25); code number.
            Request::FieldStatus { .. } | Request::SetAccessCode { .. } => 1,
            _ => 0,
        }
    }
}
