//! The wish: the access codes and fields that a shop wants on a board, read from its label tape.

use crate::status::Status;

/// A field's number is one byte.
const FIELD_LIMIT: usize = 256;

/// Why a label tape is refused; the number is the place of the record's length field.
#[derive(Clone, Copy, Debug, PartialEq, Eq)]
pub enum TapeFault {
    /// "Bad tape record."
    Bad(usize),
    /// "Body not the field's size."
    Size(usize),
}

/// What a good label tape holds. There is no other way to come by one, so that "the whole tape is
/// checked before the first request" (02, Req 04).
#[derive(Clone, Debug, PartialEq, Eq)]
pub struct Wish {
    codes: [u8; 4],
    fields: Vec<WantedField>,
}

/// A field of a wish.
#[derive(Clone, Debug, PartialEq, Eq)]
pub struct WantedField {
    status: u8,
    bytes: Vec<u8>,
}

impl Wish {
    /// Code0 to Code3.
    pub fn codes(&self) -> [u8; 4] {
        self.codes
    }

    /// The fields "in number order", at most 256 of them.
    pub fn fields(&self) -> &[WantedField] {
        &self.fields
    }
}

impl WantedField {
    /// The status that the field shall have, bit 7 set.
    pub fn status(&self) -> u8 {
        self.status
    }

    /// "Exactly its bytes", 16 for each block.
    pub fn bytes(&self) -> &[u8] {
        &self.bytes
    }
}

/// One record of a label tape.
enum Record<'t> {
    Codes([u8; 4]),
    Field { status: u8, bytes: &'t [u8] },
}

/// Reads the whole label tape. "Refusals, in order" (02, Req 04): a bad record anywhere comes before
/// a wrong size anywhere, and of several of one kind the first is named.
pub fn read_label_tape(tape: &[u8]) -> Result<Wish, TapeFault> {
    // "First and once kind 20h": an empty tape lacks it too.
    let Some((Record::Codes(codes), mut rest)) = split_record(tape) else {
        return Err(TapeFault::Bad(0));
    };
    let mut fields = Vec::new();
    let mut wrong_size = None;
    while !rest.is_empty() {
        let place = tape.len() - rest.len();
        let Some((Record::Field { status, bytes }, behind)) = split_record(rest) else {
            return Err(TapeFault::Bad(place));
        };
        // No number is left for a field more.
        if fields.len() == FIELD_LIMIT {
            return Err(TapeFault::Bad(place));
        }
        if bytes.len() != Status(status).size() {
            wrong_size.get_or_insert(place);
        }
        let bytes = bytes.to_vec();
        fields.push(WantedField { status, bytes });
        rest = behind;
    }
    match wrong_size {
        Some(place) => Err(TapeFault::Size(place)),
        None => Ok(Wish { codes, fields }),
    }
}

/// The record at the front of the tape and all behind it; none for a bad record.
fn split_record(tape: &[u8]) -> Option<(Record<'_>, &[u8])> {
    let &[low, high, ref rest @ ..] = tape else {
        return None;
    };
    // The length counts kind and body, as on 01's tape.
    let length = u16::from_le_bytes([low, high]);
    let (record, behind) = rest.split_at_checked(length.into())?;
    Some((parse_record(record)?, behind))
}

/// Kind and body taken apart. Whether a field has all its bytes is not asked here.
fn parse_record(bytes: &[u8]) -> Option<Record<'_>> {
    match *bytes {
        [0x20, 0x00, code0, code1, code2, code3] => {
            Some(Record::Codes([code0, code1, code2, code3]))
        }
        [0x21, 0x00, status, ref bytes @ ..] if Status(status).exists() => {
            Some(Record::Field { status, bytes })
        }
        _ => None,
    }
}
