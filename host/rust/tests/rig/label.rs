//! Label tapes for the programmer (02, Req 04): good ones, and refused ones of every kind with the refusal that each deserves.

use quicksetter_host::dice::Dice;
use quicksetter_host::programmer::Refused;

pub const BLOCK: usize = 16;
const CODES_KIND: u16 = 0x20;
const FIELD_KIND: u16 = 0x21;
/// A field's number is one byte.
pub const MOST_FIELDS: usize = 256;

/// A field's status and bytes.
pub type Field = (u8, Vec<u8>);

/// Bits 0 to 2: blocks less one.
pub fn blocks(status: u8) -> usize {
    usize::from(status & 7) + 1
}

pub fn blocks_of(fields: &[Field]) -> usize {
    fields.iter().map(|(status, _)| blocks(*status)).sum()
}

/// Bits 4 and 5: the number of its code.
pub fn code_number(status: u8) -> usize {
    usize::from(status >> 4 & 3)
}

pub fn is_read_only(status: u8) -> bool {
    status & 0x40 == 0
}

fn record(kind: u16, body: &[u8]) -> Vec<u8> {
    let length = 2 + body.len() as u16;
    [&length.to_le_bytes()[..], &kind.to_le_bytes(), body].concat()
}

pub fn codes_record(codes: [u8; 4]) -> Vec<u8> {
    record(CODES_KIND, &codes)
}

pub fn field_record(status: u8, bytes: &[u8]) -> Vec<u8> {
    record(FIELD_KIND, &[&[status], bytes].concat())
}

pub fn label_tape(codes: [u8; 4], fields: &[Field]) -> Vec<u8> {
    let records = fields
        .iter()
        .flat_map(|(status, bytes)| field_record(*status, bytes));
    codes_record(codes).into_iter().chain(records).collect()
}

pub fn some_codes(dice: &mut Dice) -> [u8; 4] {
    [dice.byte(), dice.byte(), dice.byte(), dice.byte()]
}

/// A field of any status; its bytes are all alike now and then.
pub fn some_field(dice: &mut Dice) -> Field {
    let status = 0x80 | dice.byte();
    let mut bytes = dice.bytes(BLOCK * blocks(status));
    if dice.once_in(8) {
        bytes.fill(dice.one_of(&[0x00, 0xFF, 0x55]));
    }
    (status, bytes)
}

pub fn some_fields(dice: &mut Dice, number: usize) -> Vec<Field> {
    (0..number).map(|_| some_field(dice)).collect()
}

/// As many fields of one block as a tape can have.
pub fn most_fields(dice: &mut Dice) -> Vec<Field> {
    let small = |dice: &mut Dice| (0x80 | dice.byte() & 0x78, dice.bytes(BLOCK));
    (0..MOST_FIELDS).map(|_| small(dice)).collect()
}

/// A tape with a field that may be written and a read-only one.
pub fn small_tape() -> Vec<u8> {
    label_tape([1, 2, 3, 4], &[(0xC0, vec![5; 16]), (0x91, vec![6; 32])])
}

/// The ways in which a tape is refused. All but the last are bad records.
#[derive(Clone, Copy, Debug, PartialEq, Eq, PartialOrd, Ord)]
pub enum Slip {
    Empty,
    FieldFirst,
    Cut,
    LengthUnderTwo,
    UnknownKind,
    CodesNotFour,
    SecondCodes,
    NoStatus,
    BitSevenClear,
    OneTooMany,
    WrongSize,
}

pub const SLIPS: [Slip; 11] = [
    Slip::Empty,
    Slip::FieldFirst,
    Slip::Cut,
    Slip::LengthUnderTwo,
    Slip::UnknownKind,
    Slip::CodesNotFour,
    Slip::SecondCodes,
    Slip::NoStatus,
    Slip::BitSevenClear,
    Slip::OneTooMany,
    Slip::WrongSize,
];

/// A tape with this slip, and its refusal: by the place of the slip, whatever stands before and behind it.
pub fn slipped_tape(dice: &mut Dice, slip: Slip) -> (Vec<u8>, Refused) {
    let mut tape = records_before(dice, slip);
    let place = tape.len();
    tape.extend(slipped_record(dice, slip, place == 0));
    if !matches!(slip, Slip::Empty | Slip::Cut) {
        tape.extend(records_behind(dice, slip));
    }
    let refused = match slip {
        Slip::WrongSize => Refused::WrongSize(place),
        _ => Refused::BadRecord(place),
    };
    (tape, refused)
}

/// Codes and fields, or nothing where the slip stands first. Before a bad record one field may have the wrong size, which then is not the refusal.
fn records_before(dice: &mut Dice, slip: Slip) -> Vec<u8> {
    let fields = match slip {
        Slip::Empty | Slip::FieldFirst => return vec![],
        Slip::OneTooMany => most_fields(dice),
        Slip::SecondCodes | Slip::WrongSize => some_few(dice),
        _ if dice.once_in(4) => return vec![],
        _ => some_few(dice),
    };
    let wrong = if slip != Slip::WrongSize && dice.once_in(2) {
        dice.below(fields.len().max(1))
    } else {
        usize::MAX
    };
    let mut tape = codes_record(some_codes(dice));
    for (place, (status, bytes)) in fields.iter().enumerate() {
        tape.extend(if place == wrong {
            wrong_size(dice)
        } else {
            field_record(*status, bytes)
        });
    }
    tape
}

fn some_few(dice: &mut Dice) -> Vec<Field> {
    let number = dice.below(6);
    some_fields(dice, number)
}

/// Good fields and fields of the wrong size; behind a bad record bad ones too.
fn records_behind(dice: &mut Dice, slip: Slip) -> Vec<u8> {
    let mut tape = vec![];
    for _ in 0..dice.below(4) {
        let (status, bytes) = some_field(dice);
        tape.extend(match dice.below(4) {
            0 => wrong_size(dice),
            1 if slip != Slip::WrongSize => slipped_record(dice, Slip::UnknownKind, false),
            _ => field_record(status, &bytes),
        });
    }
    tape
}

/// The record that is refused; first on its tape or not.
pub fn slipped_record(dice: &mut Dice, slip: Slip, first: bool) -> Vec<u8> {
    let (status, bytes) = some_field(dice);
    let good = if first {
        codes_record(some_codes(dice))
    } else {
        field_record(status, &bytes)
    };
    match slip {
        Slip::Empty => vec![],
        Slip::FieldFirst | Slip::OneTooMany => field_record(status, &bytes),
        Slip::Cut => cut(dice, good),
        Slip::LengthUnderTwo => [&[dice.byte() % 2, 0], &good[2..]].concat(),
        Slip::UnknownKind => [&good[..2], &unknown_kind(dice), &good[4..]].concat(),
        Slip::CodesNotFour => {
            let size = dice.one_of(&[0, 1, 3, 5, 8, 16, 17, 256, 260]);
            record(CODES_KIND, &dice.bytes(size))
        }
        Slip::SecondCodes => codes_record(some_codes(dice)),
        Slip::NoStatus => record(FIELD_KIND, &[]),
        Slip::BitSevenClear => field_record(status & 0x7F, &bytes),
        Slip::WrongSize => wrong_size(dice),
    }
}

/// Ends too soon: bytes are missing, or its length says more than there are.
fn cut(dice: &mut Dice, mut good: Vec<u8>) -> Vec<u8> {
    match dice.below(3) {
        0 => good[1] |= 1 << dice.below(8),
        1 => good[0] += 1,
        _ => good.truncate(1 + dice.below(good.len() - 1)),
    }
    good
}

/// Both bytes count: 20h or 21h in one of them is not enough.
fn unknown_kind(dice: &mut Dice) -> [u8; 2] {
    let kind = match dice.below(3) {
        0 => dice.word() as u16,
        1 => dice.one_of(&[0x00, 0x01, 0x06, 0x1F, 0x22, 0xA0, 0xA1, 0x11, 0x12]),
        _ => dice.one_of(&[
            0x0120, 0x0121, 0x2000, 0x2100, 0x2020, 0x2121, 0x8021, 0xFF20,
        ]),
    };
    match kind {
        CODES_KIND | FIELD_KIND => [0x22, 0x00],
        kind => kind.to_le_bytes(),
    }
}

/// A field without some of its bytes, or with more.
fn wrong_size(dice: &mut Dice) -> Vec<u8> {
    let (status, mut bytes) = some_field(dice);
    let right = bytes.len();
    let any = dice.below(300);
    let size = dice.one_of(&[
        0,
        1,
        right - 1,
        right + 1,
        right - 16,
        right + 16,
        right + 256,
        any,
    ]);
    bytes.resize(if size == right { right + 1 } else { size }, 0x5A);
    field_record(status, &bytes)
}
