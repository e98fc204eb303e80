//! A run of the programmer worked out by hand: its board, its wish, its requests and replies.

use super::shop::{counted, wish, Field};
use super::{sheet_plate, Rig};
use second::{Ended, Plate, Programmer, Why};

pub const CODES: [u8; 4] = [0x11, 0x22, 0x33, 0x44];

/// Each request of the run and its reply.
pub const BY_HAND: [(&str, &str); 12] = [
    ("43 4E 0D", "43 4E 05 02 0A"),
    ("43 4C 01 0E", "43 4C 01 A8 A6"),
    ("43 4D 01 28 33 14", "43 4D 01 28 27"),
    ("43 4C 00 0F", "43 4C 00 C1 CE"),
    ("43 4D 00 41 11 5E", "43 4D 00 41 4F"),
    ("43 4D 00 D8 22 F4", "43 4D 00 D8 D6"),
    (
        "43 4B 00 00 10 22 01 02 03 04 05 06 07 08 09 0A 0B 0C 0D 0E 0F 10 2A",
        "43 4B 00 00 10 18",
    ),
    (
        "43 4A 00 00 10 22 3B",
        "43 4A 00 00 10 01 02 03 04 05 06 07 08 09 0A 0B 0C 0D 0E 0F 10 09",
    ),
    ("43 4D 00 98 22 B4", "43 4D 00 98 96"),
    ("43 4D 01 F1 44 BA", "43 4D 01 F1 FE"),
    (
        "43 4B 01 00 20 44 A0 A1 A2 A3 A4 A5 A6 A7 A8 A9 AA AB AC AD AE AF \
         B0 B1 B2 B3 B4 B5 B6 B7 B8 B9 BA BB BC BD BE BF 6D",
        "43 4B 01 00 20 29",
    ),
    (
        "43 4A 01 00 20 44 6C",
        "43 4A 01 00 20 A0 A1 A2 A3 A4 A5 A6 A7 A8 A9 AA AB AC AD AE AF \
         B0 B1 B2 B3 B4 B5 B6 B7 B8 B9 BA BB BC BD BE BF 28",
    ),
];

/// A read-only field of Code1, then one that may be written.
pub fn wanted_fields() -> Vec<Field> {
    vec![counted(0x98, 0x01), counted(0xF1, 0xA0)]
}

/// Address 3, eight blocks; two blocks of Code0, then a read-only one that wants Code2.
pub fn used_board() -> Rig {
    let plate = Plate {
        address: 3,
        ..sheet_plate(8)
    };
    board(plate, &[counted(0xC1, 0xD0), counted(0xA8, 0xE0)])
}

/// A board with these fields and the tape's codes in force.
pub fn board(plate: Plate, fields: &[Field]) -> Rig {
    let mut rig = Rig::new(plate);
    rig.state.codes = CODES;
    rig.hold(fields);
    rig
}

pub fn fresh_run() -> Programmer {
    Programmer::new(3, wish(CODES, &wanted_fields())).unwrap()
}

pub fn failed(request: &[u8], why: Why) -> Ended {
    let request = request.to_vec();
    Ended::Failed { request, why }
}
