//! Requests as a drive would send them, now and then damaged; and what the tests of board, bench and programmer share.

#![allow(dead_code)]

pub mod board;
pub mod foreign;
pub mod label;
pub mod programmers;
pub mod shop;

use quicksetter_host::dice::Dice;
use second::Plate;

pub const COMMANDS: [u8; 16] = [
    0x42, 0x43, 0x46, 0x47, 0x49, 0x4A, 0x4B, 0x4C, 0x4D, 0x4E, 0x4F, 0x50, 0x52, 0x53, 0x55, 0x56,
];

/// 02, Req 01.
pub const NEW_COMMANDS: [u8; 3] = [0x52, 0x55, 0x56];

/// The address byte of a request to every board.
pub const EVERY_BOARD: u8 = 0xFF;

/// Address bytes at the ends of what a board can have, and others that look like one.
pub const EDGE_ADDRESSES: [u8; 10] = [0x00, 0x1F, 0x20, 0x3F, 0x40, 0x5F, 0x60, 0x7F, 0xC0, 0xFF];

/// What a sender knows of the board, so that most of its requests are accepted.
pub struct Known<'a> {
    pub plate: &'a Plate,
    /// The board's address byte.
    pub address: u8,
    /// The one that it had before.
    pub former: u8,
    pub codes: &'a [u8],
    pub memory: &'a [u8],
}

impl Known<'_> {
    fn table(&self) -> &[u8] {
        let blocks = self.memory.len() / 17;
        &self.memory[16 * blocks..]
    }

    fn field(&self, dice: &mut Dice) -> u8 {
        let fields = self
            .table()
            .iter()
            .take_while(|&&status| status >= 0x80)
            .count();
        if dice.once_in(12) {
            return dice.byte();
        }
        let any = dice.below(fields + 1);
        dice.one_of(&[fields.saturating_sub(1), fields, any]) as u8
    }

    /// The code that the field's stored status names, or that the new status does; seldom another.
    fn code(&self, dice: &mut Dice, status: u8) -> u8 {
        if dice.once_in(8) {
            return dice.byte();
        }
        self.codes[usize::from(status >> 4 & 3)]
    }

    fn stored_status(&self, field: u8, otherwise: u8) -> u8 {
        match self.table().get(usize::from(field)) {
            Some(&status) if status >= 0x80 => status,
            _ => otherwise,
        }
    }
}

/// Command and data, mostly of the right length.
pub fn request(dice: &mut Dice, known: &Known) -> (u8, Vec<u8>) {
    let command = match dice.below(8) {
        0 => dice.byte(),
        1..=2 => 0x4D,
        3 => dice.one_of(&[0x4A, 0x4B]),
        _ => dice.one_of(&COMMANDS),
    };
    let mut data = request_data(dice, known, command);
    if dice.once_in(30) {
        data.truncate(dice.below(data.len() + 1));
    }
    if dice.once_in(30) {
        let more = dice.one_of(&[1, 1, 2, 100, 128, 129, 130, 200]);
        data.extend(dice.bytes(more));
    }
    (command, data)
}

fn request_data(dice: &mut Dice, known: &Known, command: u8) -> Vec<u8> {
    match command {
        0x43 => position_data(dice, known),
        0x49 => vec![known.code(dice, 0)],
        0x4A | 0x4B => part_data(dice, known, command == 0x4B),
        0x4C => vec![known.field(dice)],
        0x4D => change_data(dice, known),
        0x4F => code_data(dice, known),
        0x55 => address_data(dice, known),
        _ => vec![],
    }
}

fn position_data(dice: &mut Dice, known: &Known) -> Vec<u8> {
    let largest = u32::MAX >> (32 - known.plate.position_bits);
    let wanted = dice.word();
    let wanted = if dice.once_in(4) {
        wanted
    } else {
        wanted & largest
    };
    let mut data = wanted.to_be_bytes().to_vec();
    data.push(known.code(dice, 0));
    data
}

/// Field, offset, count and code of 4Ah and 4Bh, and the bytes to store.
fn part_data(dice: &mut Dice, known: &Known, store: bool) -> Vec<u8> {
    let field = known.field(dice);
    let status = known.stored_status(field, 0);
    let size = 16 * (usize::from(status & 7) + 1);
    let offset = if dice.once_in(10) {
        dice.byte()
    } else {
        dice.below(size) as u8
    };
    let room = size.saturating_sub(usize::from(offset)).max(1);
    let count = match dice.below(12) {
        0 => dice.below(256),
        1 => room + 1,
        2..=4 => room,
        _ => 1 + dice.below(room),
    } as u8;
    let mut data = vec![field, offset, count, known.code(dice, status)];
    if store {
        data.extend(dice.bytes(usize::from(count)));
    }
    data
}

/// Field, status and code of 4Dh: create, modify or delete.
fn change_data(dice: &mut Dice, known: &Known) -> Vec<u8> {
    let field = known.field(dice);
    let mut status = 0x80 | dice.byte();
    if dice.once_in(2) {
        status |= 0x40;
    }
    let stored = known.stored_status(field, status);
    let code = known.code(dice, stored);
    if dice.once_in(5) {
        status = deletion(dice, stored);
    }
    vec![field, status, code]
}

/// The status of a deletion: the stored one less bit 7, now and then with one bit wrong or several (02, Req 02).
fn deletion(dice: &mut Dice, stored: u8) -> u8 {
    let wrong = match dice.below(8) {
        0 => dice.byte(),
        1 | 2 => 1 << dice.below(7),
        _ => 0,
    };
    (stored ^ wrong) & 0x7F
}

fn code_data(dice: &mut Dice, known: &Known) -> Vec<u8> {
    let numbers = dice.one_of(&[4, 4, 4, 4, 4, 4, 4, 256]);
    let number = dice.below(numbers);
    let old = if dice.once_in(4) {
        dice.byte()
    } else {
        known.codes[number % 4]
    };
    let new = if dice.once_in(2) { 0x55 } else { dice.byte() };
    vec![number as u8, old, new]
}

/// New address byte and code of 55h.
fn address_data(dice: &mut Dice, known: &Known) -> Vec<u8> {
    let wanted = match dice.below(10) {
        0 => dice.byte(),
        1 => dice.one_of(&EDGE_ADDRESSES),
        2 => known.address,
        3 => known.former,
        _ => some_address(dice),
    };
    vec![wanted, known.code(dice, 0)]
}

/// The address byte of some board.
pub fn some_address(dice: &mut Dice) -> u8 {
    0x40 + dice.below(32) as u8
}

/// The bytes with their checksum behind.
pub fn sealed(mut bytes: Vec<u8>) -> Vec<u8> {
    let sum = bytes.iter().fold(0, |sum, byte| sum ^ byte);
    bytes.push(sum);
    bytes
}

/// A whole frame: mostly to this board and with its right checksum, now and then to the address that it had before.
pub fn frame(dice: &mut Dice, known: &Known) -> Vec<u8> {
    let (command, data) = request(dice, known);
    let address = match dice.below(20) {
        0 => dice.byte(),
        1..=3 => EVERY_BOARD,
        4 => known.former,
        _ => known.address,
    };
    let mut bytes = vec![address, command];
    bytes.extend(data);
    let mut bytes = sealed(bytes);
    if dice.once_in(25) {
        mutate(dice, &mut bytes);
    }
    bytes
}

/// A bit turned, a byte changed, bytes cut off or put in; in half of the cases the checksum is made right again.
pub fn mutate(dice: &mut Dice, bytes: &mut Vec<u8>) {
    if bytes.is_empty() {
        bytes.push(dice.byte());
    }
    let place = dice.below(bytes.len());
    match dice.below(5) {
        0 => bytes[place] ^= 1 << dice.below(8),
        1 => bytes[place] = dice.byte(),
        2 => bytes.truncate(place),
        3 => bytes.insert(place, dice.byte()),
        _ => {
            bytes.remove(place);
        }
    }
    if dice.once_in(2) && bytes.pop().is_some() {
        *bytes = sealed(std::mem::take(bytes));
    }
}
