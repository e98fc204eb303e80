//! A motor shop: boards of the library that were in use, and what is to be put onto each (02, Req 04).

use quicksetter_host::dice::Dice;
use quicksetter_host::programmer::BROADCAST;
use quicksetter_host::{Call, ADDRESS, CODES, COUNTER};

use super::board::{good_plate, Board};
use super::label::{
    blocks, blocks_of, code_number, label_tape, most_fields, some_field, Field, BLOCK,
};
use super::some_address;

/// A board, and the tape that the shop has for it.
pub struct Job {
    pub board: Board,
    /// The board's fields, first to last.
    pub present: Vec<Field>,
    /// Whether its status table is sound.
    pub sound: bool,
    /// Where the requests are sent to.
    pub address: u32,
    pub codes: [u8; 4],
    pub wanted: Vec<Field>,
    pub tape: Vec<u8>,
}

impl Job {
    /// Mostly one that can be done. Else the address is another board's, a code is not the one in force, the fields do not fit, or the table is unsound.
    pub fn new(dice: &mut Dice) -> Job {
        let (mut board, present) = used_board(dice);
        let sound = !dice.once_in(60);
        if !sound {
            spoil_table(dice, &mut board, present.len());
        }
        let own = u32::from(board.image[ADDRESS]);
        let address = match dice.below(16) {
            0 => (own + 1 + dice.word() % 31) % 32,
            1..=4 => BROADCAST,
            _ => own,
        };
        let mut codes = codes_of(&board);
        if dice.once_in(8) {
            codes[dice.below(4)] ^= 1 + dice.byte() % 255;
        }
        let wanted = some_wish(dice, board.plate.total_blocks as usize);
        Job {
            tape: label_tape(codes, &wanted),
            board,
            present,
            sound,
            address,
            codes,
            wanted,
        }
    }

    /// The shop has another tape for the same board.
    pub fn next_tape(&mut self, dice: &mut Dice) {
        self.wanted = some_wish(dice, self.total());
        self.tape = label_tape(self.codes, &self.wanted);
    }

    /// Looks which fields the board has now.
    pub fn look_again(&mut self) {
        let table = &self.board.memory[BLOCK * self.total()..];
        let statuses = table.iter().take_while(|&&status| status != 0);
        let blank = |&status: &u8| (status, vec![0; BLOCK * blocks(status)]);
        self.present = statuses.map(blank).collect();
        hold(&self.board, &mut self.present);
    }

    pub fn total(&self) -> usize {
        self.board.plate.total_blocks as usize
    }

    pub fn is_addressed(&self) -> bool {
        self.address == BROADCAST || self.address == u32::from(self.board.image[ADDRESS])
    }

    /// Whether the tape's code that this status names is the one in force.
    pub fn has_code(&self, status: u8) -> bool {
        let number = code_number(status);
        self.codes[number] == codes_of(&self.board)[number]
    }

    /// All that document 02 asks for, so that done is reached.
    pub fn can_be_done(&self) -> bool {
        self.sound
            && self.is_addressed()
            && self.codes == codes_of(&self.board)
            && blocks_of(&self.wanted) <= self.total()
    }
}

fn codes_of(board: &Board) -> [u8; 4] {
    board.image[CODES..COUNTER].try_into().expect("four codes")
}

/// A board with codes, fields and faults of its own, every data byte dirty, at its plate's address or another; and its fields.
fn used_board(dice: &mut Dice) -> (Board, Vec<Field>) {
    let plate = good_plate(dice);
    let mut board = Board::new(dice, plate);
    let data = BLOCK * plate.total_blocks as usize;
    change_codes(dice, &mut board);
    let blocks = dice.below(plate.total_blocks as usize + 1);
    let mut present = filled(dice, blocks);
    create(&mut board, &present);
    board.memory[..data].copy_from_slice(&dice.bytes(data));
    hold(&board, &mut present);
    change_codes(dice, &mut board);
    if dice.once_in(3) {
        let code = codes_of(&board)[0];
        let moved = [board.address_byte(), 0x55, some_address(dice), code];
        board.ask(&moved);
    }
    for _ in 0..dice.below(6) {
        let any = dice.byte();
        let made = Call::Fault(dice.one_of(&[any, any, 0x22, 0x24, 0x31, 0x32]));
        assert_eq!(board.step(made), Ok(0));
    }
    (board, present)
}

/// Changes some of the codes by 4Fh.
fn change_codes(dice: &mut Dice, board: &mut Board) {
    for (number, old) in codes_of(board).into_iter().enumerate() {
        if dice.once_in(2) {
            let asked = [board.address_byte(), 0x4F, number as u8, old, dice.byte()];
            assert_eq!(board.ask(&asked)[1], 0x4F);
        }
    }
}

/// Creates these fields by 4Dh.
fn create(board: &mut Board, fields: &[Field]) {
    for (number, (status, _)) in fields.iter().enumerate() {
        let code = codes_of(board)[code_number(*status)];
        let asked = [board.address_byte(), 0x4D, number as u8, *status, code];
        assert_eq!(board.ask(&asked)[1], 0x4D);
    }
}

/// The fields have the bytes that the board's memory has for them.
fn hold(board: &Board, fields: &mut [Field]) {
    let mut data = &board.memory[..];
    for (_, bytes) in fields {
        let (held, behind) = data.split_at(bytes.len());
        bytes.copy_from_slice(held);
        data = behind;
    }
}

/// A status behind the last field that no sound table has; a full table gets a field that is too long.
fn spoil_table(dice: &mut Dice, board: &mut Board, fields: usize) {
    let total = board.plate.total_blocks as usize;
    let table = &mut board.memory[BLOCK * total..];
    match table.get_mut(fields) {
        Some(status) => *status = 1 + dice.byte() % 0x7F,
        None => table[dice.below(fields)] |= 7,
    }
}

/// What is wanted: nothing, as much as fits exactly, more than fits, as much as a tape can say, or something in between.
fn some_wish(dice: &mut Dice, total: usize) -> Vec<Field> {
    match dice.below(12) {
        0 if dice.once_in(10) => most_fields(dice),
        0 => vec![],
        1 => filled(dice, total),
        2 => {
            let more = total + 1 + dice.below(20);
            filled(dice, more)
        }
        _ => {
            let part = 1 + dice.below(total);
            filled(dice, part)
        }
    }
}

/// Fields that have exactly so many blocks together, all of them small ones now and then.
fn filled(dice: &mut Dice, total: usize) -> Vec<Field> {
    let sizes = dice.one_of(&[0x07, 0x07, 0x01, 0x00]);
    let (mut fields, mut left) = (vec![], total);
    while left > 0 {
        let (mut status, mut bytes) = some_field(dice);
        status &= !0x07 | sizes;
        if blocks(status) > left {
            status &= !0x07;
        }
        bytes.resize(BLOCK * blocks(status), 0xA5);
        left -= blocks(status);
        fields.push((status, bytes));
    }
    fields
}
