//! Only cells that change are written (02, Req 05): how many by each kind of request, and a random run.

mod rig;

use rig::{sealed, sheet_plate, Dice, Rig};
use second::{poll, Plate, Refusal, REPLY_ROOM};

const BLOCK: usize = 16;
const STORE: u8 = 0x4B;
const CHANGE: u8 = 0x4D;
const CODE: u8 = 0x55;

/// A board of eight blocks; its only field has four of them and holds these bytes.
fn board_with(status: u8, bytes: [u8; 64]) -> Rig {
    let mut rig = Rig::sheet(8);
    assert_eq!(rig.change(0, status), 1);
    rig.memory[..64].copy_from_slice(&bytes);
    rig
}

/// 1 to 64: no cell is 00h, and no two are alike.
fn all_different() -> [u8; 64] {
    std::array::from_fn(|place| 1 + place as u8)
}

/// How many bytes of two memories differ.
fn differing(before: &[u8], after: &[u8]) -> usize {
    assert_eq!(before.len(), after.len());
    before.iter().zip(after).filter(|(a, b)| a != b).count()
}

impl Rig {
    /// How many cells a request that is accepted writes: as many as hold another byte afterwards.
    fn writes(&mut self, command: u8, data: &[u8]) -> usize {
        let before = self.memory.clone();
        let reply = self.ask(&[&[0x40, command], data].concat());
        assert_eq!(reply[1], command, "{reply:02X?}");
        assert_eq!(self.written, differing(&before, &self.memory));
        self.written
    }

    /// 4Dh: create, modify or delete.
    fn change(&mut self, field: u8, status: u8) -> usize {
        self.writes(CHANGE, &[field, status, CODE])
    }

    /// 4Bh.
    fn store(&mut self, field: u8, offset: u8, bytes: &[u8]) -> usize {
        let data = [&[field, offset, bytes.len() as u8, CODE], bytes].concat();
        self.writes(STORE, &data)
    }
}

#[test]
fn a_store_of_what_is_there_writes_nothing() {
    let bytes = all_different();
    let mut rig = board_with(0xC3, [0; 64]);
    assert_eq!(rig.store(0, 0, &bytes), 64);
    assert_eq!(rig.store(0, 0, &bytes), 0);
    for place in 0..64 {
        assert_eq!(rig.store(0, place as u8, &bytes[place..]), 0);
        assert_eq!(rig.store(0, place as u8, &bytes[place..=place]), 0);
    }
    assert_eq!(rig.memory[..64], bytes);
}

#[test]
fn a_store_writes_the_bytes_that_differ() {
    let mut rig = board_with(0xC3, all_different());
    let mut wanted = all_different();
    for place in 0..64 {
        wanted[place] ^= 0x80;
        assert_eq!(rig.store(0, 0, &wanted), 1, "{place}");
        assert_eq!(rig.memory[..64], wanted);
    }
    for apart in 1..64 {
        wanted[0] ^= 1;
        wanted[apart] ^= 1;
        assert_eq!(rig.store(0, 0, &wanted), 2, "{apart}");
        assert_eq!(rig.memory[..64], wanted);
    }
}

#[test]
fn a_store_of_00h_in_a_blank_field_writes_nothing() {
    let mut rig = board_with(0xC3, [0; 64]);
    assert_eq!(rig.store(0, 0, &[0; 64]), 0);
    assert_eq!(rig.store(0, 63, &[7]), 1);
    assert_eq!(rig.store(0, 0, &[0; 64]), 1);
}

#[test]
fn blank_blocks_granted_write_the_status_alone() {
    for blocks in 1..=8 {
        let mut rig = Rig::sheet(8);
        assert_eq!(rig.change(0, 0xC0 | (blocks - 1)), 1);
    }
    // Growth by each number of blocks.
    for blocks in 2..=8 {
        let mut rig = Rig::sheet(8);
        assert_eq!(rig.change(0, 0xC0), 1);
        assert_eq!(rig.change(0, 0xC0 | (blocks - 1)), 1);
    }
}

#[test]
fn blocks_granted_with_old_bytes_write_those_that_are_not_00h() {
    let mut rig = Rig::sheet(4);
    rig.memory[..64].fill(0x77);
    assert_eq!(rig.change(0, 0xC0), 16 + 1);
    // Of the two blocks by which it grows, five cells hold something.
    rig.memory[16..48].fill(0);
    for place in [16, 17, 31, 32, 47] {
        rig.memory[place] = 0xFF;
    }
    assert_eq!(rig.change(0, 0xC2), 5 + 1);
    // Those of a block that nobody asked for stay.
    assert_eq!(rig.memory[..64], [[0; 48].as_slice(), &[0x77; 16]].concat());
}

#[test]
fn blocks_given_back_write_those_that_are_not_00h() {
    let mut rig = board_with(0xC3, all_different());
    assert_eq!(rig.change(0, 0xC1), 32 + 1);
    assert_eq!(rig.change(0, 0x41), 32 + 1);
    assert_eq!(rig.memory, [0; 8 * 17]);

    let mut bytes = [0; 64];
    for place in [3, 40, 63] {
        bytes[place] = 1;
    }
    let mut rig = board_with(0xC3, bytes);
    assert_eq!(rig.change(0, 0xC2), 1 + 1);
    assert_eq!(rig.change(0, 0x42), 2 + 1);
    assert_eq!(rig.memory, [0; 8 * 17]);
}

#[test]
fn blank_blocks_given_back_write_the_status_alone() {
    let mut rig = board_with(0xC3, [0; 64]);
    assert_eq!(rig.change(0, 0xC0), 1);
    assert_eq!(rig.change(0, 0x40), 1);
}

#[test]
fn the_same_status_again_writes_nothing() {
    for status in 0x80..=0xFF {
        let mut rig = Rig::sheet(16);
        assert_eq!(rig.change(0, status), 1);
        // The last field, then one behind which another lies.
        assert_eq!(rig.change(0, status), 0);
        assert_eq!(rig.change(1, 0xC0), 1);
        rig.memory[..16].fill(9);
        assert_eq!(rig.change(0, status), 0);
    }
}

#[test]
fn another_status_of_the_same_size_writes_the_status_alone() {
    for status in (0x83..=0xFB).step_by(8).filter(|&status| status != 0xC3) {
        let mut rig = board_with(0xC3, all_different());
        // Free blocks stay as they are.
        rig.memory[64..128].fill(0x77);
        assert_eq!(rig.change(0, status), 1);
        assert_eq!(rig.memory[..64], all_different());
        assert_eq!(rig.memory[64..128], [0x77; 64]);
    }
}

#[test]
fn other_commands_write_nothing() {
    let mut rig = board_with(0xC3, all_different());
    for (command, data) in [
        (0x42, vec![]),
        (0x43, vec![0, 0, 0, 2, CODE]),
        (0x46, vec![]),
        (0x47, vec![]),
        (0x49, vec![CODE]),
        (0x4A, vec![0, 0, 64, CODE]),
        (0x4C, vec![0]),
        (0x4E, vec![]),
        (0x4F, vec![1, CODE, 1]),
        (0x50, vec![]),
        (0x52, vec![]),
        (0x55, vec![0x40, CODE]),
        (0x56, vec![]),
    ] {
        assert_eq!(rig.writes(command, &data), 0, "{command:02X}");
    }
    rig.line("40 53 13", "");
    assert_eq!(rig.written, 0);
}

#[test]
fn error_replies_write_nothing() {
    let mut rig = board_with(0x83, all_different()); // read-only
    assert_eq!(rig.change(1, 0xC8), 1); // writable, code wanted
    rig.memory[80..128].fill(0x77);
    let full = [&[1, 0, 17, CODE][..], &[1; 17]].concat();
    let long = [&[1, 0, 129, CODE][..], &[1; 129]].concat();
    for (code, command, data) in [
        (0x0B, 0x44, vec![]),
        (0x0C, STORE, long),
        (0x0C, STORE, vec![1, 0, 2, CODE, 1]),
        (0x0D, CHANGE, vec![1, 0x40, CODE]),
        (0x0E, STORE, vec![0, 0, 1, CODE, 9]),
        (0x0F, STORE, vec![1, 0, 1, CODE - 1, 9]),
        (0x0F, CHANGE, vec![1, 0xC9, CODE - 1]),
        (0x0F, CHANGE, vec![2, 0xC0, CODE - 1]),
        (0x10, CHANGE, vec![0, 0x82, CODE]),
        (0x10, CHANGE, vec![0, 0x03, CODE]),
        (0x10, CHANGE, vec![1, 0xCC, CODE]),
        (0x10, CHANGE, vec![2, 0xC3, CODE]),
        (0x11, STORE, full),
        (0x12, STORE, vec![2, 0, 1, CODE, 9]),
        (0x12, CHANGE, vec![3, 0xC0, CODE]),
    ] {
        assert_eq!(rig.error(&[&[0x40, command][..], &data].concat()), code);
        assert_eq!(rig.written, 0, "{code:02X}");
    }
}

/// A store that would write, sent with a parity fault, with a wrong checksum, to another board and
/// to an unsound table; then as it should be.
#[test]
fn frames_that_are_not_worked_write_nothing() {
    let mut rig = board_with(0xC3, all_different());
    let request = sealed(&[0x40, STORE, 0, 0, 1, CODE, 9]);
    let (last, front) = request.split_last().expect("a request");

    rig.characters(front);
    rig.character(1, *last, true);
    assert_eq!((rig.poll(220)[2], rig.written), (0x09, 0));

    rig.characters(front);
    rig.character(1, last ^ 1, false);
    assert_eq!((rig.poll(220)[2], rig.written), (0x0A, 0));

    assert_eq!(rig.ask(&[0x41, STORE, 0, 0, 1, CODE, 9]), []);
    assert_eq!(rig.written, 0);

    rig.memory[8 * BLOCK + 5] = 0x01;
    assert_eq!((rig.send(&request)[2], rig.written), (0x03, 0));
    rig.memory[8 * BLOCK + 5] = 0x00;

    assert_eq!((rig.send(&request)[1], rig.written), (STORE, 1));
}

#[test]
fn a_refused_call_writes_nothing() {
    let mut rig = board_with(0xC3, all_different());
    rig.characters(&sealed(&[0x40, STORE, 0, 0, 1, CODE, 9]));
    let (whole, tick) = (rig.memory.clone(), rig.tick + 220);
    let bad_plate = Plate {
        pause: 54,
        ..rig.plate
    };
    for (plate, length, room, expected) in [
        (bad_plate, whole.len(), REPLY_ROOM, Refusal::R1),
        (rig.plate, whole.len() - 1, REPLY_ROOM, Refusal::R2),
        (rig.plate, whole.len(), REPLY_ROOM - 1, Refusal::R3),
    ] {
        let (memory, mut room) = (&mut rig.memory[..length], vec![0; room]);
        let answer = poll(&plate, &mut rig.state, tick, memory, &mut room);
        assert_eq!(answer, Err(expected));
        assert_eq!(rig.memory, whole);
    }
    assert_eq!((rig.poll(220)[1], rig.written), (STORE, 1));
}

/// The count is one call's: that of the character or poll which closes the frame.
#[test]
fn the_closing_call_tells_the_writes() {
    let request = sealed(&[0x40, STORE, 0, 0, 3, CODE, 9, 9, 9]);
    for by_character in [false, true] {
        let mut rig = board_with(0xC3, all_different());
        for &byte in &request {
            rig.character(1, byte, false);
            assert_eq!(rig.written, 0);
        }
        assert_eq!((rig.poll(219), rig.written), (vec![], 0));
        let reply = match by_character {
            true => rig.character(1, 0x40, false),
            false => rig.poll(1),
        };
        assert_eq!((reply[1], rig.written), (STORE, 3));
        assert_eq!((rig.poll(1), rig.written), (vec![], 0));
    }
}

/// How many requests wrote no cell, one, and more than one.
#[derive(Clone, Copy, Debug, Default)]
struct Wear {
    none: usize,
    one: usize,
    more: usize,
}

impl Wear {
    fn count(&mut self, written: usize) {
        match written {
            0 => self.none += 1,
            1 => self.one += 1,
            _ => self.more += 1,
        }
    }
}

/// The board as a sender sees it that knows its memory.
impl Rig {
    fn total(&self) -> usize {
        self.plate.total_blocks as usize
    }

    fn statuses(&self) -> &[u8] {
        let table = &self.memory[BLOCK * self.total()..];
        let number = table.iter().take_while(|&&status| status >= 0x80).count();
        &table[..number]
    }

    /// The first cell behind the fields before this one.
    fn first_cell(&self, field: usize) -> usize {
        let blocks = |&status: &u8| usize::from(status & 7) + 1;
        BLOCK * self.statuses()[..field].iter().map(blocks).sum::<usize>()
    }

    /// Puts bytes into some cells of the free blocks, 00h among them.
    fn soil(&mut self, dice: &mut Dice) {
        let free = self.first_cell(self.statuses().len());
        let end = BLOCK * self.total();
        for cell in &mut self.memory[free..end] {
            if dice.below(2) == 0 {
                *cell = dice.pick(&[0x00, 0x01, 0x77, 0xFF]);
            }
        }
    }

    /// A 4Bh of what is there, with no byte changed, some or all.
    fn some_store(&self, dice: &mut Dice) -> Vec<u8> {
        let field = dice.below(self.statuses().len() as u32) as usize;
        let (first, end) = (self.first_cell(field), self.first_cell(field + 1));
        let offset = dice.below((end - first) as u32) as usize;
        let longest = end - first - offset;
        let count = 1 + dice.below(longest as u32) as usize;
        let mut bytes = self.memory[first + offset..][..count].to_vec();
        for _ in 0..dice.pick(&[0, 0, 1, 1, 2, count]) {
            let place = dice.below(count as u32) as usize;
            bytes[place] = dice.pick(&[0x00, 0x01, 0xFE, 0xFF]);
        }
        let place = [field as u8, offset as u8, count as u8, CODE];
        [&[0x40, STORE], &place[..], &bytes].concat()
    }

    /// A 4Dh: create, or of the last field or any another status, the same again or none.
    fn some_change(&self, dice: &mut Dice) -> Vec<u8> {
        let number = self.statuses().len();
        let any = dice.below(number as u32 + 1) as usize;
        let field = dice.pick(&[number, number.saturating_sub(1), any]);
        let other = 0xC0 | dice.number() as u8;
        let stored = self.statuses().get(field).copied().unwrap_or(other);
        let attributes = 0x80 | stored ^ dice.pick(&[0x08, 0x10, 0x20, 0x40]);
        let status = dice.pick(&[stored, attributes, other, stored & 0x7F]);
        vec![0x40, CHANGE, field as u8, status, CODE]
    }

    fn some_request(&self, dice: &mut Dice) -> Vec<u8> {
        match dice.below(8) {
            0 => vec![0x40, dice.pick(&[0x42, 0x46, 0x4E, 0x50, 0x44])],
            1..=4 if !self.statuses().is_empty() => self.some_store(dice),
            _ => self.some_change(dice),
        }
    }

    /// Closes the open frame by a poll, or by a character whose own frame is then dropped.
    fn close(&mut self, dice: &mut Dice) -> Vec<u8> {
        if dice.below(2) == 0 {
            return self.poll(220);
        }
        let reply = self.character(220, 0x00, false);
        self.power_on();
        reply
    }
}

/// "Write only cells that change": over random requests, with free blocks that are not blank, as
/// many cells are written as hold another byte afterwards.
#[test]
fn as_many_writes_as_bytes_that_differ() {
    let (mut stores, mut changes, mut others) = Default::default();
    for seed in 0..200 {
        let mut dice = Dice(seed);
        let mut rig = Rig::new(sheet_plate(1 + dice.below(32)));
        for _ in 0..250 {
            if dice.below(4) == 0 {
                rig.soil(&mut dice);
            }
            let request = rig.some_request(&mut dice);
            let before = rig.memory.clone();
            rig.characters(&sealed(&request));
            assert_eq!((rig.written, &rig.memory), (0, &before));
            let reply = rig.close(&mut dice);
            let changed = differing(&before, &rig.memory);
            assert_eq!(rig.written, changed, "{request:02X?} {reply:02X?}");
            let wear: &mut Wear = match reply[1] {
                STORE => &mut stores,
                CHANGE => &mut changes,
                _ => &mut others,
            };
            wear.count(rig.written);
        }
    }
    for wear in [stores, changes] {
        assert!(wear.none.min(wear.one).min(wear.more) > 2000, "{wear:?}");
    }
    // Errors and other commands.
    assert!(others.none > 2000, "{others:?}");
    assert_eq!((others.one, others.more), (0, 0));
}
