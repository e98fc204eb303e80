//! The board's entries beside the second program's, call by call: result, how long to sleep, state image, memory and reply room.

mod rig;

use quicksetter_host::dice::Dice;
use quicksetter_host::{
    fresh, head_of, ADDRESS, CODES, COUNTER, IMAGE_LENGTH, KEPT, KEPT_NUMBER, LABEL, LASTING,
    LOCKED, OFFSET, PLATE, WAITING,
};
use rig::board::Kind::{
    AtFormerAddress, AtNewAddress, Deleted, Error, FullPause, LastTick, Moved, MovedByBroadcast,
    NoFrameOpen, NotDeleted, NotMoved, PartOfPause, Refused, Reply, Silence,
};
use rig::board::{
    any_call, bad_plate, came_up, good_plate, none_refused, some_label_bytes, some_length, Board,
    Seen,
};
use rig::{sealed, COMMANDS};
use second::{Label, Plate, Refusal, LABEL_LENGTH, REPLY_ROOM};

/// Long runs of traffic from a fresh board: nothing is refused, and every command and error code comes up.
#[test]
fn traffic() {
    let mut seen = Seen::new();
    let mut calls = 0;
    for seed in 0..400 {
        let mut dice = Dice::new(seed);
        let plate = good_plate(&mut dice);
        let mut board = Board::new(&mut dice, plate);
        while board.calls < 3000 {
            if dice.once_in(200) {
                board.image[COUNTER..ADDRESS].fill(0xFF);
            }
            board.exchange(&mut dice);
        }
        calls += board.calls;
        board.add_to(&mut seen);
    }
    assert!(calls >= 1_200_000);
    assert!(none_refused(&seen));
    // 50h's own reply is counted with the error codes; 53h is silent; 03h needs a damaged table.
    let silent_or_error = |command: &u8| matches!(command, 0x50 | 0x53);
    for &command in COMMANDS.iter().filter(|command| !silent_or_error(command)) {
        came_up(&seen, 100, &[Reply(command)]);
    }
    for code in [
        0x00, 0x02, 0x08, 0x09, 0x0A, 0x0B, 0x0C, 0x0D, 0x0E, 0x0F, 0x10, 0x11, 0x12,
    ] {
        came_up(&seen, 100, &[Error(code)]);
    }
    came_up(&seen, 1000, &[Moved, AtNewAddress, MovedByBroadcast]);
    came_up(&seen, 100, &[AtFormerAddress]);
    came_up(&seen, 50, &[NotMoved(0x0C), NotMoved(0x0D), NotMoved(0x0F)]);
    came_up(&seen, 500, &[Deleted, NotDeleted(0x0D)]);
    let others = [NotDeleted(0x0F), NotDeleted(0x10), NotDeleted(0x12)];
    came_up(&seen, 100, &others);
    let sleeps = [FullPause, PartOfPause, LastTick, NoFrameOpen];
    came_up(&seen, 1000, &sleeps);
}

/// Each stored status, deleted by the right one, with each single bit wrong and by 00h: a field behind which another lies, then the last one.
#[test]
fn deletions() {
    let mut seen = Seen::new();
    let mut dice = Dice::new(4000);
    let plate = Plate {
        total_blocks: 16,
        ..good_plate(&mut dice)
    };
    for stored in 0x80..=0xFF {
        let mut board = Board::new(&mut dice, plate);
        let own = board.address_byte();
        for field in [0, 1] {
            let created = [own, 0x4D, field, stored, 0x55];
            assert_eq!(board.ask(&created), sealed(created[..4].to_vec()));
        }
        for field in [0, 1] {
            for wrong in (0..7).map(|bit| 1 << bit).chain([stored]) {
                let named = (stored ^ wrong) & 0x7F;
                board.ask(&[own, 0x4D, field, named, 0x54]);
                board.ask(&[own, 0x4D, field, named, 0x55]);
            }
            board.ask(&[own, 0x4D, field, stored & 0x7F, 0x55]);
        }
        board.add_to(&mut seen);
    }
    // 00h is the right one of 80h alone, which is therefore refused 10h once more and deleted before its time.
    assert_eq!(seen[&Deleted], 128);
    assert_eq!(seen[&NotDeleted(0x0F)], 2 * 8 * 128);
    assert_eq!(seen[&NotDeleted(0x0D)], 2 * 8 * 128 - 2);
    assert_eq!(seen[&NotDeleted(0x10)], 128 + 1);
    assert_eq!(seen[&NotDeleted(0x12)], 1);
}

/// Traffic over memories whose bytes and status tables are whatever they are.
#[test]
fn dirty_memories() {
    let mut seen = Seen::new();
    for seed in 1000..1400 {
        let mut dice = Dice::new(seed);
        let plate = good_plate(&mut dice);
        let mut board = Board::new(&mut dice, plate);
        board.memory = dice.bytes(plate.memory_length());
        let table = 16 * plate.total_blocks as usize;
        for _ in 0..30 {
            board.memory[table..].fill(0);
            let fields = dice.below(plate.total_blocks as usize + 1);
            for status in &mut board.memory[table..table + fields] {
                *status = 0x80 | dice.byte() & dice.one_of(&[0x78, 0x79, 0x7F]);
            }
            if dice.once_in(3) {
                let place = table + dice.below(plate.total_blocks as usize);
                board.memory[place] = dice.byte();
            }
            for _ in 0..6 {
                board.exchange(&mut dice);
            }
        }
        board.add_to(&mut seen);
    }
    came_up(&seen, 100, &[Error(0x03)]);
    for command in [0x4A, 0x4B, 0x4C, 0x4D, 0x4E, 0x52, 0x55, 0x56] {
        came_up(&seen, 100, &[Reply(command)]);
    }
}

/// Images with random bytes in them, other plates and layouts, and calls of every kind with wrong lengths.
#[test]
fn damaged_images_and_lengths() {
    let mut seen = Seen::new();
    for seed in 2000..2100 {
        let mut dice = Dice::new(seed);
        let plate = good_plate(&mut dice);
        let mut board = Board::new(&mut dice, plate);
        while board.calls < 3000 {
            if dice.once_in(2) {
                board.exchange(&mut dice);
            }
            let whole = (
                board.image.clone(),
                board.memory.clone(),
                board.room.clone(),
            );
            damage(&mut dice, &mut board);
            for _ in 0..4 {
                let made = any_call(&mut dice, &board);
                let _ = board.step(made);
            }
            (board.image, board.memory, board.room) = whole;
        }
        board.add_to(&mut seen);
    }
    came_up(&seen, 1000, &[Refused(1), Refused(2), Refused(3), Silence]);
}

/// Damages head, state, memory or room, each now and then.
fn damage(dice: &mut Dice, board: &mut Board) {
    if dice.once_in(2) {
        damage_image(dice, &mut board.image);
    }
    if dice.once_in(4) {
        damage_head(dice, &mut board.image);
    }
    if dice.once_in(6) {
        let length = dice.one_of(&[
            0,
            1,
            KEPT,
            IMAGE_LENGTH - LABEL_LENGTH,
            IMAGE_LENGTH - 1,
            IMAGE_LENGTH + 1,
            2 * IMAGE_LENGTH,
        ]);
        board.image.resize(length, 0);
    }
    if dice.once_in(4) {
        let right = board.memory.len();
        let length = dice.one_of(&[0, right - 1, right + 1, right - 17, right + 17, 16, 1904]);
        board.memory.resize(length, 0xDD);
    }
    if dice.once_in(4) {
        let length = dice.one_of(&[0, 1, 3, REPLY_ROOM - 1, REPLY_ROOM + 1, 300]);
        board.room.resize(length, 0xEE);
    }
}

/// One byte of the head set to what is mostly beyond its limit, layout number or plate.
fn damage_head(dice: &mut Dice, image: &mut [u8]) {
    let byte = match dice.below(4) {
        0 => dice.byte(),
        1 => dice.one_of(&[0, 1, 2, 32, 33, 64, 112, 113, 22, 55, 128, 255]),
        _ => dice.byte() % 130,
    };
    let place = dice.one_of(&[0, PLATE, PLATE + 1, PLATE + 2, PLATE + 3, PLATE + 4]);
    image[place] = byte;
}

/// One part of the image set to what may be beyond its limit; its frame open or not.
fn damage_image(dice: &mut Dice, image: &mut [u8]) {
    match dice.below(8) {
        0 => {
            let place = dice.below(KEPT);
            image[place] = dice.byte();
        }
        1 => {
            let codes = [0x00, 0x00, 0x22, 0x24, 0x31, 0x32, 0x33, 0x34];
            for place in &mut image[WAITING..LOCKED] {
                *place = dice.one_of(&codes);
            }
        }
        2 => image[LOCKED + dice.below(4)] = dice.one_of(&[0, 1, 2, 255]),
        3 => image[KEPT_NUMBER] = dice.one_of(&[0, 1, 2, 3, 134, 135, 136, 255]),
        4 => image[ADDRESS] = dice.one_of(&[0, 1, 31, 32, 33, 0x40, 0x5F, 255]),
        5 => {
            let place = OFFSET + dice.below(4);
            image[place] = 1 << dice.below(8);
        }
        6 => {
            let bytes = dice.bytes(LABEL_LENGTH);
            image[LABEL..LASTING].copy_from_slice(&bytes);
        }
        _ => {
            let bytes = dice.bytes(image.len() - LASTING);
            image[LASTING..].copy_from_slice(&bytes);
            for flag in &mut image[LOCKED..LOCKED + 4] {
                *flag %= 2;
            }
            image[ADDRESS] %= 32;
            image[OFFSET + 3] = 0;
        }
    }
}

/// Fresh images: every plate number over its whole range near the limits, and lengths of label and image.
#[test]
fn fresh_images() {
    let mut dice = Dice::new(3000);
    let mut number_taken = 0;
    for _ in 0..50_000 {
        let mut plate = good_plate(&mut dice);
        if dice.once_in(2) {
            plate = bad_plate(&mut dice, &plate);
        }
        let label = some_label_bytes(&mut dice, &plate);
        let length = some_length(&mut dice, IMAGE_LENGTH);
        let before = dice.bytes(length);
        let mut image = before.clone();
        let taken = plate.within_limits() && Label::new(&label).is_ok() && length == IMAGE_LENGTH;
        assert_eq!(
            fresh(&plate, &label, &mut image),
            if taken { Ok(0) } else { Err(Refusal::R1) },
            "{plate:?} {label:X?}"
        );
        if taken {
            assert_eq!(image[..LASTING], head_of(&plate));
            assert_eq!(image[CODES..COUNTER], [0x55; 4]);
            assert_eq!(u32::from(image[ADDRESS]), plate.address);
            image[ADDRESS] = 0;
            assert!(image[COUNTER..].iter().all(|&byte| byte == 0));
        } else {
            assert_eq!(image, before);
        }
        number_taken += usize::from(taken);
    }
    assert!((10_000..40_000).contains(&number_taken), "{number_taken}");
}
