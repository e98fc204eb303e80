//! Address, label and version (02, Req 01) beside the second program: every address byte on the wire and in an image, labels of any bytes, long runs of moves.

mod rig;

use quicksetter_host::dice::Dice;
use quicksetter_host::{
    call, call_second, label_of, restart, state_of, Call, Told, ADDRESS, CODES, LASTING, MEASURED,
    OPEN,
};
use rig::board::Kind::{AtFormerAddress, AtNewAddress, Moved, MovedByBroadcast, NotMoved};
use rig::board::{came_up, good_plate, none_refused, Board, Seen};
use rig::{sealed, some_address, EDGE_ADDRESSES, EVERY_BOARD};
use second::Refusal;

const SET_ADDRESS: u8 = 0x55;
const ERROR: u8 = 0x50;

/// The reply that document 02 wants to a 55h to a board at this address byte, with nothing waiting.
fn expected_reply(own: u8, asked: u8, wanted: u8, good_code: bool) -> Vec<u8> {
    if asked != own && asked != EVERY_BOARD {
        return vec![];
    }
    sealed(match wanted {
        _ if !good_code => vec![own, ERROR, 0x0F],
        0x40..=0x5F => vec![wanted, SET_ADDRESS],
        _ => vec![own, ERROR, 0x0D],
    })
}

/// Every new address byte, asked at the board's address, by broadcast and at another board's, with Code0 and without; then the counter is asked for at the
/// old address, at the new one and by broadcast.
#[test]
fn new_addresses() {
    let mut dice = Dice::new(6000);
    for wanted in 0..=255 {
        for round in 0..6 {
            let plate = good_plate(&mut dice);
            let mut board = Board::new(&mut dice, plate);
            let own = board.address_byte();
            let another = 0x40 + (own - 0x40 + 1) % 32;
            let asked = [own, EVERY_BOARD, another][round % 3];
            // Code0 of a fresh board is 55h, which is odd.
            let code = if round < 3 { 0x55 } else { dice.byte() & 0xFE };
            let reply = board.ask(&[asked, SET_ADDRESS, wanted, code]);
            assert_eq!(reply, expected_reply(own, asked, wanted, code == 0x55));
            let taken = reply.get(1) == Some(&SET_ADDRESS);
            let now = if taken { wanted } else { own };
            assert_eq!(board.address_byte(), now);
            for byte in [own, wanted, another, EVERY_BOARD] {
                let there = byte == now || byte == EVERY_BOARD;
                let counter = sealed(vec![now, 0x46, 0, 0, 0]);
                let expected = if there { counter } else { vec![] };
                assert_eq!(board.ask(&[byte, 0x46]), expected);
            }
        }
    }
}

/// The five calls that take an image.
fn each_call(board: &Board) -> [Call; 5] {
    let tick = board.tick.wrapping_add(board.closing_gap());
    [
        Call::Character {
            tick,
            value: 0x40,
            parity: 0,
        },
        Call::Poll { tick },
        Call::Measured(7),
        Call::Fault(0x31),
        Call::PowerOn,
    ]
}

/// Every address byte in an image, with a frame open and with none: over 31 it is R1 for every call on both sides, and nothing is touched.
#[test]
fn address_bytes_of_images() {
    let mut dice = Dice::new(6100);
    for byte in 0..=255 {
        for open in [0, 1] {
            let plate = good_plate(&mut dice);
            let mut board = Board::new(&mut dice, plate);
            board.exchange(&mut dice);
            board.image[OPEN] = open;
            board.image[ADDRESS] = byte;
            for made in each_call(&board) {
                let kept = (
                    board.image.clone(),
                    board.memory.clone(),
                    board.room.clone(),
                );
                let found = board.step(made);
                assert_eq!(found == Err(Refusal::R1), byte > 31, "{byte} {made:?}");
                if byte > 31 {
                    assert!(board.image == kept.0 && board.memory == kept.1);
                    assert!(board.room == kept.2);
                }
                (board.image, board.memory, board.room) = kept;
            }
        }
    }
}

/// 52h tells the first four bytes of the label that was given and 56h the others, whatever they are.
#[test]
fn labels() {
    let mut dice = Dice::new(6200);
    for _ in 0..2000 {
        let plate = good_plate(&mut dice);
        let mut board = Board::new(&mut dice, plate);
        let (own, label) = (board.address_byte(), label_of(&plate));
        let asked = dice.one_of(&[own, EVERY_BOARD]);
        let type_label = [&[own, 0x52], &label[..4]].concat();
        let version = [&[own, 0x56], &label[4..]].concat();
        assert_eq!(board.ask(&[asked, 0x52]), sealed(type_label));
        assert_eq!(board.ask(&[asked, 0x56]), sealed(version));
    }
}

/// One request of a run: mostly a 55h, to the address that the traffic tells, to the former one, to every board or to any.
fn some_request(dice: &mut Dice, board: &Board, own: u8, former: u8) -> Vec<u8> {
    let asked = match dice.below(10) {
        0 => dice.byte(),
        1 => EVERY_BOARD,
        2 => former,
        _ => own,
    };
    let wanted = match dice.below(6) {
        0 => dice.byte(),
        1 => dice.one_of(&EDGE_ADDRESSES),
        _ => some_address(dice),
    };
    let code = board.image[CODES] ^ u8::from(dice.once_in(6));
    match dice.below(8) {
        0 => vec![asked, 0x52],
        1 => vec![asked, 0x56],
        2 => vec![asked, 0x4F, 0, board.image[CODES], dice.byte()],
        3 => vec![asked, dice.one_of(&[0x46, 0x47, 0x50, 0x53])],
        4 => vec![asked, SET_ADDRESS, wanted],
        _ => vec![asked, SET_ADDRESS, wanted, code],
    }
}

/// The board was off: it has its plate, its label and the bytes that lasted, and the second program's supply came on.
fn restart_both(dice: &mut Dice, board: &mut Board) {
    let (plate, mut state) = state_of(&board.image).expect("an image");
    let lasting = board.image[LASTING..MEASURED].to_vec();
    let position = dice.word();
    board.image.fill(dice.byte());
    let restarted = restart(&plate, &label_of(&plate), &lasting, &mut board.image);
    assert_eq!(restarted, Ok(0));
    for made in [Call::PowerOn, Call::Measured(position)] {
        let found = call_second(made, &plate, &mut state, &mut board.memory, &mut board.room);
        assert_eq!(found, Ok(Told::NOTHING));
    }
    let made = Call::Measured(position);
    let found = call(made, &mut board.image, &mut board.memory, &mut board.room);
    assert_eq!(found, Ok(Told::NOTHING));
    let (held, rested) = state_of(&board.image).expect("an image");
    assert_eq!((held, rested.meaning()), (plate, state.meaning()));
}

/// "The board's address is the last one an accepted 55h gave, else the plate's": told from requests and replies alone, over restarts too.
#[test]
fn moved_about() {
    let (mut seen, mut restarts) = (Seen::new(), 0);
    for seed in 6300..6400 {
        let mut dice = Dice::new(seed);
        let plate = good_plate(&mut dice);
        let mut board = Board::new(&mut dice, plate);
        let (mut own, mut former) = (0x40 + plate.address as u8, 0x40 + plate.address as u8);
        for _ in 0..300 {
            if dice.once_in(20) {
                let _ = board.step(Call::Fault(dice.byte()));
            }
            if dice.once_in(20) {
                restart_both(&mut dice, &mut board);
                restarts += usize::from(own != 0x40 + plate.address as u8);
            }
            let request = some_request(&mut dice, &board, own, former);
            let reply = board.ask(&request);
            let heard = request[0] == own || request[0] == EVERY_BOARD;
            assert_eq!(!reply.is_empty(), heard && request[1] != 0x53);
            if request[1] == SET_ADDRESS && reply.get(1).is_some_and(|byte| byte & 0x7F != ERROR) {
                (own, former) = (request[2], own);
            }
            assert_eq!(board.address_byte(), own, "{request:X?} {reply:X?}");
            assert!(reply.is_empty() || reply[0] == own);
        }
        board.add_to(&mut seen);
    }
    assert!(none_refused(&seen) && restarts > 500, "{restarts}");
    came_up(&seen, 1000, &[Moved, AtNewAddress, MovedByBroadcast]);
    came_up(
        &seen,
        1000,
        &[NotMoved(0x0C), NotMoved(0x0D), NotMoved(0x0F)],
    );
    came_up(&seen, 500, &[AtFormerAddress]);
}
