//! A board that was off and has its plate and what lasted, beside the second program, whose supply only came on again.

mod rig;

use quicksetter_host::dice::Dice;
use quicksetter_host::{
    call, call_second, head_of, label_of, restart, rested, state_of, Call, Told, ADDRESS,
    IMAGE_LENGTH, LASTING, LASTING_LENGTH, MEASURED, OPEN,
};
use rig::board::Kind::{AtFormerAddress, AtNewAddress, Error, Moved, MovedByBroadcast, Reply};
use rig::board::{
    bad_plate, came_up, good_plate, none_refused, some_label_bytes, some_length, Board, Seen,
};
use second::{Label, Plate, Refusal, State};

/// A board of the library that is off now and then, and the second program's, which has its supply all the time and its own state and memory.
struct Pair {
    board: Board,
    state: State,
    memory: Vec<u8>,
    flash: (Vec<u8>, Vec<u8>),
    restarts: usize,
    restarts_with_frame: usize,
    /// With another address than the plate's.
    restarts_moved: usize,
}

/// What the host must write before it sends the reply (host/quicksetter.h, QS_MAY_CHANGE).
fn may_change(command: u8) -> bool {
    matches!(
        command & 0x7F,
        0x43 | 0x47 | 0x49 | 0x4B | 0x4D | 0x4F | 0x55
    )
}

impl Pair {
    fn new(dice: &mut Dice) -> Pair {
        let plate = good_plate(dice);
        let board = Board::new(dice, plate);
        let memory = board.memory.clone();
        let mut pair = Pair {
            board,
            state: State::fresh(&plate),
            memory,
            flash: (vec![], vec![]),
            restarts: 0,
            restarts_with_frame: 0,
            restarts_moved: 0,
        };
        pair.write_flash();
        pair
    }

    fn write_flash(&mut self) {
        let lasting = self.board.image[LASTING..MEASURED].to_vec();
        self.flash = (lasting, self.board.memory.clone());
    }

    fn compare(&self, after: &str) {
        let (plate, state) = state_of(&self.board.image).expect("an image");
        assert_eq!(plate, self.board.plate, "plate after {after}");
        assert_eq!(
            state.meaning(),
            self.state.meaning(),
            "state after {after} on {plate:?}"
        );
        assert_eq!(
            self.board.memory, self.memory,
            "memory after {after} on {plate:?}"
        );
    }

    /// One call on both; what comes back is compared, and what both hold.
    fn step(&mut self, made: Call) {
        let (before, mut room) = (self.board.image.clone(), self.board.room.clone());
        let plate = self.board.plate;
        let expected = call_second(made, &plate, &mut self.state, &mut self.memory, &mut room);
        let found = call(
            made,
            &mut self.board.image,
            &mut self.board.memory,
            &mut self.board.room,
        );
        assert_eq!(found, expected, "{made:?} on {plate:?}");
        assert_eq!(self.board.room, room, "room after {made:?} on {plate:?}");
        self.compare(&format!("{made:?}"));
        self.board.count(made, &before, found);
        if found.is_ok_and(|told| told.reply > 0) && may_change(self.board.room[1]) {
            self.write_flash();
        }
    }

    /// The library's board was off: memory and image are what flash gives. The second program's supply came on.
    fn lose_supply(&mut self, dice: &mut Dice) {
        let plate = self.board.plate;
        let position = dice.word();
        self.restarts += 1;
        self.restarts_with_frame += usize::from(self.board.image[OPEN]);
        self.restarts_moved += usize::from(self.state.address != plate.address);
        self.board.image = dice.bytes(IMAGE_LENGTH);
        let (label, lasting) = (label_of(&plate), &self.flash.0);
        assert_eq!(
            restart(&plate, &label, lasting, &mut self.board.image),
            Ok(0)
        );
        self.board.memory.clone_from(&self.flash.1);
        second::power_on(&plate, &mut self.state).expect("not refused");
        second::measured(&plate, &mut self.state, position).expect("not refused");
        let made = Call::Measured(position);
        let (image, memory, room) = (
            &mut self.board.image,
            &mut self.board.memory,
            &mut self.board.room,
        );
        assert_eq!(call(made, image, memory, room), Ok(Told::NOTHING));
        self.compare("a restart");
        assert!(self.board.image[OPEN..].iter().all(|&byte| byte == 0));
    }
}

/// Long runs in which the library's board is restarted from flash at random moments: it goes on as the second program does.
#[test]
fn restarts() {
    let mut seen = Seen::new();
    let (mut restarts, mut with_frame, mut moved) = (0, 0, 0);
    for seed in 4000..4300 {
        let mut dice = Dice::new(seed);
        let mut pair = Pair::new(&mut dice);
        while pair.board.calls < 3000 {
            for made in pair.board.calls_of_exchange(&mut dice) {
                if dice.once_in(80) {
                    pair.lose_supply(&mut dice);
                }
                pair.step(made);
            }
        }
        pair.board.add_to(&mut seen);
        restarts += pair.restarts;
        with_frame += pair.restarts_with_frame;
        moved += pair.restarts_moved;
    }
    assert!(
        restarts > 5000 && with_frame > 1000 && moved > 1000,
        "{restarts} {with_frame} {moved}"
    );
    assert!(none_refused(&seen));
    for command in [
        0x42, 0x43, 0x46, 0x47, 0x49, 0x4A, 0x4B, 0x4C, 0x4D, 0x4E, 0x4F, 0x52, 0x55, 0x56,
    ] {
        came_up(&seen, 100, &[Reply(command)]);
    }
    came_up(&seen, 100, &[Error(0x00), Error(0x02)]);
    came_up(&seen, 1000, &[Moved, AtNewAddress, MovedByBroadcast]);
    came_up(&seen, 100, &[AtFormerAddress]);
}

/// Lasting bytes near the limits of address and offset, or any; the counter is within its own whatever its bytes are.
fn some_lasting(dice: &mut Dice, plate: &Plate) -> Vec<u8> {
    let mut lasting = dice.bytes(ADDRESS - LASTING);
    let address = match dice.below(6) {
        0 => dice.byte(),
        1 => dice.one_of(&[0, 31, 32, 0x40, 0x5F, 255]),
        _ => dice.byte() % 32,
    };
    let end = 1u64 << plate.position_bits.min(32);
    let offset = match dice.below(4) {
        0 => dice.word(),
        1 => dice.one_of(&[0, end - 1, end, end + 1]) as u32,
        _ => (u64::from(dice.word()) % end) as u32,
    };
    lasting.push(address);
    lasting.extend(offset.to_le_bytes());
    lasting
}

/// Restarts from any bytes with any plate and label: taken exactly where the second program's limits are kept, and then every byte is written.
#[test]
fn restarted_images() {
    let mut dice = Dice::new(5000);
    let mut number_taken = 0;
    for _ in 0..100_000 {
        let mut plate = good_plate(&mut dice);
        if dice.once_in(4) {
            plate = bad_plate(&mut dice, &plate);
        }
        let mut lasting = some_lasting(&mut dice, &plate);
        let state = rested(&plate, &lasting);
        lasting.resize(some_length(&mut dice, LASTING_LENGTH), 0);
        let label = some_label_bytes(&mut dice, &plate);
        let length = some_length(&mut dice, IMAGE_LENGTH);
        let before = dice.bytes(length);
        let mut image = before.clone();
        let taken = length == IMAGE_LENGTH
            && lasting.len() == LASTING_LENGTH
            && Label::new(&label).is_ok()
            && second::within_limits(&plate, &state);
        assert_eq!(
            restart(&plate, &label, &lasting, &mut image),
            if taken { Ok(0) } else { Err(Refusal::R1) },
            "{plate:?} {label:X?} {lasting:X?}"
        );
        if taken {
            let head = head_of(&plate);
            assert_eq!(
                image,
                [&head[..], &lasting, &[0; IMAGE_LENGTH - MEASURED]].concat()
            );
            assert_eq!(state_of(&image), Some((plate, state)));
        } else {
            assert_eq!(image, before);
        }
        number_taken += usize::from(taken);
    }
    assert!((20_000..80_000).contains(&number_taken), "{number_taken}");
}
