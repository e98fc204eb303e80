//! Frames and time: gaps, long frames, parity, power-on and the refusals of the board.

mod rig;

use rig::{hex, sealed, sheet_plate, Rig};
use second::*;

#[test]
fn the_clock_wraps_around() {
    let mut rig = Rig::sheet(112);
    rig.tick = 0xFFFF_FFF0;
    rig.characters(&[0x40, 0x4E]);
    assert_eq!(rig.character(200, 0x0E, false), []);
    assert_eq!(rig.poll(220), hex("40 4E 70 00 7E"));
}

#[test]
fn a_clock_stepped_back_reads_as_a_very_long_gap() {
    let mut rig = Rig::sheet(112);
    rig.characters(&[0x40, 0x4E, 0x0E]);
    assert_eq!(rig.poll(u32::MAX), hex("40 4E 70 00 7E"));
}

#[test]
fn a_closing_character_keeps_its_own_parity_fault() {
    let mut rig = Rig::sheet(112);
    rig.characters(&[0x40, 0x4E, 0x0E]);
    assert_eq!(rig.character(220, 0x40, true), hex("40 4E 70 00 7E"));
    rig.characters(&[0x4E, 0x0E]);
    assert_eq!(rig.poll(220), hex("40 50 09 19"));
    rig.line("40 4E 0E", "40 4E 70 00 7E");
}

#[test]
fn parity_comes_before_checksum_and_after_the_address() {
    let mut rig = Rig::sheet(112);
    rig.character(1, 0x40, true);
    rig.characters(&[0x4E, 0x0F]);
    assert_eq!(rig.poll(220), hex("40 50 09 19"));
    for other in [0x41, 0x60, 0x00, 0x7F, 0xC0] {
        rig.character(1, other, true);
        rig.characters(&[0x4E, 0x4E ^ other]);
        assert_eq!(rig.poll(220), []);
    }
    rig.character(1, 0x40, true);
    rig.characters(&[0x40]);
    assert_eq!(rig.poll(220), []);
}

#[test]
fn long_frames() {
    for (length, code) in [
        (134, 0x0B),
        (135, 0x0B),
        (136, 0x0C),
        (259, 0x0C),
        (65_539, 0x0C),
    ] {
        let mut rig = Rig::sheet(112);
        let mut bytes = vec![0x33; length - 1];
        bytes[0] = 0x40;
        assert_eq!(rig.error(&bytes), code, "{length}");
        // The checksum is over all the bytes, and comes before the length.
        let mut wrong = sealed(&bytes);
        wrong[length - 2] ^= 1;
        assert_eq!(rig.send(&wrong), hex("40 50 0A 1A"));
    }
}

#[test]
fn a_character_past_the_135th_still_stamps_and_still_counts() {
    let mut rig = Rig::sheet(112);
    rig.characters(&[0x40; 136]);
    rig.character(219, 0x00, true);
    assert_eq!(rig.poll(219), []);
    assert_eq!(rig.poll(1), hex("40 50 09 19"));
}

#[test]
fn length_comes_before_the_commands_own_checks() {
    let mut rig = Rig::sheet(112);
    rig.note(0x22).unwrap();
    assert_eq!(rig.error(&[0x40, 0x42, 0x00]), 0x0C);
    assert_eq!(rig.error(&[0x40, 0x42]), 0x02);
    assert_eq!(rig.error(&[0x40, 0xC2]), 0x0B);
    assert_eq!(rig.error(&[0x40, 0x48]), 0x0B);
    for command in [0x43, 0x49, 0x4A, 0x4B, 0x4C, 0x4D, 0x4F, 0x55] {
        assert_eq!(rig.error(&[0x40, command]), 0x0C);
    }
    for command in [0x46, 0x47, 0x4E, 0x50, 0x52, 0x53, 0x56] {
        assert_eq!(rig.error(&[0x40, command, 0x55]), 0x0C);
    }
}

#[test]
fn a_frame_is_judged_by_the_state_when_it_closes() {
    let mut rig = Rig::sheet(112);
    rig.characters(&hex("40 42 02"));
    rig.measure(0x0100_0007);
    assert_eq!(rig.poll(220), hex("40 42 00 00 00 07 05"));
    rig.characters(&hex("40 42 02"));
    rig.note(0x24).unwrap();
    assert_eq!(rig.poll(220), hex("40 50 02 12"));
}

#[test]
fn power_on_drops_the_frame_and_unlocks() {
    let mut rig = Rig::sheet(112);
    rig.line("40 47 07", "40 47 07");
    rig.note(0x22).unwrap();
    rig.note(0x1D).unwrap();
    rig.characters(&[0x40, 0x4E]);
    rig.power_on();
    assert_eq!((rig.state.open, rig.state.locked), (false, false));
    // The next character opens a frame whatever the gap.
    rig.line("40 46 06", "40 46 00 00 01 07");
}

#[test]
fn states_that_never_arise_are_worked_literally() {
    let mut rig = Rig::sheet(112);
    rig.state.open = true;
    assert_eq!(rig.poll(220), []);
    assert!(!rig.state.open);

    rig.characters(&hex("40 4E 0E"));
    rig.state.longer = true;
    assert_eq!(rig.poll(220), hex("40 50 0C 1C"));

    rig.characters(&hex("40 4E 0E"));
    rig.state.xor = 1;
    assert_eq!(rig.poll(220), hex("40 50 0A 1A"));
}

#[test]
fn refusals_in_their_order() {
    let plate = sheet_plate(2);
    let fresh = State::fresh(&plate);
    let bad_plate = Plate { pause: 54, ..plate };
    let mut bad_state = fresh.clone();
    bad_state.offset = 1 << 24;
    for (plate, state, memory, room, expected) in [
        (bad_plate, &fresh, 33, 133, Refusal::R1),
        (plate, &bad_state, 33, 133, Refusal::R1),
        (plate, &fresh, 33, 133, Refusal::R2),
        (plate, &fresh, 35, 134, Refusal::R2),
        (plate, &fresh, 34, 133, Refusal::R3),
    ] {
        let mut worked = state.clone();
        let (mut memory, mut room) = (vec![1; memory], vec![2; room]);
        let answer = character(&plate, &mut worked, 0, 0x40, false, &mut memory, &mut room);
        assert_eq!(answer, Err(expected));
        let answer = poll(&plate, &mut worked, 0, &mut memory, &mut room);
        assert_eq!(answer, Err(expected));
        assert_eq!(&worked, state);
        assert!(memory.iter().all(|&byte| byte == 1) && room.iter().all(|&byte| byte == 2));
    }
    let mut worked = bad_state.clone();
    assert_eq!(measured(&plate, &mut worked, 1), Err(Refusal::R1));
    assert_eq!(fault(&plate, &mut worked, 1), Err(Refusal::R1));
    assert_eq!(power_on(&plate, &mut worked), Err(Refusal::R1));
    assert_eq!(worked, bad_state);
}

#[test]
fn limits_of_plate_and_state() {
    let plate = sheet_plate(112);
    let plates = [
        Plate {
            total_blocks: 0,
            ..plate
        },
        Plate {
            total_blocks: 113,
            ..plate
        },
        Plate {
            position_bits: 0,
            ..plate
        },
        Plate {
            position_bits: 33,
            ..plate
        },
        Plate {
            address: 32,
            ..plate
        },
        Plate {
            ticks_per_bit: 0,
            ..plate
        },
        Plate {
            ticks_per_bit: 3,
            ..plate
        },
        Plate {
            ticks_per_bit: 128,
            ..plate
        },
        Plate { pause: 23, ..plate },
    ];
    for bad in plates {
        assert!(!within_limits(&bad, &State::fresh(&plate)), "{bad:?}");
    }
    let full = Plate {
        total_blocks: 1,
        position_bits: 32,
        address: 31,
        ..plate
    };
    let mut state = State::fresh(&plate);
    state.address = 31;
    state.counter = 0xFF_FFFF;
    state.offset = u32::MAX;
    state.waiting = [1, 2, 3, 4];
    state.waiting_number = 4;
    state.kept_number = 135;
    assert!(within_limits(&full, &state));
    assert!(!within_limits(&plate, &state));
    let bad: [fn(&mut State); 8] = [
        |state| state.address = 32,
        |state| state.address = u32::MAX,
        |state| state.counter += 1,
        |state| state.waiting_number = 5,
        |state| state.waiting[3] = 1,
        |state| state.waiting[0] = 0x22,
        |state| state.waiting[3] = 0x00,
        |state| state.kept_number = 136,
    ];
    for spoil in bad {
        let mut state = state.clone();
        spoil(&mut state);
        assert!(!within_limits(&full, &state));
    }
    // A state of another address than the plate's is not refused.
    state.address = 0;
    assert!(within_limits(&full, &state));
    // Queue places beyond their number do not count.
    state.waiting_number = 1;
    state.waiting = [1, 1, 0, 0x22];
    assert!(within_limits(&full, &state));
}
