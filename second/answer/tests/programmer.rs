//! The handheld programmer on our board: its requests in order, its ends, what is held afterwards.

mod rig;

use rig::by_hand::{board, failed, fresh_run, used_board, wanted_fields, BY_HAND, CODES};
use rig::shop::{blocks_of, counted, run, wish, Agreeable, Field};
use rig::{hex, sealed, sheet_plate, Dice, Rig};
use second::{Ended, Label, Plate, Programmer, Refusal, Why, BROADCAST};
use Why::{Code, Judgement};

#[test]
fn the_run_by_hand_request_by_request() {
    let (mut rig, mut programmer) = (used_board(), fresh_run());
    // The fields present are not known yet.
    assert_eq!(programmer.progress(), (0, 8));
    for (place, (request, reply)) in BY_HAND.into_iter().enumerate() {
        assert_eq!(programmer.next(), Some(hex(request)), "{place}");
        assert_eq!(programmer.ended(), None);
        rig.line(request, reply);
        programmer.heard(&hex(reply));
        assert_eq!(programmer.progress(), (place as u32 + 1, 12));
    }
    assert_eq!(programmer.next(), None);
    assert_eq!(programmer.ended(), Some(Ended::Done));
    rig.holds_exactly(&wanted_fields(), 3);
    rig.line("43 4C 00 0F", "43 4C 00 98 97");
    rig.line("43 4C 02 0D", "43 50 12 01");
    rig.line("43 4E 0D", "43 4E 05 02 0A");
}

#[test]
fn asking_for_the_request_again_changes_nothing() {
    let programmer = fresh_run();
    assert_eq!(programmer.next(), programmer.next());
    assert_eq!(programmer, fresh_run());
}

#[test]
fn addresses_that_the_bench_does_not_write_to() {
    let wish = wish(CODES, &[]);
    for address in [32, 64, 0x40, 0x5F, 254, 256, 0xFFFF_FFFF] {
        assert_eq!(Programmer::new(address, wish.clone()), Err(Refusal::R5));
    }
    for address in 0..=31 {
        let programmer = Programmer::new(address, wish.clone()).unwrap();
        let request = sealed(&[0x40 + address as u8, 0x4E]);
        assert_eq!(programmer.next(), Some(request));
    }
}

#[test]
fn broadcast_reaches_a_board_of_any_address() {
    let mut rig = used_board();
    let mut programmer = Programmer::new(BROADCAST, wish(CODES, &wanted_fields())).unwrap();
    let requests = rig.run(&mut programmer);
    assert_eq!(programmer.ended(), Some(Ended::Done));
    assert!(requests.iter().all(|request| request[0] == 0xFF));
    rig.holds_exactly(&wanted_fields(), 3);
}

#[test]
fn a_wish_of_256_fields_uses_every_number() {
    let fields: Vec<Field> = (0..=255).map(|number| counted(0x80, number)).collect();
    let wish = wish(CODES, &fields);
    let mut programmer = Programmer::new(0, wish.clone()).unwrap();
    assert_eq!(programmer.progress(), (0, 1025));
    let mut foreign = Agreeable::new(255, 0x80);
    let requests = run(&mut programmer, |request| foreign.answer(request));
    assert_eq!(programmer.progress(), (1535, 1535));
    for (four, number) in requests[511..].chunks(4).zip(0..=255) {
        assert!(four.iter().all(|request| request[2] == number));
    }
    // Our board takes as many as it has blocks.
    let mut rig = board(sheet_plate(112), &[]);
    let (end, requests) = rig.program(&wish);
    let request = sealed(&[0x40, 0x4D, 112, 0xC0, 0x11]);
    assert_eq!(end, failed(&request, Code(0x10)));
    assert_eq!(requests.len(), 1 + 4 * 112 + 1);
    rig.holds_exactly(&fields[..112], 0);
}

#[test]
fn fields_that_fill_the_board_and_one_block_too_few() {
    let fields = [counted(0x8F, 1), counted(0xD2, 2), counted(0xA0, 3)];
    let wish = wish(CODES, &fields);
    let mut rig = board(sheet_plate(12), &[counted(0xC3, 9)]);
    assert_eq!(rig.program(&wish).0, Ended::Done);
    rig.holds_exactly(&fields, 4);
    rig.line("40 4E 0E", "40 4E 00 03 0D");

    let mut rig = board(sheet_plate(11), &[counted(0xC3, 9)]);
    let request = sealed(&[0x40, 0x4D, 2, 0xE0, 0x33]);
    assert_eq!(rig.program(&wish).0, failed(&request, Code(0x10)));
    rig.holds_exactly(&fields[..2], 4);

    // Not even the first: the fields present are gone all the same.
    let mut rig = board(sheet_plate(7), &[counted(0xC3, 9)]);
    let request = sealed(&[0x40, 0x4D, 0, 0xCF, 0x11]);
    assert_eq!(rig.program(&wish).0, failed(&request, Code(0x10)));
    rig.holds_exactly(&[], 4);
}

#[test]
fn codes_that_are_not_in_force() {
    let old = [counted(0xC0, 1), counted(0x90, 2)];
    let wanted = [counted(0xE0, 3), counted(0xF0, 4)];
    let wish = wish(CODES, &wanted);
    // Code1 and Code0 for the deletions, Code2 and Code3 for the creations.
    for (number, request, left) in [
        (1, [0x40, 0x4D, 1, 0x10, 0x22], &old[..]),
        (0, [0x40, 0x4D, 0, 0x40, 0x11], &old[..1]),
        (2, [0x40, 0x4D, 0, 0xE0, 0x33], &[]),
        (3, [0x40, 0x4D, 1, 0xF0, 0x44], &wanted[..1]),
    ] {
        let mut rig = board(sheet_plate(4), &old);
        rig.state.codes[number] ^= 0x80;
        let end = failed(&sealed(&request), Code(0x0F));
        assert_eq!(rig.program(&wish).0, end, "{number}");
        rig.holds_exactly(left, 2);
    }
}

#[test]
fn an_unsound_table_ends_in_03() {
    let mut rig = used_board();
    rig.memory[128 + 7] = 0x80;
    let before = rig.memory.clone();
    let end = failed(&hex("43 4E 0D"), Code(0x03));
    assert_eq!(rig.program(&wish(CODES, &wanted_fields())).0, end);
    assert_eq!(rig.memory, before);
}

#[test]
fn a_board_of_another_address_is_silent() {
    let mut rig = used_board();
    let before = rig.memory.clone();
    let mut programmer = Programmer::new(4, wish(CODES, &wanted_fields())).unwrap();
    rig.run(&mut programmer);
    let end = failed(&hex("44 4E 0A"), Judgement(1));
    assert_eq!(programmer.ended(), Some(end));
    assert_eq!(rig.memory, before);
}

#[test]
fn a_locked_position_and_waiting_codes_stop_nothing() {
    let codes = [0x22, 0x1D, 0x1E, 0x08, 0x21];
    for waiting in 1..=codes.len() {
        let mut rig = used_board();
        for &code in &codes[..waiting] {
            rig.note(code).unwrap();
        }
        // That the queue stays as it is, and the lock too, is looked at in every run.
        let (end, requests) = rig.program(&wish(CODES, &wanted_fields()));
        assert_eq!(end, Ended::Done);
        assert_eq!(requests, BY_HAND.map(|(request, _)| hex(request)));
        assert_eq!(rig.state.queue(), &codes[1..waiting]);
        assert!(rig.state.locked);
        rig.holds_exactly(&wanted_fields(), 3);
    }
}

#[test]
fn a_wish_without_fields_empties_the_board() {
    let wish = wish(CODES, &[]);
    let mut rig = used_board();
    let (end, requests) = rig.program(&wish);
    assert_eq!(end, Ended::Done);
    let expected = BY_HAND[..5].iter().map(|(request, _)| hex(request));
    assert_eq!(requests, expected.collect::<Vec<_>>());
    rig.holds_exactly(&[], 3);
    // An empty board is asked once.
    let mut rig = board(sheet_plate(8), &[]);
    let before = rig.memory.clone();
    assert_eq!(rig.program(&wish), (Ended::Done, vec![hex("40 4E 0E")]));
    assert_eq!(rig.memory, before);
}

#[test]
fn fields_of_one_block_in_every_place() {
    // All statuses of one block, in turn.
    let statuses = (0x80..=0xFF).filter(|status| status & 7 == 0).cycle();
    let fields: Vec<Field> = statuses.zip(0..112).map(|(s, n)| counted(s, n)).collect();
    let wish = wish(CODES, &fields);
    let mut rig = board(sheet_plate(112), &[]);
    for used in [0, 112] {
        let (end, requests) = rig.program(&wish);
        assert_eq!(end, Ended::Done);
        assert_eq!(requests.len(), 1 + 2 * used + 7 * 56);
        rig.holds_exactly(&fields, used);
    }
}

#[test]
fn every_status_is_left_as_it_was_wanted() {
    for status in 0x80..=0xFF {
        let mut rig = board(sheet_plate(9), &[]);
        let fields = [counted(0xC0, 1), counted(status, 2)];
        let wish = wish(CODES, &fields);
        assert_eq!(rig.program(&wish).0, Ended::Done, "{status:02X}");
        rig.holds_exactly(&fields, 0);
        // And it can be deleted by it again.
        assert_eq!(rig.program(&wish).0, Ended::Done, "{status:02X}");
        rig.holds_exactly(&fields, blocks_of(&fields));
    }
}

#[test]
fn only_five_commands_are_sent_and_in_order() {
    let mut rig = used_board();
    let (_, requests) = rig.program(&wish(CODES, &wanted_fields()));
    let commands: Vec<u8> = requests.iter().map(|request| request[1]).collect();
    let expected = hex("4E 4C 4D 4C 4D 4D 4B 4A 4D 4D 4B 4A");
    assert_eq!(commands, expected);
}

/// Fields of any status and bytes, in `most` blocks at most.
fn random_fields(dice: &mut Dice, most: usize) -> Vec<Field> {
    let mut fields = Vec::new();
    let largest = dice.pick(&[0, 1, 7]);
    let wanted = dice.below(most as u32 + 1) as usize;
    loop {
        let size = dice.below(largest + 1) as u8;
        let status = 0x80 | dice.number() as u8 & 0x78 | size;
        let (_, mut bytes) = counted(status, 0);
        bytes.fill_with(|| dice.number() as u8);
        fields.push((status, bytes));
        if blocks_of(&fields) > wanted {
            fields.pop();
            return fields;
        }
    }
}

/// A board of any plate and state, its table sound, with these codes and fields.
fn random_board(dice: &mut Dice, codes: [u8; 4], total: u32, fields: &[Field]) -> Rig {
    let mut rig = Rig::new(Plate {
        total_blocks: total,
        position_bits: 1 + dice.below(32),
        address: dice.below(32),
        ticks_per_bit: dice.pick(&[1, 2, 4, 8, 16, 32, 64]),
        pause: dice.pick(&[22, 55]),
        label: Label::BLANK,
    });
    rig.state.address = dice.below(32);
    rig.state.codes = codes;
    rig.state.counter = dice.below(0x0100_0000);
    rig.tick = dice.number();
    rig.hold(fields);
    for _ in 0..dice.below(6) {
        let code = dice.pick(&[0x22, 0x24, 0x01, 0x08, 0x1D, 0x1E, 0x21]);
        rig.note(code).unwrap();
    }
    rig
}

#[test]
fn boards_of_all_sorts_end_up_with_exactly_the_wish() {
    let mut dice = Dice(4);
    let (mut locked, mut shrunk, mut grown) = (0, 0, 0);
    for _ in 0..2000 {
        let total = dice.pick(&[1, 2, 8, 16, 111, 112]);
        let codes = [(); 4].map(|()| dice.pick(&[0, 0x55, 0x66, 0xFF]));
        let old = random_fields(&mut dice, total);
        let wanted = random_fields(&mut dice, total);
        let mut rig = random_board(&mut dice, codes, total as u32, &old);
        let (end, requests) = rig.program(&wish(codes, &wanted));
        assert_eq!(end, Ended::Done);
        rig.holds_exactly(&wanted, blocks_of(&old));
        let to_lock = wanted.iter().filter(|(status, _)| status & 0x40 == 0);
        let extra = to_lock.count();
        assert_eq!(requests.len(), 1 + 2 * old.len() + 3 * wanted.len() + extra);
        locked += extra;
        shrunk += usize::from(blocks_of(&old) > blocks_of(&wanted));
        grown += usize::from(blocks_of(&old) < blocks_of(&wanted));
    }
    assert!(locked > 1000 && shrunk > 500 && grown > 500);
}

#[test]
fn boards_that_are_too_small_name_the_first_field_without_room() {
    let mut dice = Dice(40);
    let mut short = 0;
    for _ in 0..1000 {
        let total = dice.pick(&[1, 2, 8, 16, 100]);
        let old = random_fields(&mut dice, total);
        let wanted = random_fields(&mut dice, total + 12);
        let mut rig = random_board(&mut dice, CODES, total as u32, &old);
        let (end, _) = rig.program(&wish(CODES, &wanted));
        let fits = (0..=wanted.len()).rfind(|&number| blocks_of(&wanted[..number]) <= total);
        let taken = fits.unwrap();
        rig.holds_exactly(&wanted[..taken], blocks_of(&old));
        let Some((status, _)) = wanted.get(taken) else {
            assert_eq!(end, Ended::Done);
            continue;
        };
        let code = CODES[usize::from(status >> 4 & 3)];
        let address = rig.state.address_byte();
        let request = sealed(&[address, 0x4D, taken as u8, status | 0x40, code]);
        assert_eq!(end, failed(&request, Code(0x10)));
        short += 1;
    }
    assert!(short > 100, "{short}");
}
