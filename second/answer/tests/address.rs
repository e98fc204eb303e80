//! Address, label and version: 55h's checks, the address in force, what 52h and 56h send.

mod rig;

use rig::{hex, sealed, sheet_plate, Rig};
use second::{within_limits, Label, Plate, Refusal, State, LABEL_LENGTH};

const CODE0: u8 = 0x55;

impl Rig {
    /// The good reply to a 55h, to the address byte given: it carries the new address already.
    fn readdress(&mut self, asked: u8, new: u8) {
        let reply = self.ask(&[asked, 0x55, new, self.state.codes[0]]);
        assert_eq!(reply, sealed(&[new, 0x55]), "{asked:02X} {new:02X}");
        assert_eq!(self.state.address_byte(), new);
    }

    /// The board answers these address bytes, and is silent to all others.
    fn answers_only_to(&mut self, own: u8) {
        for address in 0..=255 {
            let reply = self.ask(&[address, 0x46]);
            if address == own || address == 0xFF {
                assert_eq!(reply, sealed(&[own, 0x46, 0, 0, 0]), "{address:02X}");
            } else {
                assert_eq!(reply, [], "{address:02X}");
            }
        }
    }
}

/// A plate whose label bytes are all different: 1 to 41.
fn labelled_plate() -> Plate {
    let bytes: Vec<u8> = (1..=LABEL_LENGTH as u8).collect();
    Plate {
        label: Label::new(&bytes).expect("41 bytes"),
        ..sheet_plate(4)
    }
}

#[test]
fn the_frame_of_the_readings() {
    let mut rig = Rig::sheet(112);
    rig.line("40 55 45 55 05", "45 55 10");
    rig.line("40 4E 0E", "");
    rig.line("45 4E 0B", "45 4E 70 00 7B");
    rig.line("FF 4E B1", "45 4E 70 00 7B");
}

#[test]
fn set_address_checks_in_order() {
    let mut rig = Rig::sheet(4);
    for data in [
        &[][..],
        &[0x45],
        &[0x60],
        &[0x60, 9, 9],
        &[0x45, CODE0, CODE0],
        &[9; 132],
    ] {
        assert_eq!(rig.error(&[&[0x40, 0x55], data].concat()), 0x0C);
    }
    // Both wrong: the code comes first.
    assert_eq!(rig.error(&[0x40, 0x55, 0x60, 0x54]), 0x0F);
    assert_eq!(rig.error(&[0x40, 0x55, 0x45, 0x54]), 0x0F);
    assert_eq!(rig.error(&[0x40, 0x55, 0x60, CODE0]), 0x0D);
    // Parity and checksum come before all of them.
    rig.character(1, 0x40, true);
    rig.characters(&[0x55, 0x45, 0x55, 0x05]);
    assert_eq!(rig.poll(220), hex("40 50 09 19"));
    rig.line("40 55 45 55 04", "40 50 0A 1A");
    rig.answers_only_to(0x40);
}

#[test]
fn the_code_is_code0_as_it_stands() {
    let mut rig = Rig::sheet(4);
    rig.state.codes = [1, 2, 3, 4];
    for code in (0..=255).filter(|&code| code != 1) {
        assert_eq!(rig.error(&[0x40, 0x55, 0x41, code]), 0x0F);
    }
    rig.readdress(0x40, 0x41);
    // A code that 4Fh gave, asked for at the new address.
    assert_eq!(rig.ask(&[0x41, 0x4F, 0, 1, 0x66]), sealed(&[0x41, 0x4F, 0]));
    assert_eq!(rig.error(&[0x41, 0x55, 0x42, 1]), 0x0F);
    rig.readdress(0x41, 0x42);
}

#[test]
fn every_byte_as_new_address() {
    for new in 0..=255 {
        let mut rig = Rig::sheet(4);
        if (0x40..=0x5F).contains(&new) {
            rig.readdress(0x40, new);
            assert_eq!(rig.state.address, u32::from(new) - 0x40);
        } else {
            let reply = rig.ask(&[0x40, 0x55, new, CODE0]);
            assert_eq!(reply, hex("40 50 0D 1D"), "{new:02X}");
            assert_eq!(rig.state.address, 0);
        }
    }
}

#[test]
fn afterwards_the_new_address_alone_is_the_boards() {
    let mut rig = Rig::sheet(4);
    rig.answers_only_to(0x40);
    rig.readdress(0x40, 0x5F);
    rig.answers_only_to(0x5F);
    rig.readdress(0x5F, 0x41);
    rig.answers_only_to(0x41);
    // Errors carry the address in force too, and a refused 55h the old one.
    assert_eq!(rig.ask(&[0x41, 0x44]), sealed(&[0x41, 0x50, 0x0B]));
    assert_eq!(rig.ask(&[0x41, 0x55, 0x42, 0]), sealed(&[0x41, 0x50, 0x0F]));
    assert_eq!(
        rig.ask(&[0x41, 0x55, 0x3F, CODE0]),
        sealed(&[0x41, 0x50, 0x0D])
    );
    rig.readdress(0x41, 0x41);
    rig.readdress(0x41, 0x40);
    rig.answers_only_to(0x40);
}

#[test]
fn a_broadcast_55h_is_taken_too() {
    let mut rig = Rig::sheet(4);
    rig.readdress(0xFF, 0x45);
    rig.answers_only_to(0x45);
    assert_eq!(
        rig.ask(&[0xFF, 0x55, 0xFF, CODE0]),
        sealed(&[0x45, 0x50, 0x0D])
    );
    assert_eq!(rig.ask(&[0xFF, 0x55, 0x46, 0]), sealed(&[0x45, 0x50, 0x0F]));
}

#[test]
fn a_55h_to_another_board_changes_nothing() {
    let mut rig = Rig::sheet(4);
    rig.readdress(0x40, 0x45);
    let before = rig.state.meaning();
    for other in (0..=0xFE).filter(|&other| other != 0x45) {
        assert_eq!(rig.ask(&[other, 0x55, 0x46, CODE0]), []);
    }
    assert_eq!(rig.state.meaning(), before);
}

#[test]
fn nothing_but_the_address_changes() {
    let mut rig = Rig::sheet(4);
    rig.state.codes = [1, 2, 3, 4];
    rig.state.counter = 7;
    rig.state.offset = 8;
    rig.state.measured = 9;
    rig.note(0x22).unwrap();
    rig.memory.fill(0xA5);
    let (mut wanted, memory) = (rig.state.meaning(), rig.memory.clone());
    // Locked and with an unsound table it is worked all the same.
    rig.readdress(0x40, 0x52);
    wanted.address = 0x12;
    assert_eq!(rig.state.meaning(), wanted);
    assert_eq!(rig.memory, memory);
}

#[test]
fn a_waiting_code_sets_bit_7() {
    let mut rig = Rig::sheet(4);
    rig.note(0x1D).unwrap();
    assert_eq!(rig.ask(&[0x40, 0x55, 0x41, 0]), sealed(&[0x40, 0xD0, 0x0F]));
    assert_eq!(rig.ask(&[0x40, 0x55, 0x41, CODE0]), sealed(&[0x41, 0xD5]));
    assert_eq!(rig.ask(&[0x41, 0x52]), sealed(&[0x41, 0xD2, 0, 0, 0, 0]));
    let version = [&[0x41, 0xD6][..], &[0; 37]].concat();
    assert_eq!(rig.ask(&[0x41, 0x56]), sealed(&version));
}

#[test]
fn power_on_and_reset_keep_the_address() {
    let mut rig = Rig::sheet(4);
    rig.readdress(0x40, 0x45);
    rig.power_on();
    rig.answers_only_to(0x45);
    assert_eq!(rig.ask(&[0x45, 0x53]), []);
    rig.answers_only_to(0x45);
    assert_eq!(rig.ask(&[0xFF, 0x53]), []);
    rig.answers_only_to(0x45);
}

#[test]
fn power_on_drops_an_open_55h() {
    let mut rig = Rig::sheet(4);
    rig.characters(&hex("40 55 45 55 05"));
    rig.power_on();
    assert_eq!(rig.poll(220), []);
    rig.answers_only_to(0x40);
}

#[test]
fn a_closing_character_opens_a_frame_for_the_new_address() {
    let mut rig = Rig::sheet(4);
    rig.characters(&hex("40 55 45 55 05"));
    // The reply is the 55h frame's; this character's frame is judged by the new address.
    assert_eq!(rig.character(220, 0x45, false), hex("45 55 10"));
    rig.characters(&hex("46 03"));
    assert_eq!(rig.poll(220), hex("45 46 00 00 00 03"));
    // So is one for the old address: silence.
    rig.characters(&hex("45 55 46 55 03"));
    assert_eq!(rig.character(220, 0x45, false), hex("46 55 13"));
    rig.characters(&hex("46 03"));
    assert_eq!(rig.poll(220), []);
    // A refused 55h leaves the old one in force.
    rig.characters(&hex("46 55 47 54 00"));
    assert_eq!(rig.character(220, 0x46, false), hex("46 50 0F 19"));
    rig.characters(&hex("46 00"));
    assert_eq!(rig.poll(220), hex("46 46 00 00 00 00"));
}

#[test]
fn a_plate_of_another_address() {
    let plate = Plate {
        address: 31,
        ..sheet_plate(4)
    };
    let mut rig = Rig::new(plate);
    rig.answers_only_to(0x5F);
    rig.readdress(0x5F, 0x40);
    rig.answers_only_to(0x40);
    // The plate's address is not looked at again (reading 1.6).
    assert!(within_limits(&plate, &rig.state));
    assert_eq!(State::fresh(&plate).address, 31);
}

#[test]
fn a_state_address_beyond_its_limit_is_refused() {
    let mut rig = Rig::sheet(4);
    rig.state.address = 32;
    assert_eq!(rig.note(1), Err(Refusal::R1));
    rig.state.address = 31;
    assert_eq!(rig.note(1), Ok(()));
}

#[test]
fn a_label_has_41_bytes_of_any_values() {
    for length in [0, 4, 37, 40, 42, 82, 297] {
        assert_eq!(Label::new(&vec![0; length]), Err(Refusal::R1));
    }
    assert_eq!(Label::new(&[0; LABEL_LENGTH]), Ok(Label::BLANK));
    for value in 0..=255 {
        assert!(Label::new(&[value; LABEL_LENGTH]).is_ok());
    }
}

#[test]
fn type_label_and_version_are_the_plates() {
    let mut rig = Rig::new(labelled_plate());
    let before = rig.state.meaning();
    assert_eq!(rig.ask(&hex("40 52")), sealed(&hex("40 52 01 02 03 04")));
    let version: Vec<u8> = [0x40, 0x56].into_iter().chain(5..=41).collect();
    assert_eq!(rig.ask(&hex("40 56")), sealed(&version));
    assert_eq!(rig.ask(&hex("FF 52")), sealed(&hex("40 52 01 02 03 04")));
    assert_eq!(rig.state.meaning(), before);
    // The blank label of a tape, whatever T is.
    let mut rig = Rig::sheet(112);
    rig.line("40 52 12", "40 52 00 00 00 00 12");
    let version = [&[0x40, 0x56][..], &[0; 37], &[0x16]].concat();
    assert_eq!(rig.ask(&hex("40 56")), version);
}

#[test]
fn type_label_and_version_have_no_checks_of_their_own() {
    let mut rig = Rig::new(labelled_plate());
    rig.note(0x22).unwrap();
    rig.memory[64..].fill(0x7F);
    assert_eq!(rig.error(&hex("40 42")), 0x02);
    assert_eq!(rig.error(&hex("40 4E")), 0x03);
    assert_eq!(rig.ask(&hex("40 52")), sealed(&hex("40 52 01 02 03 04")));
    assert_eq!(rig.ask(&hex("40 56")).len(), 40);
    // With data they are of the wrong length.
    for command in [0x52, 0x56] {
        assert_eq!(rig.error(&[0x40, command, 0x00]), 0x0C);
        assert_eq!(rig.error(&[0x40, command, 0x41, CODE0]), 0x0C);
    }
}

#[test]
fn the_neighbours_in_the_table_stay_unknown() {
    let mut rig = Rig::sheet(4);
    for command in [0x44, 0x51, 0x54, 0x57, 0x67, 0x6A, 0xC2, 0xD2, 0xD5, 0xD6] {
        assert_eq!(rig.error(&[0x40, command]), 0x0B);
        assert_eq!(rig.error(&[0x40, command, 0x45, CODE0]), 0x0B);
    }
}
