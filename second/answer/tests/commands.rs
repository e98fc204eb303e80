//! The commands one by one: orders of their checks, fields, faults, and the slips 01 names.

mod rig;

use rig::{hex, sheet_plate, Rig};
use second::Plate;

/// A request to address 0.
fn to(command: u8, data: &[u8]) -> Vec<u8> {
    [&[0x40, command], data].concat()
}

impl Rig {
    fn create(&mut self, field: u8, status: u8, code: u8) {
        let expected = rig::sealed(&to(0x4D, &[field, status]));
        assert_eq!(self.ask(&to(0x4D, &[field, status, code])), expected);
    }

    fn create_error(&mut self, field: u8, status: u8, code: u8) -> u8 {
        self.error(&to(0x4D, &[field, status, code]))
    }

    /// A deletion that is taken: it names the stored status, and the field is gone.
    fn delete(&mut self, field: u8, status: u8, code: u8) {
        assert_eq!(status & 0x80, 0);
        self.create(field, status, code);
        assert_eq!(self.error(&to(0x4C, &[field])), 0x12);
    }

    fn store(&mut self, field: u8, offset: u8, bytes: &[u8]) {
        let data = [&[field, offset, bytes.len() as u8, 0x55], bytes].concat();
        let expected = rig::sealed(&to(0x4B, &[field, offset, bytes.len() as u8]));
        assert_eq!(self.ask(&to(0x4B, &data)), expected);
    }

    fn read(&mut self, field: u8, offset: u8, count: u8) -> Vec<u8> {
        let reply = self.ask(&to(0x4A, &[field, offset, count, 0x55]));
        assert_eq!(reply[..5], to(0x4A, &[field, offset, count]));
        reply[5..reply.len() - 1].to_vec()
    }

    fn memory_status(&mut self) -> (u8, u8) {
        let reply = self.ask(&to(0x4E, &[]));
        (reply[2], reply[3])
    }
}

#[test]
fn read_data_checks_in_order() {
    let mut rig = Rig::sheet(4);
    rig.state.codes = [1, 2, 3, 4];
    rig.create(0, 0xC9, 1); // two blocks, Code0 wanted
    rig.create(1, 0xF0, 4); // one block, Code3 not wanted
    assert_eq!(rig.error(&to(0x4A, &[2, 0, 0, 9])), 0x12);
    assert_eq!(rig.error(&to(0x4A, &[255, 0, 1, 9])), 0x12);
    assert_eq!(rig.error(&to(0x4A, &[0, 0, 0, 9])), 0x0F);
    assert_eq!(rig.error(&to(0x4A, &[0, 255, 0, 1])), 0x0D);
    assert_eq!(rig.error(&to(0x4A, &[0, 255, 129, 1])), 0x0D);
    assert_eq!(rig.error(&to(0x4A, &[0, 0, 33, 1])), 0x11);
    assert_eq!(rig.error(&to(0x4A, &[0, 31, 2, 1])), 0x11);
    assert_eq!(rig.error(&to(0x4A, &[0, 255, 1, 1])), 0x11);
    assert_eq!(rig.error(&to(0x4A, &[0, 128, 128, 1])), 0x11);
    assert_eq!(rig.ask(&to(0x4A, &[0, 31, 1, 1])).len(), 7);
    assert_eq!(rig.ask(&to(0x4A, &[1, 15, 1, 99])).len(), 7);
}

#[test]
fn store_data_checks_in_order() {
    let mut rig = Rig::sheet(4);
    rig.create(0, 0x88, 0x55); // read-only, code wanted
    rig.create(1, 0xC0, 0x55);
    assert_eq!(rig.error(&to(0x4B, &[0, 0, 2, 9, 1])), 0x0C);
    assert_eq!(rig.error(&to(0x4B, &[0, 0, 0, 9])), 0x0C);
    assert_eq!(rig.error(&to(0x4B, &[0, 0])), 0x0C);
    assert_eq!(rig.error(&to(0x4B, &[2, 0, 1, 9, 1])), 0x12);
    assert_eq!(rig.error(&to(0x4B, &[0, 255, 1, 9, 1])), 0x0F);
    assert_eq!(rig.error(&to(0x4B, &[0, 255, 1, 0x55, 1])), 0x0E);
    assert_eq!(rig.error(&to(0x4B, &[1, 15, 2, 9, 1, 2])), 0x11);
    assert_eq!(rig.error(&to(0x4B, &[1, 255, 1, 9, 1])), 0x11);
    let long = [&[1, 0, 129, 0x55], &[7; 129][..]].concat();
    assert_eq!(rig.error(&to(0x4B, &long)), 0x0C);
}

#[test]
fn stored_bytes_come_back_whole() {
    let mut rig = Rig::sheet(10);
    rig.create(0, 0xC0, 0x55);
    rig.create(1, 0xC7, 0x55);
    let bytes: Vec<u8> = (1..=128).collect();
    rig.store(1, 0, &bytes);
    assert_eq!(rig.read(1, 0, 128), bytes);
    assert_eq!(rig.read(0, 0, 16), [0; 16]);
    assert_eq!(rig.memory[16..144], bytes);
    assert_eq!(rig.ask(&to(0x4C, &[1])), rig::sealed(&to(0x4C, &[1, 0xC7])));
    assert_eq!(rig.error(&to(0x4C, &[2])), 0x12);
}

#[test]
fn shrink_clears_what_is_given_back_and_growth_what_is_granted() {
    let mut rig = Rig::sheet(4);
    rig.create(0, 0xC3, 0x55);
    rig.store(0, 0, &[9; 64]);
    rig.create(0, 0xC1, 0x55);
    assert_eq!(rig.memory[..64], [[9; 32], [0; 32]].concat());
    assert_eq!(rig.memory_status(), (2, 1));
    // A lent memory whose free blocks are not clear: granted ones become so, others keep.
    rig.memory[32..64].fill(7);
    rig.create(0, 0xC2, 0x55);
    assert_eq!(
        rig.memory[..64],
        [[9; 32].as_slice(), &[0; 16], &[7; 16]].concat()
    );
    rig.create(1, 0x80, 0x55);
    assert_eq!(rig.memory[48..64], [0; 16]);
    rig.delete(1, 0x00, 0x55);
    assert_eq!(rig.memory_status(), (1, 1));
}

#[test]
fn create_wants_the_code_the_new_status_names() {
    let mut rig = Rig::sheet(4);
    rig.state.codes = [1, 2, 3, 4];
    assert_eq!(rig.create_error(0, 0x90, 1), 0x0F);
    assert_eq!(rig.create_error(0, 0x97, 1), 0x0F);
    assert_eq!(rig.create_error(0, 0x97, 2), 0x10);
    assert_eq!(rig.create_error(1, 0x90, 2), 0x12);
    assert_eq!(rig.create_error(0, 0x10, 2), 0x12);
    assert_eq!(rig.create_error(0xFF, 0x90, 2), 0x12);
    rig.create(0, 0x90, 2);
}

#[test]
fn modify_and_delete_want_the_code_the_stored_status_names() {
    let mut rig = Rig::sheet(8);
    rig.state.codes = [1, 2, 3, 4];
    rig.create(0, 0xC0, 1);
    rig.create(1, 0x80, 1); // read-only
    assert_eq!(rig.create_error(0, 0xE0, 3), 0x0F);
    assert_eq!(rig.create_error(1, 0x20, 3), 0x0F);
    assert_eq!(rig.create_error(0, 0xC1, 1), 0x10);
    assert_eq!(rig.create_error(0, 0x40, 1), 0x10);
    rig.create(0, 0xE0, 1); // same size, not the last
    assert_eq!(rig.create_error(0, 0xE0, 1), 0x0F);
    assert_eq!(rig.create_error(1, 0x87 | 0x70, 9), 0x0F);
    assert_eq!(rig.create_error(1, 0x87, 1), 0x10); // 7 more than the 6 free
    rig.create(1, 0x86, 1);
    assert_eq!(rig.memory_status(), (0, 2));
    rig.create(1, 0x80, 1);
    rig.delete(1, 0x00, 1); // read-only does not forbid it
    assert_eq!(rig.memory_status(), (7, 1));
    assert_eq!(rig.create_error(1, 0x00, 1), 0x12);
}

#[test]
fn a_deletion_names_all_of_bits_0_to_6() {
    let mut rig = Rig::sheet(4);
    rig.create(0, 0xC9, 0x55);
    rig.store(0, 0, &[7; 32]);
    for status in (0x00..0x80).filter(|&status| status != 0x49) {
        assert_eq!(rig.create_error(0, status, 0x55), 0x0D, "{status:02X}");
    }
    assert_eq!(rig.read(0, 0, 32), [7; 32]);
    rig.delete(0, 0x49, 0x55);
    assert_eq!(rig.memory_status(), (4, 0));
    assert!(rig.memory.iter().all(|&byte| byte == 0));
}

#[test]
fn no_single_bit_of_a_deletion_may_differ() {
    let mut rig = Rig::sheet(8);
    rig.state.codes = [1, 2, 3, 4];
    for status in 0x00..0x80 {
        let code = 1 + (status >> 4 & 3);
        rig.create(0, 0x80 | status, code);
        for bit in 0..7 {
            assert_eq!(rig.create_error(0, status ^ 1 << bit, code), 0x0D);
        }
        rig.delete(0, status, code);
    }
}

#[test]
fn a_deletion_checks_its_code_before_its_bits() {
    let mut rig = Rig::sheet(4);
    rig.state.codes = [1, 2, 3, 4];
    rig.create(0, 0xD0, 2); // Code1 not wanted
    assert_eq!(rig.create_error(0, 0x50, 9), 0x0F);
    assert_eq!(rig.create_error(0, 0x51, 9), 0x0F);
    // The status says Code2, the stored one Code1.
    assert_eq!(rig.create_error(0, 0x60, 3), 0x0F);
    assert_eq!(rig.create_error(0, 0x60, 2), 0x0D);
    assert_eq!(rig.create_error(0, 0x50, 3), 0x0F);
    rig.delete(0, 0x50, 2);
}

#[test]
fn a_deletion_checks_its_bits_before_its_place() {
    let mut rig = Rig::sheet(4);
    rig.create(0, 0xC9, 0x55);
    rig.create(1, 0xC0, 0x55);
    assert_eq!(rig.create_error(0, 0x48, 0x54), 0x0F);
    assert_eq!(rig.create_error(0, 0x49, 0x54), 0x0F);
    assert_eq!(rig.create_error(0, 0x48, 0x55), 0x0D);
    assert_eq!(rig.create_error(0, 0x40, 0x55), 0x0D); // the other field's
    assert_eq!(rig.create_error(0, 0x49, 0x55), 0x10);
    assert_eq!(rig.create_error(1, 0x49, 0x55), 0x0D);
    rig.delete(1, 0x40, 0x55);
    rig.delete(0, 0x49, 0x55);
}

#[test]
fn a_modified_field_is_deleted_by_its_new_status() {
    let mut rig = Rig::sheet(4);
    rig.state.codes = [1, 2, 3, 4];
    rig.create(0, 0xC1, 1);
    rig.create(0, 0x81, 1); // locked
    assert_eq!(rig.create_error(0, 0x41, 1), 0x0D);
    rig.delete(0, 0x01, 1);
    // Another size and another code.
    rig.create(0, 0xC1, 1);
    rig.create(0, 0xD2, 1);
    assert_eq!(rig.create_error(0, 0x41, 1), 0x0F);
    assert_eq!(rig.create_error(0, 0x41, 2), 0x0D);
    assert_eq!(rig.create_error(0, 0x52, 1), 0x0F);
    // A modify that is refused changes no status.
    assert_eq!(rig.create_error(0, 0xD7, 2), 0x10);
    assert_eq!(rig.create_error(0, 0x57, 2), 0x0D);
    rig.delete(0, 0x52, 2);
    assert_eq!(rig.memory_status(), (4, 0));
}

#[test]
fn a_deletion_of_no_field() {
    let mut rig = Rig::sheet(4);
    assert_eq!(rig.create_error(0, 0x00, 0x55), 0x12);
    rig.create(0, 0xC9, 0x55);
    for field in [1, 2, 4, 0xFF] {
        for status in [0x00, 0x49, 0x48] {
            assert_eq!(rig.create_error(field, status, 0x55), 0x12);
            assert_eq!(rig.create_error(field, status, 0x54), 0x12);
        }
    }
}

#[test]
fn a_deletion_in_an_unsound_table() {
    let mut rig = Rig::sheet(4);
    rig.create(0, 0xC9, 0x55);
    rig.memory[66] = 0x01;
    for field in [0, 1, 0xFF] {
        for status in [0x49, 0x48] {
            assert_eq!(rig.create_error(field, status, 0x55), 0x03);
            assert_eq!(rig.create_error(field, status, 0x54), 0x03);
        }
    }
}

#[test]
fn a_full_table_grants_no_more() {
    let mut rig = Rig::sheet(2);
    rig.create(0, 0x80, 0x55);
    rig.create(1, 0x80, 0x55);
    assert_eq!(rig.create_error(2, 0x80, 0x54), 0x0F);
    assert_eq!(rig.create_error(2, 0x80, 0x55), 0x10);
    assert_eq!(rig.create_error(3, 0x80, 0x55), 0x12);
    assert_eq!(rig.memory_status(), (0, 2));
}

#[test]
fn an_unsound_table() {
    let tables: [[u8; 4]; 5] = [
        [0x00, 0x80, 0x00, 0x00],
        [0x80, 0x01, 0x00, 0x00],
        [0x80, 0x00, 0x00, 0x40],
        [0x84, 0x00, 0x00, 0x00],
        [0x81, 0x82, 0x00, 0x00],
    ];
    for table in tables {
        let mut rig = Rig::sheet(4);
        rig.memory[64..].copy_from_slice(&table);
        for (command, data) in [
            (0x4A, vec![9, 0, 0, 9]),
            (0x4B, vec![9, 0, 1, 9, 9]),
            (0x4C, vec![9]),
            (0x4D, vec![9, 0, 9]),
            (0x4E, vec![]),
        ] {
            assert_eq!(rig.error(&to(command, &data)), 0x03);
        }
        rig.line("40 50 10", "40 50 00 10"); // 03h is not queued
    }
    let mut rig = Rig::sheet(4);
    rig.memory[64..].copy_from_slice(&[0x81, 0x80, 0x80, 0x00]);
    assert_eq!(rig.memory_status(), (0, 3));
}

#[test]
fn set_position_checks_in_order() {
    let mut rig = Rig::sheet(4);
    assert_eq!(rig.error(&hex("40 43 01 00 00 00 54")), 0x0F);
    assert_eq!(rig.error(&hex("40 43 01 00 00 00 55")), 0x0D);
    rig.measure(0xFFFF_FFFF);
    rig.line("40 43 00 FF FF FF 55 A9", "40 43 03");
    assert_eq!(rig.state.offset, 0);
    rig.note(0x24).unwrap();
    assert_eq!(rig.error(&hex("40 43 01 00 00 00 54")), 0x02);
    rig.line("40 53 13", "");
    assert_eq!(rig.error(&hex("40 42")), 0x02); // a reset does not unlock
}

#[test]
fn all_32_position_bits() {
    let plate = Plate {
        position_bits: 32,
        ..sheet_plate(4)
    };
    let mut rig = Rig::new(plate);
    rig.measure(5);
    assert_eq!(rig.ask(&hex("40 43 00 00 00 02 55")), hex("40 43 03"));
    assert_eq!(rig.state.offset, 0xFFFF_FFFD);
    rig.measure(2);
    assert_eq!(rig.ask(&hex("40 42")), hex("40 42 FF FF FF FF 02"));
}

#[test]
fn access_codes() {
    let mut rig = Rig::sheet(4);
    assert_eq!(rig.error(&to(0x4F, &[4, 0, 0])), 0x0D);
    assert_eq!(rig.error(&to(0x4F, &[3, 0x54, 0])), 0x0F);
    rig.line("40 4F 00 55 66 3C", "40 4F 00 0F");
    assert_eq!(rig.state.codes, [0x66, 0x55, 0x55, 0x55]);
    assert_eq!(rig.error(&to(0x49, &[0x55])), 0x0F);
    rig.line("40 47 07", "40 47 07");
    rig.line("40 49 66 6F", "40 49 09");
    assert_eq!(rig.state.counter, 0);
}

#[test]
fn the_fault_queue() {
    let mut rig = Rig::sheet(112);
    for code in [0x00, 0x1D, 0x1E, 0x22, 0x1D, 0x08, 0x21, 0x30] {
        rig.note(code).unwrap();
    }
    assert_eq!(rig.state.queue(), [0x1D, 0x1E, 0x08, 0x21]);
    assert!(rig.state.locked);
    // Errors carry the warning too.
    rig.line("40 4E 0F", "40 D0 0A 9A");
    rig.line("40 50 10", "40 D0 1D 8D");
    rig.note(0x1D).unwrap(); // anew, at the end
    rig.line("40 50 10", "40 D0 1E 8E");
    rig.line("40 50 10", "40 D0 08 98");
    rig.line("40 50 10", "40 D0 21 B1");
    rig.line("40 50 10", "40 50 1D 0D");
    rig.line("40 50 10", "40 50 00 10");
    rig.note(0x30).unwrap();
    rig.line("40 53 12", "40 D0 0A 9A");
    rig.line("40 53 13", "");
    rig.line("40 50 10", "40 50 00 10");
}

#[test]
fn counter_overflow_follows_the_queues_rules() {
    let mut rig = Rig::sheet(112);
    for code in [1, 2, 3, 4] {
        rig.note(code).unwrap();
    }
    rig.state.counter = 0xFF_FFFF;
    rig.line("40 47 07", "40 C7 87");
    assert_eq!(rig.state.queue(), [1, 2, 3, 4]);
    rig.line("40 46 06", "40 C6 00 00 00 86");
}
