//! The frames on document 01's bench sheet, and those of the maker's papers.

mod rig;

use rig::Rig;

#[test]
fn memory_status_of_an_empty_board() {
    Rig::sheet(112).line("40 4E 0E", "40 4E 70 00 7E");
    Rig::sheet(112).line("FF 4E B1", "40 4E 70 00 7E");
    Rig::sheet(112).line("41 4E 0F", "");
}

#[test]
fn two_fields_of_the_older_paper() {
    let mut rig = Rig::sheet(112);
    rig.line("40 4D 00 C9 55 91", "40 4D 00 C9 C4");
    rig.line("40 4D 01 E0 55 B9", "40 4D 01 E0 EC");
    // The misprinted checksum is a wrong one.
    rig.line("40 4D 01 E0 55 69", "40 50 0A 1A");
    // The paper goes on with Code2 and two bytes.
    rig.line("40 4F 02 55 66 3E", "40 4F 02 0D");
    rig.line("40 4B 01 05 02 66 08 15 76", "40 4B 01 05 02 0D");
    rig.line("40 4A 01 04 04 66 6D", "40 4A 01 04 04 00 08 15 00 16");
}

#[test]
fn shrink_and_grow_on_eight_blocks() {
    let mut rig = Rig::sheet(8);
    rig.line("40 4D 00 C7 55 9F", "40 4D 00 C7 CA");
    rig.line("40 4E 0E", "40 4E 00 01 0F");
    rig.line("40 4D 00 C1 55 99", "40 4D 00 C1 CC");
    rig.line("40 4E 0E", "40 4E 06 01 09");
    rig.line("40 4D 01 C6 55 9F", "40 50 10 00");
    rig.line("40 4D 01 C5 55 9C", "40 4D 01 C5 C9");
}

#[test]
fn wrong_checksum_and_unknown_command() {
    Rig::sheet(112).line("40 4E 0F", "40 50 0A 1A");
    Rig::sheet(112).line("40 44 04", "40 50 0B 1B");
}

#[test]
fn counter_overflow() {
    let mut rig = Rig::sheet(112);
    rig.state.counter = 0xFF_FFFF;
    rig.line("40 47 07", "40 C7 87");
    assert_eq!(rig.state.counter, 0);
    rig.line("40 50 10", "40 50 08 18");
}

#[test]
fn set_and_read_position() {
    let mut rig = Rig::sheet(112);
    rig.measure(5);
    rig.line("40 43 00 00 00 02 55 54", "40 43 03");
    rig.measure(9);
    rig.line("40 42 02", "40 42 00 00 00 06 04");
}

#[test]
fn a_gap_of_219_keeps_the_frame_open_and_220_closes_it() {
    let mut rig = Rig::sheet(112);
    rig.characters(&[0x40, 0x4E]);
    assert_eq!(rig.character(219, 0x0E, false), []);
    assert_eq!(rig.poll(219), []);
    // A poll that closes nothing does not stamp.
    assert_eq!(rig.poll(1), rig::hex("40 4E 70 00 7E"));

    let mut rig = Rig::sheet(112);
    rig.characters(&[0x40, 0x4E, 0x0E]);
    assert_eq!(rig.character(220, 0x40, false), rig::hex("40 4E 70 00 7E"));
    assert_eq!((rig.state.open, rig.state.kept_number), (true, 1));
}
