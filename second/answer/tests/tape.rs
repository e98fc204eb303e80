//! The answer program: the tape of document 01, both modes, and every way a tape can be bad.

mod rig;

use std::io::{self, Cursor, Write};
use std::process::{Command, Output, Stdio};

use rig::hex;

const PLATE: &str = "07 00 01 00 70 18 00 04 37";
const FRAME: &str = "08 00 02 00 00 00 00 00 40 00 08 00 02 00 2C 00 00 00 4E 00 \
                     08 00 02 00 58 00 00 00 0E 00";
const POLL: &str = "06 00 03 00 34 01 00 00";
const REPLY: &str = "308 40 4E 70 00 7E\n";
const TICKS: &str = "0 220\n44 220\n88 220\n308 none\n";

type Mode = fn(&mut Cursor<Vec<u8>>, &mut Vec<u8>) -> io::Result<()>;

/// What the program prints after its first line, in one of its modes.
fn printed(mode: Mode, parts: &[&str]) -> String {
    let tape = hex(&parts.join(" "));
    let mut out = Vec::new();
    mode(&mut Cursor::new(tape), &mut out).unwrap();
    let text = String::from_utf8(out).unwrap();
    text.strip_prefix("tick reply\n")
        .expect("the first line always comes")
        .to_string()
}

fn answer(parts: &[&str]) -> String {
    printed(second::answer::answer, parts)
}

fn remaining(parts: &[&str]) -> String {
    printed(second::answer::remaining, parts)
}

#[test]
fn the_tape_of_the_document() {
    assert_eq!(answer(&[PLATE, FRAME, POLL]), REPLY);
    assert_eq!(remaining(&[PLATE, FRAME, POLL]), TICKS);
}

#[test]
fn tapes_without_a_reply() {
    assert_eq!(answer(&[]), "");
    assert_eq!(answer(&[PLATE]), "");
    assert_eq!(answer(&[PLATE, FRAME]), "");
}

#[test]
fn tapes_with_few_remaining_ticks() {
    assert_eq!(remaining(&[]), "");
    assert_eq!(remaining(&[PLATE]), "");
    assert_eq!(remaining(&[PLATE, POLL]), "308 none\n");
    assert_eq!(remaining(&[PLATE, FRAME]), TICKS.replace("308 none\n", ""));
}

/// A character's record with the line of its remaining ticks, or a poll's.
fn at(tick: u32, value: Option<u8>, line: &'static str) -> (String, &'static str) {
    let [t0, t1, t2, t3] = tick.to_le_bytes();
    let tick = format!("{t0:02X} {t1:02X} {t2:02X} {t3:02X}");
    let record = match value {
        Some(value) => format!("08 00 02 00 {tick} {value:02X} 00"),
        None => format!("06 00 03 00 {tick}"),
    };
    (record, line)
}

#[test]
fn remaining_ticks_line_by_line() {
    let other = |record: &str| (record.to_string(), "");
    let (records, lines): (Vec<_>, Vec<_>) = [
        (PLATE.to_string(), ""),
        at(5, None, "5 none\n"),
        // Over the wrap of the tick, with events between that have no line.
        at(0xFFFF_FFF0, Some(0x40), "4294967280 220\n"),
        at(0xFFFF_FFFF, None, "4294967295 205\n"),
        other("06 00 04 00 05 00 00 01"),
        at(0, None, "0 204\n"),
        other("03 00 05 00 22"),
        at(203, None, "203 1\n"),
        // Closes and opens.
        at(204, Some(0x40), "204 220\n"),
        at(205, Some(0x4E), "205 220\n"),
        at(206, Some(0x0E), "206 220\n"),
        // A reply is not printed.
        at(426, None, "426 none\n"),
        at(500, Some(0x40), "500 220\n"),
        other("02 00 06 00"),
        at(501, None, "501 none\n"),
        // The clock stepped back by one.
        at(600, Some(0x40), "600 220\n"),
        at(599, None, "599 none\n"),
    ]
    .into_iter()
    .unzip();
    let records: Vec<&str> = records.iter().map(String::as_str).collect();
    assert_eq!(remaining(&records), lines.concat());
}

#[test]
fn all_kinds_of_events() {
    let measured = "06 00 04 00 05 00 00 01";
    let fault = "03 00 05 00 1D";
    let read_position = "08 00 02 00 00 00 00 00 40 00 08 00 02 00 01 00 00 00 42 00 \
                         08 00 02 00 02 00 00 00 02 00";
    assert_eq!(
        answer(&[
            PLATE,
            measured,
            fault,
            read_position,
            "06 00 03 00 FF FF FF FF"
        ]),
        "4294967295 40 C2 00 00 00 05 87\n"
    );
    assert_eq!(answer(&[PLATE, fault, FRAME, "02 00 06 00", POLL]), "");
    assert_eq!(
        answer(&[PLATE, "08 00 02 00 00 00 00 00 40 01", FRAME, POLL]),
        "308 40 50 09 19\n"
    );
}

/// The records of characters, one tick apart from this one on.
fn characters(tick: u8, bytes: &str) -> String {
    let records = hex(bytes).into_iter().zip(tick..);
    let texts =
        records.map(|(value, tick)| format!("08 00 02 00 {tick:02X} 00 00 00 {value:02X} 00"));
    texts.collect::<Vec<_>>().join(" ")
}

#[test]
fn a_new_address_is_in_force_from_the_closing_character_on() {
    // 22 bit times of 1 tick, address 1.
    let plate = "07 00 01 00 70 18 01 01 16";
    let traffic = [
        plate,
        &characters(0, "41 55 45 55 04"),
        &characters(0x20, "45 52 17"),
        &characters(0x40, "41 4E 0F"),
        &characters(0x60, "FF 4E B1"),
        "06 00 03 00 80 00 00 00",
        "02 00 06 00",
        &characters(0x90, "45 46 03"),
        "06 00 03 00 B0 00 00 00",
    ];
    let replies = [
        "32 45 55 10",
        "64 45 52 00 00 00 00 17",
        // The frame for the old address, closed at 96, has none.
        "128 45 4E 70 00 7B",
        "176 45 46 00 00 00 03",
    ];
    assert_eq!(answer(&traffic), replies.join("\n") + "\n");
}

#[test]
fn the_version_on_a_tape_is_37_times_zero() {
    let printed = answer(&[PLATE, &characters(0, "40 56 16"), POLL]);
    assert_eq!(printed, format!("308 40 56{} 16\n", " 00".repeat(37)));
}

#[test]
fn bad_first_records() {
    for record in [
        POLL,
        "02 00 06 00",
        "07 00 01 00 00 18 00 04 37",
        "07 00 01 00 71 18 00 04 37",
        "07 00 01 00 70 00 00 04 37",
        "07 00 01 00 70 21 00 04 37",
        "07 00 01 00 70 18 20 04 37",
        "07 00 01 00 70 18 00 03 37",
        "07 00 01 00 70 18 00 80 37",
        "07 00 01 00 70 18 00 04 36",
        "06 00 01 00 70 18 00 04",
        "08 00 01 00 70 18 00 04 37 00",
        "07 00 01 01 70 18 00 04 37",
        "00",
    ] {
        assert_eq!(answer(&[record]), "bad 0\n", "{record}");
        assert_eq!(remaining(&[record]), "bad 0\n", "{record}");
    }
}

#[test]
fn bad_later_records() {
    for record in [
        PLATE,
        "00 00",
        "01 00 06",
        "07",
        "02 00 00 00",
        "02 00 07 00",
        "02 00 06 01",
        "03 00 06 00 00",
        "02 00 05 00",
        "04 00 05 00 00 00",
        "05 00 03 00 00 00 00",
        "07 00 03 00 00 00 00 00 00",
        "06 00 03 00 00 00 00",
        "07 00 02 00 00 00 00 00 00",
        "09 00 02 00 00 00 00 00 00 00 00",
        "08 00 02 00 00 00 00 00 00 02",
        "08 00 02 00 00 00 00 00 00 FF",
        "06 01 03 00 00 00 00 00",
        "FF FF 02 00",
    ] {
        // Nine bytes of plate, 30 of characters, 8 of poll.
        let parts = [PLATE, FRAME, POLL, record];
        assert_eq!(answer(&parts), format!("{REPLY}bad 47\n"), "{record}");
        assert_eq!(remaining(&parts), format!("{TICKS}bad 47\n"), "{record}");
    }
}

/// Runs the program itself on the document's tape.
fn run(arguments: &[&str]) -> Output {
    let mut program = Command::new(env!("CARGO_BIN_EXE_second"))
        .args(arguments)
        .stdin(Stdio::piped())
        .stdout(Stdio::piped())
        .stderr(Stdio::piped())
        .spawn()
        .unwrap();
    let tape = hex(&[PLATE, FRAME, POLL].join(" "));
    // A program that does not take its arguments may be gone before it has the tape.
    let _ = program.stdin.take().unwrap().write_all(&tape);
    program.wait_with_output().unwrap()
}

#[test]
fn the_program_has_two_modes() {
    for (arguments, lines) in [(&[][..], REPLY), (&["--remaining"], TICKS)] {
        let output = run(arguments);
        assert_eq!(output.status.code(), Some(0));
        assert_eq!(output.stdout, format!("tick reply\n{lines}").into_bytes());
        assert_eq!(output.stderr, []);
    }
}

#[test]
fn any_other_argument_is_answered_with_the_usage() {
    for arguments in [
        &["--remainin"][..],
        &["--remaining=1"],
        &["remaining"],
        &["-"],
        &[""],
        &["--remaining", "--remaining"],
        &["--remaining", ""],
        &["", "--remaining"],
    ] {
        let output = run(arguments);
        assert_eq!(output.status.code(), Some(2), "{arguments:?}");
        assert_eq!(output.stdout, []);
        let usage = String::from_utf8(output.stderr).unwrap();
        assert_eq!(usage, "usage: second [--remaining] < TAPE\n");
    }
}
