//! Label tapes: the wish on a good one, and every way a tape can be bad or of the wrong size.

mod rig;

use rig::hex;
use rig::shop::{blocks, codes_record, counted, field_record, label_tape, record};
use second::TapeFault::{self, Bad, Size};
use second::{read_label_tape, Wish};

const CODES: &str = "06 00 20 00 11 22 33 44";
/// A field of one block, in 21 bytes.
const FIELD: &str = "13 00 21 00 C0 00 01 02 03 04 05 06 07 08 09 0A 0B 0C 0D 0E 0F";

fn read(parts: &[&str]) -> Result<Wish, TapeFault> {
    read_label_tape(&hex(&parts.join(" ")))
}

fn fault(parts: &[&str]) -> TapeFault {
    read(parts).expect_err("a refused tape")
}

/// Codes 1 to 4 and as many one-block fields as are asked for.
fn many_fields(number: usize) -> Vec<u8> {
    let field = field_record(0xC0, &[7; 16]);
    [codes_record([1, 2, 3, 4]), field.repeat(number)].concat()
}

#[test]
fn codes_alone_are_a_wish_without_fields() {
    let wish = read(&[CODES]).unwrap();
    assert_eq!(wish.codes(), [0x11, 0x22, 0x33, 0x44]);
    assert_eq!(wish.fields(), []);
}

#[test]
fn fields_keep_their_order_statuses_and_bytes() {
    let two_blocks = format!("23 00 21 00 99{}", " AB".repeat(32));
    let wish = read(&[CODES, FIELD, &two_blocks, FIELD]).unwrap();
    assert_eq!(wish.codes(), [0x11, 0x22, 0x33, 0x44]);
    let [first, second, third] = wish.fields() else {
        panic!("three fields");
    };
    assert_eq!(first.status(), 0xC0);
    assert_eq!(first.bytes(), (0..16).collect::<Vec<u8>>());
    assert_eq!((second.status(), second.bytes()), (0x99, &[0xAB; 32][..]));
    assert_eq!(third, first);
}

#[test]
fn every_status_with_bit_7_is_taken_with_its_size() {
    for status in 0x80..=0xFF {
        let wanted = [counted(status, status)];
        let wish = read_label_tape(&label_tape([0; 4], &wanted)).unwrap();
        let [field] = wish.fields() else {
            panic!("one field");
        };
        assert_eq!((field.status(), field.bytes()), (status, &wanted[0].1[..]));
        assert_eq!(field.bytes().len(), 16 * blocks(status));
    }
}

#[test]
fn an_empty_tape_lacks_its_codes() {
    assert_eq!(read_label_tape(&[]), Err(Bad(0)));
}

#[test]
fn bad_first_records() {
    for first in [
        // Cut short.
        "06",
        "06 00",
        "06 00 20",
        "06 00 20 00",
        "06 00 20 00 11 22 33",
        "FF FF 20 00 11 22 33 44",
        "06 01 20 00 11 22 33 44",
        // A length under 2.
        "00 00",
        "01 00 20",
        // No 20h first.
        FIELD,
        "02 00 21 00",
        "02 00 06 00",
        "06 00 21 00 11 22 33 44",
        // An unknown kind: both bytes count.
        "06 00 22 00 11 22 33 44",
        "06 00 1F 00 11 22 33 44",
        "06 00 00 00 11 22 33 44",
        "06 00 20 01 11 22 33 44",
        "06 00 00 20 11 22 33 44",
        // 20h without exactly four bytes.
        "02 00 20 00",
        "05 00 20 00 11 22 33",
        "07 00 20 00 11 22 33 44 55",
    ] {
        assert_eq!(fault(&[first]), Bad(0), "{first}");
        // Good records behind change nothing, where they do not fill up what was cut.
        if hex(first).len() == 2 + usize::from(hex(first)[0]) {
            assert_eq!(fault(&[first, CODES, FIELD]), Bad(0), "{first}");
        }
    }
}

/// Records that are bad behind the first.
const BAD_LATER: [&str; 25] = [
    // Cut short.
    "13",
    "00",
    "13 00",
    "13 00 21",
    "13 00 21 00",
    "13 00 21 00 C0",
    "13 00 21 00 C0 00 01 02 03 04 05 06 07 08 09 0A 0B 0C 0D 0E",
    "FF FF 21 00 C0 00 01 02 03 04 05 06 07 08 09 0A 0B 0C 0D 0E 0F",
    // A length under 2.
    "00 00",
    "01 00 21",
    // An unknown kind: both bytes count.
    "02 00 00 00",
    "02 00 22 00",
    "02 00 06 00",
    "03 00 1F 00 C0",
    "13 00 21 01 C0 00 01 02 03 04 05 06 07 08 09 0A 0B 0C 0D 0E 0F",
    "13 00 00 21 C0 00 01 02 03 04 05 06 07 08 09 0A 0B 0C 0D 0E 0F",
    // A second 20h, right or not.
    "06 00 20 00 11 22 33 44",
    "06 00 20 00 00 00 00 00",
    "02 00 20 00",
    "07 00 20 00 11 22 33 44 55",
    // 21h with an empty body.
    "02 00 21 00",
    // Bit 7 clear, with the right size and with wrong ones.
    "13 00 21 00 40 00 01 02 03 04 05 06 07 08 09 0A 0B 0C 0D 0E 0F",
    "13 00 21 00 00 00 01 02 03 04 05 06 07 08 09 0A 0B 0C 0D 0E 0F",
    "03 00 21 00 7F",
    "04 00 21 00 40 00",
];

#[test]
fn bad_later_records() {
    for record in BAD_LATER {
        assert_eq!(fault(&[CODES, record]), Bad(8), "{record}");
        assert_eq!(fault(&[CODES, FIELD, record]), Bad(29), "{record}");
        assert_eq!(fault(&[CODES, FIELD, FIELD, record]), Bad(50), "{record}");
    }
}

/// Records of fields that have not the size their status says.
fn wrong_sizes() -> Vec<Vec<u8>> {
    let bodies = [
        (0xC0, 0),
        (0xC0, 1),
        (0xC0, 15),
        (0xC0, 17),
        (0xC0, 32),
        (0xC1, 16),
        (0xC1, 31),
        (0xC1, 33),
        (0x8F, 112),
        (0x8F, 127),
        (0x8F, 129),
        (0x8F, 144),
        (0xFF, 256 + 128),
        (0x80, 256 + 16),
        (0x87, 0xFFFF - 3),
    ];
    bodies
        .map(|(status, size)| field_record(status, &vec![9; size]))
        .to_vec()
}

#[test]
fn a_body_that_is_not_the_fields_size() {
    for record in wrong_sizes() {
        for (before, place) in [(&[CODES][..], 8), (&[CODES, FIELD, FIELD], 50)] {
            let tape = [hex(&before.join(" ")), record.clone()].concat();
            assert_eq!(read_label_tape(&tape), Err(Size(place)));
            // Good records behind it change nothing.
            let tape = [tape, hex(FIELD)].concat();
            assert_eq!(read_label_tape(&tape), Err(Size(place)));
        }
    }
}

#[test]
fn a_bad_record_comes_before_a_wrong_size_that_stands_before_it() {
    let wrong = "03 00 21 00 C0";
    for record in BAD_LATER {
        assert_eq!(fault(&[CODES, wrong, record]), Bad(13), "{record}");
        assert_eq!(fault(&[CODES, FIELD, wrong, record]), Bad(34), "{record}");
        assert_eq!(fault(&[CODES, wrong, FIELD, record]), Bad(34), "{record}");
    }
}

#[test]
fn of_several_the_first_is_named() {
    let (wrong, bad) = ("03 00 21 00 C0", "02 00 21 00");
    assert_eq!(fault(&[CODES, wrong, wrong]), Size(8));
    assert_eq!(fault(&[CODES, FIELD, wrong, FIELD, wrong]), Size(29));
    assert_eq!(fault(&[CODES, bad, bad]), Bad(8));
    assert_eq!(fault(&[CODES, bad, wrong]), Bad(8));
    assert_eq!(fault(&[CODES, FIELD, bad, wrong, bad]), Bad(29));
    assert_eq!(fault(&[CODES, wrong, bad, wrong, bad]), Bad(13));
}

#[test]
fn a_257th_field_has_no_number() {
    let wish = read_label_tape(&many_fields(256)).unwrap();
    assert_eq!(wish.fields().len(), 256);
    let place = many_fields(256).len();
    assert_eq!(read_label_tape(&many_fields(257)), Err(Bad(place)));
    assert_eq!(read_label_tape(&many_fields(300)), Err(Bad(place)));
}

#[test]
fn a_257th_field_comes_before_a_wrong_size() {
    let wrong = field_record(0xC0, &[7; 15]);
    let tape = many_fields(255);
    let (codes, good) = tape.split_at(8);
    let tape = [codes, &wrong, good].concat();
    assert_eq!(read_label_tape(&tape), Err(Size(8)));
    let one_more = [&tape[..], &field_record(0xC0, &[7; 16])].concat();
    assert_eq!(read_label_tape(&one_more), Err(Bad(tape.len())));
    // The 257th itself is bad, whatever its size.
    let one_more = [&tape[..], &wrong].concat();
    assert_eq!(read_label_tape(&one_more), Err(Bad(tape.len())));
}

#[test]
fn a_good_tape_cut_anywhere_is_bad_at_the_record_that_was_cut() {
    let records = [
        codes_record([1, 2, 3, 4]),
        field_record(0xC0, &[5; 16]),
        field_record(0x81, &[6; 32]),
    ];
    let (tape, mut place) = (records.concat(), 0);
    for record in &records {
        for cut in place + 1..place + record.len() {
            assert_eq!(read_label_tape(&tape[..cut]), Err(Bad(place)), "{cut}");
        }
        place += record.len();
        assert!(read_label_tape(&tape[..place]).is_ok());
    }
}

#[test]
fn the_length_is_two_bytes_low_first() {
    // 131 bytes of kind, status and the most that a field can have.
    let (status, bytes) = counted(0x87, 0);
    let tape = label_tape([0; 4], &[(status, bytes.clone())]);
    assert_eq!(tape[8..13], hex("83 00 21 00 87"));
    assert!(read_label_tape(&tape).is_ok());
    let body = [&[status], &bytes[..], &[0; 126]].concat();
    let tape = [codes_record([0; 4]), record(0x21, &body)].concat();
    assert_eq!(tape[8..13], hex("01 01 21 00 87"));
    assert_eq!(read_label_tape(&tape), Err(Size(8)));
}
