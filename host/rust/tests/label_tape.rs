//! Label tapes that the handheld programmer's entries refuse (02, Req 04), each at the place of its slip and before anything else.

mod rig;

use std::collections::BTreeSet;

use quicksetter_host::dice::Dice;
use quicksetter_host::programmer::{
    check, start, Refused, Run, BROADCAST, COUNT, LOCK, REQUEST_BUFFER,
};
use rig::label::{
    codes_record, field_record, label_tape, most_fields, slipped_record, slipped_tape, small_tape,
    some_codes, some_fields, Slip, BLOCK, SLIPS,
};
use rig::programmers::{refusal, Programmers};

/// Tapes that are refused, of every kind: both programmers refuse alike, at the place of the slip.
#[test]
fn refused_by_both() {
    let mut dice = Dice::new(13_000);
    for slip in SLIPS {
        for _ in 0..if slip == Slip::Empty { 1 } else { 300 } {
            let (tape, refused) = slipped_tape(&mut dice, slip);
            let address = dice.one_of(&[0, 31, 255, 32, 256, u32::MAX]);
            let found = Programmers::start(address, &tape).err();
            assert_eq!(found, Some(refused), "{slip:?} {tape:X?}");
        }
    }
}

/// A bad record is the refusal, though a field of the wrong size stands before it; without it the wrong size is.
#[test]
fn bad_records_behind_a_wrong_size() {
    let mut dice = Dice::new(13_100);
    let first = small_tape().len();
    let tape = [
        small_tape(),
        field_record(0xC0, &[9; 15]),
        field_record(0x80, &[9; 16]),
    ]
    .concat();
    assert_eq!(check(&tape), Err(Refused::WrongSize(first)));
    for slip in SLIPS {
        if matches!(
            slip,
            Slip::Empty | Slip::FieldFirst | Slip::OneTooMany | Slip::WrongSize
        ) {
            continue;
        }
        for _ in 0..50 {
            let longer = [&tape[..], &slipped_record(&mut dice, slip, false)].concat();
            let refused = Refused::BadRecord(tape.len());
            assert_eq!(check(&longer), Err(refused), "{slip:?} {longer:X?}");
        }
    }
}

/// A number of a run, or of none.
fn any_run(dice: &mut Dice) -> Run {
    let run = Run::of([COUNT, 0, 0, 0, 0, 0, 7]);
    dice.one_of(&[run, Run(0), Run(u64::MAX), Run(0x5555)])
}

/// A tape's refusal comes before all others, for each call.
#[test]
fn tapes_come_first() {
    let mut dice = Dice::new(50_000);
    let mut places = BTreeSet::new();
    for slip in SLIPS {
        let rounds = match slip {
            Slip::Empty => 4,
            Slip::OneTooMany => 20,
            _ => 400,
        };
        for _ in 0..rounds {
            let (tape, refused) = slipped_tape(&mut dice, slip);
            assert_eq!(check(&tape), Err(refused), "{slip:?} {tape:X?}");
            for address in [0, 31, BROADCAST, 32, 254, 256, u32::MAX] {
                assert_eq!(start(address, &tape), Err(refused), "{slip:?} {tape:X?}");
            }
            let run = any_run(&mut dice);
            let size = dice.one_of(&[0, 134, 135, 200]);
            let found = refusal(&mut dice, run, &tape, size);
            assert_eq!(found, Some(refused), "{slip:?} {tape:X?}");
            places.insert((slip, refused));
        }
    }
    let with = |slip| places.iter().filter(|place| place.0 == slip).count();
    let everywhere = [
        Slip::Cut,
        Slip::UnknownKind,
        Slip::NoStatus,
        Slip::WrongSize,
    ];
    assert!(everywhere.into_iter().all(|slip| with(slip) > 50));
}

/// A good tape that ends too soon: bad at the record that was cut, and good between two records.
#[test]
fn tapes_cut_anywhere() {
    let mut dice = Dice::new(50_100);
    let mut records = vec![codes_record(some_codes(&mut dice))];
    let fields = some_fields(&mut dice, 4);
    records.extend(fields.iter().map(|field| field_record(field.0, &field.1)));
    let (tape, mut place) = (records.concat(), 0);
    assert_eq!(check(&[]), Err(Refused::BadRecord(0)));
    for record in &records {
        for end in place + 1..place + record.len() {
            assert_eq!(check(&tape[..end]), Err(Refused::BadRecord(place)));
        }
        place += record.len();
        assert_eq!(check(&tape[..place]), Ok(()));
    }
}

/// Every status with bodies of any size: only its own is good. The size is all of it, not its low byte.
#[test]
fn sizes() {
    for status in 0x80..=0xFF {
        let right = BLOCK * (usize::from(status & 7) + 1);
        let longer = [right + 256, right + 512, 4096 + right, 65_532];
        for size in (0..150).chain(longer) {
            let record = field_record(status, &vec![status; size]);
            let tape = [small_tape(), record, field_record(0x80, &[])].concat();
            let (place, behind) = (small_tape().len(), tape.len() - 5);
            let first = if size == right { behind } else { place };
            assert_eq!(check(&tape), Err(Refused::WrongSize(first)));
            let found = check(&tape[..behind]);
            let expected = if size == right {
                Ok(())
            } else {
                Err(Refused::WrongSize(place))
            };
            assert_eq!(found, expected, "{status:X} {size}");
        }
    }
}

/// 256 fields are taken and a 257th is not, whatever size it has.
#[test]
fn most_fields_of_a_tape() {
    let mut dice = Dice::new(50_200);
    let tape = label_tape(some_codes(&mut dice), &most_fields(&mut dice));
    assert_eq!(check(&tape), Ok(()));
    for bytes in [&[7; 16][..], &[7; 15], &[]] {
        let longer = [&tape[..], &field_record(0xC0, bytes)].concat();
        assert_eq!(check(&longer), Err(Refused::BadRecord(tape.len())));
    }
    let last = Run::of([LOCK, 255, 0, 0, 0, 3, 0]);
    let wanted = if tape[tape.len() - 17] & 0x40 == 0 {
        None
    } else {
        Some(Refused::NoRun)
    };
    assert_eq!(refusal(&mut dice, last, &tape, REQUEST_BUFFER), wanted);
}
