//! Refusals of the handheld programmer's entries (02, Req 04): addresses, buffers and numbers that are no run, with everything left as it was.

mod rig;

use std::collections::BTreeSet;

use quicksetter_host::dice::Dice;
use quicksetter_host::programmer::{
    heard, start, Refused, Run, BROADCAST, COUNT, CREATE, DONE, LOCK, LOOK, READ, REMOVE,
    REQUEST_BUFFER, STORE, WHY_DIFFERS, WHY_ERROR, WHY_JUDGEMENT,
};
use rig::foreign::Foreign;
use rig::label::{label_tape, small_tape, some_codes, some_field};
use rig::programmers::{refusal, Programmers, STAGES};

/// 0 to 31 and broadcast are taken, and no number that only looks like one of them in its low byte.
#[test]
fn addresses() {
    let tape = small_tape();
    let edges = [0x7FFF_FFFF, 0x8000_0000, u32::MAX - 1, u32::MAX];
    let high = (8..32).flat_map(|bit| [1 << bit, (1 << bit) + 31, (1 << bit) + 255]);
    for address in (0..1024).chain(edges).chain(high) {
        let expected = match address {
            0..=31 | BROADCAST => Ok(Run::of([COUNT, 0, 0, 0, 0, 0, address as u8])),
            _ => Err(Refused::R5),
        };
        assert_eq!(start(address, &tape), expected, "{address}");
    }
}

/// Runs of a small tape at every stage, failed there in every way, and done.
fn runs_of_small_tape() -> Vec<Run> {
    let mut runs = vec![
        Run::of([DONE, 0, 0, 0, 0, 0, 31]),
        Run::of([DONE, 0, 0, 0, 0, 255, 255]),
        Run::of([READ, 0, 0, WHY_DIFFERS, 0, 3, 31]),
    ];
    for stage in STAGES {
        let (field, status, present) = match stage {
            COUNT => (0, 0, 0),
            LOOK => (2, 0, 3),
            REMOVE => (2, 0xE7, 3),
            _ => (1, 0, 3),
        };
        let ways = [
            (0, 0),
            (WHY_JUDGEMENT, 1),
            (WHY_JUDGEMENT, 5),
            (WHY_ERROR, 0),
            (WHY_ERROR, 255),
        ];
        let parts = |(why, number)| [stage, field, status, why, number, present, 31];
        runs.extend(ways.map(|way| Run::of(parts(way))));
    }
    runs
}

/// A buffer under 135 bytes is refused whether a request is due or not, and a number that is no run before it.
#[test]
fn short_buffers() {
    let mut dice = Dice::new(50_300);
    let tape = small_tape();
    for run in runs_of_small_tape() {
        for size in 0..REQUEST_BUFFER {
            let found = refusal(&mut dice, run, &tape, size);
            assert_eq!(found, Some(Refused::R4), "{run:X?} {size}");
            let none = Run(run.0 | 1 << 60);
            let found = refusal(&mut dice, none, &tape, size);
            assert_eq!(found, Some(Refused::NoRun), "{none:X?} {size}");
        }
        assert_eq!(refusal(&mut dice, run, &tape, REQUEST_BUFFER), None);
        assert_eq!(refusal(&mut dice, run, &tape, 1000), None);
    }
}

/// Numbers that are no run of the small tape, each with what is wrong about it.
const NO_RUNS: [(&str, [u8; 7]); 32] = [
    ("nothing", [0, 0, 0, 0, 0, 0, 0]),
    ("no stage", [0, 0, 0, 0, 0, 0, 7]),
    ("a ninth stage", [DONE + 1, 0, 0, 0, 0, 0, 7]),
    ("stage 255", [255, 0, 0, 0, 0, 0, 7]),
    ("4Eh of a field", [COUNT, 1, 0, 0, 0, 0, 7]),
    ("4Eh with a status", [COUNT, 0, 0x80, 0, 0, 0, 7]),
    ("4Eh with fields told", [COUNT, 0, 0, 0, 0, 1, 7]),
    ("4Ch of the field behind the last", [LOOK, 3, 0, 0, 0, 3, 7]),
    ("4Ch where none is present", [LOOK, 0, 0, 0, 0, 0, 7]),
    ("4Ch of field 255", [LOOK, 255, 0, 0, 0, 255, 7]),
    ("4Ch with a status", [LOOK, 0, 0x80, 0, 0, 3, 7]),
    (
        "a deletion behind the last field",
        [REMOVE, 3, 0x80, 0, 0, 3, 7],
    ),
    ("a deletion of field 255", [REMOVE, 255, 0x80, 0, 0, 255, 7]),
    ("a creation of a third field", [CREATE, 2, 0, 0, 0, 3, 7]),
    ("a creation with a status", [CREATE, 0, 0xC0, 0, 0, 3, 7]),
    ("a store into a third field", [STORE, 2, 0, 0, 0, 3, 7]),
    ("a reading of a third field", [READ, 2, 0, 0, 0, 3, 7]),
    ("a lock of a third field", [LOCK, 2, 0, 0, 0, 3, 7]),
    ("a lock of a field to write", [LOCK, 0, 0, 0, 0, 3, 7]),
    (
        "a failed lock of such a field",
        [LOCK, 0, 0, WHY_ERROR, 0x0F, 3, 7],
    ),
    ("done with a field", [DONE, 1, 0, 0, 0, 3, 7]),
    ("done with a status", [DONE, 0, 0xC0, 0, 0, 3, 7]),
    ("done and failed", [DONE, 0, 0, WHY_ERROR, 0x0F, 3, 7]),
    ("done and differs", [DONE, 0, 0, WHY_DIFFERS, 0, 3, 7]),
    ("a number without a why", [CREATE, 0, 0, 0, 0x0F, 3, 7]),
    ("done with a number", [DONE, 0, 0, 0, 1, 3, 7]),
    ("a fourth why", [CREATE, 0, 0, 4, 0, 3, 7]),
    ("a check B7", [CREATE, 0, 0, WHY_JUDGEMENT, 7, 3, 7]),
    ("a store that differs", [STORE, 0, 0, WHY_DIFFERS, 0, 3, 7]),
    ("differs with a number", [READ, 0, 0, WHY_DIFFERS, 1, 3, 7]),
    ("address 32", [CREATE, 0, 0, 0, 0, 3, 32]),
    ("address 254", [CREATE, 0, 0, 0, 0, 3, 254]),
];

#[test]
fn numbers_that_are_no_run() {
    let mut dice = Dice::new(50_400);
    let tape = small_tape();
    for (wrong, parts) in NO_RUNS {
        let found = refusal(&mut dice, Run::of(parts), &tape, REQUEST_BUFFER);
        assert_eq!(found, Some(Refused::NoRun), "{wrong}");
    }
    for run in runs_of_small_tape() {
        assert_eq!(refusal(&mut dice, run, &tape, REQUEST_BUFFER), None);
        // Bit 31 is a refusal's, and the top byte is nobody's.
        for bit in [31].into_iter().chain(56..64) {
            let none = Run(run.0 ^ 1 << bit);
            let found = refusal(&mut dice, none, &tape, REQUEST_BUFFER);
            assert_eq!(found, Some(Refused::NoRun), "{none:X?}");
        }
    }
    let whole = Run(u64::MAX);
    let found = refusal(&mut dice, whole, &tape, REQUEST_BUFFER);
    assert_eq!(found, Some(Refused::NoRun));
}

/// A refused call has its number as a result, which is no run: who keeps it instead of the run is refused from then on.
#[test]
fn refusals_handed_in_as_runs() {
    let mut dice = Dice::new(50_500);
    let tape = small_tape();
    for refused in 1..=5 {
        for place in [0, 1, 8, 0xFF, 0xFFFF_FFFF] {
            let run = Run(place << 32 | (0x8000_0000 + refused));
            let found = refusal(&mut dice, run, &tape, REQUEST_BUFFER);
            assert_eq!(found, Some(Refused::NoRun), "{run:X?}");
        }
    }
}

/// A reply that is handed in with another tape, with a bad one or with no run is refused, and the run goes on to its end as if nothing had been.
#[test]
fn a_refused_reply_changes_nothing() {
    let mut dice = Dice::new(50_600);
    let mut seen = BTreeSet::new();
    for _ in 0..300 {
        let field = some_field(&mut dice);
        let tape = label_tape(some_codes(&mut dice), &[field]);
        let without = &tape[..8];
        let cut = &tape[..tape.len() - 1];
        let mut board = Foreign::new(dice.below(4) as u8);
        let mut both = Programmers::start(3, &tape).expect("a good tape");
        while let Some(request) = both.request(&mut dice) {
            let status = dice.byte();
            let reply = board.reply(&mut dice, &request, status);
            assert_eq!(heard(both.run, cut, &reply), Err(Refused::BadRecord(8)));
            assert_eq!(heard(Run(0), &tape, &reply), Err(Refused::NoRun));
            if matches!(both.run.stage(), CREATE..=LOCK) {
                // The tape without fields has no such run.
                assert_eq!(heard(both.run, without, &reply), Err(Refused::NoRun));
                seen.insert(both.run.stage());
            }
            both.heard(&reply);
        }
        assert!(both.run.is_done());
    }
    assert_eq!(seen.len(), 4);
}
