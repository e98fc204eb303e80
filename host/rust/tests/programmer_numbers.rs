//! Numbers handed in as runs of the handheld programmer (02, Req 04): taken by all calls or by none, and each that is taken is one that replies lead to.

mod rig;

use std::collections::BTreeMap;

use quicksetter_host::dice::Dice;
use quicksetter_host::programmer::{
    heard, next, progress, Refused, Run, COUNT, CREATE, DONE, LOCK, LOOK, READ, REMOVE,
    REQUEST_BUFFER, STORE, WHY_DIFFERS, WHY_ERROR, WHY_JUDGEMENT,
};
use rig::foreign::{resealed, Foreign};
use rig::label::{is_read_only, label_tape, some_codes, some_fields, Field};
use rig::programmers::{refusal, Programmers};
use rig::sealed;

/// Whether this is the number of a run on a tape of these fields, by the header's table of its parts. A check counts as one that can fail, B0 to B6, at any
/// request, also where no reply makes it fail.
fn is_run(run: Run, fields: &[Field]) -> bool {
    let wanted = fields.get(usize::from(run.field()));
    let at = match run.stage() {
        COUNT => run.field() == 0 && run.present() == 0,
        LOOK | REMOVE => run.field() < run.present(),
        CREATE | STORE | READ => wanted.is_some(),
        LOCK => wanted.is_some_and(|field| is_read_only(field.0)),
        DONE => run.field() == 0 && run.why() == 0,
        _ => false,
    };
    let why = match (run.why(), run.why_number()) {
        (WHY_JUDGEMENT, number) => number <= 6,
        (WHY_ERROR, _) => true,
        (WHY_DIFFERS, number) => number == 0 && run.stage() == READ,
        (why, number) => why == 0 && number == 0,
    };
    let status = run.status() == 0 || run.stage() == REMOVE;
    let address = matches!(run.address(), 0..=31 | 255);
    at && why && status && address && run.0 >> 56 == 0
}

/// Mostly a small number, else any.
fn small(dice: &mut Dice, end: usize) -> u8 {
    if dice.once_in(12) {
        return dice.byte();
    }
    dice.below(end) as u8
}

/// Parts of about the right size, drawn one by one.
fn drawn(dice: &mut Dice) -> Run {
    let stage = small(dice, 9);
    let status = if stage == REMOVE { dice.byte() } else { 0 };
    let why = small(dice, 4);
    let number = match why {
        0 | WHY_DIFFERS => small(dice, 1),
        _ => small(dice, 8),
    };
    let present = if stage == COUNT { 0 } else { small(dice, 9) };
    let any = dice.byte();
    let address = dice.one_of(&[0, 7, 31, 255, any]);
    Run::of([stage, small(dice, 5), status, why, number, present, address])
}

/// A number that is a run, or close to one, or anything.
fn some_number(dice: &mut Dice) -> Run {
    let run = drawn(dice);
    match dice.below(4) {
        0 => Run(dice.number()),
        1 => Run(run.0 ^ 1 << dice.below(64)),
        _ => run,
    }
}

/// A run is handed on with the replies that are wanted: it comes to its end, one request after another, and the progress with it.
fn handed_on(dice: &mut Dice, mut run: Run, tape: &[u8], fields: usize) {
    let mut board = Foreign::new(run.present());
    let mut buffer = [0; REQUEST_BUFFER];
    for _ in 0..1 + 2 * 255 + 4 * fields {
        let length = next(run, tape, &mut buffer).expect("a run");
        if length == 0 {
            break;
        }
        let status = dice.byte();
        let reply = board.reply(dice, &buffer[..length], status);
        let (answered, _) = progress(run, tape).expect("a run");
        run = heard(run, tape, &reply).expect("a run");
        let (now, in_all) = progress(run, tape).expect("a run");
        assert!(now <= in_all && run.is_done() == (now == in_all));
        assert_eq!(now, answered + u32::from(!run.has_failed()), "{run:X?}");
    }
    assert!(run.is_done() || run.has_failed(), "{run:X?}");
    assert_eq!(next(run, tape, &mut buffer), Ok(0));
    assert_eq!(heard(run, tape, &[]), Ok(run));
}

/// Numbers of every kind on tapes of every kind: taken exactly by the header's table, and what is taken can be worked with.
#[test]
fn numbers() {
    let (mut taken, mut refused) = (BTreeMap::new(), 0);
    for seed in 60_000..60_300 {
        let mut dice = Dice::new(seed);
        let number = dice.below(5);
        let fields = some_fields(&mut dice, number);
        let tape = label_tape(some_codes(&mut dice), &fields);
        for _ in 0..500 {
            let run = some_number(&mut dice);
            let found = refusal(&mut dice, run, &tape, REQUEST_BUFFER);
            let expected = (!is_run(run, &fields)).then_some(Refused::NoRun);
            assert_eq!(found, expected, "{run:X?} {tape:X?}");
            if found.is_some() {
                refused += 1;
                continue;
            }
            *taken.entry((run.stage(), run.why())).or_insert(0) += 1;
            handed_on(&mut dice, run, &tape, fields.len());
        }
    }
    // Due, failed by a check or by an error code, at seven stages; done; differs.
    assert_eq!(taken.len(), 3 * 7 + 2, "{taken:?}");
    assert!(taken.values().all(|&number| number > 100), "{taken:?}");
    assert!(refused > 20_000, "{refused}");
}

/// A number of any bits is a run by chance alone.
#[test]
fn any_bits() {
    let mut dice = Dice::new(61_000);
    let fields = some_fields(&mut dice, 3);
    let tape = label_tape(some_codes(&mut dice), &fields);
    for _ in 0..200_000 {
        let run = Run(dice.number());
        let found = refusal(&mut dice, run, &tape, REQUEST_BUFFER);
        assert_eq!(found.is_none(), is_run(run, &fields), "{run:X?}");
    }
}

/// The reply by which a run fails so, made from the one that was wanted.
fn failing(run: Run, wanted: Vec<u8>) -> Vec<u8> {
    let number = run.why_number();
    match (run.why(), number) {
        (WHY_ERROR, code) => sealed(vec![wanted[0], 0x50, code]),
        (WHY_DIFFERS, _) => resealed(wanted, |bytes| bytes[5] ^= 1),
        (WHY_JUDGEMENT, 1) => vec![],
        (WHY_JUDGEMENT, 2) => [&wanted[..wanted.len() - 1], &[!wanted[wanted.len() - 1]]].concat(),
        (WHY_JUDGEMENT, 3) => resealed(wanted, |bytes| bytes[0] = 0x60),
        (WHY_JUDGEMENT, 4) => resealed(wanted, |bytes| bytes[1] ^= 1),
        (WHY_JUDGEMENT, 5) => resealed(wanted, |bytes| bytes.push(0)),
        (WHY_JUDGEMENT, 6) => resealed(wanted, |bytes| bytes[2] ^= 1),
        other => panic!("{other:?} is not how a run fails"),
    }
}

/// Leads both programmers by replies to where a run stands.
fn led_to(dice: &mut Dice, run: Run, tape: &[u8]) -> Run {
    let address = u32::from(run.address());
    let mut both = Programmers::start(address, tape).expect("a good tape");
    let mut board = Foreign::new(run.present());
    let place = (run.stage(), run.field());
    while (both.run.stage(), both.run.field()) != place {
        let request = both.request(dice).expect("not over");
        let reply = board.reply(dice, &request, run.status());
        both.heard(&reply);
    }
    if run.has_failed() {
        let request = both.request(dice).expect("not over");
        let wanted = board.reply(dice, &request, run.status());
        both.heard(&failing(run, wanted));
    }
    both.run
}

/// Every number that is taken is one that replies lead to, bit for bit, but for checks that no reply makes fail: B0, and B6 of a 4Eh, which returns no number.
#[test]
fn taken_numbers_are_reached() {
    let mut reached = BTreeMap::new();
    for seed in 62_000..62_200 {
        let mut dice = Dice::new(seed);
        let number = dice.below(5);
        let fields = some_fields(&mut dice, number);
        let tape = label_tape(some_codes(&mut dice), &fields);
        for _ in 0..200 {
            let run = some_number(&mut dice);
            let unreached = match (run.stage(), run.why(), run.why_number()) {
                (_, WHY_JUDGEMENT, 0) | (COUNT, WHY_JUDGEMENT, 6) => true,
                _ => !is_run(run, &fields),
            };
            if !unreached {
                assert_eq!(led_to(&mut dice, run, &tape), run, "{tape:X?}");
                *reached.entry((run.stage(), run.why())).or_insert(0) += 1;
            }
        }
    }
    assert_eq!(reached.len(), 3 * 7 + 2, "{reached:?}");
    assert!(reached.values().all(|&number| number > 20), "{reached:?}");
}
