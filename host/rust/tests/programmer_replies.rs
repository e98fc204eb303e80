//! The handheld programmer beside the second one on boards of other makers, which answer nonsense now and then: the runs are alike, and each ends.

mod rig;

use std::collections::{BTreeMap, BTreeSet};

use quicksetter_host::dice::Dice;
use quicksetter_host::programmer::{
    Run, COUNT, DONE, LOOK, READ, REMOVE, WHY_DIFFERS, WHY_ERROR, WHY_JUDGEMENT,
};
use rig::foreign::{Foreign, Nonsense, NONSENSE};
use rig::label::{label_tape, most_fields, some_codes, some_fields, MOST_FIELDS};
use rig::programmers::{Programmers, STAGES};
use rig::sealed;

const MOST_PRESENT: usize = 255;

/// When a board answers nonsense: once in so many times, at a certain request of a stage, or never.
#[derive(Clone, Copy)]
enum Mood {
    OnceIn(usize),
    At { stage: u8, field: u8 },
    Never,
}

/// How runs ended (stage, why, number of a judgement), and which nonsense came to the requests of which stage.
#[derive(Default)]
struct Seen {
    runs: usize,
    ends: BTreeMap<(u8, u8, u8), usize>,
    nonsense: BTreeMap<Nonsense, usize>,
    error_codes: BTreeSet<u8>,
    longest: usize,
}

impl Seen {
    fn count_end(&mut self, run: Run, replies: usize) {
        let (why, number) = (run.why(), run.why_number());
        if why == WHY_ERROR {
            self.error_codes.insert(number);
        }
        let number = if why == WHY_JUDGEMENT { number } else { 0 };
        let end = (run.stage(), why, number);
        *self.ends.entry(end).or_default() += 1;
        self.runs += 1;
        self.longest = self.longest.max(replies);
    }

    /// Each of these ends came up more than so many times.
    fn came_up(&self, times: usize, ends: &[(u8, u8, u8)]) {
        for end in ends {
            let number = self.ends.get(end).copied().unwrap_or(0);
            assert!(number > times, "{end:?}: {number} times in {:?}", self.ends);
        }
    }
}

/// A board of another maker and its mood.
struct Maker {
    board: Foreign,
    mood: Mood,
}

impl Maker {
    fn new(present: u8, mood: Mood) -> Maker {
        let board = Foreign::new(present);
        Maker { board, mood }
    }

    /// One reply: nonsense if the board is in the mood for it, else the one that is wanted.
    fn reply(&mut self, dice: &mut Dice, run: Run, request: &[u8], seen: &mut Seen) -> Vec<u8> {
        let now = match self.mood {
            Mood::OnceIn(times) => dice.once_in(times),
            Mood::At { stage, field } => (stage, field) == (run.stage(), run.field()),
            Mood::Never => false,
        };
        if now {
            let kind = dice.one_of(&NONSENSE);
            if let Some(reply) = self.board.nonsense(dice, request, kind) {
                *seen.nonsense.entry(kind).or_default() += 1;
                return reply;
            }
        }
        let status = dice.byte();
        self.board.reply(dice, request, status)
    }
}

fn some_tape(dice: &mut Dice, fields: usize) -> Vec<u8> {
    let fields = some_fields(dice, fields);
    label_tape(some_codes(dice), &fields)
}

/// One run to its end, within the replies that reading 4.10 leaves it on a tape of so many fields.
fn run(dice: &mut Dice, tape: &[u8], fields: usize, mut maker: Maker, seen: &mut Seen) {
    let address = dice.one_of(&[0, 1, 30, 31, 255, 255]);
    let mut both = Programmers::start(address, tape).expect("a good tape");
    while let Some(request) = both.request(dice) {
        assert!(both.replies < 1 + 2 * MOST_PRESENT + 4 * fields);
        let reply = maker.reply(dice, both.run, &request, seen);
        both.heard(&reply);
    }
    assert!(both.is_over() && (both.run.is_done() != both.run.has_failed()));
    both.stays_over(dice);
    seen.count_end(both.run, both.replies);
}

/// Few fields, so that every request of a run comes up, and nonsense at each of them.
#[test]
fn nonsense_at_every_stage() {
    let mut seen = Seen::default();
    for seed in 20_000..32_000 {
        let mut dice = Dice::new(seed);
        let fields = dice.below(4);
        let tape = some_tape(&mut dice, fields);
        let stage = dice.one_of(&STAGES);
        let field = dice.below(if stage == COUNT { 1 } else { 3 }) as u8;
        let mood = match dice.below(5) {
            0 => Mood::OnceIn(dice.one_of(&[1, 2, 10])),
            _ => Mood::At { stage, field },
        };
        let maker = Maker::new(dice.below(4) as u8, mood);
        run(&mut dice, &tape, fields, maker, &mut seen);
    }
    every_end_came_up(&seen);
    let often = seen.nonsense.values().filter(|&&number| number > 20);
    assert_eq!(often.count(), NONSENSE.len(), "{:?}", seen.nonsense);
    assert!(seen.error_codes.len() > 200, "{:X?}", seen.error_codes);
}

/// Done; at each stage B1 to B5, B6 where the command returns a number, and an error code; and what was read back differs.
fn every_end_came_up(seen: &Seen) {
    seen.came_up(500, &[(DONE, 0, 0)]);
    for stage in STAGES {
        let checks = if stage == COUNT { 1..=5 } else { 1..=6 };
        let judged: Vec<_> = checks.map(|check| (stage, WHY_JUDGEMENT, check)).collect();
        seen.came_up(5, &judged);
        seen.came_up(20, &[(stage, WHY_ERROR, 0)]);
    }
    seen.came_up(20, &[(READ, WHY_DIFFERS, 0)]);
    // No request is other than the bench writes it, and a 4Eh returns nothing that was sent.
    assert_eq!(seen.ends.len(), 1 + 7 * 7 - 1 + 1, "{:?}", seen.ends);
}

/// Boards that say they have up to 255 fields, tapes with up to 256.
#[test]
fn long_runs() {
    let mut seen = Seen::default();
    for seed in 40_000..40_300 {
        let mut dice = Dice::new(seed);
        let most = if dice.once_in(10) { 60 } else { 8 };
        let fields = dice.below(most);
        let tape = some_tape(&mut dice, fields);
        let mood = dice.one_of(&[Mood::Never, Mood::OnceIn(50), Mood::OnceIn(500)]);
        let any = dice.byte();
        let maker = Maker::new(dice.one_of(&[any, 0, 1, 254, 255]), mood);
        run(&mut dice, &tape, fields, maker, &mut seen);
    }
    for seed in 40_300..40_303 {
        let mut dice = Dice::new(seed);
        let tape = label_tape(some_codes(&mut dice), &most_fields(&mut dice));
        let maker = Maker::new(255, Mood::Never);
        run(&mut dice, &tape, MOST_FIELDS, maker, &mut seen);
    }
    seen.came_up(100, &[(DONE, 0, 0)]);
    let failed_at = |stage| seen.ends.keys().any(|end| end.0 == stage);
    assert!([COUNT, LOOK, REMOVE].into_iter().all(failed_at));
    assert!(seen.longest > 1 + 2 * MOST_PRESENT + 3 * MOST_FIELDS);
}

/// Every byte of a reply damaged, first as the line does it and then with its checksum made right: the first is seen by the checksum, and what was read back is
/// compared to the last bit.
fn damaged(dice: &mut Dice, both: &Programmers, reply: &[u8], seen: &mut Seen) {
    for place in 0..reply.len() {
        let any = 1 + dice.byte() % 255;
        for wrong in (0..8).map(|bit| 1 << bit).chain([any, 0xFF]) {
            let mut bytes = reply.to_vec();
            bytes[place] ^= wrong;
            let mut on_the_line = both.clone();
            on_the_line.heard(&bytes);
            let found = (on_the_line.run.why(), on_the_line.run.why_number());
            assert_eq!(found, (WHY_JUDGEMENT, 2), "{reply:X?} {bytes:X?}");
            let mut resealed = both.clone();
            resealed.heard(&sealed(bytes[..reply.len() - 1].to_vec()));
            let is_read_back = both.run.stage() == READ && (5..reply.len() - 1).contains(&place);
            let differs = resealed.run.why() == WHY_DIFFERS;
            assert_eq!(differs, is_read_back, "{reply:X?} {bytes:X?}");
            seen.count_end(resealed.run, resealed.replies);
        }
    }
}

/// One field of each size present and wanted, and each reply of its run damaged at every place.
#[test]
fn damage_at_every_place() {
    let mut dice = Dice::new(41_000);
    let mut seen = Seen::default();
    for status in 0x80..=0x87 {
        let size = 16 * (usize::from(status & 7) + 1);
        let tape = label_tape(some_codes(&mut dice), &[(status, dice.bytes(size))]);
        for address in [9, 255] {
            let mut board = Foreign::new(1);
            let mut both = Programmers::start(address, &tape).expect("a good tape");
            while let Some(request) = both.request(&mut dice) {
                let reply = board.reply(&mut dice, &request, status);
                damaged(&mut dice, &both, &reply, &mut seen);
                both.heard(&reply);
            }
            assert!(both.run.is_done() && both.replies == 7);
        }
    }
    seen.came_up(5000, &[(READ, WHY_DIFFERS, 0)]);
    let of_address_and_command =
        STAGES.map(|stage| [3, 4].map(|check| (stage, WHY_JUDGEMENT, check)));
    seen.came_up(10, &of_address_and_command.concat());
}
