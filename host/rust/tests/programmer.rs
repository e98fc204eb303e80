//! The handheld programmer beside the second one on boards of the library (02, Req 04): whole runs, request by request, and what a board holds afterwards.

mod rig;

use std::collections::{BTreeMap, BTreeSet};

use quicksetter_host::dice::Dice;
use quicksetter_host::programmer::{Run, COUNT, CREATE, DONE, REMOVE, WHY_ERROR, WHY_JUDGEMENT};
use quicksetter_host::{LOCKED, OPEN, WAITING};
use rig::board::none_refused;
use rig::label::{blocks, blocks_of, is_read_only, slipped_tape, Field, Slip, BLOCK, SLIPS};
use rig::programmers::Programmers;
use rig::shop::Job;

const SILENT: u8 = 1;
const UNSOUND: u8 = 0x03;
const WRONG_CODE: u8 = 0x0F;
const NO_ROOM: u8 = 0x10;

/// The parts of a run that tell its end: stage, field, why and the number of it.
type End = (u8, u8, u8, u8);

fn end_of(run: Run) -> End {
    (run.stage(), run.field(), run.why(), run.why_number())
}

/// How a run is to end by document 02, from what the board has and the tape wants.
fn expected_end(job: &Job) -> End {
    if !job.is_addressed() {
        return (COUNT, 0, WHY_JUDGEMENT, SILENT);
    }
    if !job.sound {
        return (COUNT, 0, WHY_ERROR, UNSOUND);
    }
    for (field, (status, _)) in job.present.iter().enumerate().rev() {
        if !job.has_code(*status) {
            return (REMOVE, field as u8, WHY_ERROR, WRONG_CODE);
        }
    }
    let mut left = job.total();
    for (field, (status, _)) in job.wanted.iter().enumerate() {
        if !job.has_code(*status) {
            return (CREATE, field as u8, WHY_ERROR, WRONG_CODE);
        }
        if blocks(*status) > left {
            return (CREATE, field as u8, WHY_ERROR, NO_ROOM);
        }
        left -= blocks(*status);
    }
    (DONE, 0, 0, 0)
}

/// What memory is to hold after a run with this end: nothing is undone, and nothing else is touched.
fn expected_memory(job: &Job, before: &[u8], end: End) -> Vec<u8> {
    let (stage, field, ..) = end;
    let field = usize::from(field);
    let used = blocks_of(&job.present);
    match stage {
        COUNT => before.to_vec(),
        REMOVE => holding(before, &job.present[..=field], used),
        CREATE => holding(before, &job.wanted[..field], used),
        _ => holding(before, &job.wanted, used),
    }
}

/// A memory with exactly these fields, of which so many blocks were in use before: those that are not any more are 00h, and those that never were keep their
/// bytes.
fn holding(before: &[u8], fields: &[Field], used: usize) -> Vec<u8> {
    let total = before.len() / (BLOCK + 1);
    let mut memory: Vec<u8> = fields.iter().flat_map(|(_, bytes)| bytes.clone()).collect();
    memory.resize(memory.len().max(BLOCK * used), 0);
    memory.extend(&before[memory.len()..BLOCK * total]);
    memory.extend(fields.iter().map(|(status, _)| status));
    memory.resize(before.len(), 0);
    memory
}

/// What came up in the runs.
#[derive(Default)]
struct Seen {
    ends: BTreeMap<(u8, u8, u8), usize>,
    kinds: BTreeMap<&'static str, usize>,
    /// Statuses of fields that were deleted, and of those that were made.
    deleted: BTreeSet<u8>,
    made: BTreeSet<u8>,
    slips: BTreeSet<Slip>,
}

impl Seen {
    fn count(&mut self, job: &Job, end: End) {
        let (stage, _, why, number) = end;
        *self.ends.entry((stage, why, number)).or_default() += 1;
        if stage != DONE {
            return;
        }
        self.deleted.extend(job.present.iter().map(|field| field.0));
        self.made.extend(job.wanted.iter().map(|field| field.0));
        let image = &job.board.image;
        let (used, wanted) = (blocks_of(&job.present), blocks_of(&job.wanted));
        for (kind, is_so) in [
            ("by broadcast", job.address > 31),
            ("a code waits", image[WAITING] != 0),
            ("locked", image[LOCKED] == 1),
            ("nothing present", job.present.is_empty()),
            ("nothing wanted", job.wanted.is_empty()),
            ("all blocks", wanted == job.total()),
            ("fewer blocks than before", wanted < used),
            ("more blocks than before", wanted > used),
            ("a code that nobody asks for is wrong", !job.can_be_done()),
            ("many fields", job.wanted.len() > 50),
            (
                "locks",
                job.wanted.iter().any(|field| is_read_only(field.0)),
            ),
        ] {
            *self.kinds.entry(kind).or_default() += usize::from(is_so);
        }
    }

    /// Each end that our board can bring about came up, and no other; each kind of board, status and slip.
    fn is_whole(&self) {
        for (end, times) in [
            ((DONE, 0, 0), 1500),
            ((COUNT, WHY_JUDGEMENT, SILENT), 100),
            ((COUNT, WHY_ERROR, UNSOUND), 20),
            ((REMOVE, WHY_ERROR, WRONG_CODE), 100),
            ((CREATE, WHY_ERROR, WRONG_CODE), 20),
            ((CREATE, WHY_ERROR, NO_ROOM), 100),
        ] {
            let number = self.ends.get(&end).copied().unwrap_or(0);
            assert!(number > times, "{end:X?} in {:X?}", self.ends);
        }
        assert_eq!(self.ends.len(), 6, "{:X?}", self.ends);
        let seldom = self.kinds.values().any(|&number| number < 20);
        assert!(!seldom, "{:?}", self.kinds);
        assert_eq!((self.deleted.len(), self.made.len()), (128, 128));
        assert_eq!(self.slips.len(), SLIPS.len());
    }
}

/// One run to its end: both programmers send the same to the board, and the board is left as document 02 says.
fn run(dice: &mut Dice, job: &mut Job) -> End {
    let (memory, image) = (job.board.memory.clone(), job.board.image.clone());
    let tape = job.tape.clone();
    let mut both = Programmers::start(job.address, &tape).expect("a good tape");
    while let Some(request) = both.request(dice) {
        let reply = job.board.send(dice, &request);
        both.heard(&reply);
    }
    both.stays_over(dice);
    let end = end_of(both.run);
    assert_eq!(end, expected_end(job), "{tape:X?} on {memory:X?}");
    assert!(end.0 == DONE || !job.can_be_done());
    let expected = expected_memory(job, &memory, end);
    assert_eq!(job.board.memory, expected, "{tape:X?} on {memory:X?}");
    assert_eq!(job.board.image[..OPEN], image[..OPEN]);
    end
}

/// The shop's tape was damaged on the way: nobody starts a run.
fn refused_run(dice: &mut Dice, job: &Job, slip: Slip) {
    let (tape, refused) = slipped_tape(dice, slip);
    let found = Programmers::start(job.address, &tape).err();
    assert_eq!(found, Some(refused), "{slip:?} {tape:X?}");
}

/// Runs on boards that were in use. Done is reached wherever document 02 promises it, and each other end comes up.
#[test]
fn whole_runs() {
    let mut seen = Seen::default();
    for seed in 7000..10_000 {
        let mut dice = Dice::new(seed);
        let mut job = Job::new(&mut dice);
        if dice.once_in(8) {
            let slip = dice.one_of(&SLIPS);
            refused_run(&mut dice, &job, slip);
            seen.slips.insert(slip);
        }
        let end = run(&mut dice, &mut job);
        assert!(none_refused(&job.board.seen));
        seen.count(&job, end);
    }
    seen.is_whole();
}

/// A board that one tape was put onto takes the next one, and the same one again, which leaves it as it was.
#[test]
fn one_tape_after_another() {
    let (mut again, mut others) = (0, 0);
    for seed in 11_000..11_200 {
        let mut dice = Dice::new(seed);
        let mut job = Job::new(&mut dice);
        for _ in 0..3 {
            if run(&mut dice, &mut job).0 != DONE {
                break;
            }
            job.present = job.wanted.clone();
            let held = job.board.memory.clone();
            assert_eq!(run(&mut dice, &mut job).0, DONE);
            assert_eq!(job.board.memory, held);
            again += 1;
            job.next_tape(&mut dice);
            others += 1;
        }
    }
    assert!(again > 200 && others > 200, "{again} {others}");
}

/// A run that was broken off, by a reply that never came or by the host's supply, is made good by a new one.
#[test]
fn broken_runs() {
    let mut broken = BTreeMap::new();
    for seed in 12_000..12_400 {
        let mut dice = Dice::new(seed);
        let mut job = Job::new(&mut dice);
        if !job.can_be_done() {
            continue;
        }
        let tape = job.tape.clone();
        let mut both = Programmers::start(job.address, &tape).expect("a good tape");
        let lost = dice.below(2 * job.present.len() + 3 * job.wanted.len() + 1);
        while both.replies < lost {
            let request = both.request(&mut dice).expect("not over");
            let reply = job.board.send(&mut dice, &request);
            both.heard(&reply);
        }
        let request = both.request(&mut dice).expect("not over");
        if dice.once_in(2) {
            job.board.send(&mut dice, &request);
        }
        both.heard(&[]);
        both.stays_over(&mut dice);
        assert_eq!(
            (both.run.why(), both.run.why_number()),
            (WHY_JUDGEMENT, SILENT)
        );
        *broken.entry(both.run.stage()).or_insert(0) += 1;
        job.look_again();
        assert_eq!(run(&mut dice, &mut job).0, DONE);
    }
    assert!(
        broken.len() == 7 && broken.values().all(|&number| number > 5),
        "{broken:?}"
    );
}
