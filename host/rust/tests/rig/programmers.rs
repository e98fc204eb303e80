//! The library's programmer beside the second one: requests, runs, progress and ends are compared at every step.

use quicksetter_host::dice::Dice;
use quicksetter_host::programmer::{
    check, heard, next, progress, start, Refused, Run, COUNT, CREATE, DONE, LOCK, LOOK, READ,
    REMOVE, REQUEST_BUFFER, STORE, WHY_DIFFERS, WHY_ERROR, WHY_JUDGEMENT,
};
use second::{read_label_tape, Ended, Programmer, TapeFault, Why};

pub const STAGES: [u8; 7] = [COUNT, LOOK, REMOVE, CREATE, STORE, READ, LOCK];

/// Both programmers on one tape.
#[derive(Clone)]
pub struct Programmers<'t> {
    tape: &'t [u8],
    address: u8,
    pub run: Run,
    second: Programmer,
    /// Requests for the wanted fields, and the first one.
    at_least: u32,
    /// The status that the last reply to a 4Ch told.
    told: u8,
    pub replies: usize,
}

impl<'t> Programmers<'t> {
    /// Starts both, or has the refusal of both.
    pub fn start(address: u32, tape: &'t [u8]) -> Result<Programmers<'t>, Refused> {
        let wish = read_label_tape(tape).map_err(|fault| match fault {
            TapeFault::Bad(place) => Refused::BadRecord(place),
            TapeFault::Size(place) => Refused::WrongSize(place),
        });
        assert_eq!(check(tape).err(), wish.as_ref().err().copied(), "{tape:X?}");
        let second = wish.and_then(|wish| {
            Programmer::new(address, wish).map_err(|refusal| {
                assert_eq!(refusal, second::Refusal::R5);
                Refused::R5
            })
        });
        let run = start(address, tape);
        assert_eq!(run.err(), second.as_ref().err().copied(), "{tape:X?}");
        let (run, second) = (run?, second?);
        let both = Programmers {
            tape,
            address: address as u8,
            run,
            at_least: second.progress().1,
            second,
            told: 0,
            replies: 0,
        };
        both.compare(run, &[]);
        Ok(both)
    }

    /// The request that is due, written twice into buffers of any size and content; none when the run is over.
    pub fn request(&self, dice: &mut Dice) -> Option<Vec<u8>> {
        let due = self.second.next();
        let front = due.as_deref().unwrap_or(&[]);
        for size in [REQUEST_BUFFER, REQUEST_BUFFER + dice.below(100)] {
            let mut buffer = dice.bytes(size);
            let mut expected = buffer.clone();
            expected[..front.len()].copy_from_slice(front);
            let length = next(self.run, self.tape, &mut buffer);
            assert_eq!(length, Ok(front.len()), "{:X?} {:X?}", self.run, self.tape);
            assert_eq!(buffer, expected, "{:X?} {:X?}", self.run, self.tape);
        }
        due
    }

    /// The reply is taken by both.
    pub fn heard(&mut self, reply: &[u8]) {
        let before = self.run;
        if let (LOOK, Some(&status)) = (before.stage(), reply.get(3)) {
            self.told = status;
        }
        let after = heard(before, self.tape, reply);
        self.second.heard(reply);
        self.run = after.expect("a run of this tape");
        self.replies += 1;
        self.compare(before, reply);
    }

    fn compare(&self, before: Run, reply: &[u8]) {
        let place = || format!("after {before:X?} {reply:X?} of {:X?}", self.tape);
        assert_eq!(self.run, self.expected(), "run {}", place());
        assert_eq!(
            progress(self.run, self.tape),
            Ok(self.second.progress()),
            "progress {}",
            place()
        );
    }

    /// The run that the header wants where the second programmer stands.
    fn expected(&self) -> Run {
        let present = ((self.second.progress().1 - self.at_least) / 2) as u8;
        let (request, why) = match self.second.ended() {
            None => (self.second.next().expect("a request is due"), None),
            Some(Ended::Failed { request, why }) => (request, Some(why)),
            Some(Ended::Done) => return Run::of([DONE, 0, 0, 0, 0, present, self.address]),
        };
        let (stage, field) = stage_of(&request);
        let status = if stage == REMOVE { self.told } else { 0 };
        let (why, number) = why_of(why);
        Run::of([stage, field, status, why, number, present, self.address])
    }

    pub fn is_over(&self) -> bool {
        self.second.ended().is_some()
    }

    /// The run is over: what comes now changes nothing, and nothing is due.
    pub fn stays_over(&mut self, dice: &mut Dice) {
        let (run, replies) = (self.run, self.replies);
        let length = dice.below(10);
        let late = dice.bytes(length);
        for reply in [&late[..], &[]] {
            assert_eq!(self.request(dice), None);
            self.heard(reply);
            assert_eq!(self.run, run);
        }
        self.replies = replies;
    }
}

/// What a run is refused with, by each of the three calls that take one; the buffer has this size, and is touched only if a request is written.
pub fn refusal(dice: &mut Dice, run: Run, tape: &[u8], size: usize) -> Option<Refused> {
    let before = dice.bytes(size);
    let mut buffer = before.clone();
    let found = next(run, tape, &mut buffer).err();
    assert!(found.is_none() || buffer == before, "{run:X?} {tape:X?}");
    let length = dice.below(8);
    let others = [
        heard(run, tape, &dice.bytes(length)).err(),
        progress(run, tape).err(),
    ];
    let expected = found.filter(|refused| *refused != Refused::R4);
    assert_eq!(others, [expected; 2], "{run:X?} {tape:X?}");
    found
}

/// A request's stage and field. Only a deletion has bit 7 clear, and only a lock has bit 6 clear beside a set bit 7.
fn stage_of(request: &[u8]) -> (u8, u8) {
    let stage = match request[1..] {
        [0x4E, ..] => return (COUNT, 0),
        [0x4C, ..] => LOOK,
        [0x4D, _, 0x00..=0x7F, ..] => REMOVE,
        [0x4D, _, 0x80..=0xBF, ..] => LOCK,
        [0x4D, ..] => CREATE,
        [0x4B, ..] => STORE,
        [0x4A, ..] => READ,
        _ => panic!("{request:X?} is not the programmer's"),
    };
    (stage, request[2])
}

fn why_of(why: Option<Why>) -> (u8, u8) {
    match why {
        None => (0, 0),
        Some(Why::Judgement(number)) => (WHY_JUDGEMENT, number),
        Some(Why::Code(code)) => (WHY_ERROR, code),
        Some(Why::Differs) => (WHY_DIFFERS, 0),
    }
}
