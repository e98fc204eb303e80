//! The handheld programmer: gives a board the fields of a wish, one request after another.
//!
//! It stands "above the bench side and the board's published meaning" (02, Req 04): the bench writes
//! its requests and judges their replies, and of the board it knows no more than the status byte.

use crate::status::Status;
use crate::wish::WantedField;
use crate::{data_part, judge, write_request, Refusal, Verdict, Wish, REQUEST_ROOM};

const READ_DATA: u8 = 0x4A;
const STORE_DATA: u8 = 0x4B;
const FIELD_STATUS: u8 = 0x4C;
const CREATE_FIELD: u8 = 0x4D;
const MEMORY_STATUS: u8 = 0x4E;

/// How a run ends: "in done, or in the first failed request and why" (02, Req 04).
#[derive(Clone, Debug, PartialEq, Eq)]
pub enum Ended {
    Done,
    /// Nothing is sent after the failed request, and nothing is undone.
    Failed {
        request: Vec<u8>,
        why: Why,
    },
}

/// Why a request failed, in the order of 02's refusals.
#[derive(Clone, Copy, Debug, PartialEq, Eq)]
pub enum Why {
    /// "A failed judgement": the number of B0 to B6. Silence is B1.
    Judgement(u8),
    /// "An error code", with or without warning.
    Code(u8),
    /// "Read-back differs."
    Differs,
}

/// A request of the run, with the number of its field. Fields present go "from last to first", each
/// read before it is deleted. Wanted ones are finished one by one in number order: 02 leaves it open
/// whether all are created first.
#[derive(Clone, Copy, Debug, PartialEq, Eq)]
enum Step {
    /// 4Eh: how many fields are present.
    Count,
    /// 4Ch.
    ReadStatus { field: u8 },
    /// 4Dh by the status that was read, whatever it is.
    Delete { field: u8, status: Status },
    /// 4Dh, write-enabled in any case.
    Create { field: u8 },
    /// 4Bh: no field has more than 128 bytes, so that each is stored in one part.
    Store { field: u8 },
    /// 4Ah of all that was stored.
    ReadBack { field: u8 },
    /// 4Dh by the wanted status: "read-only fields are created write-enabled and locked afterwards".
    Lock { field: u8 },
}

/// How far the run is.
#[derive(Clone, Debug, PartialEq, Eq)]
enum Run {
    Due(Step),
    Over(Ended),
}

/// One run of the programmer. The caller sends what `next` gives and tells by `heard` what came.
#[derive(Clone, Debug, PartialEq, Eq)]
pub struct Programmer {
    address: u32,
    wish: Wish,
    run: Run,
    /// How many fields the board said it has; 0 until then.
    present: u8,
    /// How many requests were answered well.
    answered: u32,
}

impl Programmer {
    /// A run for the board of this address, 0 to 31 or broadcast; another one is R5.
    pub fn new(address: u32, wish: Wish) -> Result<Programmer, Refusal> {
        // The bench knows the addresses it can write to.
        write_request(address, MEMORY_STATUS, &[], &mut [0; REQUEST_ROOM])?;
        Ok(Programmer {
            address,
            wish,
            run: Run::Due(Step::Count),
            present: 0,
            answered: 0,
        })
    }

    /// The whole request that is due now; none when the run is over.
    pub fn next(&self) -> Option<Vec<u8>> {
        match self.run {
            Run::Due(step) => Some(self.request(step)),
            Run::Over(_) => None,
        }
    }

    /// Takes the reply to the request that was due, empty for silence. After the end it changes
    /// nothing.
    pub fn heard(&mut self, reply: &[u8]) {
        let Run::Due(step) = self.run else {
            return;
        };
        let request = self.request(step);
        let followed = accepted(&request, reply).and_then(|data| self.follow(step, data));
        self.run = match followed {
            Ok(Some(step)) => Run::Due(step),
            Ok(None) => Run::Over(Ended::Done),
            Err(why) => Run::Over(Ended::Failed { request, why }),
        };
    }

    /// How the run ended, if it has.
    pub fn ended(&self) -> Option<Ended> {
        match &self.run {
            Run::Due(_) => None,
            Run::Over(ended) => Some(ended.clone()),
        }
    }

    /// Requests answered so far, and requests in all. As long as the board has not said how many
    /// fields it has, none is counted for them; a request that failed is not answered.
    pub fn progress(&self) -> (u32, u32) {
        let wanted: u32 = self.wish.fields().iter().map(requests_for).sum();
        (self.answered, 1 + 2 * u32::from(self.present) + wanted)
    }

    /// The request of a step, as the bench writes it.
    fn request(&self, step: Step) -> Vec<u8> {
        let (command, data) = self.command(step);
        let mut room = [0; REQUEST_ROOM];
        let length = write_request(self.address, command, &data, &mut room)
            .expect("the bench took the address, and a field of a wish has 16 to 128 bytes");
        room[..length].to_vec()
    }

    /// Command and data of a step.
    fn command(&self, step: Step) -> (u8, Vec<u8>) {
        match step {
            Step::Count => (MEMORY_STATUS, vec![]),
            Step::ReadStatus { field } => (FIELD_STATUS, vec![field]),
            Step::Delete { field, status } => self.change(field, status.deleted()),
            Step::Create { field } => self.change(field, self.wanted_status(field).unlocked()),
            Step::Lock { field } => self.change(field, self.wanted_status(field)),
            Step::Store { field } => {
                let mut data = self.whole_field(field);
                data.extend(self.wanted(field).bytes());
                (STORE_DATA, data)
            }
            Step::ReadBack { field } => (READ_DATA, self.whole_field(field)),
        }
    }

    /// 4Dh of this status, which also names the code: neither deletion nor creation nor lock
    /// changes bits 4 and 5.
    fn change(&self, field: u8, status: Status) -> (u8, Vec<u8>) {
        (CREATE_FIELD, vec![field, status.0, self.code(status)])
    }

    /// Field, offset, count and code of 4Ah and 4Bh for all bytes of a wanted field.
    fn whole_field(&self, field: u8) -> Vec<u8> {
        let count = self.wanted(field).bytes().len() as u8;
        vec![field, 0, count, self.code(self.wanted_status(field))]
    }

    /// The tape's code that a status names. The codes are used and never set: they are in force.
    fn code(&self, status: Status) -> u8 {
        self.wish.codes()[status.code_number()]
    }

    fn wanted(&self, field: u8) -> &WantedField {
        &self.wish.fields()[usize::from(field)]
    }

    fn wanted_status(&self, field: u8) -> Status {
        Status(self.wanted(field).status())
    }

    /// The step after a good reply with these data, none when all is done; or why it failed after
    /// all. The bench has judged that the data have the command's length.
    fn follow(&mut self, step: Step, data: &[u8]) -> Result<Option<Step>, Why> {
        if let Step::ReadBack { field } = step {
            if data[3..] != *self.wanted(field).bytes() {
                return Err(Why::Differs);
            }
        }
        self.answered += 1;
        Ok(match step {
            Step::Count => {
                self.present = data[1];
                self.delete_below(self.present)
            }
            Step::ReadStatus { field } => {
                let status = Status(data[1]);
                Some(Step::Delete { field, status })
            }
            Step::Delete { field, .. } => self.delete_below(field),
            Step::Create { field } => Some(Step::Store { field }),
            Step::Store { field } => Some(Step::ReadBack { field }),
            Step::ReadBack { field } if must_be_locked(self.wanted(field)) => {
                Some(Step::Lock { field })
            }
            Step::ReadBack { field } | Step::Lock { field } => self.create(usize::from(field) + 1),
        })
    }

    /// The next field to delete when those from this number on are gone; the first to create when
    /// all are.
    fn delete_below(&self, number: u8) -> Option<Step> {
        match number.checked_sub(1) {
            Some(field) => Some(Step::ReadStatus { field }),
            None => self.create(0),
        }
    }

    /// The creation of a wanted field; none if the wish has no such field.
    fn create(&self, number: usize) -> Option<Step> {
        if number == self.wish.fields().len() {
            return None;
        }
        // A wish has at most 256 fields.
        let field = number as u8;
        Some(Step::Create { field })
    }
}

/// The data of a reply with which the run goes on: "a warning does not stop the run" (02, Req 04).
fn accepted<'r>(request: &[u8], reply: &'r [u8]) -> Result<&'r [u8], Why> {
    match judge(request, reply) {
        Ok(Verdict::Done | Verdict::DoneWithWarning) => Ok(data_part(request, reply)),
        Ok(Verdict::Error(code) | Verdict::ErrorWithWarning(code)) => Err(Why::Code(code)),
        Err(refusal) => Err(Why::Judgement(judgement_number(refusal))),
    }
}

/// The number of a judge's refusal.
fn judgement_number(refusal: Refusal) -> u8 {
    match refusal {
        Refusal::B0 => 0,
        Refusal::B1 => 1,
        Refusal::B2 => 2,
        Refusal::B3 => 3,
        Refusal::B4 => 4,
        Refusal::B5 => 5,
        Refusal::B6 => 6,
        _ => unreachable!("judging refuses by B0 to B6"),
    }
}

/// Create, store and read back; a read-only field is locked as well.
fn requests_for(wanted: &WantedField) -> u32 {
    if must_be_locked(wanted) {
        4
    } else {
        3
    }
}

fn must_be_locked(wanted: &WantedField) -> bool {
    !Status(wanted.status()).writable()
}
