//! The entry points of host/programmer.h as safe functions on slices, and a run taken apart.

/// The least buffer for a request, and the address number of a line with one board on it (host/programmer.h).
pub const REQUEST_BUFFER: usize = 135;
pub const BROADCAST: u32 = 255;

/// Stages of a run: the request that is due, or that failed.
pub const COUNT: u8 = 1;
pub const LOOK: u8 = 2;
pub const REMOVE: u8 = 3;
pub const CREATE: u8 = 4;
pub const STORE: u8 = 5;
pub const READ: u8 = 6;
pub const LOCK: u8 = 7;
pub const DONE: u8 = 8;

/// Why a run failed; 0 while nothing did.
pub const WHY_JUDGEMENT: u8 = 1;
pub const WHY_ERROR: u8 = 2;
pub const WHY_DIFFERS: u8 = 3;

/// Bit 31 of a result: a refusal, whose number is in the bits below it.
const REFUSED: u32 = 0x8000_0000;

extern "C" {
    fn qp_check(tape: *const u8, tape_length: u64) -> u64;
    fn qp_start(address: u32, tape: *const u8, tape_length: u64) -> u64;
    fn qp_next(
        run: u64,
        tape: *const u8,
        tape_length: u64,
        buffer: *mut u8,
        buffer_length: u64,
    ) -> u64;
    fn qp_heard(
        run: u64,
        tape: *const u8,
        tape_length: u64,
        reply: *const u8,
        reply_length: u64,
    ) -> u64;
    fn qp_progress(run: u64, tape: *const u8, tape_length: u64) -> u64;
}

/// Why a call was refused, in the order of the refusals. The number is the place of the record's length.
#[derive(Clone, Copy, Debug, PartialEq, Eq, PartialOrd, Ord)]
pub enum Refused {
    BadRecord(usize),
    WrongSize(usize),
    NoRun,
    R4,
    R5,
}

/// The number itself, or the refusal that it says; a refusal of another form is an error of the library.
fn taken(number: u64) -> Result<u64, Refused> {
    let place = (number >> 32) as usize;
    let low = number as u32;
    if low & REFUSED == 0 {
        return Ok(number);
    }
    Err(match (low - REFUSED, place) {
        (1, _) => Refused::BadRecord(place),
        (2, _) => Refused::WrongSize(place),
        (3, 0) => Refused::NoRun,
        (4, 0) => Refused::R4,
        (5, 0) => Refused::R5,
        _ => panic!("{number:X} is no refusal"),
    })
}

/// A run as the host keeps it between two calls.
#[derive(Clone, Copy, Debug, PartialEq, Eq)]
pub struct Run(pub u64);

impl Run {
    /// The run of these parts, which no run need have; the parts stand in the order of their places.
    pub fn of(parts: [u8; 7]) -> Run {
        let [stage, field, status, why, why_number, present, address] = parts;
        Run(u64::from_le_bytes([
            stage, field, status, why, why_number, present, address, 0,
        ]))
    }

    fn part(self, place: usize) -> u8 {
        self.0.to_le_bytes()[place]
    }

    pub fn stage(self) -> u8 {
        self.part(0)
    }

    pub fn field(self) -> u8 {
        self.part(1)
    }

    pub fn status(self) -> u8 {
        self.part(2)
    }

    pub fn why(self) -> u8 {
        self.part(3)
    }

    pub fn why_number(self) -> u8 {
        self.part(4)
    }

    pub fn present(self) -> u8 {
        self.part(5)
    }

    pub fn address(self) -> u8 {
        self.part(6)
    }

    pub fn is_done(self) -> bool {
        self.stage() == DONE
    }

    pub fn has_failed(self) -> bool {
        self.why() != 0
    }
}

/// Whether a tape is good.
pub fn check(tape: &[u8]) -> Result<(), Refused> {
    // SAFETY: the slice is valid for its length and only read.
    match taken(unsafe { qp_check(tape.as_ptr(), tape.len() as u64) })? {
        0 => Ok(()),
        number => panic!("{number:X} of a good tape"),
    }
}

/// The run at its first request.
pub fn start(address: u32, tape: &[u8]) -> Result<Run, Refused> {
    // SAFETY: the slice is valid for its length and only read.
    taken(unsafe { qp_start(address, tape.as_ptr(), tape.len() as u64) }).map(Run)
}

/// The length of the request that is due, at the front of the buffer; 0 when the run is over.
pub fn next(run: Run, tape: &[u8], buffer: &mut [u8]) -> Result<usize, Refused> {
    // SAFETY: both slices are valid for their lengths, and the one that is written is exclusive.
    let number = unsafe {
        qp_next(
            run.0,
            tape.as_ptr(),
            tape.len() as u64,
            buffer.as_mut_ptr(),
            buffer.len() as u64,
        )
    };
    taken(number).map(|length| length as usize)
}

/// The run after this reply.
pub fn heard(run: Run, tape: &[u8], reply: &[u8]) -> Result<Run, Refused> {
    // SAFETY: both slices are valid for their lengths and only read.
    let number = unsafe {
        qp_heard(
            run.0,
            tape.as_ptr(),
            tape.len() as u64,
            reply.as_ptr(),
            reply.len() as u64,
        )
    };
    taken(number).map(Run)
}

/// Requests answered as wanted, and requests in all.
pub fn progress(run: Run, tape: &[u8]) -> Result<(u32, u32), Refused> {
    // SAFETY: the slice is valid for its length and only read.
    let number = taken(unsafe { qp_progress(run.0, tape.as_ptr(), tape.len() as u64) })?;
    Ok(((number >> 32) as u32, number as u32))
}
