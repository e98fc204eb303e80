//! The C entry points of host/quicksetter.h as safe functions on slices, and the image as the second program's plate and state.

pub mod dice;
pub mod programmer;

use second::{Heard, Label, Plate, Refusal, Remaining, State, Verdict, LABEL_LENGTH};

/// Length of the image, and the places of its parts (host/quicksetter.h).
pub const IMAGE_LENGTH: usize = 212;
pub const LAYOUT_NUMBER: u8 = 2;
pub const PLATE: usize = 1;
pub const PLATE_ADDRESS: usize = 3;
pub const LABEL: usize = 6;
pub const LASTING: usize = 47;
pub const CODES: usize = 47;
pub const COUNTER: usize = 51;
pub const ADDRESS: usize = 54;
pub const OFFSET: usize = 55;
pub const MEASURED: usize = 59;
pub const WAITING: usize = 63;
pub const LOCKED: usize = 67;
pub const OPEN: usize = 68;
pub const LONGER: usize = 69;
pub const PARITY: usize = 70;
pub const LAST: usize = 71;
pub const SUM: usize = 75;
pub const KEPT_NUMBER: usize = 76;
pub const KEPT: usize = 77;

/// The bytes of the image that must last.
pub const LASTING_LENGTH: usize = MEASURED - LASTING;

extern "C" {
    fn qs_fresh(
        total: u32,
        bits: u32,
        address: u32,
        ticks: u32,
        pause: u32,
        label: *const u8,
        label_length: u64,
        image: *mut u8,
        image_length: u64,
    ) -> u64;
    fn qs_restart(
        total: u32,
        bits: u32,
        address: u32,
        ticks: u32,
        pause: u32,
        label: *const u8,
        label_length: u64,
        lasting: *const u8,
        lasting_length: u64,
        image: *mut u8,
        image_length: u64,
    ) -> u64;
    fn qs_character(
        image: *mut u8,
        image_length: u64,
        tick: u32,
        value: u8,
        parity: u8,
        memory: *mut u8,
        memory_length: u64,
        room: *mut u8,
        room_length: u64,
    ) -> u64;
    fn qs_poll(
        image: *mut u8,
        image_length: u64,
        tick: u32,
        memory: *mut u8,
        memory_length: u64,
        room: *mut u8,
        room_length: u64,
    ) -> u64;
    fn qs_measured(image: *mut u8, image_length: u64, position: u32) -> u64;
    fn qs_fault(image: *mut u8, image_length: u64, code: u8) -> u64;
    fn qs_power_on(image: *mut u8, image_length: u64) -> u64;
    fn qs_request(
        address: u32,
        command: u8,
        data: *const u8,
        data_length: u64,
        buffer: *mut u8,
        buffer_length: u64,
    ) -> u64;
    fn qs_judge(
        request: *const u8,
        request_length: u64,
        reply: *const u8,
        reply_length: u64,
    ) -> u32;
    fn qs_data_part(
        request: *const u8,
        request_length: u64,
        reply: *const u8,
        reply_length: u64,
    ) -> u64;
    fn qs_reply_length(
        request: *const u8,
        request_length: u64,
        reply: *const u8,
        reply_length: u64,
    ) -> u64;
}

/// A length, or the refusal that the number says; every other number is an error of the library.
fn result_of(number: u64) -> Result<usize, Refusal> {
    match number {
        0..=255 => Ok(number as usize),
        257 => Err(Refusal::R1),
        258 => Err(Refusal::R2),
        259 => Err(Refusal::R3),
        260 => Err(Refusal::R4),
        261 => Err(Refusal::R5),
        _ => panic!("{number} is no length and no refusal"),
    }
}

/// What a call tells: the reply's length, and that of a character and a poll how long the host may sleep.
#[derive(Clone, Copy, Debug, PartialEq, Eq)]
pub struct Told {
    pub reply: usize,
    pub sleep: Option<Remaining>,
}

impl Told {
    /// No reply, of a call that tells no sleep.
    pub const NOTHING: Told = Told {
        reply: 0,
        sleep: None,
    };
}

impl From<Heard> for Told {
    fn from(heard: Heard) -> Told {
        Told {
            reply: heard.reply,
            sleep: Some(heard.remaining),
        }
    }
}

/// QS_NO_FRAME_OPEN, QS_SLEEP_REFUSED and QS_LONGEST_SLEEP of host/quicksetter.h.
const NO_FRAME_OPEN: u32 = u32::MAX;
const SLEEP_REFUSED: u32 = u32::MAX - 1;
const LONGEST_SLEEP: u32 = 55 * 64;

/// The two numbers of a character and a poll; any other number is an error of the library.
fn told_of(number: u64) -> Result<Told, Refusal> {
    let sleep = (number >> 32) as u32;
    let reply = match result_of(number & 0xFFFF_FFFF) {
        Err(refusal) if sleep == SLEEP_REFUSED => return Err(refusal),
        Err(refusal) => panic!("{refusal:?} with a sleep of {sleep}"),
        Ok(reply) => reply,
    };
    let remaining = match sleep {
        NO_FRAME_OPEN => Remaining::NoFrameOpen,
        1..=LONGEST_SLEEP => Remaining::Ticks(sleep),
        _ => panic!("{sleep} is no sleep"),
    };
    Ok(Told {
        reply,
        sleep: Some(remaining),
    })
}

/// A call that tells no sleep, and has no reply.
fn untold(number: u64) -> Result<Told, Refusal> {
    result_of(number).map(|reply| Told { reply, sleep: None })
}

/// One call of the board as the host makes it.
#[derive(Clone, Copy, Debug, PartialEq, Eq)]
pub enum Call {
    Character { tick: u32, value: u8, parity: u8 },
    Poll { tick: u32 },
    Measured(u32),
    Fault(u8),
    PowerOn,
}

/// The plate's label as it crosses to C.
pub fn label_of(p: &Plate) -> [u8; LABEL_LENGTH] {
    let mut bytes = [0; LABEL_LENGTH];
    let (type_label, version) = bytes.split_at_mut(p.label.type_label().len());
    type_label.copy_from_slice(p.label.type_label());
    version.copy_from_slice(p.label.version());
    bytes
}

/// A fresh image by the library. The label comes by itself, so that one of a wrong length can be tried; the plate's own is not looked at.
pub fn fresh(p: &Plate, label: &[u8], image: &mut [u8]) -> Result<usize, Refusal> {
    // SAFETY: both slices are valid for their lengths, and the one that is written is exclusive.
    result_of(unsafe {
        qs_fresh(
            p.total_blocks,
            p.position_bits,
            p.address,
            p.ticks_per_bit,
            p.pause,
            label.as_ptr(),
            label.len() as u64,
            image.as_mut_ptr(),
            image.len() as u64,
        )
    })
}

/// An image by the library, from the bytes that lasted; the label as for a fresh one.
pub fn restart(
    p: &Plate,
    label: &[u8],
    lasting: &[u8],
    image: &mut [u8],
) -> Result<usize, Refusal> {
    // SAFETY: the three slices are valid for their lengths, and the one that is written is exclusive.
    result_of(unsafe {
        qs_restart(
            p.total_blocks,
            p.position_bits,
            p.address,
            p.ticks_per_bit,
            p.pause,
            label.as_ptr(),
            label.len() as u64,
            lasting.as_ptr(),
            lasting.len() as u64,
            image.as_mut_ptr(),
            image.len() as u64,
        )
    })
}

/// A call on the library.
pub fn call(
    call: Call,
    image: &mut [u8],
    memory: &mut [u8],
    room: &mut [u8],
) -> Result<Told, Refusal> {
    let (i, il) = (image.as_mut_ptr(), image.len() as u64);
    let (m, ml) = (memory.as_mut_ptr(), memory.len() as u64);
    let (r, rl) = (room.as_mut_ptr(), room.len() as u64);
    // SAFETY: three exclusive slices, each valid for its length, so they neither overlap nor are null.
    unsafe {
        match call {
            Call::Character {
                tick,
                value,
                parity,
            } => told_of(qs_character(i, il, tick, value, parity, m, ml, r, rl)),
            Call::Poll { tick } => told_of(qs_poll(i, il, tick, m, ml, r, rl)),
            Call::Measured(position) => untold(qs_measured(i, il, position)),
            Call::Fault(code) => untold(qs_fault(i, il, code)),
            Call::PowerOn => untold(qs_power_on(i, il)),
        }
    }
}

/// The same call on the second program.
pub fn call_second(
    call: Call,
    p: &Plate,
    state: &mut State,
    memory: &mut [u8],
    room: &mut [u8],
) -> Result<Told, Refusal> {
    call_counted(call, p, state, memory, room).map(|(told, _)| told)
}

/// The same call on the second program, and how many memory cells it wrote (02, Req 05), which the library does not tell.
pub fn call_counted(
    call: Call,
    p: &Plate,
    state: &mut State,
    memory: &mut [u8],
    room: &mut [u8],
) -> Result<(Told, usize), Refusal> {
    let told = |heard: Heard| (Told::from(heard), heard.written);
    let nothing = |()| (Told::NOTHING, 0);
    match call {
        Call::Character {
            tick,
            value,
            parity,
        } => second::character(p, state, tick, value, parity != 0, memory, room).map(told),
        Call::Poll { tick } => second::poll(p, state, tick, memory, room).map(told),
        Call::Measured(position) => second::measured(p, state, position).map(nothing),
        Call::Fault(code) => second::fault(p, state, code).map(nothing),
        Call::PowerOn => second::power_on(p, state).map(nothing),
    }
}

/// A request by the library.
pub fn write_request(
    address: u32,
    command: u8,
    data: &[u8],
    room: &mut [u8],
) -> Result<usize, Refusal> {
    // SAFETY: both slices are valid for their lengths, and the one that is written is exclusive.
    let number = unsafe {
        qs_request(
            address,
            command,
            data.as_ptr(),
            data.len() as u64,
            room.as_mut_ptr(),
            room.len() as u64,
        )
    };
    result_of(number)
}

/// B0 to B6 by their numbers; every other number is an error of the library.
fn bench_refusal(number: u64) -> Refusal {
    match number {
        1024 => Refusal::B0,
        1025 => Refusal::B1,
        1026 => Refusal::B2,
        1027 => Refusal::B3,
        1028 => Refusal::B4,
        1029 => Refusal::B5,
        1030 => Refusal::B6,
        _ => panic!("{number} is no verdict"),
    }
}

/// The library's verdict.
pub fn judge(request: &[u8], reply: &[u8]) -> Result<Verdict, Refusal> {
    // SAFETY: both slices are valid for their lengths and only read.
    let number = unsafe {
        qs_judge(
            request.as_ptr(),
            request.len() as u64,
            reply.as_ptr(),
            reply.len() as u64,
        )
    };
    match number {
        0 => Ok(Verdict::Done),
        1 => Ok(Verdict::DoneWithWarning),
        256..=511 => Ok(Verdict::Error((number - 256) as u8)),
        512..=767 => Ok(Verdict::ErrorWithWarning((number - 512) as u8)),
        _ => Err(bench_refusal(number.into())),
    }
}

/// Place and length of the data part by the library.
pub fn data_part(request: &[u8], reply: &[u8]) -> (usize, usize) {
    // SAFETY: both slices are valid for their lengths and only read.
    let part = unsafe {
        qs_data_part(
            request.as_ptr(),
            request.len() as u64,
            reply.as_ptr(),
            reply.len() as u64,
        )
    };
    ((part >> 32) as usize, (part & 0xFFFF_FFFF) as usize)
}

/// The length of the reply that begins so, by the library: 0 while it is not told.
pub fn reply_length(request: &[u8], begun: &[u8]) -> Result<usize, Refusal> {
    // SAFETY: both slices are valid for their lengths and only read.
    let number = unsafe {
        qs_reply_length(
            request.as_ptr(),
            request.len() as u64,
            begun.as_ptr(),
            begun.len() as u64,
        )
    };
    match number {
        0..=255 => Ok(number as usize),
        _ => Err(bench_refusal(number)),
    }
}

/// The number of these bytes, low byte first.
fn number_of(bytes: &[u8]) -> u32 {
    bytes
        .iter()
        .rev()
        .fold(0, |number, &byte| number << 8 | u32::from(byte))
}

/// The second program's plate of an image, within its limits or not.
fn plate_of(image: &[u8]) -> Plate {
    let number = |place: usize| u32::from(image[PLATE + place]);
    Plate {
        total_blocks: number(0),
        position_bits: number(1),
        address: number(2),
        ticks_per_bit: number(3),
        pause: number(4),
        label: Label::new(&image[LABEL..LASTING]).expect("a label's length"),
    }
}

fn byte(number: u32) -> u8 {
    u8::try_from(number).expect("a number within its limit")
}

/// The head of an image with this plate.
pub fn head_of(p: &Plate) -> Vec<u8> {
    let mut head = vec![
        LAYOUT_NUMBER,
        byte(p.total_blocks),
        byte(p.position_bits),
        byte(p.address),
        byte(p.ticks_per_bit),
        byte(p.pause),
    ];
    head.extend(label_of(p));
    head
}

/// The second program's state of a board that was off, from the bytes that lasted, within their limits or not.
pub fn rested(p: &Plate, lasting: &[u8]) -> State {
    let part = |from: usize, to: usize| &lasting[from - LASTING..to - LASTING];
    let mut state = State::fresh(p);
    state.codes.copy_from_slice(part(CODES, COUNTER));
    state.counter = number_of(part(COUNTER, ADDRESS));
    state.address = number_of(part(ADDRESS, OFFSET));
    state.offset = number_of(part(OFFSET, MEASURED));
    state
}

/// The second program's plate and state of an image; none where its length, its layout number or a flag is beyond its limit, which they cannot say.
pub fn state_of(image: &[u8]) -> Option<(Plate, State)> {
    if image.len() != IMAGE_LENGTH
        || image[0] != LAYOUT_NUMBER
        || image[LOCKED..LAST].iter().any(|&flag| flag > 1)
    {
        return None;
    }
    let plate = plate_of(image);
    let mut state = rested(&plate, &image[LASTING..MEASURED]);
    state.measured = number_of(&image[MEASURED..WAITING]);
    state.waiting.copy_from_slice(&image[WAITING..LOCKED]);
    // A code behind an empty place leaves 00h among the waiting ones, which is beyond the limits.
    state.waiting_number = state
        .waiting
        .iter()
        .rposition(|&code| code != 0)
        .map_or(0, |place| place + 1);
    state.locked = image[LOCKED] == 1;
    state.open = image[OPEN] == 1;
    state.longer = image[LONGER] == 1;
    state.parity = image[PARITY] == 1;
    state.last_stamp = number_of(&image[LAST..SUM]);
    state.xor = image[SUM];
    state.kept_number = usize::from(image[KEPT_NUMBER]);
    state.kept.copy_from_slice(&image[KEPT..]);
    Some((plate, state))
}

/// What the image is to be after a call that was not refused: its head as before, the state's meaning, and the header's rules for places without one.
pub fn image_after(call: Call, before: &[u8], state: &State) -> Vec<u8> {
    let mut image = before.to_vec();
    image[CODES..COUNTER].copy_from_slice(&state.codes);
    image[COUNTER..ADDRESS].copy_from_slice(&state.counter.to_le_bytes()[..ADDRESS - COUNTER]);
    image[ADDRESS] = byte(state.address);
    image[OFFSET..MEASURED].copy_from_slice(&state.offset.to_le_bytes());
    image[MEASURED..WAITING].copy_from_slice(&state.measured.to_le_bytes());
    image[WAITING..LOCKED].fill(0);
    image[WAITING..][..state.waiting_number].copy_from_slice(state.queue());
    image[LOCKED] = u8::from(state.locked);
    if state.open {
        image[OPEN] = 1;
        image[LONGER] = u8::from(state.longer);
        image[PARITY] = u8::from(state.parity);
        image[LAST..SUM].copy_from_slice(&state.last_stamp.to_le_bytes());
        image[SUM] = state.xor;
        image[KEPT_NUMBER] = state.kept_number as u8;
        image[KEPT..][..state.kept_number].copy_from_slice(&state.kept[..state.kept_number]);
    } else if before[OPEN] == 1 || call == Call::PowerOn {
        image[OPEN..KEPT].fill(0);
    }
    image
}
