//! A board of the library beside the second program's, call by call, and the plates and calls that are tried on it.

use std::collections::BTreeMap;

use quicksetter_host::dice::Dice;
use quicksetter_host::{
    call, call_counted, fresh, image_after, label_of, state_of, Call, Told, ADDRESS, CODES,
    COUNTER, IMAGE_LENGTH, KEPT, KEPT_NUMBER, OPEN, PLATE_ADDRESS,
};
use second::{Label, Plate, Refusal, Remaining, State, LABEL_LENGTH, REPLY_ROOM};

use super::{frame, sealed, Known, EVERY_BOARD};

/// What comes back of a call, and what becomes of a frame that tells something of the address or deletes.
#[derive(Clone, Copy, Debug, PartialEq, Eq, PartialOrd, Ord)]
pub enum Kind {
    /// A reply with this command byte, its bit 7 taken off. 50h's own reply counts as an error: the wire shows no difference.
    Reply(u8),
    Error(u8),
    /// R1 to R3.
    Refused(usize),
    Silence,
    /// A 55h gave the board another address.
    Moved,
    /// A 55h was answered with this error.
    NotMoved(u8),
    /// A frame to the address that the board had before: silence.
    AtFormerAddress,
    /// A board that has another address than its plate's was asked at it and answered.
    AtNewAddress,
    /// Such a board answered a broadcast.
    MovedByBroadcast,
    /// The host was told to sleep the full pause, part of it, one tick, or until the next character.
    FullPause,
    PartOfPause,
    LastTick,
    NoFrameOpen,
    /// A field was deleted.
    Deleted,
    /// A deletion was answered with this error.
    NotDeleted(u8),
}

pub type Seen = BTreeMap<Kind, usize>;

/// Each of these kinds came up more than so many times.
pub fn came_up(seen: &Seen, times: usize, kinds: &[Kind]) {
    for kind in kinds {
        let number = seen.get(kind).copied().unwrap_or(0);
        assert!(number > times, "{kind:X?}: {number} times in {seen:X?}");
    }
}

pub fn none_refused(seen: &Seen) -> bool {
    !seen.keys().any(|kind| matches!(kind, Kind::Refused(_)))
}

/// A board of the library with its buffers, and what has come back so far.
pub struct Board {
    pub plate: Plate,
    pub image: Vec<u8>,
    pub memory: Vec<u8>,
    pub room: Vec<u8>,
    pub tick: u32,
    pub calls: usize,
    pub seen: Seen,
    /// How many memory cells the second program wrote in the last step; the library changed as many.
    pub written: usize,
    /// The address byte before the last 55h that changed it; the board's own before any.
    former: u8,
}

impl Board {
    pub fn new(dice: &mut Dice, plate: Plate) -> Board {
        let mut image = dice.bytes(IMAGE_LENGTH);
        assert_eq!(fresh(&plate, &label_of(&plate), &mut image), Ok(0));
        assert_eq!(
            state_of(&image).map(|(held, state)| (held, state.meaning())),
            Some((plate, State::fresh(&plate)))
        );
        assert!(image[KEPT..].iter().all(|&byte| byte == 0));
        Board {
            plate,
            former: 0x40 + image[ADDRESS],
            image,
            memory: vec![0; plate.memory_length()],
            room: dice.bytes(REPLY_ROOM),
            tick: dice.word(),
            calls: 0,
            seen: Seen::new(),
            written: 0,
        }
    }

    /// The byte of the address in force.
    pub fn address_byte(&self) -> u8 {
        0x40 + self.image[ADDRESS]
    }

    /// One call on the library and on the second program; everything that comes back and is left is compared. The second program writes "only cells
    /// that change" (02, Req 05): as many as the library changed.
    pub fn step(&mut self, made: Call) -> Result<usize, Refusal> {
        let (before, cells) = (self.image.clone(), self.memory.clone());
        let (mut memory, mut room) = (self.memory.clone(), self.room.clone());
        let held = state_of(&before);
        let plate = held.as_ref().map(|(plate, _)| *plate);
        let refused = |refusal| (Err(refusal), before.clone(), 0);
        let (expected, image, written) = match held {
            None => refused(Refusal::R1),
            Some((plate, mut state)) => {
                match call_counted(made, &plate, &mut state, &mut memory, &mut room) {
                    Ok((told, written)) => (Ok(told), image_after(made, &before, &state), written),
                    Err(refusal) => refused(refusal),
                }
            }
        };
        let found = call(made, &mut self.image, &mut self.memory, &mut self.room);
        let changed = differing(&cells, &self.memory);
        assert_eq!(found, expected, "{made:?} on {plate:?}");
        assert_eq!(self.image, image, "image after {made:?} on {plate:?}");
        assert_eq!(self.memory, memory, "memory after {made:?} on {plate:?}");
        assert_eq!(changed, written, "cells of {made:?} on {plate:?}");
        assert_eq!(self.room, room, "room after {made:?} on {plate:?}");
        self.written = written;
        self.count(made, &before, found);
        found.map(|told| told.reply)
    }

    /// Counts what came back of a call on the image as it was before.
    pub fn count(&mut self, made: Call, before: &[u8], found: Result<Told, Refusal>) {
        self.calls += 1;
        let kind = match found {
            Err(refusal) => Kind::Refused(1 + refusal as usize),
            Ok(Told { reply: 0, .. }) => Kind::Silence,
            Ok(Told { reply, .. }) => match self.room[1] & 0x7F {
                0x50 if reply == 4 => Kind::Error(self.room[2]),
                command => Kind::Reply(command),
            },
        };
        self.add(kind);
        self.count_sleep(found);
        let closed = found.is_ok()
            && made != Call::PowerOn
            && before[OPEN] == 1
            && before[KEPT_NUMBER] >= 3
            && self.image[KEPT_NUMBER] < before[KEPT_NUMBER];
        if closed {
            self.count_address(before, kind);
            self.count_deletion(before, kind);
        }
    }

    /// How long the host was told to sleep, if it was.
    fn count_sleep(&mut self, found: Result<Told, Refusal>) {
        let full = self.closing_gap();
        match found.ok().and_then(|told| told.sleep) {
            None => {}
            Some(Remaining::NoFrameOpen) => self.add(Kind::NoFrameOpen),
            Some(Remaining::Ticks(1)) => self.add(Kind::LastTick),
            Some(Remaining::Ticks(ticks)) if ticks == full => self.add(Kind::FullPause),
            Some(Remaining::Ticks(_)) => self.add(Kind::PartOfPause),
        }
    }

    /// What became of the frame that a call closed: where it was sent to, and whether the address changed.
    fn count_address(&mut self, before: &[u8], kind: Kind) {
        let (asked, command) = (before[KEPT], before[KEPT + 1]);
        let own = 0x40 + before[ADDRESS];
        let moved = before[ADDRESS] != before[PLATE_ADDRESS];
        if kind == Kind::Silence {
            if asked == self.former && asked != own {
                self.add(Kind::AtFormerAddress);
            }
            return;
        }
        if moved {
            self.add(match asked {
                EVERY_BOARD => Kind::MovedByBroadcast,
                _ => Kind::AtNewAddress,
            });
        }
        match kind {
            Kind::Error(code) if command == 0x55 => self.add(Kind::NotMoved(code)),
            _ if own != self.address_byte() => {
                self.former = own;
                self.add(Kind::Moved);
            }
            _ => {}
        }
    }

    /// What became of the frame that a call closed, if it is a 4Dh with bit 7 of its status clear.
    fn count_deletion(&mut self, before: &[u8], kind: Kind) {
        let deletes =
            before[KEPT_NUMBER] == 6 && before[KEPT + 1] == 0x4D && before[KEPT + 3] < 0x80;
        match kind {
            Kind::Reply(0x4D) if deletes => self.add(Kind::Deleted),
            Kind::Error(code) if deletes => self.add(Kind::NotDeleted(code)),
            _ => {}
        }
    }

    fn add(&mut self, kind: Kind) {
        *self.seen.entry(kind).or_default() += 1;
    }

    pub fn add_to(&self, seen: &mut Seen) {
        for (kind, number) in &self.seen {
            *seen.entry(*kind).or_default() += number;
        }
    }

    pub fn closing_gap(&self) -> u32 {
        self.plate.closing_gap()
    }

    fn after(&mut self, gap: u32) -> u32 {
        self.tick = self.tick.wrapping_add(gap);
        self.tick
    }

    /// A gap inside a frame, at most one tick short of closing it.
    fn inner_gap(&self, dice: &mut Dice) -> u32 {
        let gap = self.closing_gap();
        match dice.below(8) {
            0 => gap - 1,
            1 => 0,
            2 => dice.word() % gap,
            _ => (11 * self.plate.ticks_per_bit).min(gap - 1),
        }
    }

    fn outer_gap(&self, dice: &mut Dice) -> u32 {
        let gap = self.closing_gap();
        match dice.below(8) {
            0 => gap + 1,
            1 => u32::MAX,
            2 => gap.saturating_add(dice.word() % 1_000_000),
            3 => gap.max(dice.word()),
            _ => gap,
        }
    }

    /// A host's call between two characters that closes nothing.
    fn interlude(&self, dice: &mut Dice) -> Call {
        match dice.below(8) {
            0 => Call::Measured(dice.word()),
            1 => Call::PowerOn,
            2..=4 => Call::Fault(
                dice.one_of(&[0x00, 0x08, 0x22, 0x24, 0x31, 0x32, 0x33, 0x34, 0x35, 0xFF]),
            ),
            _ => Call::Poll { tick: self.tick },
        }
    }

    pub fn exchange(&mut self, dice: &mut Dice) {
        for made in self.calls_of_exchange(dice) {
            let _ = self.step(made);
        }
    }

    /// A frame sent by a drive, and mostly the poll that closes it; else the next frame's first character does.
    pub fn calls_of_exchange(&mut self, dice: &mut Dice) -> Vec<Call> {
        let frame = frame(dice, &self.known());
        let mut calls = self.calls_of_frame(dice, &frame);
        if dice.once_in(4) {
            calls.push(self.interlude(dice));
        }
        if dice.once_in(3) {
            calls.extend(self.early_polls(dice));
        }
        if !dice.once_in(4) {
            let gap = self.outer_gap(dice);
            let tick = self.after(gap);
            calls.push(Call::Poll { tick });
        }
        calls
    }

    /// Polls within the pause after the last character, up to its last tick.
    fn early_polls(&self, dice: &mut Dice) -> Vec<Call> {
        let gap = self.closing_gap();
        let within = (0..dice.below(3))
            .map(|_| dice.word() % gap)
            .chain([gap - 1]);
        let poll = |since| Call::Poll {
            tick: self.tick.wrapping_add(since),
        };
        within.map(poll).collect()
    }

    fn known(&self) -> Known<'_> {
        Known {
            plate: &self.plate,
            address: self.address_byte(),
            former: self.former,
            codes: &self.image[CODES..COUNTER],
            memory: &self.memory,
        }
    }

    /// The characters of a frame, now and then one with a parity fault, and a host's calls between them.
    fn calls_of_frame(&mut self, dice: &mut Dice, frame: &[u8]) -> Vec<Call> {
        let mut calls = vec![];
        let faulty = if dice.once_in(40) {
            dice.below(frame.len().max(1))
        } else {
            usize::MAX
        };
        for (place, &value) in frame.iter().enumerate() {
            if dice.once_in(60) {
                calls.push(self.interlude(dice));
            }
            let gap = if place == 0 {
                self.outer_gap(dice)
            } else {
                self.inner_gap(dice)
            };
            let parity = if place == faulty {
                1 + dice.byte() % 255
            } else {
                0
            };
            let tick = self.after(gap);
            calls.push(Call::Character {
                tick,
                value,
                parity,
            });
        }
        calls
    }

    /// Sends these bytes and their checksum, and polls when the pause is over: the reply.
    pub fn ask(&mut self, bytes: &[u8]) -> Vec<u8> {
        for value in sealed(bytes.to_vec()) {
            let tick = self.after(11 * self.plate.ticks_per_bit);
            let made = Call::Character {
                tick,
                value,
                parity: 0,
            };
            assert_eq!(self.step(made), Ok(0));
        }
        let tick = self.after(self.closing_gap());
        let length = self.step(Call::Poll { tick }).expect("not refused");
        self.room[..length].to_vec()
    }

    /// Sends a whole request as demand 2 has it, with any gaps below the pause and polls that come too early: the reply.
    pub fn send(&mut self, dice: &mut Dice, request: &[u8]) -> Vec<u8> {
        for &value in request {
            let gap = self.inner_gap(dice);
            let tick = self.after(gap);
            let made = Call::Character {
                tick,
                value,
                parity: 0,
            };
            assert_eq!(self.step(made), Ok(0));
        }
        if dice.once_in(4) {
            for made in self.early_polls(dice) {
                assert_eq!(self.step(made), Ok(0));
            }
        }
        let gap = self.outer_gap(dice);
        let tick = self.after(gap);
        let length = self.step(Call::Poll { tick }).expect("not refused");
        self.room[..length].to_vec()
    }
}

/// How many bytes of two memories of one length differ. Most calls change none, which is seen faster at once than byte by byte.
fn differing(before: &[u8], after: &[u8]) -> usize {
    if before == after {
        return 0;
    }
    before.iter().zip(after).filter(|(a, b)| a != b).count()
}

/// A label, seldom the one of a tape, which is all zero.
fn some_label(dice: &mut Dice) -> Label {
    if dice.once_in(8) {
        return Label::BLANK;
    }
    Label::new(&dice.bytes(LABEL_LENGTH)).expect("a label's length")
}

pub fn good_plate(dice: &mut Dice) -> Plate {
    Plate {
        total_blocks: match dice.below(4) {
            0 => dice.one_of(&[1, 2, 8, 112]),
            1 => 1 + dice.word() % 16,
            _ => 1 + dice.word() % 112,
        },
        position_bits: 1 + dice.word() % 32,
        address: dice.word() % 32,
        ticks_per_bit: 1 << dice.below(7),
        pause: dice.one_of(&[22, 55]),
        label: some_label(dice),
    }
}

/// The plate's label, or one of another length.
pub fn some_label_bytes(dice: &mut Dice, plate: &Plate) -> Vec<u8> {
    let mut label = label_of(plate).to_vec();
    let length = some_length(dice, LABEL_LENGTH);
    label.resize(length, 0);
    label
}

/// Mostly the right length, else any up to twice that.
pub fn some_length(dice: &mut Dice, right: usize) -> usize {
    if dice.once_in(8) {
        return dice.below(2 * right);
    }
    right
}

/// One number of the plate changed to something that is mostly beyond its limit.
pub fn bad_plate(dice: &mut Dice, plate: &Plate) -> Plate {
    let mut bad = *plate;
    let number = match dice.below(4) {
        0 => dice.word(),
        1 => 256 + dice.word() % 256,
        _ => dice.word() % 130,
    };
    match dice.below(5) {
        0 => bad.total_blocks = number,
        1 => bad.position_bits = number,
        2 => bad.address = number,
        3 => bad.ticks_per_bit = number,
        _ => bad.pause = number,
    }
    bad
}

/// Any call, at a tick near the last one or anywhere.
pub fn any_call(dice: &mut Dice, board: &Board) -> Call {
    let near = board
        .tick
        .wrapping_add(dice.word() % (3 * board.closing_gap()));
    let tick = if dice.once_in(4) { dice.word() } else { near };
    match dice.below(6) {
        0 => Call::Measured(dice.word()),
        1 => Call::Fault(dice.byte()),
        2 => Call::PowerOn,
        3 => Call::Character {
            tick,
            value: dice.byte(),
            parity: dice.byte() % 2,
        },
        _ => Call::Poll { tick },
    }
}
