//! The board's state: address, codes, counter, position, fault queue and the frame being received.

use crate::{address_byte, Plate};

/// "Up to 135 bytes are kept."
pub const KEPT_LIMIT: usize = 135;
/// "A queue of four."
pub const QUEUE_LIMIT: usize = 4;

const ADDRESS_LIMIT: u32 = 31;
const COUNTER_LIMIT: u32 = 0xFF_FFFF;
const COUNTER_OVERFLOW: u8 = 0x08;

/// How long an open frame still waits for a character (02, Req 03).
#[derive(Clone, Copy, Debug, PartialEq, Eq)]
pub enum Remaining {
    /// "A named 'no frame open' when there is none."
    NoFrameOpen,
    /// "How many ticks remain: 0 when over." A frame is over exactly at 0 (reading 3.1).
    Ticks(u32),
}

/// All that a board remembers besides its lent memory.
///
/// Places without meaning follow one rule each: a queue place that falls free becomes 00h, and
/// when a frame ends its numbers (`open`, `kept_number`, `xor`, `longer`, `parity`) become 0 while
/// `kept` and `last_stamp` stay as they are.
#[derive(Clone, Debug, PartialEq, Eq)]
pub struct State {
    /// The address in force, 0 to 31: "the last one an accepted 55h gave, else the plate's"
    /// (02, Req 01).
    pub address: u32,
    /// Code0 to Code3.
    pub codes: [u8; 4],
    /// At most FFFFFFh.
    pub counter: u32,
    /// Below 2^P.
    pub offset: u32,
    /// The measured position as given, any 32-bit number (reading 22).
    pub measured: u32,
    /// The waiting fault codes, oldest first.
    pub waiting: [u8; QUEUE_LIMIT],
    /// How many codes wait.
    pub waiting_number: usize,
    /// Whether 22h or 24h has locked the position.
    pub locked: bool,
    /// Whether a frame is open.
    pub open: bool,
    /// The first bytes of the open frame.
    pub kept: [u8; KEPT_LIMIT],
    /// How many bytes are kept.
    pub kept_number: usize,
    /// The XOR of all bytes of the open frame.
    pub xor: u8,
    /// Whether the open frame is longer than 135 bytes.
    pub longer: bool,
    /// Whether a character of the open frame had a parity fault.
    pub parity: bool,
    /// The tick of the last character.
    pub last_stamp: u32,
}

impl State {
    /// "Fresh state": the plate's address, codes 55h, all else nothing.
    pub fn fresh(plate: &Plate) -> State {
        State {
            address: plate.address,
            codes: [0x55; 4],
            counter: 0,
            offset: 0,
            measured: 0,
            waiting: [0; QUEUE_LIMIT],
            waiting_number: 0,
            locked: false,
            open: false,
            kept: [0; KEPT_LIMIT],
            kept_number: 0,
            xor: 0,
            longer: false,
            parity: false,
            last_stamp: 0,
        }
    }

    /// "State limits", else R1.
    pub fn within_limits(&self, plate: &Plate) -> bool {
        self.address <= ADDRESS_LIMIT
            && self.counter <= COUNTER_LIMIT
            && self.offset <= plate.position_mask()
            && self.waiting_number <= QUEUE_LIMIT
            && self.queue_is_proper()
            && self.kept_number <= KEPT_LIMIT
    }

    /// "All different and none of them 00h, 22h or 24h."
    fn queue_is_proper(&self) -> bool {
        let queue = self.queue();
        queue.iter().enumerate().all(|(place, code)| {
            !matches!(code, 0x00 | 0x22 | 0x24) && !queue[..place].contains(code)
        })
    }

    /// The same state with every place that has no meaning set to 0, for comparing two states.
    pub fn meaning(&self) -> State {
        let mut plain = self.clone();
        plain.waiting[self.waiting_number..].fill(0);
        if self.open {
            plain.kept[self.kept_number..].fill(0);
        } else {
            plain.kept = [0; KEPT_LIMIT];
            plain.drop_frame();
            plain.last_stamp = 0;
        }
        plain
    }

    /// The byte of the address in force.
    pub fn address_byte(&self) -> u8 {
        address_byte(self.address)
    }

    /// The waiting codes, oldest first.
    pub fn queue(&self) -> &[u8] {
        &self.waiting[..self.waiting_number]
    }

    /// "Faults. The host notes codes."
    pub fn note_fault(&mut self, code: u8) {
        match code {
            0x00 => {}
            0x22 | 0x24 => self.locked = true,
            _ => self.enqueue(code),
        }
    }

    /// "One already waiting, or a fifth, is dropped."
    fn enqueue(&mut self, code: u8) {
        if self.waiting_number < QUEUE_LIMIT && !self.queue().contains(&code) {
            self.waiting[self.waiting_number] = code;
            self.waiting_number += 1;
        }
    }

    /// "Oldest queued code, or 00h", and "removes it".
    pub fn take_oldest_fault(&mut self) -> u8 {
        if self.waiting_number == 0 {
            return 0x00;
        }
        let oldest = self.waiting[0];
        self.waiting.copy_within(1.., 0);
        self.waiting[QUEUE_LIMIT - 1] = 0;
        self.waiting_number -= 1;
        oldest
    }

    /// "Empties the queue."
    pub fn empty_queue(&mut self) {
        self.waiting = [0; QUEUE_LIMIT];
        self.waiting_number = 0;
    }

    /// "Counter + 1; from FFFFFFh it goes to 0 and 08h is queued."
    pub fn increment_counter(&mut self) {
        if self.counter < COUNTER_LIMIT {
            self.counter += 1;
        } else {
            self.counter = 0;
            self.note_fault(COUNTER_OVERFLOW);
        }
    }

    /// "Position is (measured + offset) mod 2^P."
    pub fn position(&self, plate: &Plate) -> u32 {
        self.measured.wrapping_add(self.offset) & plate.position_mask()
    }

    /// "43h sets offset to (wanted − measured) mod 2^P."
    pub fn set_position(&mut self, plate: &Plate, wanted: u32) {
        self.offset = wanted.wrapping_sub(self.measured) & plate.position_mask();
    }

    /// How many ticks of its pause the open frame, if any, has left at `tick` (reading 3.1). "A gap
    /// is taken modulo 2^32", so a clock that was stepped back reads as a pause long over (reading
    /// 3.2).
    pub fn remaining(&self, plate: &Plate, tick: u32) -> Remaining {
        if !self.open {
            return Remaining::NoFrameOpen;
        }
        let gap = tick.wrapping_sub(self.last_stamp);
        Remaining::Ticks(plate.closing_gap().saturating_sub(gap))
    }

    /// Adds a character to the open frame, or opens one with it. Every character stamps (reading 9).
    pub fn take_character(&mut self, tick: u32, value: u8, parity: bool) {
        if !self.open {
            self.drop_frame();
            self.open = true;
        }
        if self.kept_number < KEPT_LIMIT {
            self.kept[self.kept_number] = value;
            self.kept_number += 1;
        } else {
            self.longer = true;
        }
        self.xor ^= value;
        self.parity |= parity;
        self.last_stamp = tick;
    }

    /// Ends the open frame, if any.
    pub fn drop_frame(&mut self) {
        self.open = false;
        self.kept_number = 0;
        self.xor = 0;
        self.longer = false;
        self.parity = false;
    }

    /// "Power-on empties the queue, drops an open frame and unlocks; all else stays", the address
    /// too (reading 1.5).
    pub fn power_on(&mut self) {
        self.empty_queue();
        self.drop_frame();
        self.locked = false;
    }
}
