//! A board on the table for the tests: sends whole frames and hands back the replies.

#![allow(dead_code)]

pub mod by_hand;
pub mod shop;

use second::{
    character, fault, measured, poll, power_on, Heard, Label, Plate, Refusal, Remaining, State,
    REPLY_ROOM,
};

#[derive(Clone)]
pub struct Rig {
    pub plate: Plate,
    pub state: State,
    pub memory: Vec<u8>,
    pub tick: u32,
    /// What the answer of the last character or poll said.
    pub remaining: Remaining,
    /// How many cells the last character or poll wrote.
    pub written: usize,
}

/// The sheet's board: address 0, pause 55, 4 ticks a bit, 24 position bits.
pub fn sheet_plate(total_blocks: u32) -> Plate {
    Plate {
        total_blocks,
        position_bits: 24,
        address: 0,
        ticks_per_bit: 4,
        pause: 55,
        label: Label::BLANK,
    }
}

/// Bytes from a text like "40 4E 0E".
pub fn hex(text: &str) -> Vec<u8> {
    text.split_whitespace()
        .map(|pair| u8::from_str_radix(pair, 16).expect("two hex digits"))
        .collect()
}

/// The bytes with their checksum behind.
pub fn sealed(bytes: &[u8]) -> Vec<u8> {
    let sum = bytes.iter().fold(0, |sum, byte| sum ^ byte);
    [bytes, &[sum]].concat()
}

/// A small generator of numbers, the same ones on every run.
pub struct Dice(pub u64);

impl Dice {
    pub fn number(&mut self) -> u32 {
        let step = self.0.wrapping_mul(6_364_136_223_846_793_005);
        self.0 = step.wrapping_add(1_442_695_040_888_963_407);
        (self.0 >> 32) as u32
    }

    pub fn below(&mut self, limit: u32) -> u32 {
        self.number() % limit
    }

    pub fn pick<T: Copy>(&mut self, from: &[T]) -> T {
        from[self.below(from.len() as u32) as usize]
    }
}

impl Rig {
    pub fn new(plate: Plate) -> Rig {
        Rig {
            plate,
            state: State::fresh(&plate),
            memory: vec![0; plate.memory_length()],
            tick: 0,
            remaining: Remaining::NoFrameOpen,
            written: 0,
        }
    }

    pub fn sheet(total_blocks: u32) -> Rig {
        Rig::new(sheet_plate(total_blocks))
    }

    /// A character `gap` ticks after the last event; its reply, empty for none.
    pub fn character(&mut self, gap: u32, value: u8, parity: bool) -> Vec<u8> {
        self.tick = self.tick.wrapping_add(gap);
        let mut room = [0xEE; REPLY_ROOM];
        let heard = character(
            &self.plate,
            &mut self.state,
            self.tick,
            value,
            parity,
            &mut self.memory,
            &mut room,
        )
        .expect("not refused");
        self.taken(&room, heard)
    }

    /// A poll `gap` ticks after the last event.
    pub fn poll(&mut self, gap: u32) -> Vec<u8> {
        self.tick = self.tick.wrapping_add(gap);
        let mut room = [0xEE; REPLY_ROOM];
        let heard = poll(
            &self.plate,
            &mut self.state,
            self.tick,
            &mut self.memory,
            &mut room,
        )
        .expect("not refused");
        self.taken(&room, heard)
    }

    /// The reply, and a look that the rest of the room is untouched and that the remaining ticks
    /// are the state's after the call, never 0 (reading 3.3).
    fn taken(&mut self, room: &[u8], heard: Heard) -> Vec<u8> {
        assert!(room[heard.reply..].iter().all(|&byte| byte == 0xEE));
        self.written = heard.written;
        self.remaining = heard.remaining;
        assert_eq!(self.remaining, self.state.remaining(&self.plate, self.tick));
        assert_ne!(self.remaining, Remaining::Ticks(0));
        room[..heard.reply].to_vec()
    }

    /// The characters of a frame, left open.
    pub fn characters(&mut self, bytes: &[u8]) {
        for &byte in bytes {
            assert_eq!(self.character(1, byte, false), []);
        }
    }

    /// A whole frame and the poll that closes it.
    pub fn send(&mut self, bytes: &[u8]) -> Vec<u8> {
        self.characters(bytes);
        self.poll(self.plate.closing_gap())
    }

    /// A frame without its checksum, which is put behind.
    pub fn ask(&mut self, bytes: &[u8]) -> Vec<u8> {
        self.send(&sealed(bytes))
    }

    /// The code of the error reply to a frame without its checksum.
    pub fn error(&mut self, bytes: &[u8]) -> u8 {
        let before = (self.state.meaning(), self.memory.clone());
        let reply = self.ask(bytes);
        assert_eq!((reply.len(), reply[1] & 0x7F), (4, 0x50), "{reply:02X?}");
        assert_eq!(before, (self.state.meaning(), self.memory.clone()));
        reply[2]
    }

    /// Sends the frame on the left and expects the one on the right, both in hex.
    pub fn line(&mut self, request: &str, reply: &str) {
        assert_eq!(self.send(&hex(request)), hex(reply), "{request}");
    }

    pub fn note(&mut self, code: u8) -> Result<(), Refusal> {
        fault(&self.plate, &mut self.state, code)
    }

    pub fn measure(&mut self, position: u32) {
        measured(&self.plate, &mut self.state, position).expect("not refused");
    }

    pub fn power_on(&mut self) {
        power_on(&self.plate, &mut self.state).expect("not refused");
    }
}
