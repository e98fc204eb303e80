//! The plate: the numbers and the label of a board, given once.

use crate::Label;

/// "Plate, given once". The numbers come in wide, so that none loses bits on the way (reading 30).
#[derive(Clone, Copy, Debug, PartialEq, Eq)]
pub struct Plate {
    /// T, 1 to 112; a block is 16 bytes.
    pub total_blocks: u32,
    /// P, 1 to 32.
    pub position_bits: u32,
    /// a, 0 to 31: the address of the fresh board. From then on the state's is in force
    /// (reading 1.6).
    pub address: u32,
    /// 1, 2, 4, 8, 16, 32 or 64.
    pub ticks_per_bit: u32,
    /// 22 or 55 bit times.
    pub pause: u32,
    /// "The label bytes, serial number and program version join the plate" (02, Req 01).
    pub label: Label,
}

impl Plate {
    /// Whether every number keeps its limit, else R1.
    pub fn within_limits(&self) -> bool {
        (1..=112).contains(&self.total_blocks)
            && (1..=32).contains(&self.position_bits)
            && self.address <= 31
            && matches!(self.ticks_per_bit, 1 | 2 | 4 | 8 | 16 | 32 | 64)
            && matches!(self.pause, 22 | 55)
    }

    /// "Memory is lent: 16T data bytes, then T status bytes."
    pub fn memory_length(&self) -> usize {
        17 * self.total_blocks as usize
    }

    /// 2^P - 1, which takes a number mod 2^P.
    pub fn position_mask(&self) -> u32 {
        u32::MAX >> (32 - self.position_bits)
    }

    /// The least gap in ticks that closes a frame: "pause × ticks-per-bit", and "equality closes".
    pub fn closing_gap(&self) -> u32 {
        self.pause * self.ticks_per_bit
    }
}
