//! A field's status byte taken apart, for the board and the programmer alike.

/// "A block is 16 bytes."
pub const BLOCK: usize = 16;

const EXISTS: u8 = 0x80;
const WRITABLE: u8 = 0x40;

/// A field's status byte (01, "Status byte").
#[derive(Clone, Copy, Debug, PartialEq, Eq)]
pub struct Status(pub u8);

impl Status {
    /// Bit 7: the field exists.
    pub fn exists(self) -> bool {
        self.0 & EXISTS != 0
    }

    /// Bit 6: write-enabled.
    pub fn writable(self) -> bool {
        self.0 & WRITABLE != 0
    }

    /// Bits 4 and 5: code number.
    pub fn code_number(self) -> usize {
        usize::from(self.0 >> 4 & 3)
    }

    /// Bit 3: code wanted.
    pub fn wants_code(self) -> bool {
        self.0 & 0x08 != 0
    }

    /// Bits 0 to 2: blocks less one.
    pub fn blocks(self) -> usize {
        usize::from(self.0 & 7) + 1
    }

    /// The bytes of the field.
    pub fn size(self) -> usize {
        BLOCK * self.blocks()
    }

    /// The status that names this one in a deletion: bit 7 clear and "all status bits except bit 7"
    /// the same (02, Req 02).
    pub fn deleted(self) -> Status {
        Status(self.0 & !EXISTS)
    }

    /// The same status, write-enabled.
    pub fn unlocked(self) -> Status {
        Status(self.0 | WRITABLE)
    }
}
