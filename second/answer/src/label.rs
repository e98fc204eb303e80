//! The label: the bytes on a board's plate that tell its type, serial number and program version.

use crate::Refusal;

/// Type label 4 bytes (000, table 28); serial number 9, program version 20, date 8 (000, table 31).
pub const LABEL_LENGTH: usize = 41;

const TYPE_LABEL_LENGTH: usize = 4;

/// The label bytes in the order in which 52h and 56h send them; any values.
#[derive(Clone, Copy, Debug, PartialEq, Eq)]
pub struct Label([u8; LABEL_LENGTH]);

impl Label {
    /// "On the tape they are all zero" (02, Req 01).
    pub const BLANK: Label = Label([0; LABEL_LENGTH]);

    /// A label of exactly these bytes; another number of them is R1.
    pub fn new(bytes: &[u8]) -> Result<Label, Refusal> {
        bytes.try_into().map(Label).map_err(|_| Refusal::R1)
    }

    /// What 52h sends. All four are the plate's, the memory size too, which is not T (reading 1.7).
    pub fn type_label(&self) -> &[u8] {
        &self.0[..TYPE_LABEL_LENGTH]
    }

    /// What 56h sends: serial number, program version and date.
    pub fn version(&self) -> &[u8] {
        &self.0[TYPE_LABEL_LENGTH..]
    }
}
