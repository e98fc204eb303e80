//! The cells of the lent memory: written only here, only where they change, and counted.

use std::ops::Range;

/// The lent memory, data and status bytes alike (reading 5.1). "Our memory parts wear with every
/// write. A cell that already holds the byte wanted by a grant, a give-back or a store need not be
/// written" (02, Req 05).
pub struct Cells<'m> {
    bytes: &'m mut [u8],
    written: usize,
}

impl<'m> Cells<'m> {
    /// The cells of this memory, none written yet.
    pub fn new(bytes: &'m mut [u8]) -> Cells<'m> {
        Cells { bytes, written: 0 }
    }

    /// What the cells hold.
    pub fn bytes(&self) -> &[u8] {
        self.bytes
    }

    /// How many cells were written.
    pub fn written(&self) -> usize {
        self.written
    }

    /// A cell is to hold this byte: it is compared, and written where it holds another.
    pub fn set(&mut self, place: usize, wanted: u8) {
        let cell = &mut self.bytes[place];
        if *cell == wanted {
            return;
        }
        *cell = wanted;
        self.written += 1;
    }

    /// The cells from `first` on are to hold these bytes.
    pub fn store(&mut self, first: usize, wanted: &[u8]) {
        for (place, &byte) in (first..).zip(wanted) {
            self.set(place, byte);
        }
    }

    /// These cells are to hold 00h.
    pub fn clear(&mut self, places: Range<usize>) {
        for place in places {
            self.set(place, 0);
        }
    }
}
