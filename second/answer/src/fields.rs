//! The lent memory: data fields of whole blocks and the table of their status bytes.

use std::ops::Range;

use crate::cells::Cells;
use crate::status::{Status, BLOCK};
use crate::work::ErrorCode;

/// The memory of one board, its status table found sound.
pub struct Fields<'c, 'm> {
    cells: &'c mut Cells<'m>,
    total: usize,
    number: usize,
    used: usize,
}

/// An existing field: its number, its status and its first block.
#[derive(Clone, Copy)]
pub struct Field {
    pub number: usize,
    pub status: Status,
    first_block: usize,
}

impl Field {
    /// Where `count` bytes of the field from `offset` lie; "11h: offset + count exceeds the field's
    /// bytes".
    fn places(self, offset: u8, count: usize) -> Result<Range<usize>, ErrorCode> {
        let start = usize::from(offset);
        let end = start + count;
        if end > self.status.size() {
            return Err(ErrorCode::WrongOffset);
        }
        let first_byte = BLOCK * self.first_block;
        Ok(first_byte + start..first_byte + end)
    }
}

impl<'c, 'm> Fields<'c, 'm> {
    /// Looks through the status table of a memory of 17T bytes; 03h if it is unsound.
    pub fn survey(cells: &'c mut Cells<'m>) -> Result<Fields<'c, 'm>, ErrorCode> {
        let total = cells.bytes().len() / (BLOCK + 1);
        let table = &cells.bytes()[BLOCK * total..];
        let number = table
            .iter()
            .take_while(|&&byte| Status(byte).exists())
            .count();
        let (existing, rest) = table.split_at(number);
        let used = blocks_of(existing);
        if used > total || rest.iter().any(|&byte| byte != 0) {
            return Err(ErrorCode::TableUnsound);
        }
        Ok(Fields {
            cells,
            total,
            number,
            used,
        })
    }

    /// How many fields exist.
    pub fn number(&self) -> usize {
        self.number
    }

    /// How many blocks are free.
    pub fn free(&self) -> usize {
        self.total - self.used
    }

    /// The field of this number; "12h: no such field, FFh included".
    pub fn find(&self, number: u8) -> Result<Field, ErrorCode> {
        let number = usize::from(number);
        if number >= self.number {
            return Err(ErrorCode::WrongField);
        }
        let table = &self.cells.bytes()[BLOCK * self.total..];
        Ok(Field {
            number,
            status: Status(table[number]),
            first_block: blocks_of(&table[..number]),
        })
    }

    /// `count` bytes of the field from `offset`.
    pub fn part(&self, field: Field, offset: u8, count: u8) -> Result<&[u8], ErrorCode> {
        let places = field.places(offset, usize::from(count))?;
        Ok(&self.cells.bytes()[places])
    }

    /// Stores these bytes in the field from `offset`.
    pub fn store(&mut self, field: Field, offset: u8, bytes: &[u8]) -> Result<(), ErrorCode> {
        let places = field.places(offset, bytes.len())?;
        self.cells.store(places.start, bytes);
        Ok(())
    }

    /// Creates field n; 10h "if its blocks exceed the free ones".
    pub fn create(&mut self, status: Status) -> Result<(), ErrorCode> {
        if status.blocks() > self.free() {
            return Err(ErrorCode::NoRoom);
        }
        self.clear(self.used, self.used + status.blocks());
        self.set_status(self.number, status.0);
        Ok(())
    }

    /// Gives a field another status; 10h if that takes room which it cannot have.
    pub fn modify(&mut self, field: Field, status: Status) -> Result<(), ErrorCode> {
        // "The change in blocks is a signed number, from −7 to +7 for a modify."
        let change = status.blocks() as i32 - field.status.blocks() as i32;
        if change != 0 && !self.is_last(field) || change > self.free() as i32 {
            return Err(ErrorCode::NoRoom);
        }
        let old_end = field.first_block + field.status.blocks();
        let new_end = field.first_block + status.blocks();
        self.clear(old_end.min(new_end), old_end.max(new_end));
        self.set_status(field.number, status.0);
        Ok(())
    }

    /// Deletes a field; 0Dh unless the status names the stored one, "after 0Fh and before 10h" (02,
    /// Req 02); "10h if not the last".
    pub fn delete(&mut self, field: Field, status: Status) -> Result<(), ErrorCode> {
        if status != field.status.deleted() {
            return Err(ErrorCode::WrongArgument);
        }
        if !self.is_last(field) {
            return Err(ErrorCode::NoRoom);
        }
        self.clear(field.first_block, self.used);
        self.set_status(field.number, 0);
        Ok(())
    }

    fn is_last(&self, field: Field) -> bool {
        field.number + 1 == self.number
    }

    /// "Blocks granted and blocks given back are set to 00h."
    fn clear(&mut self, from_block: usize, to_block: usize) {
        self.cells.clear(BLOCK * from_block..BLOCK * to_block);
    }

    /// The status byte of a field, "00h where no field is".
    fn set_status(&mut self, number: usize, byte: u8) {
        self.cells.set(BLOCK * self.total + number, byte);
    }
}

/// The blocks of these fields in all.
fn blocks_of(table: &[u8]) -> usize {
    table.iter().map(|&byte| Status(byte).blocks()).sum()
}
