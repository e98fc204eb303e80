//! A motor shop for the tests: label tapes, boards with fields in them, runs of the programmer.

use super::{sealed, Rig};
use second::{read_label_tape, Ended, Programmer, Wish};

/// A field's status and bytes.
pub type Field = (u8, Vec<u8>);

const BLOCK: usize = 16;

/// A record of a label tape.
pub fn record(kind: u16, body: &[u8]) -> Vec<u8> {
    let length = 2 + body.len() as u16;
    [&length.to_le_bytes()[..], &kind.to_le_bytes(), body].concat()
}

pub fn codes_record(codes: [u8; 4]) -> Vec<u8> {
    record(0x20, &codes)
}

pub fn field_record(status: u8, bytes: &[u8]) -> Vec<u8> {
    record(0x21, &[&[status], bytes].concat())
}

pub fn label_tape(codes: [u8; 4], fields: &[Field]) -> Vec<u8> {
    let records = fields
        .iter()
        .flat_map(|(status, bytes)| field_record(*status, bytes));
    codes_record(codes).into_iter().chain(records).collect()
}

pub fn wish(codes: [u8; 4], fields: &[Field]) -> Wish {
    read_label_tape(&label_tape(codes, fields)).expect("a good tape")
}

/// A field of this status, its bytes counted up from `first`.
pub fn counted(status: u8, first: u8) -> Field {
    let size = BLOCK * blocks(status);
    let bytes = (0..size).map(|place| first.wrapping_add(place as u8));
    (status, bytes.collect())
}

/// Bits 0 to 2: blocks less one.
pub fn blocks(status: u8) -> usize {
    usize::from(status & 7) + 1
}

pub fn blocks_of(fields: &[Field]) -> usize {
    fields.iter().map(|&(status, _)| blocks(status)).sum()
}

/// The bytes of all fields, one field after another.
fn bytes_of(fields: &[Field]) -> Vec<u8> {
    fields.iter().flat_map(|(_, bytes)| bytes.clone()).collect()
}

/// Runs the programmer to its end on whatever answers; the requests that were sent. What holds of
/// every run is looked at on the way.
pub fn run(programmer: &mut Programmer, mut answer: impl FnMut(&[u8]) -> Vec<u8>) -> Vec<Vec<u8>> {
    let mut requests = Vec::new();
    while let Some(request) = programmer.next() {
        assert_eq!(programmer.ended(), None);
        assert_eq!(programmer.progress().0 as usize, requests.len());
        programmer.heard(&answer(&request));
        requests.push(request);
    }
    check_end(programmer, &requests);
    requests
}

/// Done: every request was answered. Failed: all but the last, which is the one that is named.
fn check_end(programmer: &mut Programmer, requests: &[Vec<u8>]) {
    let (answered, in_all) = programmer.progress();
    match programmer.ended().expect("no request is due") {
        Ended::Done => assert_eq!((answered as usize, answered), (requests.len(), in_all)),
        Ended::Failed { request, .. } => {
            assert_eq!(answered as usize + 1, requests.len());
            assert_eq!(Some(&request), requests.last());
        }
    }
    // What comes after the end changes nothing.
    let before = programmer.clone();
    for late in [&[][..], &sealed(&[0x40, 0x4E, 0, 3])] {
        programmer.heard(late);
        assert_eq!(*programmer, before);
    }
}

impl Rig {
    /// Puts fields into the board, its free blocks all 77h so that it shows who touches them.
    pub fn hold(&mut self, fields: &[Field]) {
        let (data, table) = self
            .memory
            .split_at_mut(BLOCK * self.plate.total_blocks as usize);
        let bytes = bytes_of(fields);
        data.fill(0x77);
        data[..bytes.len()].copy_from_slice(&bytes);
        table.fill(0);
        for (place, (status, _)) in table.iter_mut().zip(fields) {
            *place = *status;
        }
    }

    /// Runs the programmer to its end on this board, each request character by character and then
    /// the poll that closes it; the requests.
    pub fn run(&mut self, programmer: &mut Programmer) -> Vec<Vec<u8>> {
        run(programmer, |request| self.send(request))
    }

    /// A run for the board's own address: its end, and the requests. Only memory may change by it.
    pub fn program(&mut self, wish: &Wish) -> (Ended, Vec<Vec<u8>>) {
        let before = self.state.meaning();
        let mut programmer = Programmer::new(self.state.address, wish.clone()).expect("0 to 31");
        let requests = self.run(&mut programmer);
        assert_eq!(self.state.meaning(), before);
        (programmer.ended().expect("the run is over"), requests)
    }

    /// The board holds these fields and no others, with `used` blocks in use before. Blocks given
    /// back are 00h; those that were free and never granted still hold their 77h.
    pub fn holds_exactly(&self, fields: &[Field], used: usize) {
        let total = self.plate.total_blocks as usize;
        let mut data = bytes_of(fields);
        data.resize(data.len().max(BLOCK * used), 0);
        data.resize(BLOCK * total, 0x77);
        let mut table: Vec<u8> = fields.iter().map(|&(status, _)| status).collect();
        table.resize(total, 0);
        assert_eq!(self.memory[..BLOCK * total], data);
        assert_eq!(self.memory[BLOCK * total..], table);
    }
}

/// A board of another maker that takes everything. It says it has `present` fields, all of one
/// status, and reads back what was stored last.
pub struct Agreeable {
    pub present: u8,
    pub status: u8,
    pub stored: Vec<u8>,
}

impl Agreeable {
    pub fn new(present: u8, status: u8) -> Agreeable {
        Agreeable {
            present,
            status,
            stored: Vec::new(),
        }
    }

    pub fn answer(&mut self, request: &[u8]) -> Vec<u8> {
        let [address, command, data @ .., _checksum] = request else {
            panic!("too short: {request:02X?}");
        };
        let data = match command {
            0x4A => [&data[..3], &self.stored].concat(),
            0x4B => {
                self.stored = data[4..].to_vec();
                data[..3].to_vec()
            }
            0x4C => vec![data[0], self.status],
            0x4D => data[..2].to_vec(),
            0x4E => vec![0, self.present],
            _ => panic!("not the programmer's: {request:02X?}"),
        };
        sealed(&[&[*address, *command], &data[..]].concat())
    }
}
