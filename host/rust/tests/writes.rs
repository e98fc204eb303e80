//! Only cells that change (02, Req 05): runs of stores, grants and give-backs, in which the second program writes as many cells as the library changes.

mod rig;

use std::collections::BTreeMap;

use quicksetter_host::dice::Dice;
use quicksetter_host::CODES;
use rig::board::{good_plate, Board};
use rig::sealed;
use second::Plate;

const BLOCK: usize = 16;
const STORE: u8 = 0x4B;
const CHANGE: u8 = 0x4D;
const RUNS: u64 = 300;
const REQUESTS_OF_RUN: usize = 400;

/// What a request was, by its reply.
#[derive(Clone, Copy, Debug, PartialEq, Eq, PartialOrd, Ord)]
enum Sort {
    Store,
    Create,
    Modify,
    Delete,
    /// Another command, an error or silence.
    Other,
}

/// How many cells were written.
#[derive(Clone, Copy, Debug, PartialEq, Eq, PartialOrd, Ord)]
enum Wrote {
    Nothing,
    OneCell,
    ManyCells,
}

impl Wrote {
    fn of(cells: usize) -> Wrote {
        match cells {
            0 => Wrote::Nothing,
            1 => Wrote::OneCell,
            _ => Wrote::ManyCells,
        }
    }
}

/// How many requests of each sort wrote how much.
#[derive(Debug, Default)]
struct Wear(BTreeMap<(Sort, Wrote), usize>);

impl Wear {
    fn count(&mut self, sort: Sort, cells: usize) {
        *self.0.entry((sort, Wrote::of(cells))).or_default() += 1;
    }

    fn times(&self, sort: Sort, wrote: Wrote) -> usize {
        self.0.get(&(sort, wrote)).copied().unwrap_or(0)
    }

    /// Requests of this sort wrote each of these, and often.
    fn came_up(&self, sort: Sort, each: &[Wrote]) {
        for &wrote in each {
            let times = self.times(sort, wrote);
            assert!(times > 1000, "{sort:?} {wrote:?}: {times} in {self:?}");
        }
    }

    fn never(&self, sort: Sort, wrote: Wrote) {
        assert_eq!(self.times(sort, wrote), 0, "{sort:?} {wrote:?}");
    }

    fn requests(&self) -> usize {
        self.0.values().sum()
    }
}

fn status_table(board: &Board) -> usize {
    BLOCK * board.plate.total_blocks as usize
}

/// The statuses of the fields that exist.
fn statuses(board: &Board) -> &[u8] {
    let table = &board.memory[status_table(board)..];
    let number = table.iter().take_while(|&&status| status >= 0x80).count();
    &table[..number]
}

/// The first cell behind the fields before this one.
fn first_cell(board: &Board, field: usize) -> usize {
    let blocks = |&status: &u8| usize::from(status & 7) + 1;
    BLOCK * statuses(board)[..field].iter().map(blocks).sum::<usize>()
}

fn code(board: &Board, status: u8) -> u8 {
    board.image[CODES + usize::from(status >> 4 & 3)]
}

/// A memory as an older board may have left it: bytes in some cells of its free blocks, 00h in others.
fn soil_free_blocks(dice: &mut Dice, board: &mut Board) {
    let free = first_cell(board, statuses(board).len());
    let end = status_table(board);
    for cell in &mut board.memory[free..end] {
        *cell = dice.one_of(&[0x00, 0x00, *cell, 0xFF]);
    }
}

/// A byte to store: what is there with a bit turned, 00h, FFh or any.
fn other_byte(dice: &mut Dice, there: u8) -> u8 {
    let turned = there ^ 1 << dice.below(8);
    let any = dice.byte();
    dice.one_of(&[turned, turned, 0x00, 0xFF, any])
}

/// A 4Bh of what the field holds, with no byte changed, one, two or any number; seldom with a wrong code or over the field's end.
fn some_store(dice: &mut Dice, board: &Board) -> Vec<u8> {
    let field = dice.below(statuses(board).len());
    let (first, end) = (first_cell(board, field), first_cell(board, field + 1));
    let offset = dice.below(end - first);
    let longest = (end - first - offset).min(dice.one_of(&[4, 16, 128]));
    let count = 1 + dice.below(longest);
    let mut bytes = board.memory[first + offset..][..count].to_vec();
    for _ in 0..dice.one_of(&[0, 0, 1, 1, 2, count]) {
        let place = dice.below(count);
        bytes[place] = other_byte(dice, bytes[place]);
    }
    let wrong_code = u8::from(dice.once_in(20));
    let too_far = u8::from(dice.once_in(20)) * 16;
    let code = code(board, statuses(board)[field]) ^ wrong_code;
    let place = [field as u8, offset as u8 + too_far, count as u8, code];
    [&[STORE], &place[..], &bytes].concat()
}

/// A 4Dh: a new field; or for the last one, seldom another, the same status again, one with another attribute, any or none.
fn some_change(dice: &mut Dice, board: &Board) -> Vec<u8> {
    let number = statuses(board).len();
    let any = dice.below(number + 1);
    let last = number.saturating_sub(1);
    let field = dice.one_of(&[number, last, last, any]);
    let other = 0xC0 | dice.byte();
    let stored = statuses(board).get(field).copied().unwrap_or(other);
    let attribute = dice.one_of(&[0x08, 0x10, 0x20]);
    let size = 1 << dice.below(3);
    let status = dice.one_of(&[
        stored,
        stored ^ attribute,
        stored ^ size,
        other,
        stored & 0x7F,
    ]);
    // Seldom read-only, since such a field takes no store.
    let status = status ^ if dice.once_in(30) { 0x40 } else { 0 };
    let named = if field == number { status } else { stored };
    vec![CHANGE, field as u8, status, code(board, named)]
}

/// Address, command and data.
fn some_request(dice: &mut Dice, board: &Board) -> Vec<u8> {
    let request = match dice.below(16) {
        0 => vec![dice.one_of(&[0x42, 0x46, 0x4E, 0x50, 0x53, 0x44])],
        1 => vec![0x4A, 0, 0, 1 + dice.byte() % 16, code(board, 0)],
        2..=9 if !statuses(board).is_empty() => some_store(dice, board),
        _ => some_change(dice, board),
    };
    [&[board.address_byte()], &request[..]].concat()
}

/// What a request was that a board with so many fields answered so.
fn sort_of(request: &[u8], reply: &[u8], fields: usize) -> Sort {
    match reply.get(1).map(|command| command & 0x7F) {
        Some(STORE) => Sort::Store,
        Some(CHANGE) if usize::from(request[2]) == fields => Sort::Create,
        Some(CHANGE) if request[3] >= 0x80 => Sort::Modify,
        Some(CHANGE) => Sort::Delete,
        _ => Sort::Other,
    }
}

/// One request; the poll that closes its frame comes last and is the call that writes.
fn one_request(dice: &mut Dice, board: &mut Board, wear: &mut Wear) {
    let fields = statuses(board).len();
    let request = some_request(dice, board);
    let reply = board.send(dice, &sealed(request.clone()));
    wear.count(sort_of(&request, &reply, fields), board.written);
}

/// Requests worked out by hand, with the number of cells that each one writes.
#[test]
fn by_hand() {
    let mut dice = Dice::new(6999);
    let plate = Plate {
        total_blocks: 4,
        ..good_plate(&mut dice)
    };
    let mut board = Board::new(&mut dice, plate);
    board.memory[16..32].fill(0x77);
    for (cells, request) in [
        (1, vec![CHANGE, 0, 0xC0, 0x55]),
        (3, vec![STORE, 0, 0, 3, 0x55, 1, 2, 3]),
        (0, vec![STORE, 0, 0, 3, 0x55, 1, 2, 3]),
        (1, vec![STORE, 0, 0, 4, 0x55, 1, 9, 3, 0]),
        (0, vec![CHANGE, 0, 0xC0, 0x55]),
        (1, vec![CHANGE, 0, 0xC8, 0x55]),
        (16 + 1, vec![CHANGE, 0, 0xC9, 0x55]),
        (1, vec![CHANGE, 0, 0xCB, 0x55]),
        (1, vec![STORE, 0, 63, 1, 0x55, 5]),
        (1 + 1, vec![CHANGE, 0, 0xCA, 0x55]),
        (0, vec![CHANGE, 0, 0x4B, 0x55]), // 0Dh
        (3 + 1, vec![CHANGE, 0, 0x4A, 0x55]),
    ] {
        board.ask(&[&[board.address_byte()], &request[..]].concat());
        assert_eq!(board.written, cells, "{request:X?}");
    }
    assert_eq!(board.memory, [0; 4 * 17]);
}

/// Long runs over memories with bytes in their free blocks. Each call is held to Req 05 by the rig; here it is seen that requests of each sort that
/// write nothing, one cell and many came often.
#[test]
fn stores_grants_and_give_backs() {
    let mut wear = Wear::default();
    for seed in 0..RUNS {
        let mut dice = Dice::new(7000 + seed);
        let plate = Plate {
            total_blocks: dice.one_of(&[1, 2, 8, 16, 24, 40, 112]),
            ..good_plate(&mut dice)
        };
        let mut board = Board::new(&mut dice, plate);
        for _ in 0..REQUESTS_OF_RUN {
            if dice.once_in(6) {
                soil_free_blocks(&mut dice, &mut board);
            }
            one_request(&mut dice, &mut board, &mut wear);
        }
    }
    assert!(wear.requests() >= 100_000);
    let (nothing, one, many) = (Wrote::Nothing, Wrote::OneCell, Wrote::ManyCells);
    wear.came_up(Sort::Store, &[nothing, one, many]);
    wear.came_up(Sort::Modify, &[nothing, one, many]);
    // The status is written at least.
    for sort in [Sort::Create, Sort::Delete] {
        wear.never(sort, nothing);
        wear.came_up(sort, &[one, many]);
    }
    wear.came_up(Sort::Other, &[nothing]);
    wear.never(Sort::Other, one);
    wear.never(Sort::Other, many);
}
