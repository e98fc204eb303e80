//! The bench's entries beside the second program's: requests written, replies judged, data parts handed back, lengths of replies told.

mod rig;

use std::collections::BTreeMap;

use quicksetter_host::dice::Dice;
use quicksetter_host::{data_part, judge, reply_length, write_request};
use rig::{some_address, COMMANDS, EDGE_ADDRESSES, EVERY_BOARD, NEW_COMMANDS};
use second::{Label, Plate, Refusal, Request, State, Verdict};
use second::{BROADCAST, LABEL_LENGTH, REPLY_ROOM, REQUEST_ROOM};

const SET_ADDRESS: u8 = 0x55;

/// The second program's board, which answers the bench.
struct Answerer {
    plate: Plate,
    state: State,
    memory: Vec<u8>,
}

impl Answerer {
    /// A fresh one, but with several fields, so that requests find something; the bytes of its label all differ.
    fn new(dice: &mut Dice) -> Answerer {
        let label: Vec<u8> = (0xB0..).take(LABEL_LENGTH).collect();
        let plate = Plate {
            total_blocks: 40,
            position_bits: 24,
            address: 7,
            ticks_per_bit: 4,
            pause: 55,
            label: Label::new(&label).expect("a label's length"),
        };
        let mut memory = dice.bytes(plate.memory_length());
        let table = 16 * plate.total_blocks as usize;
        memory[table..].fill(0);
        for status in &mut memory[table..table + 6] {
            *status = 0xC0 | dice.byte() & 0x37;
        }
        Answerer {
            plate,
            state: State::fresh(&plate),
            memory,
        }
    }

    fn known(&self) -> rig::Known<'_> {
        rig::Known {
            plate: &self.plate,
            address: self.state.address_byte(),
            former: 0x40 + self.plate.address as u8,
            codes: &self.state.codes,
            memory: &self.memory,
        }
    }

    /// Its reply to a request, or the empty one.
    fn reply_to(&mut self, request: &[u8]) -> Vec<u8> {
        let (plate, state, memory) = (&self.plate, &mut self.state, &mut self.memory);
        let mut room = [0; REPLY_ROOM];
        for &value in request {
            second::character(plate, state, 0, value, false, memory, &mut room)
                .expect("not refused");
        }
        let closing = plate.closing_gap();
        let heard = second::poll(plate, state, closing, memory, &mut room).expect("not refused");
        room[..heard.reply].to_vec()
    }
}

/// Any address, any command, data of any length, rooms of any size. Every command is written, 55h with new address bytes that no board can have too.
#[test]
fn requests() {
    let mut dice = Dice::new(1);
    let board = Answerer::new(&mut dice);
    let mut written: BTreeMap<u8, usize> = BTreeMap::new();
    let mut no_address = 0;
    for _ in 0..400_000 {
        let (command, data) = rig::request(&mut dice, &board.known());
        let address = match dice.below(8) {
            0 => dice.word(),
            1 => dice.word() % 300,
            2 => BROADCAST,
            _ => dice.word() % 32,
        };
        let size = match dice.below(8) {
            0 => dice.below(REQUEST_ROOM),
            1 => REQUEST_ROOM - 1,
            2 => REQUEST_ROOM + dice.below(100),
            _ => REQUEST_ROOM,
        };
        let mut room = dice.bytes(size);
        let mut expected = room.clone();
        let result = second::write_request(address, command, &data, &mut expected);
        assert_eq!(
            write_request(address, command, &data, &mut room),
            result,
            "{address} {command:X} {data:X?}"
        );
        assert_eq!(room, expected);
        if result.is_err() {
            continue;
        }
        *written.entry(command).or_default() += 1;
        no_address += usize::from(command == SET_ADDRESS && !matches!(data[0], 0x40..=0x5F));
    }
    assert!(written.values().sum::<usize>() > 100_000);
    assert!(written.keys().eq(COMMANDS.iter()), "{written:X?}");
    assert!(written.values().all(|&number| number > 1000) && no_address > 1000);
}

/// What the second program's row of the command says of a reply that begins so, two or more of its bytes being here.
fn told_by_second(request: &[u8], begun: &[u8]) -> Result<usize, Refusal> {
    if second::judge(request, &[]) == Err(Refusal::B0) {
        return Err(Refusal::B0);
    }
    let (command, data) = (request[1], &request[2..request.len() - 1]);
    match begun[1] & 0x7F {
        0x50 => Ok(4),
        replied if replied != command => Err(Refusal::B4),
        _ => Request::parse(command, data)
            .ok()
            .and_then(|asked| asked.reply_length())
            .map(|length| length + 3)
            .ok_or(Refusal::B5),
    }
}

/// The length is told from the second byte on; a reply that is taken has it.
fn length_is_told(request: &[u8], reply: &[u8]) {
    let expected = if reply.len() < 2 {
        Ok(0)
    } else {
        told_by_second(request, reply)
    };
    for here in 0..=reply.len() {
        let told = reply_length(request, &reply[..here]);
        if here < 2 {
            let early = match second::judge(request, &[]) {
                Err(Refusal::B0) => Err(Refusal::B0),
                _ => Ok(0),
            };
            assert_eq!(told, early, "{request:X?} {reply:X?}");
        } else {
            assert_eq!(told, expected, "{request:X?} {reply:X?}");
        }
    }
    if second::judge(request, reply).is_ok() {
        assert_eq!(expected, Ok(reply.len()), "{request:X?} {reply:X?}");
    }
}

fn verdict_name(verdict: Result<second::Verdict, Refusal>) -> String {
    let words = format!("{verdict:?}");
    words.split_once("(Error").map_or(words.clone(), |_| {
        if words.contains("Warning") {
            "ErrorWithWarning".into()
        } else {
            "Error".into()
        }
    })
}

const DONE: &[&str] = &["Ok(Done)", "Ok(DoneWithWarning)"];
const ERROR: &[&str] = &["Error", "ErrorWithWarning"];
const REFUSED_EARLY: &[&str] = &["Err(B0)", "Err(B1)", "Err(B2)"];
const REFUSED_LATE: &[&str] = &["Err(B3)", "Err(B4)", "Err(B5)", "Err(B6)"];

/// How often each verdict came to requests of each command.
type Seen = BTreeMap<(u8, String), usize>;

/// The verdict of both on a reply, its data part and its length as they are told.
fn judged(request: &[u8], reply: &[u8]) -> Result<Verdict, Refusal> {
    let verdict = second::judge(request, reply);
    assert_eq!(judge(request, reply), verdict, "{request:X?} {reply:X?}");
    let piece = second::data_part(request, reply);
    let place = piece.as_ptr() as usize - reply.as_ptr() as usize;
    assert_eq!(
        data_part(request, reply),
        (place, piece.len()),
        "{request:X?} {reply:X?}"
    );
    length_is_told(request, reply);
    verdict
}

fn in_all(seen: &Seen, name: &str) -> usize {
    let of_name = seen.iter().filter(|((_, found), _)| found == name);
    of_name.map(|(_, number)| number).sum()
}

fn came_up(seen: &Seen, command: u8, names: &[&str]) {
    for name in names {
        let number = seen.get(&(command, name.to_string())).copied();
        assert!(
            number.is_some_and(|number| number > 100),
            "{command:X} {name}: {number:?}"
        );
    }
}

/// A request that the bench writes to a board where its last 55h put it, where its plate did, or to all, and the board's reply.
fn exchange(dice: &mut Dice, board: &mut Answerer) -> Option<(Vec<u8>, Vec<u8>)> {
    let (command, data) = rig::request(dice, &board.known());
    let own = board.state.address;
    let address = dice.one_of(&[
        own,
        own,
        own,
        own,
        BROADCAST,
        BROADCAST,
        board.plate.address,
    ]);
    let mut room = [0; REQUEST_ROOM];
    let length = second::write_request(address, command, &data, &mut room).ok()?;
    if dice.once_in(50) {
        board.state.note_fault(dice.byte());
    }
    let request = room[..length].to_vec();
    let reply = board.reply_to(&request);
    if board.state.address != own {
        let done = [Ok(Verdict::Done), Ok(Verdict::DoneWithWarning)];
        assert!(done.contains(&judged(&request, &reply)), "{request:X?}");
    }
    Some((request, reply))
}

/// Requests and replies of a board, both now and then damaged.
#[test]
fn verdicts() {
    let mut dice = Dice::new(2);
    let mut seen = Seen::new();
    let mut board = Answerer::new(&mut dice);
    for _ in 0..600_000 {
        let Some((mut request, mut reply)) = exchange(&mut dice, &mut board) else {
            continue;
        };
        let command = request[1];
        for _ in 0..dice.one_of(&[0, 0, 1, 1, 2, 3]) {
            rig::mutate(&mut dice, &mut reply);
        }
        if dice.once_in(10) {
            rig::mutate(&mut dice, &mut request);
        }
        let name = verdict_name(judged(&request, &reply));
        *seen.entry((command, name)).or_default() += 1;
    }
    for name in [DONE, ERROR, REFUSED_EARLY, REFUSED_LATE].concat() {
        let number = in_all(&seen, name);
        assert!(number > 100, "{name} in {seen:X?}");
    }
    for command in NEW_COMMANDS {
        came_up(&seen, command, DONE);
        came_up(&seen, command, &["Err(B1)", "Err(B2)", "Err(B3)"]);
    }
    came_up(&seen, SET_ADDRESS, ERROR);
}

/// A reply that no board sends but by chance: from the asked address, the new one or one beside it, with a command and data of about the right kind.
fn drawn_reply(dice: &mut Dice, request: &[u8]) -> Vec<u8> {
    let (asked, command, wanted) = (request[0], request[1], request[2]);
    let address = match dice.below(8) {
        0 => dice.byte(),
        1 => dice.one_of(&EDGE_ADDRESSES),
        2 => wanted ^ 1 << dice.below(8),
        3..=4 => wanted,
        5 => some_address(dice),
        _ => asked,
    };
    let any = dice.byte();
    let replied = dice.one_of(&[command, command, command, 0x50, 0x50, 0x52, 0x55, 0x56, any]);
    let right = match replied & 0x7F {
        0x52 => 4,
        0x56 => 37,
        0x50 => 1,
        _ => 0,
    };
    let length = dice.one_of(&[right, right, right, right, 0, 1, 4, 36, 37, 38]);
    let mut reply = vec![address, replied | dice.one_of(&[0, 0x80])];
    reply.extend(dice.bytes(length));
    let mut reply = rig::sealed(reply);
    if dice.once_in(20) {
        rig::mutate(dice, &mut reply);
    }
    reply
}

/// Which word of 02's "whichever address byte the table shows, in an error reply the old one" a reply to a 55h breaks.
fn broken_word(request: &[u8], reply: &[u8]) -> &'static str {
    let (asked, wanted) = (request[0], request[2]);
    let good = reply[1] & 0x7F == SET_ADDRESS;
    match (good, reply[0]) {
        (true, address) if address == wanted => "good, from a new address that no board has",
        (true, _) if asked == EVERY_BOARD => "good to a broadcast, from another address",
        (true, address) if address == asked => "good, from the old address",
        (true, _) => "good, from another address",
        (false, _) if asked == EVERY_BOARD => "not good to a broadcast, from no board's address",
        (false, address) if address == wanted => "not good, from the new address",
        (false, _) => "not good, from another address",
    }
}

/// Replies drawn at random to 52h, 55h and 56h, for B3 most of all, which comes before B4 but to 55h hangs on the reply's command.
#[test]
fn verdicts_on_addresses() {
    let mut dice = Dice::new(4);
    let (mut seen, mut broken) = (Seen::new(), BTreeMap::new());
    for _ in 0..600_000 {
        let command = dice.one_of(&[0x52, 0x55, 0x55, 0x55, 0x56]);
        let wanted = match dice.below(4) {
            0 => dice.one_of(&EDGE_ADDRESSES),
            1 => dice.byte(),
            _ => some_address(&mut dice),
        };
        let data = [wanted, dice.byte()];
        let data = &data[..if command == SET_ADDRESS { 2 } else { 0 }];
        let address = dice.one_of(&[0, 5, 31, BROADCAST, BROADCAST]);
        let mut request = [0; REQUEST_ROOM];
        let length = second::write_request(address, command, data, &mut request);
        let request = &request[..length.expect("a request that the bench writes")];
        let reply = drawn_reply(&mut dice, request);
        let verdict = judged(request, &reply);
        if command == SET_ADDRESS && verdict == Err(Refusal::B3) {
            *broken.entry(broken_word(request, &reply)).or_insert(0) += 1;
        }
        *seen.entry((command, verdict_name(verdict))).or_default() += 1;
    }
    for command in NEW_COMMANDS {
        came_up(&seen, command, DONE);
        came_up(&seen, command, ERROR);
        came_up(&seen, command, &["Err(B2)", "Err(B3)", "Err(B4)"]);
        came_up(&seen, command, &["Err(B5)"]);
    }
    assert_eq!(broken.len(), 7, "{broken:?}");
    assert!(broken.values().all(|&number| number > 1000), "{broken:?}");
}

/// Bytes of no sense at all, short ones most of all.
#[test]
fn noise() {
    let mut dice = Dice::new(3);
    for _ in 0..300_000 {
        let size = dice.one_of(&[0, 1, 2, 3, 4, 5, 6, 8, 134, 135, 136, 300]);
        let request = dice.bytes(size);
        let size = dice.one_of(&[0, 1, 2, 3, 4, 5, 6, 7, 8, 40, 134, 135, 300]);
        let reply = dice.bytes(size);
        let (request, reply) = if dice.once_in(2) {
            (rig::sealed(request), rig::sealed(reply))
        } else {
            (request, reply)
        };
        let _ = judged(&request, &reply);
    }
}
