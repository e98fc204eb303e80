//! A board of another maker, which answers the programmer as wanted or with nonsense.

use quicksetter_host::dice::Dice;

use super::{sealed, some_address, EVERY_BOARD};

const WARNING_BIT: u8 = 0x80;
const ERROR: u8 = 0x50;

/// What can be wrong with a reply, or strange though it fits.
#[derive(Clone, Copy, Debug, PartialEq, Eq, PartialOrd, Ord)]
pub enum Nonsense {
    Silence,
    TooShort,
    DamagedByte,
    OtherCommand,
    OtherLength,
    OtherNumber,
    OtherBoard,
    OfTheLastRequest,
    Error,
    ErrorWithWarning,
    ErrorOfOtherLength,
    BitReadWrong,
    Noise,
    /// Fits a 4Eh.
    MostFields,
    /// Fits a 4Ch.
    NoSuchField,
}

pub const NONSENSE: [Nonsense; 15] = [
    Nonsense::Silence,
    Nonsense::TooShort,
    Nonsense::DamagedByte,
    Nonsense::OtherCommand,
    Nonsense::OtherLength,
    Nonsense::OtherNumber,
    Nonsense::OtherBoard,
    Nonsense::OfTheLastRequest,
    Nonsense::Error,
    Nonsense::ErrorWithWarning,
    Nonsense::ErrorOfOtherLength,
    Nonsense::BitReadWrong,
    Nonsense::Noise,
    Nonsense::MostFields,
    Nonsense::NoSuchField,
];

/// It says that it has `present` fields, and reads back what was stored last.
pub struct Foreign {
    present: u8,
    stored: Vec<u8>,
    /// The latest reply as it was wanted, and the one before it.
    latest: Vec<u8>,
    former: Vec<u8>,
}

impl Foreign {
    pub fn new(present: u8) -> Foreign {
        Foreign {
            present,
            stored: vec![],
            latest: vec![],
            former: vec![],
        }
    }

    /// The reply with which the run goes on; `status` is what a 4Ch is told.
    pub fn reply(&mut self, dice: &mut Dice, request: &[u8], status: u8) -> Vec<u8> {
        let [asked, command, data @ .., _checksum] = request else {
            panic!("too short: {request:X?}");
        };
        let told = match command {
            0x4A => [&data[..3], &self.stored].concat(),
            0x4B => {
                self.stored = data[4..].to_vec();
                data[..3].to_vec()
            }
            0x4C => vec![data[0], status],
            0x4D => data[..2].to_vec(),
            _ => vec![dice.byte(), self.present],
        };
        let address = match *asked {
            EVERY_BOARD => some_address(dice),
            own => own,
        };
        let warning = dice.one_of(&[0, 0, WARNING_BIT]);
        let reply = sealed([&[address, command | warning], &told[..]].concat());
        self.former = std::mem::replace(&mut self.latest, reply.clone());
        reply
    }

    /// The same with something wrong about it; none where this kind does not fit the request.
    pub fn nonsense(&mut self, dice: &mut Dice, request: &[u8], kind: Nonsense) -> Option<Vec<u8>> {
        let status = dice.byte();
        let reply = self.reply(dice, request, status);
        match kind {
            Nonsense::OfTheLastRequest => Some(self.former.clone()),
            _ => spoiled(dice, request, reply, kind),
        }
    }
}

/// A good reply to this request, made nonsense of.
fn spoiled(dice: &mut Dice, request: &[u8], reply: Vec<u8>, kind: Nonsense) -> Option<Vec<u8>> {
    let data = reply.len() - 3;
    let place = 2 + dice.below(data.min(3));
    let code = dice.byte();
    Some(match kind {
        Nonsense::Silence => vec![],
        Nonsense::TooShort => reply[..1 + dice.below(2)].to_vec(),
        Nonsense::DamagedByte => {
            let (mut reply, place) = (reply.clone(), dice.below(reply.len()));
            reply[place] ^= 1 + dice.byte() % 255;
            reply
        }
        Nonsense::OtherCommand => resealed(reply, |bytes| bytes[1] ^= 1 + code % 0x7F),
        Nonsense::OtherLength => other_length(dice, reply),
        Nonsense::OtherNumber => resealed(reply, |bytes| bytes[place] ^= 1 + code % 0xFF),
        Nonsense::OtherBoard => resealed(reply, |bytes| bytes[0] = code),
        Nonsense::Error => sealed(vec![reply[0], ERROR, code]),
        Nonsense::ErrorWithWarning => sealed(vec![reply[0], ERROR | WARNING_BIT, code]),
        Nonsense::ErrorOfOtherLength => {
            let size = dice.one_of(&[0, 2, 3, 130]);
            let warning = dice.one_of(&[0, WARNING_BIT]);
            sealed([&[reply[0], ERROR | warning], &dice.bytes(size)[..]].concat())
        }
        Nonsense::BitReadWrong if request[1] == 0x4A => {
            let place = 5 + dice.below(data - 3);
            resealed(reply, |bytes| bytes[place] ^= 1 << (code % 8))
        }
        Nonsense::Noise => noise(dice),
        Nonsense::MostFields if request[1] == 0x4E => resealed(reply, |bytes| bytes[3] = 255),
        Nonsense::NoSuchField if request[1] == 0x4C => resealed(reply, |bytes| bytes[3] &= 0x7F),
        _ => return None,
    })
}

/// The reply changed between address and checksum, with its checksum made right again.
pub fn resealed(mut reply: Vec<u8>, change: impl FnOnce(&mut Vec<u8>)) -> Vec<u8> {
    reply.pop();
    change(&mut reply);
    sealed(reply)
}

fn other_length(dice: &mut Dice, reply: Vec<u8>) -> Vec<u8> {
    let (longer, more) = (dice.once_in(2), 1 + dice.below(3));
    let added = dice.bytes(more);
    resealed(reply, |bytes| {
        if longer {
            bytes.extend(added);
        } else {
            bytes.truncate((bytes.len() - more).max(2));
        }
    })
}

/// Up to 300 bytes, with a checksum or without.
fn noise(dice: &mut Dice) -> Vec<u8> {
    let size = dice.below(300);
    let bytes = dice.bytes(size);
    if dice.once_in(2) {
        return sealed(bytes);
    }
    bytes
}
