//! The bench: requests written and refused, replies judged, and their data parts.

mod rig;

use rig::{hex, sealed, Rig};
use second::*;

fn written(address: u32, command: u8, data: &[u8]) -> Result<Vec<u8>, Refusal> {
    let mut room = [0xEE; REQUEST_ROOM];
    let answer = write_request(address, command, data, &mut room);
    let length = answer.unwrap_or(0);
    assert!(room[length..].iter().all(|&byte| byte == 0xEE));
    answer.map(|length| room[..length].to_vec())
}

/// Judges a reply given without its checksum.
fn judged(request: &[u8], reply: &[u8]) -> Result<Verdict, Refusal> {
    judge(&sealed(request), &sealed(reply))
}

#[test]
fn requests_are_written() {
    assert_eq!(written(0, 0x4E, &[]), Ok(hex("40 4E 0E")));
    assert_eq!(written(BROADCAST, 0x4E, &[]), Ok(hex("FF 4E B1")));
    assert_eq!(written(31, 0x53, &[]), Ok(hex("5F 53 0C")));
    assert_eq!(
        written(0, 0x4D, &hex("00 C9 55")),
        Ok(hex("40 4D 00 C9 55 91"))
    );
    let longest = [&[0, 0, 128, 0x55], &[1; 128][..]].concat();
    assert_eq!(written(0, 0x4B, &longest).map(|bytes| bytes.len()), Ok(135));
    // The position is the board's to judge.
    assert!(written(0, 0x43, &[255; 5]).is_ok());
}

#[test]
fn address_label_and_version_are_written() {
    assert_eq!(written(0, 0x52, &[]), Ok(hex("40 52 12")));
    assert_eq!(written(31, 0x56, &[]), Ok(hex("5F 56 09")));
    // The new address byte is the board's to judge, and so is the code.
    for new in 0..=255 {
        assert_eq!(
            written(0, 0x55, &[new, 9]),
            Ok(sealed(&[0x40, 0x55, new, 9]))
        );
        assert_eq!(
            written(BROADCAST, 0x55, &[new, 9]),
            Ok(sealed(&[0xFF, 0x55, new, 9]))
        );
    }
}

#[test]
fn requests_are_refused() {
    let mut small = [7; 134];
    assert_eq!(write_request(32, 0, &[], &mut small), Err(Refusal::R4));
    assert_eq!(write_request(0, 0x4E, &[], &mut small), Err(Refusal::R4));
    assert_eq!(small, [7; 134]);
    for (address, command, data) in [
        (32, 0x4E, vec![]),
        (0x40, 0x4E, vec![]),
        (254, 0x4E, vec![]),
        (256, 0x4E, vec![]),
        (0, 0x44, vec![]),
        (0, 0xCE, vec![]),
        (0, 0x4E, vec![0]),
        (0, 0x4A, vec![0, 0, 0, 0]),
        (0, 0x4A, vec![0, 0, 129, 0]),
        (0, 0x4B, vec![0, 0, 0, 0]),
        (0, 0x4B, vec![0, 0, 2, 0, 1]),
        (0, 0x4B, [&[0, 0, 129, 0], &[0; 129][..]].concat()),
        (0, 0x4F, vec![4, 0, 0]),
        (0, 0x52, vec![0]),
        (0, 0x56, vec![0]),
        (0, 0x55, vec![]),
        (0, 0x55, vec![0x41]),
        (0, 0x55, vec![0x41, 0x55, 0x55]),
        (0, 0xD5, vec![0x41, 0x55]),
        (32, 0x55, vec![0x41, 0x55]),
    ] {
        assert_eq!(written(address, command, &data), Err(Refusal::R5));
    }
}

#[test]
fn replies_are_judged() {
    assert_eq!(
        judged(&hex("40 4E"), &hex("40 4E 70 00")),
        Ok(Verdict::Done)
    );
    assert_eq!(
        judged(&hex("FF 4E"), &hex("5F CE 70 00")),
        Ok(Verdict::DoneWithWarning)
    );
    assert_eq!(
        judged(&hex("40 4E"), &hex("40 50 0A")),
        Ok(Verdict::Error(0x0A))
    );
    assert_eq!(
        judged(&hex("40 4E"), &hex("40 D0 00")),
        Ok(Verdict::ErrorWithWarning(0))
    );
    assert_eq!(judged(&hex("40 50"), &hex("40 50 0A")), Ok(Verdict::Done));
    assert_eq!(
        judged(&hex("40 50"), &hex("40 D0 0A")),
        Ok(Verdict::DoneWithWarning)
    );
}

#[test]
fn replies_are_refused_in_order() {
    for (request, reply, refusal) in [
        ("40 44 04", "", Refusal::B0),
        ("40 4E 0F", "", Refusal::B0),
        ("60 4E 2E", "", Refusal::B0),
        ("40 4A 00 00 00 55 5F", "", Refusal::B0),
        ("40 4E", "", Refusal::B0),
        ("40 4E 0E", "", Refusal::B1),
        ("40 4E 0E", "41 00", Refusal::B1),
        ("40 4E 0E", "41 44 00", Refusal::B2),
        ("40 4E 0E", "41 44 05", Refusal::B3),
        ("40 4E 0E", "FF 4E B1", Refusal::B3),
        ("FF 4E B1", "60 4E 2E", Refusal::B3),
        ("FF 4E B1", "FF 4E B1", Refusal::B3),
        ("40 4E 0E", "40 44 04", Refusal::B4),
        ("40 50 10", "40 4E 0E", Refusal::B4),
        ("40 4E 0E", "40 4E 0E", Refusal::B5),
        ("40 4E 0E", "40 50 10", Refusal::B5),
        ("40 50 10", "40 50 10", Refusal::B5),
        ("40 53 13", "40 53 13", Refusal::B5),
        ("40 53 13", "40 D3 00 93", Refusal::B5),
        ("40 4D 00 C9 55 91", "40 4D 01 C9 C5", Refusal::B6),
        ("40 4D 00 C9 55 91", "40 4D 00 C8 C5", Refusal::B6),
        ("40 4C 00 0C", "40 4C 01 C9 C4", Refusal::B6),
        ("40 4F 02 55 66 3E", "40 4F 03 0C", Refusal::B6),
        ("40 4A 01 04 01 66 68", "40 4A 01 05 01 00 0F", Refusal::B6),
        ("40 4A 01 04 01 66 68", "40 4A 01 04 02 00 0D", Refusal::B6),
        ("40 4B 01 04 01 66 00 69", "40 4B 01 04 02 0C", Refusal::B6),
    ] {
        let (request, reply) = (hex(request), hex(reply));
        assert_eq!(
            judge(&request, &reply),
            Err(refusal),
            "{request:02X?} {reply:02X?}"
        );
        let part = data_part(&request, &reply);
        assert!(part.is_empty() && part.as_ptr() == reply.as_ptr());
    }
    // 4Ch's status is not compared.
    assert_eq!(
        judged(&hex("40 4C 00"), &hex("40 4C 00 11")),
        Ok(Verdict::Done)
    );
    // A 53h can still meet an error reply.
    assert_eq!(
        judged(&hex("40 53"), &hex("40 50 09")),
        Ok(Verdict::Error(9))
    );
}

#[test]
fn replies_to_a_55h_are_judged_by_their_address() {
    use Refusal::{B3, B4, B5};
    let (done, warning) = (Ok(Verdict::Done), Ok(Verdict::DoneWithWarning));
    let error = Ok(Verdict::Error(0x0F));
    for (request, reply, verdict) in [
        // The good reply carries the new address, and no other.
        ("40 55 45 55", "45 55", done),
        ("40 55 45 55", "45 D5", warning),
        ("40 55 45 55", "40 55", Err(B3)),
        ("40 55 45 55", "40 D5", Err(B3)),
        ("40 55 45 55", "46 55", Err(B3)),
        // An error reply carries the old one.
        ("40 55 45 55", "40 50 0F", error),
        (
            "40 55 45 55",
            "40 D0 0D",
            Ok(Verdict::ErrorWithWarning(0x0D)),
        ),
        ("40 55 45 55", "45 50 0F", Err(B3)),
        ("40 55 45 55", "45 D0 0F", Err(B3)),
        // New and old the same: one byte serves both.
        ("40 55 40 55", "40 55", done),
        ("40 55 40 55", "40 50 0F", error),
        ("40 55 40 55", "41 55", Err(B3)),
        // No board has an address other than 40h to 5Fh.
        ("40 55 60 55", "60 55", Err(B3)),
        ("40 55 60 55", "40 55", Err(B3)),
        ("40 55 60 55", "40 50 0D", Ok(Verdict::Error(0x0D))),
        ("40 55 3F 55", "3F D5", Err(B3)),
        ("40 55 FF 55", "FF 55", Err(B3)),
        // Any other command comes from the asked address, and B4 refuses it there.
        ("40 55 45 55", "40 56", Err(B4)),
        ("40 55 45 55", "45 56", Err(B3)),
        // B5 comes after both.
        ("40 55 45 55", "45 55 00", Err(B5)),
        ("40 55 45 55", "40 55 00", Err(B3)),
        ("40 55 45 55", "40 50", Err(B5)),
        ("40 55 45 55", "40 50 0F 00", Err(B5)),
    ] {
        assert_eq!(
            judged(&hex(request), &hex(reply)),
            verdict,
            "{request} {reply}"
        );
    }
}

#[test]
fn replies_to_a_broadcast_55h() {
    use Refusal::{B3, B4};
    for (request, reply, verdict) in [
        // The good reply carries exactly the new address.
        ("FF 55 45 55", "45 55", Ok(Verdict::Done)),
        ("FF 55 45 55", "45 D5", Ok(Verdict::DoneWithWarning)),
        ("FF 55 45 55", "40 55", Err(B3)),
        ("FF 55 45 55", "FF 55", Err(B3)),
        ("FF 55 FF 55", "FF 55", Err(B3)),
        ("FF 55 60 55", "60 55", Err(B3)),
        // The old one is not known: an error reply may come from any board.
        ("FF 55 45 55", "40 50 0F", Ok(Verdict::Error(0x0F))),
        ("FF 55 45 55", "45 50 0F", Ok(Verdict::Error(0x0F))),
        ("FF 55 60 55", "5F 50 0D", Ok(Verdict::Error(0x0D))),
        ("FF 55 60 55", "60 50 0D", Err(B3)),
        ("FF 55 45 55", "FF 50 0F", Err(B3)),
        ("FF 55 45 55", "40 56", Err(B4)),
    ] {
        assert_eq!(
            judged(&hex(request), &hex(reply)),
            verdict,
            "{request} {reply}"
        );
    }
}

#[test]
fn a_reply_55h_to_another_request() {
    for (request, reply, refusal) in [
        ("40 4E", "40 55", Refusal::B4),
        ("40 4E", "40 D5", Refusal::B4),
        ("40 4E", "45 55", Refusal::B3),
        ("FF 4E", "5F 55", Refusal::B4),
        ("FF 4E", "60 55", Refusal::B3),
        ("40 4F 02 45 55", "45 55", Refusal::B3),
    ] {
        assert_eq!(judged(&hex(request), &hex(reply)), Err(refusal));
    }
}

#[test]
fn replies_of_every_address_to_a_55h() {
    for new in 0..=255 {
        for address in 0..=255 {
            let allowed = (0x40..=0x5F).contains(&address);
            let good = judged(&[0x43, 0x55, new, 9], &[address, 0x55]);
            assert_eq!(good.is_ok(), allowed && address == new);
            let error = judged(&[0x43, 0x55, new, 9], &[address, 0x50, 0x0D]);
            assert_eq!(error.is_ok(), address == 0x43);
            let good = judged(&[0xFF, 0x55, new, 9], &[address, 0x55]);
            assert_eq!(good.is_ok(), allowed && address == new);
            let error = judged(&[0xFF, 0x55, new, 9], &[address, 0x50, 0x0D]);
            assert_eq!(error.is_ok(), allowed);
        }
    }
}

#[test]
fn label_and_version_replies_have_4_and_37_bytes() {
    for (command, right) in [(0x52, 4), (0x56, 37)] {
        for length in 0..=132 {
            let reply = [&[0x40, command][..], &vec![7; length]].concat();
            let verdict = judged(&[0x40, command], &reply);
            if length == right {
                assert_eq!(verdict, Ok(Verdict::Done));
            } else {
                assert_eq!(verdict, Err(Refusal::B5));
            }
        }
        // Nothing to compare: any bytes will do, and an error reply is one.
        assert_eq!(
            judged(&[0xFF, command], &[0x41, 0xD0, 0x09]),
            Ok(Verdict::ErrorWithWarning(0x09))
        );
    }
}

#[test]
fn the_data_part_is_a_piece_of_the_reply() {
    let reply = hex("40 4A 01 04 02 08 15 10");
    let request = hex("40 4A 01 04 02 66 6B");
    let part = data_part(&request, &reply);
    assert_eq!(part, hex("01 04 02 08 15"));
    assert_eq!(part.as_ptr(), reply[2..].as_ptr());
    let reply = hex("40 43 03");
    let part = data_part(&hex("40 43 00 00 00 02 55 54"), &reply);
    assert!(part.is_empty() && part.as_ptr() == reply[2..].as_ptr());
    assert_eq!(data_part(&hex("40 4E 0E"), &hex("40 50 0A 1A")), [0x0A]);
    assert_eq!(data_part(&hex("40 50 10"), &hex("40 50 08 18")), [0x08]);
    let reply = hex("45 55 10");
    let part = data_part(&hex("40 55 45 55 05"), &reply);
    assert!(part.is_empty() && part.as_ptr() == reply[2..].as_ptr());
    assert_eq!(
        data_part(&hex("40 52 12"), &hex("40 52 E4 FF 80 00 89")),
        hex("E4 FF 80 00")
    );
}

#[test]
fn bench_and_board_together() {
    let mut rig = Rig::sheet(112);
    rig.note(0x1D).unwrap();
    let request = written(BROADCAST, 0x4D, &hex("00 C9 55")).unwrap();
    let reply = rig.send(&request);
    assert_eq!(judge(&request, &reply), Ok(Verdict::DoneWithWarning));
    let request = written(0, 0x50, &[]).unwrap();
    let reply = rig.send(&request);
    assert_eq!(judge(&request, &reply), Ok(Verdict::Done));
    assert_eq!(data_part(&request, &reply), [0x1D]);
}

#[test]
fn bench_and_board_over_a_new_address() {
    let mut rig = Rig::sheet(112);
    for (address, new) in [(0, 0x45), (BROADCAST, 0x5F), (31, 0x5F), (31, 0x40)] {
        let refused = written(address, 0x55, &[new, 0]).unwrap();
        assert_eq!(
            judge(&refused, &rig.send(&refused)),
            Ok(Verdict::Error(0x0F))
        );
        let refused = written(address, 0x55, &[0x60, 0x55]).unwrap();
        assert_eq!(
            judge(&refused, &rig.send(&refused)),
            Ok(Verdict::Error(0x0D))
        );
        let request = written(address, 0x55, &[new, 0x55]).unwrap();
        assert_eq!(judge(&request, &rig.send(&request)), Ok(Verdict::Done));
        let label = written(u32::from(new & 0x1F), 0x52, &[]).unwrap();
        let reply = rig.send(&label);
        assert_eq!(data_part(&label, &reply), [0; 4]);
        let version = written(BROADCAST, 0x56, &[]).unwrap();
        let reply = rig.send(&version);
        assert_eq!(data_part(&version, &reply), [0; 37]);
    }
}
