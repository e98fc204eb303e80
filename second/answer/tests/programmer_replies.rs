//! The handheld programmer and replies of all sorts: nonsense, errors, warnings, and foreign boards.

mod rig;

use rig::by_hand::{failed, fresh_run, used_board, wanted_fields, BY_HAND, CODES};
use rig::shop::{counted, run, wish, Agreeable};
use rig::{hex, sealed};
use second::{Ended, Programmer, Why};
use Why::{Code, Differs, Judgement};

/// The run by hand, but for one reply that is turned into another; its end.
fn spoiled_run(spoiled: usize, spoil: impl Fn(&[u8]) -> Vec<u8>) -> Ended {
    let (mut rig, mut programmer) = (used_board(), fresh_run());
    let mut sent = 0;
    let requests = run(&mut programmer, |request| {
        let reply = rig.send(request);
        sent += 1;
        if sent == spoiled + 1 {
            spoil(&reply)
        } else {
            reply
        }
    });
    for (request, (expected, _)) in requests.iter().zip(BY_HAND) {
        assert_eq!(*request, hex(expected));
    }
    programmer.ended().unwrap()
}

/// Each request of the run by hand fails like this if its reply is spoiled.
fn ends_at_every_request(why: Why, spoil: impl Fn(&[u8]) -> Vec<u8>) {
    for (place, (request, _)) in BY_HAND.into_iter().enumerate() {
        let end = spoiled_run(place, &spoil);
        assert_eq!(end, failed(&hex(request), why), "{place}");
    }
}

/// The reply with its bytes changed, and its checksum right again.
fn resealed(reply: &[u8], change: impl Fn(&mut Vec<u8>)) -> Vec<u8> {
    let mut bytes = reply[..reply.len() - 1].to_vec();
    change(&mut bytes);
    sealed(&bytes)
}

#[test]
fn silence_and_scraps_end_in_b1() {
    ends_at_every_request(Judgement(1), |_| vec![]);
    ends_at_every_request(Judgement(1), |reply| reply[..1].to_vec());
    ends_at_every_request(Judgement(1), |reply| reply[..2].to_vec());
}

#[test]
fn a_wrong_checksum_ends_in_b2() {
    for place in [0, 1, 2] {
        ends_at_every_request(Judgement(2), |reply| {
            let mut reply = reply.to_vec();
            reply[place] ^= 0x01;
            reply
        });
    }
    ends_at_every_request(Judgement(2), |reply| reply[..reply.len() - 2].to_vec());
}

#[test]
fn a_reply_from_elsewhere_ends_in_b3() {
    for address in [0x40, 0x42, 0x03, 0x63, 0xC3, 0xFF] {
        ends_at_every_request(Judgement(3), |reply| {
            resealed(reply, |bytes| bytes[0] = address)
        });
    }
}

#[test]
fn a_reply_of_another_command_ends_in_b4() {
    for command in [0x46, 0x4F, 0x53, 0xCF, 0x0E, 0xFF] {
        ends_at_every_request(Judgement(4), |reply| {
            resealed(reply, |bytes| bytes[1] = command)
        });
    }
}

#[test]
fn data_of_another_length_end_in_b5() {
    ends_at_every_request(Judgement(5), |reply| {
        resealed(reply, |bytes| bytes.push(0x55))
    });
    ends_at_every_request(Judgement(5), |reply| {
        resealed(reply, |bytes| {
            bytes.pop();
        })
    });
    ends_at_every_request(Judgement(5), |_| sealed(&hex("43 50")));
    ends_at_every_request(Judgement(5), |_| sealed(&hex("43 D0 0F 0F")));
}

#[test]
fn numbers_that_differ_end_in_b6() {
    // Field; status or offset; count.
    let compared = [
        (2, &[1, 2, 3, 4, 5, 6, 7, 8, 9, 10, 11][..]),
        (3, &[2, 4, 5, 6, 7, 8, 9, 10, 11]),
        (4, &[6, 7, 10, 11]),
    ];
    for (byte, places) in compared {
        for &place in places {
            let spoil = |reply: &[u8]| resealed(reply, |bytes| bytes[byte] ^= 0x01);
            let end = spoiled_run(place, spoil);
            let request = hex(BY_HAND[place].0);
            assert_eq!(end, failed(&request, Judgement(6)), "{byte} {place}");
        }
    }
}

#[test]
fn the_free_blocks_are_not_looked_at() {
    for free in [0, 6, 255] {
        let end = spoiled_run(0, |reply| resealed(reply, |bytes| bytes[2] = free));
        assert_eq!(end, Ended::Done);
    }
}

#[test]
fn an_error_code_ends_the_run_with_and_without_warning() {
    for code in [0x00, 0x03, 0x0F, 0x10, 0x11, 0xFF] {
        for command in [0x50, 0xD0] {
            ends_at_every_request(Code(code), |_| sealed(&[0x43, command, code]));
        }
    }
}

#[test]
fn done_with_warning_goes_on() {
    for place in 0..BY_HAND.len() {
        let end = spoiled_run(place, |reply| resealed(reply, |bytes| bytes[1] |= 0x80));
        assert_eq!(end, Ended::Done, "{place}");
    }
}

#[test]
fn every_byte_is_read_back() {
    for (place, size) in [(7, 16), (11, 32)] {
        let request = hex(BY_HAND[place].0);
        for byte in 0..size {
            for bit in 0..8 {
                let spoil = |reply: &[u8]| resealed(reply, |bytes| bytes[5 + byte] ^= 1 << bit);
                assert_eq!(spoiled_run(place, spoil), failed(&request, Differs));
            }
        }
        // A warning makes it no better.
        let spoil = |reply: &[u8]| {
            resealed(reply, |bytes| {
                bytes[1] |= 0x80;
                bytes[5] ^= 0x01;
            })
        };
        assert_eq!(spoiled_run(place, spoil), failed(&request, Differs));
    }
}

#[test]
fn nothing_is_undone_after_a_failure() {
    let (mut rig, mut programmer) = (used_board(), fresh_run());
    // Field 0 is finished; field 1 is stored but reads back as silence.
    run(&mut programmer, |request| {
        let reply = rig.send(request);
        if request[..3] == hex("43 4A 01") {
            vec![]
        } else {
            reply
        }
    });
    let end = failed(&hex(BY_HAND[11].0), Judgement(1));
    assert_eq!(programmer.ended(), Some(end));
    assert_eq!(programmer.progress(), (11, 12));
    rig.holds_exactly(&wanted_fields(), 3);
}

#[test]
fn progress_of_a_failed_run() {
    let mut programmer = fresh_run();
    programmer.heard(&[]);
    assert_eq!(programmer.progress(), (0, 8));
    let mut programmer = fresh_run();
    programmer.heard(&sealed(&hex("43 50 03")));
    assert_eq!(programmer.progress(), (0, 8));
    let mut programmer = fresh_run();
    programmer.heard(&sealed(&hex("43 4E 00 09")));
    assert_eq!(programmer.progress(), (1, 26));
    programmer.heard(&[]);
    assert_eq!(programmer.progress(), (1, 26));
}

#[test]
fn a_foreign_board_that_tells_255_fields() {
    let fields = [counted(0x80, 1), counted(0xC0, 2)];
    let mut programmer = Programmer::new(0, wish(CODES, &fields)).unwrap();
    let mut foreign = Agreeable::new(255, 0xFF);
    let requests = run(&mut programmer, |request| foreign.answer(request));
    assert_eq!(programmer.ended(), Some(Ended::Done));
    assert_eq!(programmer.progress(), (518, 518));
    assert_eq!(requests.len(), 1 + 2 * 255 + 4 + 3);
    let deletions = requests[1..511].chunks(2).zip((0..255).rev());
    for (pair, field) in deletions {
        assert_eq!(pair[0], sealed(&[0x40, 0x4C, field]));
        assert_eq!(pair[1], sealed(&[0x40, 0x4D, field, 0x7F, 0x44]));
    }
    assert_eq!(requests[511], sealed(&[0x40, 0x4D, 0, 0xC0, 0x11]));
}

#[test]
fn a_deletion_names_whatever_was_read() {
    for status in 0..=255 {
        let mut programmer = Programmer::new(0, wish(CODES, &[])).unwrap();
        let mut foreign = Agreeable::new(1, status);
        let requests = run(&mut programmer, |request| foreign.answer(request));
        let code = CODES[usize::from(status >> 4 & 3)];
        let deletion = sealed(&[0x40, 0x4D, 0, status & 0x7F, code]);
        assert_eq!(requests[2..], [deletion], "{status:02X}");
        assert_eq!(programmer.ended(), Some(Ended::Done));
    }
}
