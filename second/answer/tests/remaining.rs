//! Remaining ticks: what the answers of characters and polls say about the open frame's pause.

mod rig;

use rig::{hex, sheet_plate, Dice, Rig};
use second::Remaining::{NoFrameOpen, Ticks};
use second::{character, poll, Plate, Refusal, Remaining, State, REPLY_ROOM};

const REQUEST: [u8; 3] = [0x40, 0x4E, 0x0E];
const REPLY: &str = "40 4E 70 00 7E";
/// A gap of this many ticks is a clock stepped back by one.
const BACK: u32 = u32::MAX;

/// The sheet's board with another pause.
fn plate(ticks_per_bit: u32, pause: u32) -> Plate {
    Plate {
        ticks_per_bit,
        pause,
        ..sheet_plate(112)
    }
}

/// A plate for each pause there is, with the pause in ticks.
fn all_pauses() -> Vec<(Plate, u32)> {
    let rates = [1, 2, 4, 8, 16, 32, 64];
    let pauses = rates.map(|ticks| [22, 55].map(|pause| (plate(ticks, pause), ticks * pause)));
    pauses.concat()
}

impl Rig {
    /// A request left open, its last character at `stamp`.
    fn waiting(plate: Plate, stamp: u32) -> Rig {
        let mut rig = Rig::new(plate);
        rig.tick = stamp.wrapping_sub(REQUEST.len() as u32);
        rig.characters(&REQUEST);
        assert_eq!(rig.tick, stamp);
        rig
    }

    /// What a poll `gap` ticks after the last event says that answers nothing.
    fn unanswered(&mut self, gap: u32) -> Remaining {
        assert_eq!(self.poll(gap), []);
        self.remaining
    }

    /// What a poll `gap` ticks after the last event says. It answers the request exactly if it
    /// leaves no frame open.
    fn polled(&mut self, gap: u32) -> Remaining {
        let reply = self.poll(gap);
        let expected = if self.remaining == NoFrameOpen {
            REPLY
        } else {
            ""
        };
        assert_eq!(reply, hex(expected));
        self.remaining
    }

    /// The definition at `gap` ticks after the last event, without a call.
    fn remaining_after(&self, gap: u32) -> Remaining {
        self.state
            .remaining(&self.plate, self.tick.wrapping_add(gap))
    }
}

#[test]
fn after_each_character_the_full_pause_remains() {
    let mut rig = Rig::sheet(112);
    // For another board, with parity faults, and at the longest gap that keeps the frame open.
    for (gap, value, parity) in [
        (7, 0x41, false),
        (0, 0x4E, true),
        (1, 0xFF, false),
        (44, 0x00, true),
        (219, 0x0F, false),
        (219, 0x0F, false),
    ] {
        assert_eq!(rig.character(gap, value, parity), []);
        assert_eq!(rig.remaining, Ticks(220), "{gap}");
    }
}

#[test]
fn polls_around_the_end_of_the_pause() {
    for (plate, pause) in [
        (plate(4, 55), 220),
        (plate(4, 22), 88),
        (plate(1, 22), 22),
        (plate(64, 55), 3520),
    ] {
        for stamp in [0, 1000, u32::MAX, u32::MAX - 1, u32::MAX - pause, 1 << 31] {
            let waiting = Rig::waiting(plate, stamp);
            assert_eq!(waiting.remaining, Ticks(pause));
            for (gap, expected) in [
                (0, Ticks(pause)),
                (1, Ticks(pause - 1)),
                (pause - 1, Ticks(1)),
                (pause, NoFrameOpen),
                (pause + 1, NoFrameOpen),
                (pause + 5000, NoFrameOpen),
                (1 << 31, NoFrameOpen),
                (BACK - 1000, NoFrameOpen),
                (BACK, NoFrameOpen),
            ] {
                let mut rig = waiting.clone();
                assert_eq!(rig.polled(gap), expected, "{pause} {stamp} {gap}");
            }
        }
    }
}

#[test]
fn the_pause_goes_on_over_the_wrap_of_the_tick() {
    let mut rig = Rig::waiting(sheet_plate(112), 0xFFFF_FFF0);
    assert_eq!(rig.polled(15), Ticks(205));
    assert_eq!((rig.polled(1), rig.tick), (Ticks(204), 0));
    // A character on the far side counts from itself.
    rig.character(100, 0x00, false);
    assert_eq!((rig.remaining, rig.tick), (Ticks(220), 100));
    assert_eq!(rig.remaining_after(219), Ticks(1));
    let mut rig = Rig::waiting(sheet_plate(112), 0xFFFF_FFFF);
    assert_eq!((rig.polled(219), rig.tick), (Ticks(1), 218));
    assert_eq!((rig.polled(1), rig.tick), (NoFrameOpen, 219));
}

#[test]
fn a_clock_stepped_back_is_a_pause_long_over() {
    for back in [1, 2, 219, 220, 1000, 1 << 31] {
        let mut rig = Rig::waiting(sheet_plate(112), 500);
        let gap = 0u32.wrapping_sub(back);
        assert_eq!(rig.remaining_after(gap), Ticks(0), "{back}");
        assert_eq!(rig.polled(gap), NoFrameOpen, "{back}");
        // A character closes the frame too, and its own pause is a whole one.
        let mut rig = Rig::waiting(sheet_plate(112), 500);
        assert_eq!(rig.character(gap, 0x40, false), hex(REPLY));
        assert_eq!(rig.remaining, Ticks(220));
    }
}

#[test]
fn a_clock_stepped_back_to_the_last_character_gives_ticks_back() {
    let mut rig = Rig::waiting(sheet_plate(112), 500);
    assert_eq!(rig.polled(219), Ticks(1));
    assert_eq!(rig.polled(0u32.wrapping_sub(100)), Ticks(101));
    assert_eq!(rig.polled(0u32.wrapping_sub(119)), Ticks(220));
    assert_eq!(rig.polled(BACK), NoFrameOpen);
}

#[test]
fn the_definition_is_0_from_the_end_of_the_pause_until_the_gap_wraps() {
    let mut dice = Dice(31);
    for (plate, pause) in all_pauses() {
        let rig = Rig::waiting(plate, dice.number());
        for gap in 0..pause {
            assert_eq!(rig.remaining_after(gap), Ticks(pause - gap));
        }
        for gap in [pause, pause + 1, 2 * pause, 1 << 31, BACK - 1, BACK] {
            assert_eq!(rig.remaining_after(gap), Ticks(0), "{pause} {gap}");
        }
        for _ in 0..1000 {
            let gap = pause + dice.below(u32::MAX - pause);
            assert_eq!(rig.remaining_after(gap), Ticks(0), "{pause} {gap}");
        }
    }
}

#[test]
fn without_a_frame_there_are_no_ticks() {
    let mut rig = Rig::sheet(112);
    for gap in [0, 1, 219, 220, 221, 1 << 31, BACK] {
        assert_eq!(rig.remaining_after(gap), NoFrameOpen);
        assert_eq!(rig.unanswered(gap), NoFrameOpen);
    }
    // A closed frame leaves its stamp behind, which says nothing.
    rig.send(&REQUEST);
    for gap in [0, 1, BACK] {
        assert_eq!(rig.unanswered(gap), NoFrameOpen);
    }
    rig.state.last_stamp = rig.tick;
    assert_eq!(rig.remaining_after(0), NoFrameOpen);
}

#[test]
fn frames_that_close_in_silence_say_so_too() {
    for silent in ["41 4E 0F", "40 4E", "40", "40 53 13"] {
        let mut rig = Rig::sheet(112);
        rig.characters(&hex(silent));
        assert_eq!(rig.unanswered(219), Ticks(1));
        assert_eq!(rig.unanswered(1), NoFrameOpen, "{silent}");
    }
}

#[test]
fn a_character_that_closes_and_opens_has_the_full_pause() {
    for gap in [220, 221, 100_000, 1 << 31, BACK] {
        let mut rig = Rig::waiting(sheet_plate(112), 77);
        assert_eq!(rig.character(gap, 0x40, false), hex(REPLY));
        assert_eq!(rig.remaining, Ticks(220), "{gap}");
        // The pause is the new frame's own.
        rig.characters(&REQUEST[1..]);
        assert_eq!(rig.polled(219), Ticks(1));
        assert_eq!(rig.polled(1), NoFrameOpen);
    }
}

#[test]
fn the_pause_counts_from_the_last_character() {
    let mut rig = Rig::sheet(112);
    for value in REQUEST {
        assert_eq!(rig.character(219, value, false), []);
        assert_eq!(rig.remaining, Ticks(220));
    }
    // 438 ticks after the first character nothing is over yet.
    assert_eq!(rig.polled(0), Ticks(220));
    assert_eq!(rig.polled(219), Ticks(1));
    assert_eq!(rig.polled(1), NoFrameOpen);
}

#[test]
fn a_frame_over_135_bytes_still_counts_from_its_last_character() {
    for length in [135, 136, 137, 259, 300] {
        let mut rig = Rig::sheet(112);
        for _ in 0..length {
            assert_eq!(rig.character(219, 0x40, false), []);
            assert_eq!(rig.remaining, Ticks(220), "{length}");
        }
        assert_eq!(rig.unanswered(100), Ticks(120));
        assert_eq!(rig.unanswered(119), Ticks(1));
        assert_ne!(rig.poll(1), []);
        assert_eq!(rig.remaining, NoFrameOpen, "{length}");
    }
}

#[test]
fn measured_faults_and_polls_between_change_nothing() {
    let mut rig = Rig::waiting(sheet_plate(112), 4_294_967_200);
    for remaining in (1..220).rev() {
        assert_eq!(rig.polled(1), Ticks(remaining));
        rig.measure(remaining);
        assert_eq!(rig.remaining_after(0), Ticks(remaining));
        // Codes that are ignored or lock: a queued one would show in the reply.
        rig.note([0x00, 0x22, 0x24][remaining as usize % 3])
            .unwrap();
        assert_eq!(rig.remaining_after(0), Ticks(remaining));
        assert_eq!(rig.polled(0), Ticks(remaining));
    }
    assert_eq!(rig.polled(1), NoFrameOpen);

    let mut rig = Rig::waiting(sheet_plate(112), 9);
    rig.note(0x1D).unwrap();
    assert_eq!(rig.remaining_after(1), Ticks(219));
}

#[test]
fn power_on_drops_the_frame_and_its_ticks() {
    for gap in [0, 1, 219, 220, 1000] {
        let mut rig = Rig::waiting(sheet_plate(112), 3);
        rig.power_on();
        assert_eq!(rig.remaining_after(gap), NoFrameOpen);
        assert_eq!(rig.unanswered(gap), NoFrameOpen);
        // The next one opens a frame of its own, whatever the gap (reading 11).
        rig.characters(&REQUEST);
        assert_eq!(rig.remaining, Ticks(220));
        assert_eq!(rig.polled(220), NoFrameOpen);
    }
}

#[test]
fn a_refused_call_has_no_ticks_and_leaves_those_of_the_frame() {
    let waiting = Rig::waiting(sheet_plate(112), 50);
    let spoiled = Plate {
        pause: 23,
        ..waiting.plate
    };
    let length = waiting.memory.len();
    for (plate, memory, room, expected) in [
        (spoiled, length, REPLY_ROOM, Refusal::R1),
        (waiting.plate, length - 1, REPLY_ROOM, Refusal::R2),
        (waiting.plate, length, REPLY_ROOM - 1, Refusal::R3),
    ] {
        for gap in [0, 1, 219, 220, 221, BACK] {
            let (mut rig, tick) = (waiting.clone(), 50u32.wrapping_add(gap));
            let (mut memory, mut room) = (vec![0; memory], vec![0xEE; room]);
            let answer = poll(&plate, &mut rig.state, tick, &mut memory, &mut room);
            assert_eq!(answer, Err(expected));
            let (state, memory, room) = (&mut rig.state, &mut memory, &mut room);
            let answer = character(&plate, state, tick, 0, true, memory, room);
            assert_eq!(answer, Err(expected));
            assert_eq!(rig.state, waiting.state);
            assert_eq!(rig.polled(219), Ticks(1));
            assert_eq!(rig.polled(1), NoFrameOpen);
        }
    }
}

#[test]
fn states_that_never_arise_count_by_their_last_stamp() {
    let plate = sheet_plate(112);
    let open_and_empty = State {
        open: true,
        last_stamp: 40,
        ..State::fresh(&plate)
    };
    assert_eq!(open_and_empty.remaining(&plate, 40), Ticks(220));
    assert_eq!(open_and_empty.remaining(&plate, 259), Ticks(1));
    assert_eq!(open_and_empty.remaining(&plate, 260), Ticks(0));
    assert_eq!(open_and_empty.remaining(&plate, 39), Ticks(0));
}

/// "Polling exactly that many ticks later .. closes the frame; polling earlier does not." Later
/// than the answer that said it, for every tick from that answer's on (reading 3.4).
fn check_promise(answered: &Rig) {
    let Ticks(remaining) = answered.remaining else {
        panic!("a frame is open");
    };
    assert_eq!(answered.clone().polled(remaining), NoFrameOpen);
    let mut rig = answered.clone();
    assert_eq!(rig.polled(remaining - 1), Ticks(1));
    assert_eq!(rig.polled(1), NoFrameOpen);
    for earlier in 0..remaining {
        let left = answered.remaining_after(earlier);
        assert_eq!(left, Ticks(remaining - earlier));
    }
}

#[test]
fn polling_exactly_that_many_ticks_later_closes_and_earlier_does_not() {
    let mut dice = Dice(2024);
    for (plate, pause) in all_pauses() {
        for turn in 0..100 {
            // Every other stamp lies so that the pause runs over the wrap of the tick.
            let stamp = match turn % 2 {
                0 => dice.number(),
                _ => 0u32.wrapping_sub(1 + dice.below(pause)),
            };
            let mut rig = Rig::waiting(plate, stamp);
            check_promise(&rig);
            // Polls in between, each with a promise of its own.
            while let Ticks(remaining) = rig.remaining {
                if rig.polled(dice.below(remaining + 1)) != NoFrameOpen {
                    check_promise(&rig);
                }
            }
        }
    }
}

/// The open frame by 02's own words, in numbers that cannot wrap.
struct Words {
    pause: i64,
    last: Option<i64>,
}

impl Words {
    fn remaining(&self, tick: u32) -> Remaining {
        let Some(last) = self.last else {
            return NoFrameOpen;
        };
        let gap = (i64::from(tick) - last).rem_euclid(1 << 32);
        Ticks((self.pause - gap).max(0) as u32)
    }

    fn poll(&mut self, tick: u32) {
        if self.remaining(tick) == Ticks(0) {
            self.last = None;
        }
    }

    fn character(&mut self, tick: u32) {
        self.last = Some(i64::from(tick));
    }
}

/// A gap of traffic: short, at the end of the pause, past it, or with the clock stepped back.
fn traffic_gap(dice: &mut Dice, pause: u32) -> u32 {
    let short = dice.below(pause);
    let long = pause + dice.below(5000);
    let back = 0u32.wrapping_sub(1 + dice.below(2 * pause));
    dice.pick(&[
        0,
        1,
        short,
        short,
        short,
        pause - 1,
        pause,
        pause + 1,
        long,
        back,
    ])
}

/// One event of traffic, for the board and for the words alike.
fn traffic_event(rig: &mut Rig, words: &mut Words, dice: &mut Dice) {
    let gap = traffic_gap(dice, words.pause as u32);
    match dice.below(20) {
        0..=9 => {
            rig.character(gap, dice.pick(&REQUEST), dice.below(9) == 0);
            words.character(rig.tick);
        }
        10..=16 => {
            rig.poll(gap);
            words.poll(rig.tick);
        }
        17 => rig.measure(gap),
        18 => rig.note(gap as u8).unwrap(),
        _ => {
            rig.power_on();
            words.last = None;
        }
    }
}

#[test]
fn the_answers_of_long_traffic_say_what_the_words_say() {
    let mut dice = Dice(7);
    let (mut waiting, mut none) = (0, 0);
    for (plate, pause) in all_pauses() {
        let mut rig = Rig::new(plate);
        rig.tick = dice.number();
        let mut words = Words {
            pause: i64::from(pause),
            last: None,
        };
        for _ in 0..4000 {
            traffic_event(&mut rig, &mut words, &mut dice);
            // The rig has compared the answer with the state's ticks.
            let expected = words.remaining(rig.tick);
            assert_eq!(rig.remaining_after(0), expected);
            match expected {
                NoFrameOpen => none += 1,
                Ticks(_) => waiting += 1,
            }
        }
    }
    assert!(waiting > 10_000 && none > 10_000, "{waiting} {none}");
}
