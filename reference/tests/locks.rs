//! Request N6: lock-out. Codes 14 and 15, question 23 and its place, the lock bytes in areas of both lengths, question
//! 9 about them, and areas of before. Numbers are written out here.

mod common;

use common::{Desk, SMALL_AREA, SMALL_LOCKS, WIDE_AREA, WIDE_LOCKS, file_l};
use reference::tokens::row;
use reference::{first_bad, fresh, operate};

/// A line with so many cards, each with its hard-wired descriptor, which names nothing, and so many external objects.
fn line(cards: usize, external: usize) -> Vec<u8> {
    let owned: Vec<usize> = (1..=cards).flat_map(|card| [4, 2, card]).collect();
    row(&[&[1, 0, cards, cards + external, 0][..], &owned, &[3, 0, 0].repeat(external), &vec![0; cards]].concat())
}

/// Lines of sixteen and of three cards in both rooms, each with the place of its lock bytes.
fn lines() -> Vec<(Vec<u8>, usize, usize)> {
    let rooms = [(96, SMALL_LOCKS), (97, WIDE_LOCKS), (192, WIDE_LOCKS)];
    let both = rooms.into_iter().flat_map(|(objects, place)| [16, 3].map(|cards| (cards, objects, place)));
    both.map(|(cards, objects, place)| (line(cards, objects - cards), cards, place)).collect()
}

#[test]
fn a_lock_is_one_byte_behind_the_records() {
    for (line, cards, place) in lines() {
        let mut desk = Desk::new(&line);
        let mut expected = desk.state.clone();
        assert_eq!(expected.len(), place + 16);
        for card in 1..=cards {
            desk.accept(&[&[14, card]]);
            expected[place + card - 1] = 1;
            assert_eq!(desk.state, expected, "card {card}");
        }
        for card in (1..=cards).rev() {
            desk.accept(&[&[15, card]]);
            expected[place + card - 1] = 0;
            assert_eq!(desk.state, expected, "card {card}");
        }
        assert_eq!(desk.answer, [0; 128]);
    }
}

#[test]
fn question_23_stands_behind_16_and_before_22() {
    // Card 1's ring is refused by 22 in the green zone 1, and by 21 in 2, where object 5 is not.
    let mut line = file_l();
    line.splice(26..29, [2, 3, 3]);
    let mut desk = Desk::new(&line);
    desk.accept(&[&[13, 1], &[5, 2]]);
    assert_eq!((desk.numbers(&[8, 1, 1]), desk.numbers(&[8, 1, 2])), (22, 21));
    desk.accept(&[&[14, 1]]);
    for (record, answer) in [
        (&[8, 1, 1][..], 23),
        (&[8, 1, 2], 23),
        (&[8, 1, 3], 14),
        (&[8, 1, 64], 11),
        (&[8, 1, 0], 11),
        (&[8, 1], 10),
        (&[2, 1, 1, 2, 0, 3], 16),
        (&[4, 1, 1, 2, 0], 16),
        (&[11, 1], 16),
        (&[14, 1], 23),
    ] {
        assert_eq!(desk.numbers(record), answer, "{record:?}");
    }
    desk.accept(&[&[15, 1]]);
    assert_eq!((desk.numbers(&[8, 1, 1]), desk.numbers(&[8, 1, 2])), (22, 21));
}

#[test]
fn no_other_code_looks_at_a_lock() {
    let mut desk = Desk::new(&file_l());
    desk.accept(&[&[14, 1], &[5, 1], &[13, 2], &[5, 3], &[6, 3], &[7, 1, 1], &[9, 1, 1, 5], &[8, 2, 1]]);
    let raw = [vec![1, 1, 1, 5, 1], vec![7; 16]].concat();
    assert_eq!(desk.record(&raw), 0);
    desk.accept(&[&[3, 1, 1, 5, 6], &[12, 1, 1, 5], &[10, 1], &[11, 2], &[6, 1], &[6, 2]]);
    assert_eq!(desk.state[SMALL_LOCKS..], [1, 0, 0, 0, 0, 0, 0, 0, 0, 0, 0, 0, 0, 0, 0, 0]);
    // A driver and a card have one number, and two locks do not know of each other.
    desk.accept(&[&[14, 2], &[15, 1]]);
    assert_eq!(desk.state[SMALL_LOCKS..SMALL_LOCKS + 2], [0, 1]);
    desk.accept(&[&[5, 4], &[8, 1, 4], &[11, 1], &[14, 1], &[15, 2], &[8, 2, 4]]);
    assert_eq!(desk.state[SMALL_LOCKS..SMALL_LOCKS + 2], [1, 0]);
}

#[test]
fn records_of_codes_14_and_15() {
    for code in [14, 15] {
        let mut desk = Desk::new(&file_l());
        for rest in [&[][..], &[1, 0], &[1, 1], &[128], &[129, 0], &[129, 128, 0], &[255, 255, 255, 1], &[128, 128, 0]]
        {
            assert_eq!(desk.record(&[&[code][..], rest].concat()), 10, "{code} {rest:?}");
        }
        for card in [0, 3, 16, 17, 127, 128, 2_000, 65_535, 65_536, 2_097_151] {
            assert_eq!(desk.numbers(&[usize::from(code), card]), 11, "{code} {card}");
        }
    }
    let mut desk = Desk::new(&file_l());
    for code in [0, 16, 17, 142, 143] {
        assert_eq!(desk.numbers(&[code, 1]), 10, "{code}");
    }
}

/// The first bad record and the answer to an empty record, for a fresh area with bytes set.
fn found(line: &[u8], length: usize, bytes: &[(usize, u8)]) -> (u64, u32) {
    let mut area = vec![0; length];
    assert_eq!(fresh(line, &mut area), 0);
    bytes.iter().for_each(|(place, byte)| area[*place] = *byte);
    let place = first_bad(line, &area);
    (place, operate(line, &mut area, &[], &mut [0; 128]))
}

#[test]
fn question_9_about_lock_bytes() {
    for (line, cards, place) in lines() {
        for card in 1..=16 {
            for byte in 0..=255 {
                let answer = if byte == 0 || (byte == 1 && card <= cards) { 10 } else { 9 };
                assert_eq!(found(&line, place + 16, &[(place + card - 1, byte)]), (0, answer), "card {card}: {byte}");
            }
        }
        // Partition 5 exists, and card n with its descriptor, the record n, is in it.
        for card in 1..=cards {
            let active = [(5, 1), (79 + card, 5), (96 + 17 * (card - 1), 5)];
            assert_eq!(found(&line, place + 16, &active), (0, 10));
            for locked in 1..=cards {
                let bytes = [&active[..], &[(place + locked - 1, 1)]].concat();
                assert_eq!(found(&line, place + 16, &bytes), (0, if locked == card { 9 } else { 10 }));
            }
        }
    }
}

/// An active card that is locked is refused by 9 in every call, and by no 23; a bad record is still found behind it.
#[test]
fn a_bad_lock_gives_9_and_no_23() {
    let mut desk = Desk::new(&file_l());
    desk.accept(&[&[5, 1], &[8, 1, 1]]);
    desk.state[SMALL_LOCKS] = 1;
    for record in [&[8, 1, 1][..], &[14, 1], &[15, 1], &[11, 1], &[5, 2], &[14, 2], &[200]] {
        assert_eq!(desk.numbers(record), 9, "{record:?}");
    }
    assert_eq!(first_bad(&desk.line, &desk.state), 0);
    desk.state[SMALL_LOCKS - 1] = 1;
    assert_eq!(first_bad(&desk.line, &desk.state), 96);
}

#[test]
fn areas_of_before_get_7_and_with_sixteen_zeros_go_on() {
    for (objects, before, now) in [(96, SMALL_LOCKS, SMALL_AREA), (97, WIDE_LOCKS, WIDE_AREA)] {
        let line = line(16, objects - 16);
        let mut desk = Desk::new(&line);
        desk.accept(&[&[5, 1], &[13, 2], &[8, 16, 1], &[9, 2, 1, objects]]);
        for length in before - 1..=now + 1 {
            let mut area = desk.state.clone();
            area.resize(length, 0);
            let answer = if length == now { 0 } else { 7 };
            assert_eq!(fresh(&line, &mut area.clone()), answer, "{length}");
            assert_eq!(operate(&line, &mut area, &[5, 3], &mut [0; 128]), answer, "{length}");
        }
        // The area as it was stored before, sixteen bytes shorter.
        let stored = desk.state[..before].to_vec();
        desk.state = [stored, vec![0; 16]].concat();
        desk.accept(&[&[11, 16], &[14, 16], &[14, 1]]);
        assert_eq!(desk.numbers(&[8, 16, 1]), 23);
    }
}
