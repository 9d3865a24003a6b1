//! Locks: request N6's example session through the binding, the lock bytes that it leaves, and areas of before.

mod common;

use common::{ENDS, FULL, SMALL, WIDE, example, fresh_of, full_line, lock_at, looked_at, question};
use sorter_gate::{
    ANSWER_BYTES, LOCK_BYTES, Refusal, STATE_BYTES, STATE_BYTES_WIDE, code, first_bad, fresh, operate, state_bytes,
};

/// Where card 1's partition stands.
const CARD_1: usize = 64 + 16;

/// The cards that a line has at most.
const CARDS: u8 = LOCK_BYTES as u8;

/// On file L, which has two cards: each record with its answer, and card 1's lock byte after it.
const OVER_L: [(&[u8], u32, u8); 14] = [
    (&[code::LOCK_CARD, 1], 0, 1),
    (&[code::LOCK_CARD, 1], 23, 1),
    (&[code::CREATE_PARTITION, 1], 0, 1),
    (&[code::ACTIVATE_CARD, 1, 1], 23, 1),
    (&[code::ACTIVATE_CARD, 1, 9], 14, 1),
    (&[code::UNLOCK_CARD, 1], 0, 0),
    (&[code::UNLOCK_CARD, 1], 23, 0),
    (&[code::ACTIVATE_CARD, 1, 1], 0, 0),
    (&[code::LOCK_CARD, 1], 16, 0),
    (&[code::UNLOCK_CARD, 1], 16, 0),
    (&[code::LOCK_CARD, 3], 11, 0),
    (&[code::LOCK_CARD, 0], 11, 0),
    (&[code::DEACTIVATE_CARD, 1], 0, 0),
    (&[code::LOCK_CARD, 1], 0, 1),
];

/// A line of sixteen cards, with their hard-wired descriptors and so many objects in all, the rest external data.
fn cards_line(objects: u8) -> Vec<u8> {
    let mut line = [&[1, 0, CARDS], &common::number(objects)[..], &[0]].concat();
    (1..=CARDS).for_each(|card| line.extend([4, 2, card]));
    (CARDS..objects).for_each(|_| line.extend([3, 0, 0]));
    line.extend([0; LOCK_BYTES]);
    line
}

#[test]
fn the_request_s_session() {
    let line = example(9, "line");
    let mut state = fresh_of(&line);
    for (record, expected, lock) in OVER_L {
        assert_eq!(looked_at(&line, &mut state, record), expected, "{record:?}");
        assert_eq!(state[lock_at(state.len(), 1)], lock, "{record:?}");
    }
}

/// The lock byte is all that changes, for the first card and the last, in areas of both lengths.
#[test]
fn a_lock_changes_its_byte_alone() {
    for objects in [CARDS, SMALL, WIDE, FULL] {
        let line = cards_line(objects);
        let unlocked = fresh_of(&line);
        for card in [1, 2, CARDS] {
            let (mut state, mut locked) = (unlocked.clone(), unlocked.clone());
            locked[lock_at(unlocked.len(), card)] = 1;
            for (code, number, expected) in [
                (code::UNLOCK_CARD, 23, &unlocked),
                (code::LOCK_CARD, 0, &locked),
                (code::LOCK_CARD, 23, &locked),
                (code::UNLOCK_CARD, 0, &unlocked),
            ] {
                assert_eq!(looked_at(&line, &mut state, &[code, card]), number, "{objects} objects, card {card}");
                assert!(&state == expected, "{objects} objects, card {card}");
            }
        }
    }
}

/// The lock bytes are the last of both areas, behind the records, and a fresh state has none set.
#[test]
fn a_fresh_state_is_unlocked() {
    for (objects, length) in [(SMALL, STATE_BYTES), (WIDE, STATE_BYTES_WIDE)] {
        let (line, mut state) = (cards_line(objects), vec![1; length]);
        assert_eq!(fresh(&line, &mut state), Ok(()));
        assert_eq!(state[length - LOCK_BYTES..], [0; LOCK_BYTES]);
        assert_eq!(lock_at(length, 1), common::record_at(if objects == SMALL { SMALL } else { FULL }) + 17);
    }
}

/// Question 9 looks at each lock byte, and no record is named for one. (Empty records look at the areas alone.)
#[test]
fn lock_bytes_that_are_none() {
    let line = example(9, "line");
    let mut active = fresh_of(&line);
    for record in [&[code::CREATE_PARTITION, 1][..], &[code::ACTIVATE_CARD, 1, 1]] {
        assert_eq!(looked_at(&line, &mut active, record), 0);
    }
    assert_eq!(active[CARD_1], 1);
    for (state, card, byte, expected, rule) in [
        (fresh_of(&line), 1, 1, 10, "a locked card in no partition"),
        (active.clone(), 2, 1, 10, "another one than the card that is active"),
        (active, 1, 1, 9, "a locked card in a partition"),
        (fresh_of(&line), 1, 2, 9, "neither locked nor not"),
        (fresh_of(&line), 2, 255, 9, "neither locked nor not"),
        (fresh_of(&line), 3, 1, 9, "a card that there is not"),
        (fresh_of(&line), CARDS, 1, 9, "a card that there is not"),
    ] {
        let mut state = state;
        let place = lock_at(state.len(), card);
        state[place] = byte;
        assert_eq!(looked_at(&line, &mut state, &[]), expected, "{rule}");
        assert_eq!(first_bad(&line, &state), Ok(None), "{rule}");
    }
    let wide = full_line(3, 1, 0);
    let mut state = fresh_of(&wide);
    state[STATE_BYTES_WIDE - 1] = 2;
    assert_eq!((looked_at(&wide, &mut state, &[]), first_bad(&wide, &state)), (9, Ok(None)));
}

/// An area of before, without lock bytes, is refused by 7; with zeros behind it, it goes on as the area that it was.
#[test]
fn an_older_area_is_carried_over() {
    for (objects, length) in ENDS {
        let line = common::data_line(objects);
        assert_eq!(state_bytes(&line), Ok(length));
        let mut older = vec![0; length - LOCK_BYTES];
        older[1] = 1; // partition 1 exists
        assert_eq!(looked_at(&line, &mut older, &[code::CREATE_PARTITION, 2]), 7);
        assert_eq!(first_bad(&line, &older).map_err(Refusal::number), Err(7));
        older.resize(length, 0);
        assert_eq!(looked_at(&line, &mut older, &[code::CREATE_PARTITION, 1]), 14);
        assert_eq!(looked_at(&line, &mut older, &[code::CREATE_PARTITION, 2]), 0);
    }
}

#[test]
fn records_that_lock_nothing() {
    let line = example(9, "line");
    for code in [code::LOCK_CARD, code::UNLOCK_CARD] {
        for (record, expected) in [
            (&[code][..], 10),
            (&[code, 1, 1], 10),
            (&[code, 129], 10),
            (&[code, 129, 0], 10),
            (&[code, 0], 11),
            (&[code, 3], 11),
            (&[code, CARDS + 1], 11),
            (&[code, 208, 15], 11), // 2,000
        ] {
            assert_eq!(looked_at(&line, &mut fresh_of(&line), record), expected, "{record:?}");
        }
    }
    assert_eq!(looked_at(&line, &mut fresh_of(&line), &[code::UNLOCK_CARD + 1, 1]), 10);
}

/// A lock outlasts all that is done meanwhile, and nobody else is kept out by it.
#[test]
fn a_lock_is_the_cards_own() {
    let (line, mut answer) = (example(9, "line"), [0; ANSWER_BYTES]);
    let mut state = fresh_of(&line);
    for (record, expected) in [
        (&[code::LOCK_CARD, 1][..], 0),
        (&[code::CREATE_PARTITION, 1], 0),
        (&[code::ACTIVATE_CARD, 2, 1], 0),
        (&[code::ACTIVATE_DRIVER, 1, 1], 0),
        (&[code::DEACTIVATE_CARD, 1], 16),
        (&[code::DEACTIVATE_CARD, 2], 0),
        (&[code::DEACTIVATE_DRIVER, 1], 0),
        (&[code::DESTROY_PARTITION, 1], 0),
    ] {
        assert_eq!(question(operate(&line, &mut state, record, &mut answer)), expected, "{record:?}");
        assert_eq!(state[lock_at(state.len(), 1)..][..2], [1, 0], "{record:?}");
    }
}

#[test]
fn the_question_has_a_text() {
    let locked = Refusal::new(23).expect("23 is a question");
    assert!(locked.is_known() && locked.text().contains("locked"));
}
