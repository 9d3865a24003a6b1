//! Green zones: request N5's example sessions through the binding, and the standing bytes that they leave.

mod common;

use common::{example, fresh_of, looked_at, question};
use sorter_gate::{ANSWER_BYTES, Refusal, code, first_bad, operate};

/// Partition 1's standing byte: existing, destroyed, existing as a green zone; and one that is none.
const STANDING: usize = 1;
const PLAIN: u8 = 1;
const DESTROYED: u8 = 2;
const GREEN: u8 = 3;
const NO_STANDING: u8 = 4;

type Session<'a> = &'a [(&'a [u8], u32)];

/// On file L: what is written is judged by itself, and what leaves may not be named.
const OVER_L: Session = &[
    (&[code::CREATE_GREEN_PARTITION, 1], 0),
    (&[7, 1, 1], 0),
    (&[8, 1, 1], 0),
    (&[9, 1, 1, 5], 0),
    (&[1, 1, 1, 2, 0, 3], 0),
    (&[12, 1, 1, 5], 20),
    (&[1, 1, 1, 2, 0, 4], 22),
    (&[1, 1, 1, 2, 0, 2], 22),
    (&[3, 1, 1, 2, 0], 0),
    (&[3, 1, 1, 2, 2], 0),
    (&[1, 1, 1, 2, 0, 0], 0),
    (&[12, 1, 1, 5], 0),
    (&[6, 1], 15),
    (&[10, 1], 0),
    (&[11, 1], 0),
    (&[6, 1], 0),
    (&[code::CREATE_GREEN_PARTITION, 1], 14),
    (&[code::CREATE_PARTITION, 1], 14),
];

/// A line without a card: driver 1's transfer descriptor, external data, and a value that writes the data.
const NO_CARD: [u8; 15] = [1, 1, 0, 2, 1, 1, 1, 1, 3, 0, 0, 1, 2, 2, 0];

/// Carries a session out and gives the state after it. A refused record changes nothing.
fn carried_out(line: &[u8], session: Session) -> Vec<u8> {
    let (mut state, mut answer) = (fresh_of(line), [0; ANSWER_BYTES]);
    for (record, expected) in session {
        let before = (state.clone(), answer);
        assert_eq!(question(operate(line, &mut state, record, &mut answer)), *expected, "{record:?}");
        assert!(*expected == 0 || (&state, &answer) == (&before.0, &before.1), "{record:?} is refused, and changed");
    }
    state
}

#[test]
fn a_green_zone_over_file_l() {
    let line = example(9, "line");
    assert_eq!(carried_out(&line, &OVER_L[..1])[STANDING], GREEN);
    assert_eq!(carried_out(&line, OVER_L)[STANDING], DESTROYED);
}

/// What leaves a green zone may be named by no descriptor that stays there, though no card reads it.
#[test]
fn a_descriptor_that_no_card_reads_keeps_what_it_names() {
    for (create, standing, leaves) in [(code::CREATE_GREEN_PARTITION, GREEN, 20), (code::CREATE_PARTITION, PLAIN, 0)] {
        let create = &[create, 1];
        let state = carried_out(
            &NO_CARD,
            &[
                (create, 0),
                (&[7, 1, 1], 0),
                (&[9, 1, 1, 2], 0),
                (&[1, 1, 1, 1, 0, 1], 0),
                (&[12, 1, 1, 2], leaves),
                (&[10, 1], 0),
            ],
        );
        assert_eq!(state[STANDING], standing);
    }
}

/// On file L with value 1 as `1 2 3 3`: card 1 writes its own object 2, whatever is there for it.
#[test]
fn a_card_with_a_ring_does_not_come_into_a_green_zone() {
    let ring = example(21, "line");
    carried_out(&ring, &[(&[code::CREATE_GREEN_PARTITION, 1], 0), (&[9, 1, 1, 5], 0), (&[8, 1, 1], 22)]);
    carried_out(&ring, &[(&[code::CREATE_PARTITION, 1], 0), (&[9, 1, 1, 5], 0), (&[8, 1, 1], 0)]);
}

#[test]
fn records_that_create_no_green_zone() {
    let line = example(9, "line");
    for (record, expected) in [
        (&[code::CREATE_GREEN_PARTITION][..], 10),
        (&[code::CREATE_GREEN_PARTITION, 1, 1], 10),
        (&[code::CREATE_GREEN_PARTITION, 0], 11),
        (&[code::CREATE_GREEN_PARTITION, 64], 11),
        (&[code::CREATE_GREEN_PARTITION, 70], 11),
    ] {
        assert_eq!(looked_at(&line, &mut fresh_of(&line), record), expected, "{record:?}");
    }
}

/// Question 9 knows a green zone with things in it, and no standing above it. (Empty records look at the areas alone.)
#[test]
fn a_green_zone_is_well_formed() {
    let line = example(9, "line");
    for (standing, expected, place) in [(GREEN, 10, None), (PLAIN, 10, None), (NO_STANDING, 9, Some(1))] {
        let mut state = carried_out(&line, &OVER_L[..5]);
        state[STANDING] = standing;
        assert_eq!(looked_at(&line, &mut state, &[]), expected, "standing {standing}");
        assert_eq!(first_bad(&line, &state), Ok(place), "standing {standing}");
    }
}

#[test]
fn the_rule_has_a_text() {
    let rule = Refusal::new(22).expect("22 is a question");
    assert!(rule.is_known() && rule.text().contains("green zone"));
}
