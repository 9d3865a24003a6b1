//! The stored cases show what they must, every fault is noticed, and poorer cases would not do.

mod common;

use common::{file_l, sequence_p};
use reference::closure::closure;
use reference::coverage::chains::{Chain, Order, shortest};
use reference::coverage::{Coverage, LONGEST};
use reference::generate::Folder;
use reference::generate::drills::{self, POINTS, Point};
use reference::generate::stored::{cases, stored, with_drills};
use reference::limits::MAX_OBJECTS;
use reference::operation;
use reference::tokens::row;
use reference::{closure, effect, faults, gate, load, state::State, varint};

/// The stored cases, with or without the drills.
fn stored_cases(with: bool) -> Vec<Folder> {
    let made = if with { with_drills(1, 300, 120_000) } else { stored(1, 300, 120_000) };
    cases(&made.input).expect("whole cases")
}

/// The records of a session that is not cut.
fn records(session: &[u8]) -> Vec<&[u8]> {
    let mut reader = varint::Reader::new(session);
    std::iter::from_fn(|| reference::office::next_record(&mut reader)).collect()
}

#[test]
fn stored_cases_show_what_they_must() {
    let coverage = Coverage::of(&stored_cases(true));
    print!("{coverage}");
    assert_eq!(coverage.missing(), Vec::<String>::new());
}

/// What only the drills, or the cases behind them, show.
const BY_DRILLS: [&str; 179] = [
    "Rising chains",
    "Falling chains",
    "Level chains",
    "Shuffled chains",
    "to what leaves",
    "refusals by 19 of code 3",
    "refusals by 20 of code 12",
    "cases with 97 objects",
    "cases with 128 objects",
    "cases with 191 objects",
    "cases with 192 objects",
    "refusals in wide configurations",
    "name an object above 127",
    "above 127 that cross",
    "above 127 to what leaves",
    "longest that crosses",
    "longest to what leaves",
    "'closure of 16 rounds'",
    "'whole descriptor states for pairs'",
    "'19 not put for code 3'",
    "'20 put on the state after the call'",
    "'18 looks one step far'",
    "'18 ignores the stored value of writes'",
    "'copies of code 3 done one by one'",
    "'entries' objects modulo 128'",
    "'entries' objects at most 96'",
    "'records' objects modulo 128'",
    "'97 objects in the small room'",
    "'closure: nothing above 127 is read'",
    "'15 asks the first 96 objects'",
    "'the first 96 objects go with their owner'",
    "refusals by 21 of code 8",
    "rings that leave after 1 steps",
    "rings that leave after 2 steps",
    "rings that leave after 10 steps",
    "'6 lets others' kind 1 be written'",
    "'6 lets kind 4 be named'",
    "'6 refuses mode 3 still'",
    "'21 not put'",
    "'21 put for drivers instead'",
    "'21 put on the state before the call'",
    "'21 put with the objects as they were'",
    "'21 put with kind 4 cleared'",
    "'21 looks at the device that comes in'",
    "'21 searches for that device alone'",
    "'21 before 16'",
    "'21 before 14'",
    "'closure: hardcoded values write nothing'",
    "'closure: hardcoded values put 0'",
    "'18: hardcoded values write no kind 1'",
    "'18: hardcoded values put any value'",
    "cases with green zones beside others",
    "records of code 13 with answer 0",
    "records of code 13 with answer 11",
    "records of code 13 with answer 14",
    "values stored in green zones by code 1",
    "values stored in green zones by code 3",
    "stricter refusals by 20 of code 10",
    "stricter refusals by 20 of code 11",
    "stricter refusals by 20 of code 12",
    "devices that come into green zones",
    "refusals by 22 of code 1",
    "refusals by 22 of code 8",
    "'20 not stricter'",
    "'20 not stricter for drivers'",
    "'20 not stricter for devices'",
    "'20 not stricter for external objects'",
    "'20: an entry of mode 1 names nothing'",
    "'20: an entry of mode 2 names nothing'",
    "'20: an entry of mode 3 names nothing'",
    "'20: only hardcoded descriptors name'",
    "'20 asks the first object that leaves'",
    "'20 asks descriptors of other zones'",
    "'20 asks inactive descriptors'",
    "'22 not put to drivers'",
    "'22 put by a search'",
    "'22 lets kind 1 be written'",
    "'22 lets kind 1 be written by mode 2'",
    "'22 lets kind 1 be written by mode 3'",
    "'22 lets kind 4 be named'",
    "'22 lets other zones' objects be named'",
    "'22 lets inactive objects be named'",
    "'22 lets kind 1 not be read'",
    "'22 asks the first item'",
    "'22 asks the last item'",
    "'22 asks the first entry'",
    "'22 asks the last entry'",
    "'22 takes bytes for value numbers'",
    "'19 put in green zones too'",
    "'19 not put beside a green zone'",
    "'22 before 16'",
    "'22 before 17'",
    "'22 after 21'",
    "'22 not put to devices'",
    "'22: only mode 2 makes a ring'",
    "'22: only mode 3 makes a ring'",
    "'13 makes a partition that is not green'",
    "'a destroyed green zone was never used'",
    "'a destroyed green zone stays'",
    "'13 passes on existing partitions'",
    "'13 passes on destroyed partitions'",
    "'13 passes on green zones'",
    "'5 passes on green zones'",
    "'green zones do not exist for code 6'",
    "'green zones do not exist for code 7'",
    "'green zones do not exist for code 9'",
    "'green zones do not exist for code 8'",
    "'green zones do not exist for code 12'",
    "cases with a locked device",
    "records of code 8 with answer 23",
    "records of code 14 with answer 0",
    "records of code 14 with answer 16",
    "records of code 14 with answer 23",
    "records of code 15 with answer 0",
    "records of code 15 with answer 16",
    "records of code 15 with answer 23",
    "accepted records of code 1 beside a lock",
    "accepted records of code 6 beside a lock",
    "accepted records of code 11 beside a lock",
    "accepted records of code 13 beside a lock",
    "devices locked in wide configurations",
    "'23 not put to code 8'",
    "'23 not put to code 14'",
    "'23 not put to code 15'",
    "'23 looks at the next device's lock'",
    "'23 looks at the lock before the device's'",
    "'23 looks at the first device's lock'",
    "'23 put behind 22'",
    "'23 put behind 21'",
    "'23 before 16'",
    "'23 before 14'",
    "'14 needs no inactive device'",
    "'15 needs no inactive device'",
    "'14 and 15 need an active device'",
    "'a lock stops code 5'",
    "'a lock stops code 13'",
    "'a lock stops code 6'",
    "'a lock stops code 9'",
    "'a lock stops code 11'",
    "'a lock stops code 12'",
    "'a lock stops the driver of that number'",
    "'14 sets 0'",
    "'15 sets 1'",
    "'15 clears all locks'",
    "'11 clears all locks'",
    "'8 clears all locks'",
    "'14 locks the next device'",
    "'15 unlocks the next device'",
    "'14 brings a lock off another device'",
    "'locks at the place of small configurations'",
    "cases of edition 2",
    "files cut before a serial",
    "files cut inside a serial",
    "files refused by 2 in a serial",
    "files of no edition",
    "devices with serial 0",
    "devices with serial 65536",
    "devices with serial 2097151",
    "large numbers refused by 11 of code 1",
    "large numbers refused by 11 of code 12",
    "large numbers refused by 11 of code 15",
    "large numbers refused by 10 as Code",
    "large numbers refused by 10 as Count",
    "large numbers refused by 10 as Form",
    "'files' numbers up to 2,097,150'",
    "'edition 3 is one'",
    "'no serial for the last device'",
    "'the serial before the value number'",
    "'serials up to 65,535'",
    "'serial 0 is none'",
    "'a serial of four bytes is out of range'",
    "'records' numbers up to 65,535'",
    "'records' numbers up to 2,097,150'",
    "'records' numbers cut to 16 bits'",
    "'a serial is taken for a lock'",
    "'no device without a serial comes in'",
    "'18 not put in edition 2'",
    "'19 not put in edition 2'",
    "'21 not put in edition 2'",
];

/// The random cases alone would not do.
#[test]
fn without_drills_something_is_missing() {
    let missing = Coverage::of(&stored_cases(false)).missing();
    for part in BY_DRILLS {
        assert!(missing.iter().any(|row| row.contains(part)), "{part}");
    }
}

/// Cases cut off at the end are no cases.
#[test]
fn cut_cases_are_not_read() {
    let made = stored(1, 30, 12_000);
    assert_eq!(cases(&made.input).map(|list| list.len()), Some(30));
    assert_eq!(cases(&made.input[..made.input.len() - 1]), None);
    assert_eq!(cases(&[made.input, vec![0, 0, 0]].concat()), None);
}

/// A fault changes only what its row says it touches, so that nothing else has to be judged by it.
#[test]
fn faults_touch_what_they_say() {
    for (place, case) in stored_cases(true).iter().enumerate() {
        let Ok(config) = load(&case.line) else { continue };
        let later = records(&case.session).iter().any(|record| matches!(record.first(), Some(13..=15)));
        let later = later || config.edition > 1;
        if place % 11 != 0 && !config.is_wide() && !config.has_rings() && !later {
            continue;
        }
        let mut state = State::fresh(&config);
        for record in records(&case.session) {
            let right = gate::judge(closure, &config, &state, record);
            let number = right.as_ref().err().copied().unwrap_or(0);
            for fault in faults::all().iter().filter(|fault| !fault.can_touch(&config, record, number)) {
                let same = faults::judge(fault, &config, &state, record) == right;
                assert!(same, "{} in case {place}: {record:?}", fault.name);
            }
            state = right.map_or(state, |(next, _)| next);
        }
    }
}

/// The chain that document 01 calls a chain of two, and the one before it.
#[test]
fn chains_are_counted_as_the_paper_counts_them() {
    let config = load(&file_l()).expect("L is sound");
    let mut state = State::fresh(&config);
    let mut lengths = Vec::new();
    for (numbers, answer) in sequence_p() {
        let record = row(&numbers);
        let operation = operation::read(&record).expect("P is readable");
        if answer == 19 {
            let next = effect::apply(&config, &state, &operation);
            let chain = shortest(&config, &next, |device, entry| closure::crosses(&config, &next, device, entry));
            lengths.push(chain.map(|chain| (chain.length, chain.order())));
        }
        state = gate::judge(closure, &config, &state, &record).map_or(state, |(next, _)| next);
    }
    assert_eq!(lengths, [Some((1, None)), Some((2, Some(Order::Level)))]);
}

#[test]
fn chains_are_told_by_their_order() {
    let order = |descriptors: &[usize]| Chain { length: 1, descriptors: descriptors.to_vec() }.order();
    assert_eq!(order(&[7]), None);
    assert_eq!(order(&[2, 5, 6]), Some(Order::Rising));
    assert_eq!(order(&[6, 5, 2]), Some(Order::Falling));
    assert_eq!(order(&[5, 5, 5]), Some(Order::Level));
    assert_eq!(order(&[2, 6, 5]), Some(Order::Shuffled));
    assert_eq!(order(&[2, 5, 5]), Some(Order::Shuffled));
}

/// Every drill's file is sound, and those for chains of writes run through all lengths.
#[test]
fn drills_are_sound() {
    for (point, count) in POINTS {
        let made = drills::stored(1, point);
        assert_eq!(made.len(), count);
        for drill in &made {
            assert_eq!(load(&drill.world.line).as_ref(), Ok(&drill.world.config), "{point:?}");
        }
        if point == Point::WideChain {
            let coverage = Coverage::of(&made.iter().map(|drill| drill.folder()).collect::<Vec<_>>());
            assert_eq!((coverage.wide.crossing[0], coverage.wide.leaving[0]), (40, 40));
            let last = made[0].world.config.objects.len();
            let named = made[0].world.config.values.iter().flatten().any(|entry| entry.object == last);
            assert!(last == MAX_OBJECTS && named);
        }
        if point == Point::CrossingByWrite {
            let coverage = Coverage::of(&made.iter().map(|drill| drill.folder()).collect::<Vec<_>>());
            let lengths = coverage.crossing.keys().map(|(length, _)| *length);
            assert_eq!(lengths.collect::<std::collections::BTreeSet<_>>(), (1..=LONGEST).collect());
        }
    }
}
