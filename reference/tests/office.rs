//! The office program: order of its outputs, lengths, cuts, and the stored cases.

mod common;

use common::file_l;
use reference::config::{RULES_BEFORE, load_by};
use reference::generate::corners::{green_corners, lock_corners, ring_corners};
use reference::generate::drills::POINTS;
use reference::generate::serial_corners::serial_corners;
use reference::generate::stored::{GREEN_CASES, LOCK_CASES, MOST_INPUT, RING_CASES, SERIAL_CASES, long, with_drills};
use reference::generate::{Folder, Rng, Size, sessions::folder, stored};
use reference::office::next_record;
use reference::varint::Reader;
use reference::{load, operation, report, varint};

fn text(line: &[u8], session: &[u8]) -> String {
    String::from_utf8(report(line, session)).expect("plain text")
}

#[test]
fn long_comes_before_the_line_and_the_line_before_rows() {
    let too_long_line = vec![0; 4_097];
    let too_long_session = vec![0; 32_769];
    assert_eq!(text(&too_long_line, &[]), "long\n");
    assert_eq!(text(&[], &too_long_session), "long\n");
    assert_eq!(text(&file_l(), &too_long_session), "long\n");
    assert_eq!(text(&[], &[2, 5, 1]), "line 1\n");
    assert_eq!(text(&[file_l(), vec![7]].concat(), &[200]), "line 4\n");
    assert_eq!(text(&too_long_line[1..], &too_long_session[1..]), "line 3\n");
}

#[test]
fn an_empty_session_prints_nothing() {
    assert_eq!(text(&file_l(), &[]), "");
}

#[test]
fn a_session_of_the_full_length() {
    let session = [2, 5, 1].repeat(32_768 / 3);
    let session = [session, vec![0, 0]].concat();
    assert_eq!(session.len(), 32_768);
    let text = text(&file_l(), &session);
    assert!(text.starts_with("1 0\n2 14\n") && text.ends_with("10923 10\n10924 10\n"));
}

#[test]
fn lengths_and_cuts() {
    assert_eq!(text(&file_l(), &[0, 2, 5, 1]), "1 10\n2 0\n");
    assert_eq!(text(&file_l(), &[2, 5, 1, 3, 5, 1]), "1 0\ncut\n");
    assert_eq!(text(&file_l(), &[2, 5, 1, 128]), "1 0\ncut\n");
    assert_eq!(text(&file_l(), &[2, 5, 1, 130, 0, 5, 2]), "1 0\ncut\n");
    assert_eq!(text(&file_l(), &[255, 255, 3, 5]), "cut\n");
    assert_eq!(text(&file_l(), &[128, 128, 4, 5]), "cut\n");
    let long_record = |length: &[u8], bytes: usize| text(&file_l(), &[length, &vec![5; bytes]].concat());
    assert_eq!(long_record(&[127], 127), "1 10\n");
    assert_eq!(long_record(&[127], 126), "cut\n");
    assert_eq!(long_record(&[128, 1], 128), "1 10\n");
}

#[test]
fn stored_cases_hold_together() {
    let cases = with_drills(1, 300, 120_000);
    let drills: usize = POINTS.iter().map(|(_, count)| count).sum();
    let corners = ring_corners().len() + green_corners().len() + lock_corners().len() + serial_corners().len();
    assert_eq!(cases.tally.cases, 300 + drills + corners + RING_CASES + GREEN_CASES + LOCK_CASES + SERIAL_CASES);
    assert!(cases.input.len() <= MOST_INPUT);
    assert_eq!(cases.tally.rare(5), Vec::<usize>::new());
    assert!(cases.tally.cut >= 5 && cases.tally.silent >= 1);
    let mut rest = &cases.input[..];
    let mut expected = Vec::new();
    while !rest.is_empty() {
        let length = |place: usize| usize::from(u16::from_le_bytes([rest[place], rest[place + 1]]));
        let (line, session) = (length(0), length(2));
        expected.extend(report(&rest[4..4 + line], &rest[4 + line..4 + line + session]));
        expected.extend(b".\n");
        rest = &rest[4 + line + session..];
    }
    assert_eq!(expected, cases.expected);
    assert!(long().iter().all(|folder| report(&folder.line, &folder.session) == b"long\n"));
}

/// A checksum of bytes (FNV-1a of 64 bits).
fn checksum(bytes: &[u8]) -> u64 {
    bytes.iter().fold(0xCBF2_9CE4_8422_2325, |sum, byte| (sum ^ u64::from(*byte)).wrapping_mul(0x100_0000_01B3))
}

/// The cases that were stored before there were wide configurations come first, byte for byte; then those of wide ones,
/// then those of devices with rings, then those of green zones, of which one example has none, then those of locks,
/// then those of serials, of which most have a file of edition 2.
#[test]
fn the_cases_of_before_come_first() {
    let cases = with_drills(1, 300, 120_000);
    assert_eq!(checksum(&cases.input[..128_152]), 0xAFFD_0291_3340_08DF);
    assert_eq!(checksum(&cases.input[..130_929]), 0x5B34_399F_0771_3F4A);
    let wide = stored::cases(&cases.input[128_152..130_929]).expect("whole cases");
    let objects: Vec<usize> =
        wide.iter().map(|case| load(&case.line).expect("the file is accepted").objects.len()).collect();
    assert_eq!(objects, [192, 128, 191, 97]);
    assert_eq!(checksum(&cases.input[..147_001]), 0xFF3B_E4C2_36CF_5C66);
    let behind = stored::cases(&cases.input[130_929..147_001]).expect("whole cases");
    let ringed = behind.iter().filter(|case| load(&case.line).is_ok_and(|config| config.has_rings()));
    assert!(ringed.count() > 45);
    assert_eq!(checksum(&cases.input[..159_834]), 0x8723_EF9D_2632_136D);
    let behind = stored::cases(&cases.input[147_001..159_834]).expect("whole cases");
    assert_eq!(behind.iter().filter(|case| codes(&case.session).contains(&13)).count(), behind.len() - 1);
    assert_eq!(checksum(&cases.input[..169_611]), 0x9953_F3AA_8537_93EF);
    let behind = stored::cases(&cases.input[159_834..169_611]).expect("whole cases");
    let locks = |case: &&Folder| codes(&case.session).iter().any(|code| matches!(code, 14 | 15));
    assert_eq!(behind.iter().filter(locks).count(), behind.len());
    let behind = stored::cases(&cases.input[169_611..]).expect("whole cases");
    let second = behind.iter().filter(|case| case.line.first() == Some(&2)).count();
    assert!(second * 3 > behind.len() * 2, "{second} of {}", behind.len());
}

/// The codes of a session's records; 0 for one that cannot be read.
fn codes(session: &[u8]) -> Vec<usize> {
    let mut reader = Reader::new(session);
    let records = std::iter::from_fn(|| next_record(&mut reader));
    records.map(|record| operation::read(record).map_or(0, |operation| operation.code())).collect()
}

fn count_of(cases: &[Folder], wanted: &[usize]) -> usize {
    cases.iter().flat_map(|case| codes(&case.session)).filter(|code| wanted.contains(code)).count()
}

/// What a case printed when there was no code above this one, and no number above 65,535: a record with one could not
/// be read, like the empty one that stands in its place here. What is cut at the end stays.
fn text_up_to(last: usize, case: &Folder) -> String {
    if let Err(number) = load_by(&RULES_BEFORE, &case.line) {
        return format!("line {number}\n");
    }
    let mut session = Vec::new();
    let mut rest = &case.session[..];
    while let Some(record) = next_record(&mut Reader::new(rest)).filter(|_| !rest.is_empty()) {
        let read = operation::read_up_to(RULES_BEFORE.most_number, record);
        let known = read.is_some_and(|operation| operation.code() <= last);
        let kept = if known { record } else { &[] };
        varint::write(kept.len(), &mut session);
        session.extend(kept);
        let mut length = Vec::new();
        varint::write(record.len(), &mut length);
        rest = &rest[length.len() + record.len()..];
    }
    session.extend(rest);
    text(&case.line, &session)
}

/// The cases, from 1, whose file or one of whose records has a number from 65,536 on, and was refused by 2 or by 10
/// before there were serials.
const WITH_LARGE_NUMBERS: [usize; 11] = [93, 111, 137, 147, 165, 255, 291, 471, 518, 550, 551];

/// One row of each of these cases is another one since there are serials: a file is refused by 3 and not by 2, a record
/// by 11 and not by 10.
#[test]
fn large_numbers_in_the_cases_of_before() {
    let stored = with_drills(1, 300, 120_000);
    let cases = stored::cases(&stored.input[..169_611]).expect("whole cases");
    let changed = cases.iter().zip(1..).filter(|(case, _)| text(&case.line, &case.session) != text_up_to(15, case));
    let mut numbers = Vec::new();
    for (case, number) in changed {
        let (before, now) = (text_up_to(15, case), text(&case.line, &case.session));
        let rows: Vec<(&str, &str)> = before.lines().zip(now.lines()).filter(|(before, now)| before != now).collect();
        let &[(before, now)] = &rows[..] else { panic!("{rows:?}") };
        let place = before.strip_suffix(" 10").map(|place| format!("{place} 11"));
        assert!(place.as_deref() == Some(now) || (before, now) == ("line 2", "line 3"), "{before} {now}");
        numbers.push(number);
    }
    assert_eq!(numbers, WITH_LARGE_NUMBERS);
}

/// Two of the files stored before there were rings have a hardcoded value that writes a descriptor: they were refused
/// by 6 then. Two records stored before there were green zones have code 13, and were refused by 10; two of those
/// stored before there were locks have code 14 or 15. Eleven rows are about numbers from 65,536 on. All others have
/// their answers of before.
#[test]
fn the_cases_of_before_keep_their_answers() {
    let stored = with_drills(1, 300, 120_000);
    let before = |bytes: usize| stored::cases(&stored.input[..bytes]).expect("whole cases");
    let expected = |cases: &[Folder], text: &dyn Fn(&Folder) -> String| -> Vec<u8> {
        cases.iter().flat_map(|case| (text(case) + ".\n").into_bytes()).collect()
    };
    assert_eq!(checksum(&expected(&before(169_611), &|case| text_up_to(15, case))), 0xCAB4_6960_3866_8019);
    assert_eq!(count_of(&before(159_834), &[14, 15]), 2);
    assert_eq!(checksum(&expected(&before(159_834), &|case| text_up_to(13, case))), 0x98AA_ECF6_A78C_78BE);
    assert_eq!(count_of(&before(147_001), &[13]), 2);
    let text_of_before = |case: &Folder| text_up_to(12, case);
    assert_eq!(checksum(&expected(&before(147_001), &text_of_before)), 0xA2B7_2DF7_2894_8365);
    let has_rings = |line: &[u8]| load(line).is_ok_and(|config| config.has_rings());
    let cases = before(130_929);
    assert_eq!(cases.iter().filter(|case| has_rings(&case.line)).count(), 2);
    let without_rings =
        |case: &Folder| if has_rings(&case.line) { "line 6\n".to_string() } else { text_of_before(case) };
    let text = expected(&cases, &without_rings);
    assert_eq!(checksum(&text[..45_012]), 0x333B_C369_F988_7F58);
    assert_eq!(checksum(&text), 0xC620_726A_FB9B_22CF);
}

#[test]
fn the_same_seed_gives_the_same_folder() {
    let made = |seed: u64| folder(&mut Rng::new(seed), Size::Medium, 30, None);
    assert_eq!(made(7), made(7));
    assert_ne!(made(7), made(8));
}
