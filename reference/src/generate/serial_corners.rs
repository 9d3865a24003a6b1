//! Stored cases of request N7 that are worth having whatever the seed is: editions and serials, files of both editions
//! cut at every byte, and large numbers in every field of a file and of a record.

use super::broken::LARGE;
use super::corners::{file_l, sequence_p};
use super::serials::SERIALS;
use super::sessions::Folder;
use crate::limits::{CONTENT_BYTES, MAX_NUMBER, MAX_NUMBER_BEFORE};
use crate::tokens::row;
use crate::varint;

/// All of them.
pub fn serial_corners() -> Vec<Folder> {
    [examples(), serials(), cuts(), malformed(), editions(), fields(), records(), lengths()].concat()
}

fn session(records: &[Vec<u8>]) -> Vec<u8> {
    let mut out = Vec::new();
    for record in records {
        varint::write(record.len(), &mut out);
        out.extend(record);
    }
    out
}

/// L in edition 2.
fn l_with(serials: [usize; 2]) -> Vec<u8> {
    let l = file_l();
    [&[2], &l[1..24], &row(&serials[..1]), &l[24..25], &row(&serials[1..]), &l[25..]].concat()
}

/// The request's examples over L in both editions, and the P sequence over the second.
fn examples() -> Vec<Folder> {
    let records: [&[usize]; 6] = [
        &[5, LARGE],
        &[LARGE, 1],
        &[1, 1, LARGE, 2, 0, 3],
        &[1, 1, 1, 2, LARGE, 3],
        &[1, 1, 1, 2, 0, LARGE],
        &[8, LARGE, 1],
    ];
    let session = session(&records.map(row));
    let second = l_with([LARGE, 0]);
    vec![
        Folder { line: file_l(), session: session.clone() },
        Folder { line: second.clone(), session },
        Folder { line: second, session: sequence_p().session },
        Folder { line: row(&[1, LARGE]), session: Vec::new() },
    ]
}

/// Every serial that matters, for each of L's devices, which come in and are locked.
fn serials() -> Vec<Folder> {
    let records: [&[usize]; 5] = [&[5, 1], &[8, 1, 1], &[14, 2], &[8, 2, 1], &[11, 1]];
    let session = session(&records.map(row));
    let pairs = SERIALS.iter().zip(SERIALS.iter().rev());
    pairs.map(|(one, other)| Folder { line: l_with([*one, *other]), session: session.clone() }).collect()
}

/// The numbers of a small file with fields of every kind: two devices, in edition 2 with these serials.
fn small(serials: [usize; 2]) -> Vec<usize> {
    let objects = [4, 2, 1, 4, 2, 2, 1, 1, 1];
    [&[2, 1, 2, 3, 1][..], &objects, &[0, serials[0], 0, serials[1]], &[1, 3, 3, 1]].concat()
}

/// Where the serials stand among these numbers.
const SMALL_SERIALS: [usize; 2] = [15, 17];

/// The same in edition 1.
fn small_of_before() -> Vec<usize> {
    let numbers = small([0, 0]);
    let kept = numbers.iter().enumerate().filter(|(place, _)| !SMALL_SERIALS.contains(place));
    [vec![1], kept.skip(1).map(|(_, number)| *number).collect()].concat()
}

/// A file by itself, with a session that shows whether it is accepted.
fn alone(line: Vec<u8>) -> Folder {
    Folder { line, session: session(&[row(&[5, 1])]) }
}

/// Small files of both editions cut at every byte, the whole files last, and with a byte left over.
fn cuts() -> Vec<Folder> {
    let files = [row(&small_of_before()), row(&small([MAX_NUMBER, 16_383])), row(&small([128, MAX_NUMBER_BEFORE + 1]))];
    let cut = |line: Vec<u8>| {
        let longer = [&line[..], &[0]].concat();
        (0..=longer.len()).map(move |length| alone(longer[..length].to_vec()))
    };
    files.into_iter().flat_map(cut).collect()
}

/// Forms that question 2 refuses, whatever the number is: three bytes whose last is 0, four bytes, and more.
pub const BAD_FORMS: [&[u8]; 6] = [
    &[128, 128, 0],
    &[255, 255, 0],
    &[128, 128, 128, 1],
    &[129, 128, 128, 0],
    &[255, 255, 255, 127],
    &[128, 128, 128, 128, 4],
];

/// A row of numbers with one of them replaced by bytes.
fn with_bytes(numbers: &[usize], place: usize, bytes: &[u8]) -> Vec<u8> {
    [&row(&numbers[..place])[..], bytes, &row(&numbers[place + 1..])].concat()
}

/// Serials in every bad form, the largest one, serials without a last byte, and serials behind a value number that is
/// out of range.
fn malformed() -> Vec<Folder> {
    let numbers = small([LARGE, 1]);
    let forms = BAD_FORMS.into_iter().chain([&[255, 255, 127][..], &[128, 128, 1]]);
    let wrong = forms.flat_map(|form| SMALL_SERIALS.map(|place| alone(with_bytes(&numbers, place, form))));
    let unfinished: [&[u8]; 3] = [&[255], &[255, 255, 255], &[128, 128, 128, 128]];
    let cut = unfinished.map(|bytes| alone([&row(&numbers[..SMALL_SERIALS[1]])[..], bytes].concat()));
    let behind_no_value = SMALL_SERIALS.map(|place| alone(with_bytes(&numbers, place - 1, &[2])));
    wrong.chain(cut).chain(behind_no_value).collect()
}

/// Editions that there are none of; edition 2 without serials, edition 1 with them, and no devices in either.
fn editions() -> Vec<Folder> {
    let none = [0, 3, 4, 127, 128, MAX_NUMBER_BEFORE + 1, LARGE, MAX_NUMBER];
    let (first, second) = (small_of_before(), small([1, 0]));
    let files = none.iter().flat_map(|edition| [&first, &second].map(|file| with_bytes(file, 0, &row(&[*edition]))));
    let others = [
        with_bytes(&first, 0, &[2]),
        with_bytes(&second, 0, &[1]),
        row(&small([1, 1])[..17]),
        row(&[1, 1, 0, 2, 1, 1, 1, 1, 3, 0, 0, 1, 2, 2, 0]),
        row(&[2, 1, 0, 2, 1, 1, 1, 1, 3, 0, 0, 1, 2, 2, 0]),
        row(&[2, 0, 0, 0, 0]),
        row(&[3, 0, 0, 0, 0]),
        row(&[3]),
    ];
    files.chain(others).map(alone).collect()
}

/// A large number in each field of a file, and four bytes.
fn fields() -> Vec<Folder> {
    let numbers = small([1, 128]);
    let places = 0..numbers.len();
    let large = |place: usize| [row(&[LARGE]), BAD_FORMS[2].to_vec()].map(|bytes| with_bytes(&numbers, place, &bytes));
    places.flat_map(large).map(|line| Folder { line, session: Vec::new() }).collect()
}

/// A record of each code over L.
const RECORDS: [&[usize]; 15] = [
    &[1, 1, 2, 2, 0, 3, 4, 0, 0],
    &[2, 1, 1, 2, 0, 3],
    &[3, 1, 2, 2, 0, 5, 6],
    &[4, 1, 1, 2, 4],
    &[5, 1],
    &[6, 1],
    &[7, 1, 1],
    &[8, 1, 1],
    &[9, 1, 2, 5, 6],
    &[10, 1],
    &[11, 1],
    &[12, 1, 1, 5],
    &[13, 1],
    &[14, 1],
    &[15, 1],
];

/// Large numbers in every field of every code: over L some of them, and over L in edition 2 the others. The bytes of an
/// item are no numbers.
fn records() -> Vec<Folder> {
    let over = |line: Vec<u8>, forms: &[Vec<u8>]| {
        let with_each = |record: &[usize], place: usize| {
            forms.iter().map(|form| with_bytes(record, place, form)).collect::<Vec<_>>()
        };
        let of_code = |record: &&[usize]| (0..record.len()).flat_map(|place| with_each(record, place)).collect();
        let all: Vec<Vec<Vec<u8>>> = RECORDS.iter().map(of_code).collect();
        let folders = all.chunks(RECORDS.len() / 3 + 1);
        folders.map(|few| Folder { line: line.clone(), session: session(&few.concat()) }).collect::<Vec<_>>()
    };
    let large = |number: usize| row(&[number]);
    let bytes = |object: usize, form: usize| [row(&[1, 1, 1, object, form]), vec![240; CONTENT_BYTES]].concat();
    let with_bytes = session(&[bytes(LARGE, 1), bytes(6, LARGE), bytes(MAX_NUMBER, 1), bytes(6, 1)]);
    [
        vec![Folder { line: file_l(), session: with_bytes }],
        over(file_l(), &[large(MAX_NUMBER_BEFORE + 2), large(LARGE), BAD_FORMS[2].to_vec()]),
        over(l_with([16_384, 1]), &[large(MAX_NUMBER_BEFORE + 1), large(MAX_NUMBER), BAD_FORMS[1].to_vec()]),
    ]
    .concat()
}

/// Lengths of records that no session has room for.
fn lengths() -> Vec<Folder> {
    let lengths = [MAX_NUMBER_BEFORE + 1, LARGE, MAX_NUMBER].map(|length| row(&[length]));
    let all = lengths.into_iter().chain([BAD_FORMS[0].to_vec(), BAD_FORMS[2].to_vec()]);
    let cut = |length: Vec<u8>| [&session(&[row(&[5, 1])])[..], &length, &[5, 2, 5]].concat();
    all.map(|length| Folder { line: row(&small([LARGE, 0])), session: cut(length) }).collect()
}
