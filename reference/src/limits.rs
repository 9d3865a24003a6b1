//! The limits of document 01 and of requests N2, N6 and N7, each named once. Nothing else in this package writes one of
//! these numbers down.

/// The editions of a configuration file: the first one, and the last, which gives each device a serial (request N7).
pub const FIRST_EDITION: usize = 1;
pub const LAST_EDITION: usize = 2;
/// The first edition in which devices have serials.
pub const SERIALS_FROM: usize = 2;
/// A serial is at most this; 0 is none.
pub const MAX_SERIAL: usize = MAX_NUMBER;
/// D, V, N and K of a configuration file are at most these.
pub const MAX_DRIVERS: usize = 16;
pub const MAX_DEVICES: usize = 16;
pub const MAX_OBJECTS: usize = 192;
pub const MAX_VALUES: usize = 47;
/// Transfer entries in one descriptor value.
pub const MAX_ENTRIES: usize = 6;

/// The objects that a state area of the shorter length has room for. A configuration with more of them is wide: its
/// area has room for `MAX_OBJECTS`.
pub const SMALL_ROOM: usize = 96;

/// Partitions have the numbers 1 to this; 0 is none.
pub const MAX_PARTITION: usize = 63;
/// Items, pairs or objects in one operation record, from 1.
pub const MAX_COUNT: usize = 8;

/// A number has at most this many bytes, and at most this size (question 2), which is what so many groups of seven bits
/// hold.
pub const MAX_NUMBER_BYTES: usize = 3;
pub const MAX_NUMBER: usize = 2_097_151;
/// The size of before there were serials.
pub const MAX_NUMBER_BEFORE: usize = 65_535;
/// The largest number that has one byte.
pub const MAX_ONE_BYTE: usize = 127;

/// What an object holds.
pub const CONTENT_BYTES: usize = 16;

/// The state area: a byte for each partition (0 too), driver and device, a record for each object that it has room for,
/// and behind the last record a lock byte for each device (request N6).
pub const STATUS_BYTES: usize = MAX_PARTITION + 1;
pub const RECORD_BYTES: usize = 1 + CONTENT_BYTES;
const RECORDS_FROM: usize = STATUS_BYTES + MAX_DRIVERS + MAX_DEVICES;
pub const LOCK_BYTES: usize = MAX_DEVICES;
/// Its two lengths: of small configurations and of wide ones.
pub const STATE_BYTES: usize = RECORDS_FROM + SMALL_ROOM * RECORD_BYTES + LOCK_BYTES;
pub const STATE_BYTES_WIDE: usize = RECORDS_FROM + MAX_OBJECTS * RECORD_BYTES + LOCK_BYTES;
/// The least length of an answer area.
pub const ANSWER_BYTES: usize = MAX_COUNT * CONTENT_BYTES;

/// The longest files that the office program takes.
pub const LINE_LIMIT: usize = 4_096;
pub const SESSION_LIMIT: usize = 32_768;

/// The object records in the state area of a configuration with so many objects.
pub const fn room_for(objects: usize) -> usize {
    if objects <= SMALL_ROOM { SMALL_ROOM } else { MAX_OBJECTS }
}

/// Where an object's record begins.
pub const fn record_place(object: usize) -> usize {
    RECORDS_FROM + (object - 1) * RECORD_BYTES
}

/// Where the lock bytes begin in a state area with so many object records: right behind the last. An area had this
/// length before there were locks.
pub const fn locks_place(room: usize) -> usize {
    record_place(room + 1)
}

/// The length of a state area with so many object records.
pub const fn area_bytes(room: usize) -> usize {
    locks_place(room) + LOCK_BYTES
}
