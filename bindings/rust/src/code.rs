//! The operation codes: what a record begins with. `docs/CONTROLLER.md`, 'Records', says how an item is written.

// begin codes: made by tests/tables from tables/codes.ini
/// Driver write. Then driver, count, items.
pub const DRIVER_WRITE: u8 = 1;

/// Card write. Then card, count, items.
pub const CARD_WRITE: u8 = 2;

/// Driver read. Then driver, count, pairs: source, destination or 0.
pub const DRIVER_READ: u8 = 3;

/// Card read. Then card, count, pairs: source, destination or 0.
pub const CARD_READ: u8 = 4;

/// Create a partition. Then partition.
pub const CREATE_PARTITION: u8 = 5;

/// Destroy a partition. Then partition.
pub const DESTROY_PARTITION: u8 = 6;

/// Activate a driver: bring it in, cleared. Then driver, partition.
pub const ACTIVATE_DRIVER: u8 = 7;

/// Activate a card: bring it in, cleared. Then card, partition.
pub const ACTIVATE_CARD: u8 = 8;

/// Activate external objects. Then partition, count, objects.
pub const ACTIVATE_OBJECTS: u8 = 9;

/// Deactivate a driver: take it out. Then driver.
pub const DEACTIVATE_DRIVER: u8 = 10;

/// Deactivate a card: take it out. Then card.
pub const DEACTIVATE_CARD: u8 = 11;

/// Deactivate external objects. Then partition, count, objects.
pub const DEACTIVATE_OBJECTS: u8 = 12;

/// Create a green zone: a partition in which no card may write a descriptor. Then partition.
pub const CREATE_GREEN_PARTITION: u8 = 13;

/// Lock a card: a padlock hangs on it, and nothing brings it in. Then card.
pub const LOCK_CARD: u8 = 14;

/// Unlock a card: its padlock is taken off. Then card.
pub const UNLOCK_CARD: u8 = 15;
// end codes
