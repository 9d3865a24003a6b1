//! The configuration (document 01: line) and its file: questions 1 to 6, put in the order of the file's numbers.

use crate::limits::{
    FIRST_EDITION, LAST_EDITION, MAX_DEVICES, MAX_DRIVERS, MAX_ENTRIES, MAX_NUMBER, MAX_NUMBER_BEFORE, MAX_OBJECTS,
    MAX_SERIAL, MAX_VALUES, SERIALS_FROM, SMALL_ROOM, area_bytes, room_for,
};
use crate::varint::{Fault, Reader};
use std::ops::RangeInclusive;

/// What an object is.
#[derive(Clone, Copy, Debug, PartialEq, Eq)]
pub enum Kind {
    /// 1, transfer descriptor: holds a value number.
    Transfer,
    /// 2, function descriptor: holds sixteen bytes.
    Function,
    /// 3, data: holds sixteen bytes.
    Data,
    /// 4, hardcoded descriptor (document 01: hard-wired descriptor): holds a value number that never changes.
    Hardcoded,
}

impl Kind {
    /// A descriptor holds a value number: kind 1 or 4.
    pub fn is_descriptor(self) -> bool {
        matches!(self, Kind::Transfer | Kind::Hardcoded)
    }

    pub fn number(self) -> usize {
        match self {
            Kind::Transfer => 1,
            Kind::Function => 2,
            Kind::Data => 3,
            Kind::Hardcoded => 4,
        }
    }

    fn from_number(number: usize) -> Self {
        match number {
            1 => Kind::Transfer,
            2 => Kind::Function,
            3 => Kind::Data,
            _ => Kind::Hardcoded,
        }
    }
}

/// Whose an object is. Drivers and devices (document 01: cards) count from 1.
#[derive(Clone, Copy, Debug, PartialEq, Eq)]
pub enum Owner {
    External,
    Driver(usize),
    Device(usize),
}

impl Owner {
    /// Owner class and owner number, as a file has them.
    pub fn numbers(self) -> (usize, usize) {
        match self {
            Owner::External => (0, 0),
            Owner::Driver(driver) => (1, driver),
            Owner::Device(device) => (2, device),
        }
    }
}

#[derive(Clone, Copy, Debug, PartialEq, Eq)]
pub struct Object {
    pub kind: Kind,
    pub owner: Owner,
}

/// A transfer entry of a descriptor value (document 01: entry).
#[derive(Clone, Copy, Debug, PartialEq, Eq)]
pub struct Entry {
    pub object: usize,
    /// 1 read, 2 write, 3 both.
    pub mode: usize,
    /// The stored value (document 01: put value): what a write puts into a kind 1 object, else 0.
    pub stored: usize,
}

impl Entry {
    pub fn reads(&self) -> bool {
        self.mode == 1 || self.mode == 3
    }

    pub fn writes(&self) -> bool {
        self.mode == 2 || self.mode == 3
    }
}

/// A loaded configuration. Number n stands at place n - 1 of each list; value 0 stands in none.
#[derive(Clone, Debug, PartialEq, Eq)]
pub struct Config {
    /// The edition of its file.
    pub edition: usize,
    /// D.
    pub drivers: usize,
    /// The objects 1 to N.
    pub objects: Vec<Object>,
    /// The value number of each device's hardcoded descriptor, for devices 1 to V.
    pub hardcoded: Vec<usize>,
    /// The serial of each device (request N7), 0 where none is known. It decides nothing.
    pub serials: Vec<usize>,
    /// The descriptor values 1 to K.
    pub values: Vec<Vec<Entry>>,
}

/// Nothing at all, in the first edition.
impl Default for Config {
    fn default() -> Self {
        let (objects, hardcoded, serials, values) = (Vec::new(), Vec::new(), Vec::new(), Vec::new());
        Config { edition: FIRST_EDITION, drivers: 0, objects, hardcoded, serials, values }
    }
}

impl Config {
    pub fn devices(&self) -> usize {
        self.hardcoded.len()
    }

    /// The object records in its state area, by the count of its objects alone.
    pub fn room(&self) -> usize {
        room_for(self.objects.len())
    }

    /// The length of its state area (question 7).
    pub fn state_bytes(&self) -> usize {
        area_bytes(self.room())
    }

    /// Whether it has more objects than a state area of the shorter length has room for.
    pub fn is_wide(&self) -> bool {
        self.objects.len() > SMALL_ROOM
    }

    pub fn object(&self, number: usize) -> Object {
        self.objects[number - 1]
    }

    pub fn kind(&self, object: usize) -> Kind {
        self.object(object).kind
    }

    /// The entries of a value; value 0 has none.
    pub fn value(&self, number: usize) -> &[Entry] {
        if number == 0 { &[] } else { &self.values[number - 1] }
    }

    /// The entries of a device's hardcoded value.
    pub fn hardcoded_entries(&self, device: usize) -> &[Entry] {
        self.value(self.hardcoded[device - 1])
    }

    /// Whether a write by this entry puts a value into a descriptor.
    pub fn stores(&self, entry: &Entry) -> bool {
        entry.writes() && self.kind(entry.object) == Kind::Transfer
    }

    /// Whether a device advances a ring of its own (request N4): its hardcoded value writes kind 1.
    pub fn has_ring(&self, device: usize) -> bool {
        self.hardcoded_entries(device).iter().any(|entry| self.stores(entry))
    }

    pub fn has_rings(&self) -> bool {
        (1..=self.devices()).any(|device| self.has_ring(device))
    }

    pub fn owned_by(&self, owner: Owner) -> Vec<usize> {
        (1..=self.objects.len()).filter(|number| self.object(*number).owner == owner).collect()
    }

    /// The device's hardcoded descriptor; question 5 says that there is exactly one.
    pub fn hardcoded_object(&self, device: usize) -> usize {
        let own = Object { kind: Kind::Hardcoded, owner: Owner::Device(device) };
        self.objects.iter().position(|object| *object == own).map_or(0, |place| place + 1)
    }
}

/// Loads a configuration file, or gives the number of the first question that is answered with no.
pub fn load(line: &[u8]) -> Result<Config, u8> {
    load_by(&RULES, line)
}

/// A question about a whole configuration, answered with yes or no.
pub type Question = fn(&Config) -> bool;

/// What a device's numbers are read by: the configuration so far, V and K; its hardcoded value number and its serial.
pub type ReadDevice = fn(&mut Reader, &Config, usize, usize) -> Result<(usize, usize), u8>;

/// What loading goes by where the papers have changed, or a fault is made.
#[derive(Clone, Copy, Debug)]
pub struct Rules {
    /// The largest number that question 2 passes.
    pub most_number: usize,
    pub last_edition: usize,
    pub device: ReadDevice,
    pub question_6: Question,
}

/// The papers' rules.
pub const RULES: Rules = Rules {
    most_number: MAX_NUMBER,
    last_edition: LAST_EDITION,
    device: read_device,
    question_6: hardcoded_values_fit,
};

/// Those of before there were serials (request N7).
pub const RULES_BEFORE: Rules = Rules { most_number: MAX_NUMBER_BEFORE, last_edition: FIRST_EDITION, ..RULES };

/// The same with question 6 of the caller's choice.
pub fn load_with(question_6: Question, line: &[u8]) -> Result<Config, u8> {
    load_by(&Rules { question_6, ..RULES }, line)
}

/// The same by rules of the caller's choice.
pub fn load_by(rules: &Rules, line: &[u8]) -> Result<Config, u8> {
    let mut reader = Reader::up_to(rules.most_number, line);
    let config = read_config(rules, &mut reader)?;
    if !reader.at_end() {
        return Err(4);
    }
    if !hardcoded_owners_fit(&config) {
        return Err(5);
    }
    if !(rules.question_6)(&config) {
        return Err(6);
    }
    Ok(config)
}

/// A number and the three questions put to it: 1, 2 and 3.
pub fn field(reader: &mut Reader, range: RangeInclusive<usize>) -> Result<usize, u8> {
    let number = reader.number().map_err(|fault| match fault {
        Fault::Cut => 1,
        Fault::Form => 2,
    })?;
    if range.contains(&number) { Ok(number) } else { Err(3) }
}

fn read_config(rules: &Rules, reader: &mut Reader) -> Result<Config, u8> {
    let edition = field(reader, FIRST_EDITION..=rules.last_edition)?;
    let drivers = field(reader, 0..=MAX_DRIVERS)?;
    let devices = field(reader, 0..=MAX_DEVICES)?;
    let objects = field(reader, 0..=MAX_OBJECTS)?;
    let values = field(reader, 0..=MAX_VALUES)?;
    let mut config = Config { edition, drivers, ..Config::default() };
    for _ in 0..objects {
        config.objects.push(read_object(reader, drivers, devices)?);
    }
    for _ in 0..devices {
        let (hardcoded, serial) = (rules.device)(reader, &config, devices, values)?;
        config.hardcoded.push(hardcoded);
        config.serials.push(serial);
    }
    for _ in 0..values {
        let count = field(reader, 0..=MAX_ENTRIES)?;
        let entries: Result<Vec<Entry>, u8> = (0..count).map(|_| read_entry(reader, &config, values)).collect();
        config.values.push(entries?);
    }
    Ok(config)
}

fn read_object(reader: &mut Reader, drivers: usize, devices: usize) -> Result<Object, u8> {
    let kind = Kind::from_number(field(reader, 1..=4)?);
    let owner = match field(reader, 0..=2)? {
        0 => field(reader, 0..=0).map(|_| Owner::External)?,
        1 => Owner::Driver(field(reader, 1..=drivers)?),
        _ => Owner::Device(field(reader, 1..=devices)?),
    };
    Ok(Object { kind, owner })
}

/// A device's hardcoded value number, and its serial in the editions that have one.
fn read_device(reader: &mut Reader, config: &Config, _: usize, values: usize) -> Result<(usize, usize), u8> {
    let hardcoded = field(reader, 0..=values)?;
    let serial = if config.edition >= SERIALS_FROM { field(reader, 0..=MAX_SERIAL)? } else { 0 };
    Ok((hardcoded, serial))
}

fn read_entry(reader: &mut Reader, config: &Config, values: usize) -> Result<Entry, u8> {
    let object = field(reader, 1..=config.objects.len())?;
    let mode = field(reader, 1..=3)?;
    let takes_value = config.kind(object) == Kind::Transfer && mode != 1;
    let stored = field(reader, 0..=if takes_value { values } else { 0 })?;
    Ok(Entry { object, mode, stored })
}

/// Question 5: each device has exactly one kind 4 object, and each kind 4 object a device as owner.
fn hardcoded_owners_fit(config: &Config) -> bool {
    let owners: Vec<Owner> =
        config.objects.iter().filter(|object| object.kind == Kind::Hardcoded).map(|object| object.owner).collect();
    let one_each = (1..=config.devices())
        .all(|device| owners.iter().filter(|owner| **owner == Owner::Device(device)).count() == 1);
    one_each && owners.iter().all(|owner| matches!(owner, Owner::Device(_)))
}

/// Question 6: each hardcoded value names only its own device's objects, none of kind 4. It may write those of kind 1
/// (request N4); what it puts there is asked by question 3.
pub fn hardcoded_values_fit(config: &Config) -> bool {
    (1..=config.devices()).all(|device| {
        config.hardcoded_entries(device).iter().all(|entry| {
            let object = config.object(entry.object);
            object.owner == Owner::Device(device) && object.kind != Kind::Hardcoded
        })
    })
}
