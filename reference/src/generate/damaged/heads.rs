//! The bytes before the records, broken alone in each of their rules, and broken or changed so that records break with
//! them.

use super::{Damaged, stray};
use crate::config::{Config, Owner};
use crate::generate::areas::{NO_STATUS, wrong_partition, zones};
use crate::generate::rng::Rng;
use crate::limits::{MAX_DEVICES, MAX_DRIVERS};
use crate::state::{DESTROYED, GREEN, NEVER_USED, NONE, State, exists};

/// The state with a change in its head alone, no record broken.
fn alone_by(name: &str, sound: &State, change: impl FnOnce(&mut State)) -> Damaged {
    let mut state = sound.clone();
    change(&mut state);
    Damaged { head_fits: false, ..Damaged::nothing(name, state) }
}

/// A status that there is not, often the least.
fn no_status(rng: &mut Rng) -> u8 {
    if rng.percent(50) { NO_STATUS } else { rng.between(usize::from(NO_STATUS), 255) as u8 }
}

/// Broken alone. A device's byte is not among these: each device owns an object, whose record breaks with it.
pub fn alone(rng: &mut Rng, config: &Config, sound: &State) -> Vec<Damaged> {
    let first = rng.between(1, usize::from(NO_STATUS)) as u8;
    let mut out = vec![alone_by("status 0", sound, |state| state.status[0] = first)];
    let (status, byte) = (no_status(rng), stray(rng, sound));
    let empty = zones(sound, |status| !exists(status));
    if let Some(zone) = rng.pick(&empty) {
        out.push(alone_by("a status above 3", sound, |state| state.status[usize::from(zone)] = status));
    }
    let drivers = (1..=config.drivers).filter(|driver| config.owned_by(Owner::Driver(*driver)).is_empty());
    let idle: Vec<usize> = drivers.collect();
    if let Some(driver) = rng.pick(&idle) {
        let wrong = wrong_partition(rng, sound);
        out.push(alone_by("a driver without objects", sound, |state| state.drivers[driver - 1] = wrong));
    }
    if config.drivers < MAX_DRIVERS {
        let place = rng.between(config.drivers, MAX_DRIVERS - 1);
        out.push(alone_by("an absent driver", sound, |state| state.drivers[place] = byte));
    }
    if config.devices() < MAX_DEVICES {
        let place = rng.between(config.devices(), MAX_DEVICES - 1);
        out.push(alone_by("an absent device", sound, |state| state.devices[place] = byte));
    }
    out
}

/// Broken, or only changed, under the records.
pub fn with_records(rng: &mut Rng, config: &Config, sound: &State) -> Vec<Damaged> {
    let mut out = lost_partitions(rng, config, sound);
    for (name, owners) in [
        ("driver", (1..=config.drivers).map(Owner::Driver).collect::<Vec<_>>()),
        ("device", (1..=config.devices()).map(Owner::Device).collect()),
    ] {
        let owners: Vec<Owner> = owners.into_iter().filter(|owner| !config.owned_by(*owner).is_empty()).collect();
        if let Some(owner) = rng.pick(&owners) {
            out.extend(moved_owner(rng, config, sound, name, owner));
        }
    }
    out
}

/// The status of a partition in which objects are, changed.
fn lost_partitions(rng: &mut Rng, config: &Config, sound: &State) -> Vec<Damaged> {
    let mut out = Vec::new();
    let inside = |zone: u8| (1..=config.objects.len()).find(|object| sound.object(*object) == zone);
    for (name, status) in [("destroyed", DESTROYED), ("never used", NEVER_USED), ("with no status", no_status(rng))] {
        let mut used = zones(sound, exists);
        used.retain(|zone| inside(*zone).is_some());
        let Some(zone) = rng.pick(&used) else { return out };
        let mut state = sound.clone();
        state.status[usize::from(zone)] = status;
        let owners = sound.drivers.contains(&zone) || sound.devices.contains(&zone);
        out.push(Damaged {
            place: inside(zone).unwrap_or(0),
            head_fits: status <= GREEN && !owners,
            ..Damaged::nothing(&format!("objects in a partition {name}"), state)
        });
    }
    out
}

/// An owner's byte changed under its objects: to none, to another existing partition, to one that does not exist; and
/// in the last way together with its objects.
fn moved_owner(rng: &mut Rng, config: &Config, sound: &State, name: &str, owner: Owner) -> Vec<Damaged> {
    let home = sound.owner(owner).unwrap_or(NONE);
    let mut existing = zones(sound, exists);
    existing.retain(|zone| *zone != home);
    let wrong = Some(wrong_partition(rng, sound));
    let ways = [
        ("inactive", Some(NONE).filter(|_| home != NONE), true, false),
        ("elsewhere", rng.pick(&existing), true, false),
        ("nowhere", wrong, false, false),
        ("nowhere with its objects", wrong, false, true),
    ];
    let owned = config.owned_by(owner);
    let mut out = Vec::new();
    for (way, partition, head_fits, together) in ways {
        let Some(partition) = partition else { continue };
        let mut state = sound.clone();
        move_owner(&mut state, owner, partition);
        if together {
            owned.iter().for_each(|object| state.objects[object - 1].partition = partition);
        }
        let place = owned.first().copied().unwrap_or(0);
        // A locked device that is moved out of none breaks the rule of its lock too.
        let locked = matches!(owner, Owner::Device(device) if sound.is_locked(device));
        let locks_fit = !locked || partition == NONE;
        out.push(Damaged { place, head_fits, locks_fit, ..Damaged::nothing(&format!("a {name} {way}"), state) });
    }
    out
}

fn move_owner(state: &mut State, owner: Owner, partition: u8) {
    match owner {
        Owner::External => (),
        Owner::Driver(driver) => state.drivers[driver - 1] = partition,
        Owner::Device(device) => state.devices[device - 1] = partition,
    }
}
