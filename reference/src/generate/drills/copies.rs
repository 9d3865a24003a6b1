//! Copies: refused by 19, and records whose later pairs read what earlier pairs store.

use super::numbers::Numbering;
use super::script::{Drill, Script, Zone, both, writes};
use crate::generate::rng::Rng;

/// A value that leads outside, at once or by a chain of a few writes.
fn bad_value(script: &mut Script, zone: &Zone) -> usize {
    let outside = script.outside(zone);
    let mut value = script.value(vec![outside]);
    for _ in 0..script.rng.below(4) {
        let object = if script.rng.percent(50) { zone.head } else { script.descriptor(zone) };
        value = script.value(vec![both(object, value)]);
    }
    value
}

/// A value that stays inside.
fn good_value(script: &mut Script, zone: &Zone) -> usize {
    let object = script.plain(zone);
    let entry = script.touches(object);
    script.value(vec![entry])
}

/// A driver's copies from descriptors that nobody reads.
pub fn by_driver(rng: &mut Rng) -> Drill {
    let mut script = Script::new(rng);
    let zone = script.zone();
    let (bad, good) = (bad_value(&mut script, &zone), good_value(&mut script, &zone));
    let spare: Vec<usize> = (0..script.rng.between(2, 7)).map(|_| script.descriptor(&zone)).collect();
    script.open();
    let (first, second) = (spare[0], spare[1]);
    let Zone { driver, head, .. } = zone;
    script.write(driver, &[(first, bad), (second, good)]);
    script.copy(driver, &[(first, head)]);
    script.copy(driver, &[(second, head)]);
    // What is stored first is bad, what was there before is good; then the other way round.
    script.copy(driver, &[(first, second), (second, head)]);
    script.write(driver, &[(second, good), (head, 0)]);
    script.copy(driver, &[(second, first), (first, head)]);
    script.copy(driver, &[(second, 0), (first, 0), (first, second), (second, first)]);
    script.copy(driver, &[(first, head)]);
    script.copy(driver, &[(second, head)]);
    round(&mut script, &zone, &spare, bad, good);
    script.end(Numbering::Shuffled, Numbering::Shuffled)
}

/// Each descriptor's value goes on to the next, all round, until each was copied to where the device reads it.
fn round(script: &mut Script, zone: &Zone, spare: &[usize], bad: usize, good: usize) {
    let items: Vec<(usize, usize)> =
        spare.iter().enumerate().map(|(place, object)| (*object, if place == 0 { bad } else { good })).collect();
    script.write(zone.driver, &items);
    let next = |place: usize| spare[(place + 1) % spare.len()];
    let pairs: Vec<(usize, usize)> = spare.iter().enumerate().map(|(place, from)| (*from, next(place))).collect();
    for object in script.rng.some(spare, 3) {
        script.copy(zone.driver, &pairs);
        script.copy(zone.driver, &[(object, zone.head)]);
    }
}

/// A device's copies between descriptors that it reads; what it may touch afterwards shows what was stored.
pub fn by_device(rng: &mut Rng) -> Drill {
    let mut script = Script::new(rng);
    let zone = script.zone();
    let Zone { driver, device, head, .. } = zone;
    let objects = [script.plain(&zone), script.plain(&zone)];
    let entries = objects.map(|object| both(object, 0));
    let [p, q] = entries.map(|entry| script.value(vec![entry]));
    let [a, b, c] = [0; 3].map(|_| script.descriptor(&zone));
    let all = script.value(vec![both(a, q), both(b, p), both(c, q), writes(a, p)]);
    script.open();
    script.write(driver, &[(a, p), (b, q), (head, all)]);
    // Only the stored value differs from what is described.
    script.device_copy(device, &[(a, c)]);
    script.device_copy(device, &[(b, b)]);
    script.device_copy(device, &[(a, b), (b, c)]);
    touch_both(&mut script, device, &objects);
    script.write(driver, &[(a, p), (b, q), (c, 0)]);
    script.device_copy(device, &[(c, 0), (a, b), (b, a)]);
    touch_both(&mut script, device, &objects);
    script.write(driver, &[(a, q), (b, p), (c, 0)]);
    script.device_copy(device, &[(b, a), (a, c)]);
    touch_both(&mut script, device, &objects);
    script.end(Numbering::Shuffled, Numbering::Shuffled)
}

fn touch_both(script: &mut Script, device: usize, objects: &[usize; 2]) {
    for object in objects {
        let write = script.rng.percent(50);
        script.device_touch(device, *object, write);
    }
}
