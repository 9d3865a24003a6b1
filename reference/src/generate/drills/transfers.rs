//! Question 18: transfers described many steps from the hardcoded descriptor, and transfers of which only the stored
//! value, or only the mode, is not the one described.

use super::numbers::Numbering;
use super::script::{Drill, Script, Zone, both, reads, writes};
use crate::config::Entry;
use crate::generate::rng::Rng;
use crate::limits::MAX_COUNT;

/// Descriptors of which each holds a value that reads the next: no write is needed to come from one to the next.
pub fn stairs(rng: &mut Rng, steps: usize) -> Drill {
    let mut script = Script::new(rng);
    let zone = script.zone();
    let Zone { driver, device, head, .. } = zone;
    let mut descriptors = vec![head];
    descriptors.extend((1..steps).map(|_| script.descriptor(&zone)));
    let values = script.values(steps);
    let mut named = Vec::new();
    for place in 0..steps {
        let object = script.plain(&zone);
        let entry = script.touches(object);
        let next = descriptors.get(place + 1).map(|next| match script.rng.below(3) {
            0 => both(*next, values[place + 1]),
            _ => reads(*next),
        });
        script.set(values[place], next.into_iter().chain([entry]).collect());
        named.push(entry);
    }
    let outside = script.outside(&zone);
    let bad = script.value(vec![outside]);
    script.open();
    let items: Vec<(usize, usize)> = descriptors.iter().copied().zip(values).collect();
    for part in script.rng.some(&items, steps).chunks(MAX_COUNT) {
        script.write(driver, part);
    }
    touch_some(&mut script, device, &named);
    script.write(driver, &[(descriptors[steps - 1], bad)]);
    let cut = script.rng.below(steps);
    script.write(driver, &[(descriptors[cut], 0)]);
    touch_some(&mut script, device, &named);
    script.end(Numbering::Shuffled, Numbering::Shuffled)
}

/// The last transfer and a few others, mostly as they are described.
fn touch_some(script: &mut Script, device: usize, named: &[Entry]) {
    let mut list = script.rng.some(named, 5);
    list.extend(named.last());
    for entry in list {
        let write = entry.writes() != script.rng.percent(10);
        script.device_touch(device, entry.object, write);
    }
}

/// A device goes along a chain by its own writes: what a value describes is described when it is put, and not before.
pub fn walk(rng: &mut Rng) -> Drill {
    let mut script = Script::new(rng);
    let zone = script.zone();
    let Zone { driver, device, head, .. } = zone;
    let links = script.rng.between(3, 8);
    let values = script.values(links);
    let mut way = vec![(head, values[0])];
    let mut named = Vec::new();
    for place in 0..links {
        let object = script.plain(&zone);
        let mut entries = vec![script.touches(object)];
        named.push(entries[0]);
        if let Some(next) = values.get(place + 1) {
            let object = if script.rng.percent(70) { script.descriptor(&zone) } else { head };
            entries.push(both(object, *next));
            way.push((object, *next));
        }
        script.set(values[place], entries);
    }
    script.open();
    script.write(driver, &way[..1]);
    for place in 0..links {
        for entry in named.iter().skip(place).take(2) {
            script.device_touch(device, entry.object, entry.writes());
        }
        if let Some(next) = way.get(place + 1) {
            script.device_write(device, &[*next]);
        }
    }
    script.end(Numbering::Shuffled, Numbering::Shuffled)
}

/// Writes of values that are described, and of others.
pub fn stored_values(rng: &mut Rng) -> Drill {
    let mut script = Script::new(rng);
    let zone = script.zone();
    let Zone { driver, device, head, .. } = zone;
    let [x, y, z] = [0; 3].map(|_| script.descriptor(&zone));
    let values = script.values(3);
    let plain = script.plain(&zone);
    for value in &values {
        let entry = script.touches(plain);
        script.set(*value, vec![entry]);
    }
    let [p, q, _] = [values[0], values[1], values[2]];
    let near = script.value(vec![writes(x, p), both(y, q), reads(z)]);
    let far = script.value(vec![both(y, p), writes(y, 0), writes(x, q)]);
    script.open();
    script.write(driver, &[(head, near), (z, far)]);
    for object in [x, y] {
        for value in [0, p, q, values[2]] {
            script.device_write(device, &[(object, value)]);
        }
    }
    script.write(driver, &[(y, p), (z, 0)]);
    script.device_copy(device, &[(y, x)]);
    script.device_write(device, &[(x, p), (y, q)]);
    script.device_copy(device, &[(y, x)]);
    script.device_write(device, &[(x, q), (y, q)]);
    script.device_copy(device, &[(y, y)]);
    script.end(Numbering::Shuffled, Numbering::Shuffled)
}
