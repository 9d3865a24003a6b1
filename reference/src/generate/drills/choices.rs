//! Where pairs are stricter than whole descriptor states (document 01, the end of 'Reach').

use super::numbers::Numbering;
use super::script::{Drill, Script, Zone, both, reads, writes};
use crate::config::{Entry, Kind, Owner};
use crate::generate::rng::Rng;

/// The last value of a choice, and the external object that it names if it stays inside.
fn end_of_choice(script: &mut Script, zone: &Zone, inside: bool) -> (usize, usize) {
    let object = script.object(Kind::Data, Owner::External, zone.partition);
    let entry = if inside { script.touches(object) } else { script.outside(zone) };
    (script.value(vec![entry]), object)
}

/// A few more links in the head before a value's own entries.
fn after_links(script: &mut Script, zone: &Zone, entry: Entry) -> usize {
    let mut value = script.value(vec![entry]);
    for _ in 0..script.rng.below(3) {
        value = script.value(vec![both(zone.head, value)]);
    }
    value
}

/// A descriptor may be put to B or to C and then not back: C writes x, B reads x. Refused by pairs, passed by states:
/// by 19 if what is put into x leads outside, by 20 if it names what is to leave.
pub fn either(rng: &mut Rng, inside: bool) -> Drill {
    let mut script = Script::new(rng);
    let zone = script.zone();
    let Zone { driver, head, .. } = zone;
    let (end, object) = end_of_choice(&mut script, &zone, inside);
    let x = script.descriptor(&zone);
    let b = after_links(&mut script, &zone, reads(x));
    let c = after_links(&mut script, &zone, writes(x, end));
    let choice = script.values(1)[0];
    script.set(choice, vec![both(head, b), both(head, c)]);
    let spare = script.descriptor(&zone);
    script.open();
    for value in [b, c, choice] {
        script.write(driver, &[(head, value)]);
        script.leave_external(&zone, object);
        script.enter_external(&zone, object);
    }
    script.write(driver, &[(head, 0), (spare, choice)]);
    script.copy(driver, &[(spare, head)]);
    script.leave_external(&zone, object);
    script.write(driver, &[(head, 0), (x, end)]);
    script.write(driver, &[(head, c)]);
    script.write(driver, &[(head, b)]);
    script.end(Numbering::Shuffled, Numbering::Shuffled)
}
