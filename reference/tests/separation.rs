//! Demand 3, tried on generated lists of calls and random traces (document 01: runs), with devices that advance rings
//! of their own and go round them, with green zones beside others, and with locks: the state area equals the plain
//! book, what enters a partition is cleared, hardcoded descriptors keep the file's value, and every transfer of a trace
//! touches an object of the device's own partition and none of kind 4. A device without a ring is never refused by 21.
//! Every write and copy that is accepted in a green zone, by its rule alone, is searched, and passes (request N5:
//! `green-passes`). A locked device stays out (request N6: `locked-out`). Faulty gates are caught by the same trial.

mod common;
#[path = "common/trial.rs"]
mod trial;

use reference::closure::{Closure, Search, closure, limited};
use reference::config::{Config, load_with};
use reference::faults::{self, LOADERS, UNREACHED};
use reference::gate::judge;
use reference::load;
use reference::state::State;
use trial::{Gate, SEEDS, Trial, trial};

/// The papers' gate with another search.
fn trial_of(search: Search) -> Result<Trial, String> {
    let judge = |config: &Config, state: &State, record: &[u8]| judge(search, config, state, record);
    trial(Gate { load, judge: &judge, searched: true }, 0..SEEDS)
}

/// The papers' gate with one fault in its judge, and perhaps another question 6.
fn faulty_trial(name: &str, load: fn(&[u8]) -> Result<Config, u8>) -> String {
    caught(name, load, false)
}

/// The same where what is accepted in green zones is searched, if that is asked for.
fn caught(name: &str, load: fn(&[u8]) -> Result<Config, u8>, searched: bool) -> String {
    let all = faults::all().into_iter().chain(UNREACHED);
    let fault = all.into_iter().find(|fault| fault.name == name).expect("there is such a fault");
    let judge = |config: &Config, state: &State, record: &[u8]| faults::judge(&fault, config, state, record);
    let found = trial(Gate { load, judge: &judge, searched }, 0..SEEDS).expect_err("the fault must be caught");
    println!("{name}: {found}");
    found
}

/// A loader whose question 6 lets every device's objects be named.
fn without_own_device(line: &[u8]) -> Result<Config, u8> {
    load_with(LOADERS[0].1, line)
}

#[test]
fn traces_stay_in_their_partitions() {
    let trial = trial_of(closure).expect("demand 3 holds");
    println!("{trial:?}");
    assert!(trial.accepted * 2 > trial.calls);
    assert!(trial.moved > 1_000 && trial.traces > 3_000 && trial.descriptor_writes > 3_000);
    assert!(trial.refused_files > 20 && trial.ring_lines > 150, "{trial:?}");
    assert!(trial.rings > 150 && trial.refused_rings > 150, "{trial:?}");
    assert!(trial.ring_writes > 3_000 && trial.rounds > 1_000, "{trial:?}");
    assert!(trial.green_lines > 200 && trial.refused_by_22 > 400, "{trial:?}");
    assert!(trial.green_writes > 400 && trial.green_copies > 80, "{trial:?}");
    assert!(trial.beside_locks > 3_000 && trial.locked > 6_000, "{trial:?}");
    assert!([8, 14, 15].iter().all(|code| trial.refused_by_23.get(code) >= Some(&100)), "{trial:?}");
}

#[test]
fn one_round_is_caught() {
    let fault = trial_of(limited::<1>).expect_err("a search of one round must be caught");
    println!("{fault}");
    assert!(fault.contains("touches object"));
}

#[test]
fn no_search_is_caught() {
    fn nothing(_: &Config, _: &State) -> Closure {
        Closure::default()
    }
    let fault = trial_of(nothing).expect_err("a search that finds nothing must be caught");
    println!("{fault}");
    assert!(fault.contains("touches object"));
}

#[test]
fn no_question_21_is_caught() {
    assert!(faulty_trial("21 not put", load).contains("touches object"));
}

#[test]
fn question_21_on_the_state_before_is_caught() {
    assert!(faulty_trial("21 put on the state before the call", load).contains("touches object"));
}

#[test]
fn question_21_about_the_entering_device_alone_is_caught() {
    assert!(faulty_trial("21 looks at the device that comes in", load).contains("touches object"));
}

#[test]
fn hardcoded_writes_left_out_of_the_closure_are_caught() {
    assert!(faulty_trial("closure: hardcoded values write nothing", load).contains("touches object"));
}

/// With question 21 put to every device, what question 6 lets by still stays in its partition; what fails is that a
/// device without a ring never meets 21.
#[test]
fn question_6_without_own_device_is_caught() {
    let judge = |config: &Config, state: &State, record: &[u8]| judge(closure, config, state, record);
    let gate = Gate { load: without_own_device, judge: &judge, searched: true };
    let fault = trial(gate, 0..SEEDS).expect_err("it must be caught");
    println!("{fault}");
    assert!(fault.contains("has no ring"));
}

/// Where 21 is put to devices with rings only, question 6 is what keeps the others in.
#[test]
fn question_6_without_own_device_lets_traces_leave_where_21_is_put_to_rings_only() {
    assert!(faulty_trial("21 put for rings only", without_own_device).contains("touches object"));
}

/// What lets a green zone's device read or write beyond it, now or by what a driver can store there later: a trace
/// leaves, and a write that the faulty rule passes would not pass the search.
#[test]
fn faults_of_green_zones_are_caught_by_traces_and_by_the_search() {
    for name in ["20 not stricter", "22 not put to devices", "22 lets kind 1 be written", "22 not put to drivers"] {
        assert!(caught(name, load, false).contains("touches object"), "{name}");
        assert!(caught(name, load, true).contains("the search refuses"), "{name}");
    }
}

/// The same for each clause of the rule, for rules that look at a part only, for a stricter 20 that passes something,
/// and where a zone can turn green.
#[test]
fn each_clause_of_the_green_rule_is_caught() {
    let clauses =
        ["22 lets kind 4 be named", "22 lets other zones' objects be named", "22 lets inactive objects be named"];
    let modes = ["22 lets kind 1 be written by mode 2", "22 lets kind 1 be written by mode 3"];
    let rings = ["22: only mode 2 makes a ring", "22: only mode 3 makes a ring"];
    let parts =
        ["22 asks the first item", "22 asks the last item", "22 asks the first entry", "22 asks the last entry"];
    let leavers = ["drivers", "devices", "external objects"].map(|who| format!("20 not stricter for {who}"));
    let named = [1, 2, 3].map(|mode| format!("20: an entry of mode {mode} names nothing"));
    let rest = ["20 asks the first object that leaves", "13 passes on existing partitions"];
    let plain = [&clauses[..], &modes, &rings, &parts, &rest].concat();
    for name in plain.into_iter().map(str::to_string).chain(leavers).chain(named) {
        assert!(caught(&name, load, true).contains("the search refuses"), "{name}");
    }
}

/// What leaves another standing than it should differs from the plain book, and a plain zone that is not searched
/// because another is green lets traces leave.
#[test]
fn wrong_standings_and_plain_zones_without_19_are_caught() {
    let standings = ["13 makes a partition that is not green", "5 makes a green zone"];
    for name in [&standings[..], &["a destroyed green zone was never used", "a destroyed green zone stays"]].concat() {
        assert!(faulty_trial(name, load).contains("is not the book"), "{name}");
    }
    assert!(faulty_trial("19 not put beside a green zone", load).contains("touches object"));
}

/// What lets a locked device in, now or because its lock is not there any more, is caught by `locked-out` or by the
/// plain book.
#[test]
fn faults_of_locks_are_caught() {
    let entering =
        ["23 not put to code 8", "23 looks at the next device's lock", "23 looks at the first device's lock"];
    for name in [&entering[..], &["23 looks at the lock before the device's"]].concat() {
        assert!(faulty_trial(name, load).contains("is locked and"), "{name}");
    }
    assert!(faulty_trial("14 needs no inactive device", load).contains("is locked and in partition"));
    let stored = ["14 sets 0", "15 sets 1", "14 locks the next device", "15 unlocks the next device"];
    let others = ["15 clears all locks", "11 clears all locks", "8 clears all locks"];
    let more = ["14 brings a lock off another device", "locks at the place of small configurations"];
    for name in [&stored[..], &others, &more].concat() {
        assert!(faulty_trial(name, load).contains("is not the book"), "{name}");
    }
}
