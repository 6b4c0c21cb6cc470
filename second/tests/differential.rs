//! The proved library against the second implementation: every small case in turn, then lists of
//! commands, sessions on exam machines and in the box, log reads, written and mended sessions from
//! the seeded generator.
//!
//! A failure prints its seed; `SEED=n` runs the generated tests with that seed alone.

mod both;
mod boxed;
mod busy;
mod mender;
mod proved;
mod staging;
mod writer;
mod zones;

use std::collections::BTreeMap;

use second::author::{counter, entry, fresh_card, log_of, on, Author};
use second::edges;
use second::gen::{self, Rng};
use second::layout::{
    AAC, CARD, CONFIGURATION, ENTRY_HEADER, FLAG, FUSES, LOG_SPACE, LONGEST_SESSION, MOST_RECORDS,
    REGISTERS, SHORTEST_LOG, SHORTEST_SESSION, STAGED_LENGTH, STATE, TRAILER,
};
use second::samples;
use second::session;
use second::staging::READY;

const STAGES: [u8; 4] = [7, 6, 4, 0];
const FIXED: &str = "none: a fixed case";

/// What ends a log, and what ended one in which no entry named a zone.
const ZONED: [u8; 2] = [0x4C, 0x50];
const PLAIN: [u8; 2] = [0x4C, 0x4F];

/// How often something was met.
#[derive(Default)]
struct Met(BTreeMap<String, u64>);

impl Met {
    fn note(&mut self, what: &str) {
        if let Some(times) = self.0.get_mut(what) {
            *times += 1;
        } else {
            self.0.insert(what.to_string(), 1);
        }
    }

    fn note_if(&mut self, what: &str, met: bool) {
        if met {
            self.note(what);
        }
    }

    fn require(&self, what: &str, at_least: u64) {
        let times = self.0.get(what).copied().unwrap_or(0);
        println!("{what}: {times}");
        if std::env::var_os("SEED").is_none() {
            assert!(times >= at_least, "{what}: only {times} of {at_least}");
        }
    }
}

fn seeds(count: u64) -> std::ops::Range<u64> {
    match std::env::var("SEED") {
        Ok(seed) => {
            let seed = seed.parse().expect("SEED is a decimal number");
            seed..seed + 1
        }
        Err(_) => 0..count,
    }
}

/// Every state of a card that heeds all, but for the zone; nothing is armed.
fn states(zone: u8) -> Vec<[u8; STATE]> {
    let actives = (0..17).map(|a| if a < 16 { [1, a] } else { [0, 0] });
    actives
        .flat_map(|[some, selector]| (0..3).map(move |auth| on([zone, some, selector, auth, 0])))
        .collect()
}

/// The result of an accepted command: its kind as it is answered, its response, its tries.
fn accepted(kind: u8, length: usize, tries: u32) -> u64 {
    u64::from(kind) << 32 | u64::from(tries) << 24 | (length as u64) << 8
}

/// The busy time that a record leaves on a ready card.
fn busy_if(made_busy: bool) -> u8 {
    if made_busy {
        10
    } else {
        0
    }
}

/// A card whose bytes tell their places apart.
fn marked_card(fuses: u8) -> Vec<u8> {
    let mut card = fresh_card(fuses);
    for (place, byte) in card[..CONFIGURATION].iter_mut().enumerate() {
        *byte = (place % 251) as u8 ^ 0xA0;
    }
    card
}

#[test]
fn every_register_in_every_state() {
    for fuses in STAGES {
        for register in 0..=255 {
            let zone = register % 8;
            let mut card = marked_card(fuses);
            card[REGISTERS..REGISTERS + 8].fill(!register);
            card[REGISTERS + usize::from(zone)] = register;
            for mut state in states(zone) {
                both::command(FIXED, &mut card, &mut state, &[4, 0xFE, 4], 4);
                let (mut written, mut staged, mut then) = (card.clone(), card.clone(), state);
                both::command(FIXED, &mut written, &mut state, &[5, 0x3F, 2, 0x3C, 0x5A], 0);
                assert_eq!(state[4], 10, "stored or kept out");
                both::command(FIXED, &mut staged, &mut then, &[15, 0x3F, 2, 0x3C, 0x5A], 0);
                assert_eq!(state, then);
                assert!(written[..FLAG] == staged[..FLAG], "a staged write stores the same");
            }
        }
    }
}

/// A read of a closed zone answers F alone, whatever its address and count.
fn closed_read(card: &mut [u8], address: u8, count: u8) {
    let fuses = card[FUSES];
    let needed = if count == 0 { 256 } else { usize::from(count) };
    let record = [4, address, count];
    let mut state = on([3, 1, 7, 1, 0]);
    assert_eq!(both::command(FIXED, card, &mut state, &record, needed - 1), 10);
    for space in [needed, needed + 5] {
        let (result, response) = both::answered(FIXED, card, &mut state, &record, space);
        assert_eq!(result, accepted(4, needed, 0));
        assert_eq!(response[..needed], vec![fuses; needed], "{address:02X} {count} at F={fuses}");
    }
}

#[test]
fn every_closed_read() {
    for fuses in [6, 4, 0] {
        // The passwords of set 5 are wanted, then authentication, then both.
        for register in [0xB7, 0xDF, 0x97] {
            let mut card = marked_card(fuses);
            card[REGISTERS + 3] = register;
            for address in 0..=255 {
                for count in [1, 2, 3, 16, 255, 0] {
                    closed_read(&mut card, address, count);
                }
            }
            for count in 0..=255 {
                for address in [0, 0x7F, 0xFE, 0xFF] {
                    closed_read(&mut card, address, count);
                }
            }
        }
    }
}

#[test]
fn every_configuration_byte_in_every_state() {
    for fuses in STAGES {
        for state in states(3) {
            let card = marked_card(fuses);
            both::command(FIXED, &mut card.clone(), &mut state.clone(), &[6, 0, 128], 128);
            for address in 0..128 {
                let (mut one, mut page) = (card.clone(), card.clone());
                let mut then = state;
                both::command(FIXED, &mut one, &mut then, &[7, address, 1, 0x96], 0);
                assert_eq!(then[4], 10, "stored or kept out");
                let all: Vec<u8> = (0..16).map(|i| 0x80 + i).collect();
                let record = [&[7, address, 16], &all[..]].concat();
                both::command(FIXED, &mut page, &mut state.clone(), &record, 0);
                both::command(FIXED, &mut page, &mut state.clone(), &[6, address, 1], 1);
            }
        }
    }
}

#[test]
fn every_counter_value() {
    for value in 0..=255u8 {
        let one_fewer = value.count_ones().saturating_sub(1);
        for selector in 0..16 {
            let at = counter(selector);
            for wrong in 0..4 {
                let mut card = marked_card(STAGES[usize::from(value & 3)]);
                card[at] = value;
                let mut record = [10, selector, card[at + 1], card[at + 2], card[at + 3]];
                let mut left = if value == 0 { 0 } else { 8 };
                if wrong < 3 {
                    record[2 + wrong] ^= 0x10;
                    left = one_fewer;
                }
                let mut state = on([5, 1, (selector + 3) % 16, value % 3, 0]);
                let result = both::command(FIXED, &mut card, &mut state, &record, 0);
                let what = format!("selector {selector}, counter {value:02X}");
                assert_eq!(result, accepted(10, 0, left), "{what}");
                assert_eq!(state[4], busy_if(value != 0), "{what}");
            }
        }
        for state in states(6) {
            for verdict in [b"\x0C\x00ABCDEFGH", b"\x0C\x01ABCDEFGH"] {
                let mut card = marked_card(STAGES[usize::from(value & 3)]);
                card[AAC] = value;
                let (mut begun, mut then) = (card.clone(), state);
                let mut judged = state;
                let result = both::command(FIXED, &mut card, &mut judged, verdict, 0);
                assert_eq!(result, accepted(12, 0, 0));
                assert_eq!(judged[4], busy_if(state[3] == 1));
                let result = both::command(FIXED, &mut begun, &mut then, &[11], 0);
                assert_eq!(result, accepted(11, 0, one_fewer), "AAC {value:02X}");
                assert_eq!(then[4], busy_if(value != 0), "AAC {value:02X}");
                both::command(FIXED, &mut begun, &mut then, &[13, 10], 0);
                let result = both::command(FIXED, &mut begun, &mut then, verdict, 0);
                assert_eq!(result, accepted(12, 0, 0));
            }
        }
    }
}

/// Presents a password on a card that holds another or the same, and expects the tries left to tell
/// whether all three bytes are right.
fn present(selector: u8, stored: [u8; 3], presented: [u8; 3]) {
    let at = counter(selector);
    let mut card = marked_card(STAGES[usize::from(selector & 3)]);
    card[at + 1..at + 4].copy_from_slice(&stored);
    let record = [&[10, selector][..], &presented].concat();
    let mut state = on([5, 1, (selector + 3) % 16, selector % 3, 0]);
    let result = both::command(FIXED, &mut card, &mut state, &record, 0);
    let left = if stored == presented { 8 } else { 7 };
    let what = format!("selector {selector}: {stored:02X?}, {presented:02X?}");
    assert_eq!(result, accepted(10, 0, left), "{what}");
}

#[test]
fn every_password_beside_another() {
    // Every value of one byte, the others being right.
    for selector in 0..16 {
        for (place, byte) in (0..3).flat_map(|place| (0..=255).map(move |byte| (place, byte))) {
            let stored = [0x5A, 0xFF, selector];
            let mut presented = stored;
            presented[place] = byte;
            present(selector, stored, presented);
        }
    }
    // Bytes that a sum of weighed bytes might confuse, in every place of both.
    const BYTES: [u8; 5] = [0x00, 0x01, 0x7F, 0x80, 0xFF];
    let three = |n: usize| [n, n / 5, n / 25].map(|digits| BYTES[digits % 5]);
    for (one, other) in (0..125).flat_map(|one| (0..125).map(move |other| (one, other))) {
        present((one + other) as u8 % 16, three(one), three(other));
    }
}

#[test]
fn every_plain_command_in_every_state() {
    for fuses in STAGES {
        for state in states(2) {
            for kind in [1, 2, 8, 9, 14] {
                let mut card = marked_card(fuses);
                let byte = state[2] * 16 + kind;
                card[CONFIGURATION..CONFIGURATION + 4].copy_from_slice(&[byte, !byte, 0x2C, 0x80]);
                for space in 0..6 {
                    both::command(FIXED, &mut card.clone(), &mut state.clone(), &[kind], space);
                }
            }
        }
    }
    for byte in 0..=255 {
        let mut card = marked_card(7);
        card[CONFIGURATION..CONFIGURATION + 4].fill(byte);
        both::command(FIXED, &mut card, &mut on([7, 1, 1, 1, 0]), &[2], 4);
    }
}

/// Records with every value of their fields, cut at every length, in one state.
fn fields_and_lengths(state: [u8; STATE]) {
    let mut card = marked_card(7);
    let mut run = |record: &[u8], space| {
        both::command(FIXED, &mut card, &mut state.clone(), record, space);
    };
    for kind in 0..=255 {
        for field in 0..=255 {
            for length in 1..=14 {
                let mut record = vec![kind, field, 9, 1, 2, 3, 4, 5, 6, 7, 8, 9, 10, 11];
                record.truncate(length);
                run(&record, 256);
                if kind > 18 {
                    break;
                }
            }
        }
    }
    for kind in [4, 5, 6, 7, 15] {
        for address in 0..=255 {
            for count in 0..=255 {
                let mut record = vec![kind, address, count];
                if kind % 2 == 1 {
                    record.resize(3 + usize::from(count.min(20)), address ^ count);
                }
                run(&record, 256);
                if kind % 2 == 1 && count <= 17 {
                    record.pop();
                    run(&record, 256);
                }
            }
        }
    }
    for count in 0..=255u8 {
        let needed = if count == 0 { 256 } else { usize::from(count) };
        for space in [0, needed - 1, needed, needed + 1, 400] {
            run(&[4, 0x80, count], space);
            run(&[6, 0, count], space);
        }
    }
}

#[test]
fn every_field_and_length_of_a_record() {
    fields_and_lengths(on([1, 1, 7, 0, 0]));
}

#[test]
fn every_field_and_length_of_a_record_met_while_busy() {
    fields_and_lengths(on([1, 1, 7, 0, 6]));
}

#[test]
fn every_field_and_length_of_a_record_met_while_off() {
    fields_and_lengths([0, 0, 0, 0, 0, 1, 0, 0, 0]);
}

#[test]
fn every_byte_of_a_callers_mistake() {
    // Each caller's fault alone, then together with all that comes later in the order.
    let right = [10, 3, 0xA3, 0x5A, 0x3C];
    #[rustfmt::skip]
    let records: [&[u8]; 14] = [
        &[8], &[2], &[0], &[8, 8], &[], &right, &[11], &[13, 1], &[13, 0], &[13], &[14], &[1],
        &[15, 0, 1, 5], &[16, 1, 2],
    ];
    for record in records {
        for space in [0, 4] {
            for (at, value) in (0..STATE).flat_map(|at| (0..=255).map(move |value| (at, value))) {
                for mut state in [
                    [0; STATE],
                    on([3, 1, 7, 2, 0]),
                    on([3, 1, 7, 2, 4]),
                    [3, 1, 7, 2, 4, 1, 1, 3, 5],
                ] {
                    state[at] = value;
                    both::command(FIXED, &mut fresh_card(4), &mut state, record, space);
                }
            }
            for length in 0..13 {
                for byte in [0, 1, 10] {
                    let mut state = [&[0; 4][..], &[byte; 9]].concat();
                    state.truncate(length);
                    both::command(FIXED, &mut fresh_card(4), &mut state, record, space);
                }
            }
            for fuses in 0..=255 {
                for busy in [0, 10, 11] {
                    let mut state = on([0, 0, 0, 0, busy]);
                    let mut card = fresh_card(fuses);
                    both::command(FIXED, &mut card, &mut state, record, space);
                    for length in [0, 1, FUSES, FUSES + 1, CARD - 1, CARD + 1, 4000] {
                        let mut odd = card.to_vec();
                        odd.resize(length, fuses);
                        both::command(FIXED, &mut odd, &mut state, record, space);
                    }
                }
            }
        }
    }
}

/// One call of a generated list, faults of the caller included.
fn one_call(
    rng: &mut Rng,
    seed: &str,
    (card, state): (&mut [u8], &mut [u8; STATE]),
    patience: usize,
    met: &mut Met,
) {
    let mut record = gen::record(rng, card, state, patience);
    if rng.chance(12) {
        record = gen::damaged_record(rng, &record);
    }
    let space = rng.pick(&[256, 300, 128, 16, 4, 1, 0, 255]);
    let fault = rng.below(100);
    let result = match fault {
        0 => both::command(seed, card, &mut gen::damaged_state(rng), &record, space),
        1 => {
            let mut odd = card.to_vec();
            odd[FUSES] = rng.pick(&[1, 2, 3, 5, 8, 0x47, 0xFF]);
            both::command(seed, &mut odd, state, &record, space)
        }
        2 => {
            let length = rng.pick(&[0, CARD - 1, CARD + 1, CARD + 8]);
            let mut odd = card.to_vec();
            odd.resize(length, 0);
            both::command(seed, &mut odd, state, &record, space)
        }
        3 => {
            let mut odd = card.to_vec();
            gen::damage_staging(rng, &mut odd);
            both::command(seed, &mut odd, state, &record, space)
        }
        _ => {
            let (before, was) = (card.to_vec(), *state);
            let result = both::command(seed, card, state, &record, space);
            if result & 0xFF == 0 {
                let kind = (result >> 32) as u8;
                met.note(&format!("kind {kind} at F={}", before[FUSES]));
                if kind < 128 {
                    reached(met, &record, &before, was, card, *state);
                    met.note(&format!("kind {kind}, busy from {} to {}", was[4], state[4]));
                }
                if let 10 | 11 = kind {
                    met.note(&format!("{} tries left by kind {kind}", result >> 24 & 0xFF));
                }
            }
            result
        }
    };
    met.note("commands");
    met.note(&format!("refusal {}", result & 0xFF));
    if let [kind @ (10 | 11 | 15 | 16), ..] = record[..] {
        met.note(&format!("refusal {} of kind {kind}", result & 0xFF));
    }
}

/// Whether a counter has a 0 bit above a 1 bit, as $A5 has; tries alone never lead there from $FF.
fn has_gap(counter: u8) -> bool {
    counter.leading_ones() != counter.count_ones()
}

/// Whether a register keeps a state from reading its zone below F = 7.
fn closed(register: u8, state: [u8; STATE]) -> bool {
    let opened = state[1] == 1 && state[2] & 7 == register >> 2 & 7;
    register & 0x40 == 0 && !opened || register & 0x20 == 0 && state[3] != 2
}

/// Notes the deep states that a call has reached.
fn reached(
    met: &mut Met,
    record: &[u8],
    before: &[u8],
    was: [u8; STATE],
    card: &[u8],
    state: [u8; STATE],
) {
    met.note_if("fuse blown", card[FUSES] != before[FUSES]);
    let zone = usize::from(was[0]) * 256;
    match record[0] {
        4 if before[FUSES] != 7 => {
            let register = before[REGISTERS + usize::from(was[0])];
            met.note_if("read under RPE and ATE, granted", register & 0x60 == 0 && was[3] == 2);
            let rolled = usize::from(record[1]) + usize::from(record[2]) > 256;
            met.note_if("roll-over", rolled);
            if closed(register, was) {
                met.note(&format!("closed read at F={}", before[FUSES]));
                met.note_if("closed read, roll-over", rolled);
                met.note_if("closed read, whole zone", record[2] == 0);
            }
        }
        5 if before[FUSES] != 7 => {
            let changed = before[zone..zone + 256] != card[zone..zone + 256];
            met.note(if changed { "zone write stored" } else { "zone write kept out" });
            let wraps = record[1] % 16 + record[2] > 16;
            met.note_if("zone write wrapped", changed && wraps);
        }
        7 if before[FUSES] != 7 => {
            let page = CONFIGURATION + usize::from(record[1] & 0x70);
            let new = |i: usize| page + (usize::from(record[1]) + i) % 16;
            let data = &record[3..];
            let stored = (0..data.len()).filter(|&i| card[new(i)] == data[i]).count();
            met.note_if("mixed page", stored > 1 && stored + 1 < data.len());
        }
        10 => {
            let at = counter(record[1]);
            let right = before[at + 1..at + 4] == record[2..];
            met.note(match (before[at], right) {
                (0, true) => "locked, right",
                (0, false) => "locked, wrong",
                (_, true) => "right password",
                (_, false) => "wrong password",
            });
            met.note_if("last try lost", before[at] != 0 && card[at] == 0);
            met.note_if("wrong password, counter with a gap", !right && has_gap(before[at]));
        }
        11 => met.note_if("begun, counter with a gap", has_gap(before[AAC])),
        1 if before[FLAG] == READY => {
            let name = if state[5] == 1 { "cut again" } else { "finished" };
            met.note(&format!("{name}, {} bytes", before[STAGED_LENGTH]));
            met.note_if("finished, and a cut spent", state[5] == 0 && was[6] == 1);
        }
        1 => met.note_if("power with a cut armed", was[6] == 1),
        15 if state[5] == 1 => {
            met.note(&format!("cut in {} bytes after {} cells", record[2], was[7]));
            met.note_if("cut, ready", card[FLAG] == READY);
            met.note_if("cut, idle", card[FLAG] != READY);
        }
        15 if before[FUSES] != 7 => {
            let changed = before[FLAG..] != card[FLAG..];
            met.note(if changed { "staged write stored" } else { "staged write kept out" });
            met.note_if("staged write, and a cut spent", was[6] == 1 && state[6] == 0);
            met.note_if("staged write kept out, cut kept", was[6] == 1 && state[6] == 1);
        }
        16 => {
            met.note_if("armed while busy", was[4] > 0);
            met.note_if("armed while off", was[5] == 1);
            met.note_if("armed again", was[6] == 1);
        }
        _ => {}
    }
    for (name, from, to) in [("granted", 1, 2), ("rejected", 1, 0), ("lost", 2, 0), ("again", 2, 1)]
    {
        met.note_if(name, was[3] == from && state[3] == to);
    }
}

#[test]
fn lists_of_commands() {
    let mut met = Met::default();
    for seed in seeds(4000) {
        let mut rng = Rng::new(seed);
        let mut card = gen::staged_card(&mut rng);
        let mut state = [0; STATE];
        let mut patience = gen::patience(&mut rng);
        for call in 0..160 {
            if call >= 120 && call % 20 == 0 {
                // From any state at all.
                state = gen::state(&mut rng);
            }
            if rng.chance(4) {
                patience = gen::patience(&mut rng);
            }
            let name = format!("{seed}, call {call}");
            one_call(&mut rng, &name, (&mut card, &mut state), patience, &mut met);
        }
    }
    met.require("commands", 500_000);
    for refusal in [0, 5, 6, 7, 8, 9, 10, 11, 12, 16] {
        met.require(&format!("refusal {refusal}"), 500);
    }
    for fuses in STAGES {
        for kind in 1..=16 {
            met.require(&format!("kind {kind} at F={fuses}"), 300);
        }
        for kind in 130..=143 {
            met.require(&format!("kind {kind} at F={fuses}"), 100);
        }
    }
    for busy in 0..=10 {
        met.require(&format!("kind 1, busy from {busy} to 0"), 10);
        met.require(&format!("kind 13, busy from {busy} to 0"), 200);
        met.require(&format!("kind 14, busy from {busy} to {busy}"), 50);
    }
    for left in 1..=9 {
        met.require(&format!("kind 13, busy from 10 to {left}"), 50);
    }
    for kind in [5, 7, 9, 10, 11, 12, 15] {
        met.require(&format!("kind {kind}, busy from 0 to 10"), 300);
    }
    for kind in [9, 10, 11, 12] {
        met.require(&format!("kind {kind}, busy from 0 to 0"), 300);
    }
    #[rustfmt::skip]
    let deep = [
        "fuse blown", "read under RPE and ATE, granted", "roll-over", "mixed page",
        "zone write stored", "zone write kept out", "zone write wrapped",
        "right password", "wrong password", "last try lost", "locked, right", "locked, wrong",
        "granted", "rejected", "lost", "again",
        "wrong password, counter with a gap", "begun, counter with a gap",
        "closed read at F=6", "closed read at F=4", "closed read at F=0",
        "closed read, roll-over", "closed read, whole zone",
        "staged write stored", "staged write kept out", "staged write, and a cut spent",
        "staged write kept out, cut kept", "cut, ready", "cut, idle", "finished, and a cut spent",
        "power with a cut armed", "armed while busy", "armed while off", "armed again",
    ];
    for what in deep {
        met.require(what, 200);
    }
    for n in 1..=8 {
        for after in 0..2 * n + 5 {
            met.require(&format!("cut in {n} bytes after {after} cells"), 3);
        }
    }
    met.require("finished, 0 bytes", 50);
    for n in 1..=8 {
        met.require(&format!("cut again, {n} bytes"), 10);
        met.require(&format!("finished, {n} bytes"), 50);
    }
    // Only a right password leaves all eight.
    for (kind, most) in [(10, 8), (11, 7)] {
        for left in 0..=most {
            met.require(&format!("{left} tries left by kind {kind}"), 200);
        }
    }
    let of_a_kind: [(u8, &[u8]); 4] = [
        (10, &[5, 7, 8, 9, 11, 12, 16]),
        (11, &[5, 9, 11, 12, 16]),
        (15, &[5, 7, 8, 9, 11, 12, 16]),
        (16, &[5, 8, 9, 11, 12, 16]),
    ];
    for (kind, refusals) in of_a_kind {
        for refusal in refusals {
            met.require(&format!("refusal {refusal} of kind {kind}"), 50);
        }
    }
}

/// Reads answers of a log: some that are there, some that are not.
fn read_log(rng: &mut Rng, seed: &str, log: &[u8], met: &mut Met) {
    let count =
        log.len().checked_sub(4).map_or(0, |at| u64::from(log[at]) + 256 * u64::from(log[at + 1]));
    let some = rng.draw() % (count + 1);
    for number in [0, some, count.saturating_sub(1), count, some + (1 << 32), u64::MAX] {
        let result = both::answer(seed, log, number);
        met.note("log reads");
        met.note(&format!("refusal {}", result & 0xFF));
    }
}

/// Runs a session with log spaces too short, exact and long, and reads its log.
fn one_session(rng: &mut Rng, seed: &str, session: &[u8], met: &mut Met) {
    let long = rng.pick(&[LOG_SPACE, 70_000, 1_100_000]);
    let (result, log) = both::run(seed, session, long);
    met.note("sessions");
    met.note(&format!("refusal {}", result & 0xFF));
    let written = (result >> 8) as usize;
    if result & 0xFF == 0 {
        let needed = session::check(session).expect("the session is sound").log_space;
        for space in [needed, needed + 1] {
            assert_eq!(both::run(seed, session, space).0, result);
        }
        for space in [needed - 1, rng.below(needed)] {
            assert_eq!(both::run(seed, session, space).0, 10);
            met.note("refusal 10");
        }
        if written < needed {
            assert_eq!(both::run(seed, session, written).0, 10);
            met.note("log shorter than its space");
        }
        let log = &log[..written];
        read_log(rng, seed, log, met);
        let damaged = gen::damaged_log(rng, log);
        read_log(rng, seed, &damaged, met);
        let plain = gen::without_zones(log);
        assert_eq!([0, 1, u64::MAX].map(|number| both::answer(seed, &plain, number)), [13; 3]);
    } else {
        both::run(seed, session, rng.pick(&[0, SHORTEST_LOG - 1, SHORTEST_LOG, 3000]));
    }
}

#[test]
fn sessions_and_logs() {
    let mut met = Met::default();
    for seed in seeds(4000) {
        let mut rng = Rng::new(seed);
        let name = seed.to_string();
        let few = rng.below(12);
        let some = rng.below(250);
        let mut records = rng.pick(&[0, few, few, some, some, some]);
        if rng.chance(2) {
            records = MOST_RECORDS.into();
        }
        let session = gen::session(&mut rng, records);
        one_session(&mut rng, &name, &session, &mut met);
        let damaged = gen::damaged_session(&mut rng, &session);
        one_session(&mut rng, &name, &damaged, &mut met);
    }
    met.require("sessions", 5_000);
    met.require("log reads", 20_000);
    met.require("log shorter than its space", 500);
    for refusal in (0..=10).chain([13, 14, 16]) {
        met.require(&format!("refusal {refusal}"), 100);
    }
}

/// Every change of one byte of a session and of its log, from the fuses on, and every shorter one.
fn changes(session: &[u8]) {
    let (result, space) = both::run(FIXED, session, 3000);
    let log = &space[..(result >> 8) as usize];
    for at in (FUSES..session.len()).rev() {
        both::run(FIXED, &session[..at], 3000);
        for value in 0..=255 {
            let mut changed = session.to_vec();
            changed[at] = value;
            both::run(FIXED, &changed, 3000);
        }
    }
    for length in (0..session.len()).step_by(5) {
        both::run(FIXED, &session[..length], 3000);
    }
    let count = u64::from(session[session.len() - 4]);
    let card_at = log.len() - SHORTEST_LOG;
    let trailer = card_at + FUSES..log.len();
    for at in (0..card_at).chain(trailer) {
        both::answer(FIXED, &log[..at], 0);
        for value in 0..=255 {
            let mut changed = log.to_vec();
            changed[at] = value;
            for number in [0, count - 1, count] {
                both::answer(FIXED, &changed, number);
            }
        }
    }
    for length in 0..log.len() {
        both::answer(FIXED, &log[length..], 0);
        both::answer(FIXED, &log[..length], 0);
    }
}

#[test]
fn every_change_of_a_trailer_or_header() {
    let session = Author::new(6)
        .text(b"text")
        .reset()
        .read(0xFF, 3)
        .write(0x0F, &[1, 2])
        .ready()
        .read_configuration(0x7E, 2)
        .write_configuration(0x38, &[1])
        .ready()
        .right(7)
        .ready()
        .begin()
        .poll()
        .ready()
        .verdict(1, b"ABCDEFGH")
        .ready()
        .select(2)
        .read_fuses()
        .write_fuses()
        .power()
        .cut(9, 0x5A)
        .staged_write(0x0F, &[3, 4]);
    changes(&session.session());
}

#[test]
fn every_change_of_a_trailer_or_header_met_while_busy() {
    let session = Author::new(6)
        .text(b"text")
        .write(0x0F, &[1, 2])
        .reset()
        .read(0xFF, 3)
        .write(0x0F, &[3, 4])
        .read_configuration(0x7E, 2)
        .write_configuration(0x38, &[1])
        .right(7)
        .begin()
        .poll()
        .wait(9)
        .verdict(1, b"ABCDEFGH")
        .select(2)
        .read_fuses()
        .write_fuses()
        .wait(1)
        .poll()
        .begin()
        .read_fuses()
        .power();
    changes(&session.session());
}

#[test]
fn every_change_of_a_trailer_or_header_of_a_torn_card() {
    let session = Author::new(7)
        .put_ready(1, 0x1E, &[1, 2, 3, 4])
        .text(b"text")
        .read(0x1E, 2)
        .poll()
        .cut(2, 0x99)
        .power()
        .write(0x0F, &[3, 4])
        .wait(9)
        .power()
        .select(1)
        .cut(7, 0x98)
        .staged_write(0x2F, &[5, 6])
        .staged_write(0x2F, &[7])
        .reset()
        .power()
        .read(0x20, 2)
        .cut(6, 0x99)
        .staged_write(0x30, &[8, 9]);
    changes(&session.session());
}

#[test]
fn every_set_of_faults_in_a_session() {
    for faults in 0..512 {
        let has = |bit: u32| faults >> bit & 1 == 1;
        let mut author = Author::new(if has(4) { 5 } else { 6 }).reset();
        if has(8) {
            author = author.put(FLAG, [&[0xFD][..], &[READY, 8], &[READY, 7, 0, 9]][faults % 3]);
        }
        if has(0) {
            author = author.text(&[b' '; LONGEST_SESSION]);
        }
        if has(5) {
            author = author.record(&[17]);
        }
        if has(6) {
            author = author.select(8);
        }
        let mut session = author.session();
        let end = session.len() - TRAILER;
        if has(1) {
            session[end + 7] ^= 1;
        }
        if has(2) {
            session[end..end + 4].fill(0);
        }
        if has(3) {
            session[end + 5] = 0x20;
        }
        if has(7) {
            session.insert(end, 8);
        }
        let needed = SHORTEST_LOG + ENTRY_HEADER + 4;
        for space in [0, needed - 1, needed, 70_000] {
            both::run(FIXED, &session, space);
        }
    }
}

/// A log written by hand: these entries' kinds and lengths, zeros for responses, and zones where
/// they belong.
fn written_log(entries: &[(u8, usize)], count: u16, mark: [u8; 2]) -> Vec<u8> {
    let entries = entries.iter().map(|&(kind, length)| {
        let zone = zones::named(kind, mark).then_some(5);
        entry(kind, zone, &vec![0; length])
    });
    log_of(&entries.collect::<Vec<_>>().concat(), count, mark)
}

/// Logs of one layout.
fn kinds_and_lengths(mark: [u8; 2]) {
    for kind in 0..=255 {
        for length in (0..=300).chain([511, 512, 0x0101, 0xFFFF]) {
            let log = written_log(&[(8, 1), (kind, length), (1, 0)], 3, mark);
            for number in 0..4 {
                both::answer(FIXED, &log, number);
            }
        }
    }
    for count in [MOST_RECORDS - 1, MOST_RECORDS, MOST_RECORDS + 1, 5000] {
        for kind in [11, 5, 133] {
            let entries = vec![(kind, 0); count.into()];
            let log = written_log(&entries, count, mark);
            for number in std::iter::once(0).chain(MOST_RECORDS - 2..=MOST_RECORDS + 1) {
                both::answer(FIXED, &log, number.into());
            }
        }
    }
    for count in 0..5 {
        both::answer(FIXED, &written_log(&[(4, 256), (6, 128), (2, 4)], count, mark), 0);
    }
}

#[test]
fn every_kind_and_length_in_a_log() {
    kinds_and_lengths(PLAIN);
    kinds_and_lengths(ZONED);
}

#[test]
fn edges_of_length_and_count() {
    for length in (LONGEST_SESSION - 1..LONGEST_SESSION + 3).chain([2 * LONGEST_SESSION]) {
        let text = vec![b' '; length - SHORTEST_SESSION - 1];
        let session = Author::new(6).text(&text).read_fuses().session();
        both::run(FIXED, &session, 70_000);
    }
    for count in MOST_RECORDS - 1..=MOST_RECORDS + 1 {
        let many =
            |record: &[u8]| Author::new(4).times(count.into(), |a| a.record(record)).session();
        both::run(FIXED, &many(&[8]), 70_000);
        both::run(FIXED, &many(&[4, 3, 0]), 1_100_000);
        // The first write makes the card busy, and it is met so by all the others.
        both::run(FIXED, &many(&[5, 3, 2, 1, 2]), 70_000);
        let reads = Author::new(4).begin().times(usize::from(count) - 1, |a| a.read(3, 0));
        both::run(FIXED, &reads.session(), 1_100_000);
        // The same of a card that is cut off at once.
        let off = Author::new(7).cut(0, 0).staged_write(3, &[1]);
        let reads = off.times(usize::from(count) - 2, |a| a.read(3, 0));
        both::run(FIXED, &reads.session(), 1_100_000);
    }
}

#[test]
fn sample_and_edge_sessions() {
    let edges = edges::all().into_iter().map(|(_, session)| session);
    for session in samples::all().into_iter().chain(edges) {
        for space in [0, SHORTEST_LOG, LOG_SPACE, 1_100_000] {
            both::run(FIXED, &session, space);
        }
        if let Ok(checked) = session::check(&session) {
            for space in [checked.log_space - 1, checked.log_space] {
                both::run(FIXED, &session, space);
            }
        }
    }
}
