//! The card's bytes, and what each command does to them and to the state.

use crate::access::{Configuration, Register, Stage};
use crate::layout::{AAC, CARD, CONFIGURATION, CRYPTOGRAM, FUSES, PAGE, REGISTERS, ZONE};
use crate::record::Record;
use crate::refusal::Refusal;
use crate::staging;
use crate::state::{Authentication, Busy, Password, State, Zone};

/// Eight zones, the configuration, the fuse byte, the staging bytes.
pub type Card = [u8; CARD];

/// Checks the bytes of which not every value is good.
pub fn check(card: &Card) -> Result<(), Refusal> {
    Stage::from_fuses(card[FUSES]).ok_or(Refusal::Fuses)?;
    staging::is_sound(card).then_some(()).ok_or(Refusal::Staging)
}

/// Where the attempts counter of a password lies; its three bytes follow.
pub fn counter(password: Password) -> usize {
    match password {
        Password::Write(set) => CONFIGURATION + 0x40 + 8 * set.number(),
        Password::Read(set) => CONFIGURATION + 0x44 + 8 * set.number(),
    }
}

/// Where the seventeen attempts counters lie: those of selectors 0 to 15, then AAC.
pub fn counters() -> impl Iterator<Item = usize> {
    (0..16).filter_map(Password::from_selector).map(counter).chain([AAC])
}

/// How many tries an attempts counter has left: its 1 bits.
pub fn tries(counter: u8) -> u8 {
    counter.count_ones() as u8
}

/// The tries left to the password or the authentication of a record, on the card that the record
/// leaves; 0 for other records.
pub fn tries_after(card: &Card, record: &Record) -> u8 {
    match *record {
        Record::VerifyPassword { password, .. } => tries(card[counter(password)]),
        Record::BeginAuthentication => tries(card[AAC]),
        _ => 0,
    }
}

fn clear_lowest_one(byte: u8) -> u8 {
    byte & byte.wrapping_sub(1)
}

pub fn stage(card: &Card) -> Stage {
    // Cards are checked before a command runs, so another fuse byte does not come here.
    Stage::from_fuses(card[FUSES]).unwrap_or(Stage::Per)
}

pub fn register(card: &Card, zone: Zone) -> Register {
    Register(card[REGISTERS + zone.number()])
}

/// Where byte `i` of a write to a zone goes: the address counts up and wraps in its page.
pub fn place(zone: Zone, address: u8, i: usize) -> usize {
    let address = usize::from(address);
    ZONE * zone.number() + address / PAGE * PAGE + (address + i) % PAGE
}

/// Runs one command that the card heeds; `response` has the length that the record asks for.
pub fn execute(card: &mut Card, state: &mut State, record: &Record, response: &mut [u8]) {
    match *record {
        Record::PowerCycle => staging::power_up(card, state),
        Record::Reset => {
            state.active = None;
            state.authentication = Authentication::Idle;
            for (answer, byte) in response.iter_mut().zip(&card[CONFIGURATION..]) {
                *answer = byte.reverse_bits();
            }
        }
        Record::Select(zone) => state.zone = zone,
        Record::ReadZone { address, .. } => read_zone(card, state, address, response),
        Record::WriteZone { address, data } => write_zone(card, state, address, data),
        Record::ReadConfiguration { address, .. } => {
            read_configuration(card, state, address, response)
        }
        Record::WriteConfiguration { address, data } => {
            write_configuration(card, state, address, data)
        }
        Record::ReadFuses => response[0] = card[FUSES],
        Record::WriteFuses => {
            if state.active == Some(Password::SECURITY_CODE) && card[FUSES] != 0 {
                card[FUSES] = match card[FUSES] {
                    7 => 6,
                    6 => 4,
                    _ => 0,
                };
                state.busy = Busy::WRITING;
            }
        }
        Record::VerifyPassword { password, bytes } => verify_password(card, state, password, bytes),
        Record::BeginAuthentication => {
            if card[AAC] != 0 {
                card[AAC] = clear_lowest_one(card[AAC]);
                state.authentication = Authentication::Begun;
                state.busy = Busy::WRITING;
            }
        }
        Record::VerifyAuthentication { accepted, bytes } => {
            if state.authentication == Authentication::Begun {
                if accepted {
                    card[CRYPTOGRAM..CRYPTOGRAM + 8].copy_from_slice(&bytes);
                    card[AAC] = 0xFF;
                    state.authentication = Authentication::Granted;
                } else {
                    state.authentication = Authentication::Idle;
                }
                state.busy = Busy::WRITING;
            }
        }
        Record::Wait { milliseconds } => state.busy = state.busy.after(milliseconds),
        Record::Poll => response[0] = u8::from(!state.busy.is_ready()),
        Record::StagedWrite { address, data } => staging::write(card, state, address, data),
        Record::ArmCut(cut) => state.armed = Some(cut),
    }
}

fn read_zone(card: &Card, state: &State, address: u8, response: &mut [u8]) {
    if !register(card, state.zone).may_read(stage(card), state) {
        // A forbidden byte of a zone answers F; one of the configuration answers 0.
        response.fill(card[FUSES]);
        return;
    }
    let base = ZONE * state.zone.number();
    let zone = &card[base..base + ZONE];
    let from = usize::from(address);
    let before_end = response.len().min(ZONE - from);
    let (first, rolled_over) = response.split_at_mut(before_end);
    first.copy_from_slice(&zone[from..from + before_end]);
    rolled_over.copy_from_slice(&zone[..rolled_over.len()]);
}

fn write_zone(card: &mut Card, state: &mut State, address: u8, data: &[u8]) {
    // What may not be written takes its time too.
    state.busy = Busy::WRITING;
    let register = register(card, state.zone);
    let stage = stage(card);
    if !register.may_write(stage, state) {
        return;
    }
    for (i, &new) in data.iter().enumerate() {
        let byte = &mut card[place(state.zone, address, i)];
        *byte = register.stored(stage, *byte, new);
    }
}

fn read_configuration(card: &Card, state: &State, address: u8, response: &mut [u8]) {
    let rights = Configuration::new(stage(card), state);
    let from = usize::from(address);
    for (i, answer) in response.iter_mut().enumerate() {
        *answer = if rights.may_read(from + i) { card[CONFIGURATION + from + i] } else { 0 };
    }
}

fn write_configuration(card: &mut Card, state: &mut State, address: u8, data: &[u8]) {
    state.busy = Busy::WRITING;
    let rights = Configuration::new(stage(card), state);
    let address = usize::from(address);
    let page = address / PAGE * PAGE;
    for (i, &new) in data.iter().enumerate() {
        let place = page + (address + i) % PAGE;
        if rights.may_write(place) {
            card[CONFIGURATION + place] = new;
        }
    }
}

fn verify_password(card: &mut Card, state: &mut State, password: Password, bytes: [u8; 3]) {
    let at = counter(password);
    if card[at] == 0 {
        return;
    }
    state.busy = Busy::WRITING;
    if card[at + 1..at + 4] == bytes {
        card[at] = 0xFF;
        state.active = Some(password);
    } else {
        card[at] = clear_lowest_one(card[at]);
        state.active = None;
    }
}
