//! Who may read or write what: fuse stages, access registers, configuration areas.

use crate::state::{Authentication, Password, PwSet, State};

/// How far the fuses are blown, named by the last one blown.
#[derive(Clone, Copy, Debug, PartialEq, Eq)]
pub enum Stage {
    Unblown,
    Fab,
    Cma,
    Per,
}

impl Stage {
    pub fn from_fuses(fuses: u8) -> Option<Stage> {
        match fuses {
            7 => Some(Stage::Unblown),
            6 => Some(Stage::Fab),
            4 => Some(Stage::Cma),
            0 => Some(Stage::Per),
            _ => None,
        }
    }
}

/// An access register; each of its switches is on at 0.
#[derive(Clone, Copy)]
pub struct Register(pub u8);

impl Register {
    fn on(self, bit: u8) -> bool {
        self.0 >> bit & 1 == 0
    }

    pub fn write_password(self) -> bool {
        self.on(7)
    }

    pub fn read_password(self) -> bool {
        self.on(6)
    }

    pub fn authentication(self) -> bool {
        self.on(5)
    }

    pub fn set(self) -> PwSet {
        PwSet::low_bits(self.0 >> 2)
    }

    pub fn modify_forbidden(self) -> bool {
        self.on(1)
    }

    pub fn program_only(self) -> bool {
        self.on(0)
    }

    fn authenticated(self, state: &State) -> bool {
        !self.authentication() || state.authentication == Authentication::Granted
    }

    pub fn may_read(self, stage: Stage, state: &State) -> bool {
        if stage == Stage::Unblown {
            return true;
        }
        let opened = match state.active {
            Some(Password::Write(set) | Password::Read(set)) => set == self.set(),
            None => false,
        };
        self.authenticated(state) && (!self.read_password() || opened)
    }

    pub fn may_write(self, stage: Stage, state: &State) -> bool {
        if stage == Stage::Unblown {
            return true;
        }
        let needs_password = self.write_password() || stage != Stage::Per;
        self.authenticated(state)
            && (!needs_password || state.active == Some(Password::Write(self.set())))
            && !self.modify_forbidden()
    }

    /// What a byte holds when it has been written over an old one.
    pub fn stored(self, stage: Stage, old: u8, new: u8) -> u8 {
        if stage != Stage::Unblown && self.program_only() {
            old & new
        } else {
            new
        }
    }
}

#[derive(Clone, Copy)]
enum Right {
    Free,
    SecurityCode,
    WritePassword,
    No,
}

use Right::{Free, No, SecurityCode as Sc, WritePassword as Wp};

/// Per stage and area: the right to read and the right to write.
#[rustfmt::skip]
const RIGHTS: [[(Right, Right); 7]; 4] = [
    [(Free, Free); 7],
    [(Free, No), (Free, Sc), (Free, Sc), (Sc, Sc), (Free, Free), (Sc, Sc), (Free, Sc)],
    [(Free, No), (Free, No), (Free, Sc), (Sc, Sc), (Free, Free), (Sc, Sc), (Free, Sc)],
    [(Free, No), (Free, No), (Free, No), (No, No), (Free, Free), (Wp, Wp), (Free, Wp)],
];

/// The area of each configuration address, as a column of `RIGHTS`.
const AREAS: [u8; 128] = {
    let mut areas = [0; 128];
    let mut address = 0;
    while address < 128 {
        areas[address] = match address {
            0x00..=0x0B => 0,
            0x0C..=0x0F => 1,
            0x10..=0x2F => 2,
            0x30..=0x37 => 3,
            0x38..=0x3F => 4,
            _ if address % 4 != 0 => 5,
            _ => 6,
        };
        address += 1;
    }
    areas
};

/// The rights to configuration bytes at one stage for one active password.
pub struct Configuration {
    areas: &'static [(Right, Right); 7],
    active: Option<Password>,
}

impl Configuration {
    pub fn new(stage: Stage, state: &State) -> Configuration {
        Configuration { areas: &RIGHTS[stage as usize], active: state.active }
    }

    fn rights(&self, address: usize) -> (Right, Right) {
        self.areas[usize::from(AREAS[address & 0x7F])]
    }

    fn holds(&self, right: Right, address: usize) -> bool {
        match right {
            Free => true,
            Sc => self.active == Some(Password::SECURITY_CODE),
            Wp => self.active == Some(Password::Write(PwSet::low_bits((address >> 3) as u8))),
            No => false,
        }
    }

    pub fn may_read(&self, address: usize) -> bool {
        self.holds(self.rights(address).0, address)
    }

    pub fn may_write(&self, address: usize) -> bool {
        self.holds(self.rights(address).1, address)
    }
}
