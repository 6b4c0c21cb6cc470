//! The staged write: the bytes behind the fuse byte, the cells that are written in turn, and what is
//! left when power is cut between them.

use crate::card::{self, Card};
use crate::layout::{
    CARD, FLAG, MOST_STAGED, STAGED_ADDRESS, STAGED_LENGTH, STAGED_VALUES, STAGED_ZONE,
};
use crate::state::{Busy, Cut, State, Zone};

/// What the flag holds when there is nothing to finish, and when there is.
pub const IDLE: u8 = 0xFF;
pub const READY: u8 = 0xFE;

/// Whether the card has a write to finish.
pub fn is_ready(card: &Card) -> bool {
    card[FLAG] == READY
}

/// Whether the card has nothing to finish, or a write that can be finished.
pub fn is_sound(card: &Card) -> bool {
    card[FLAG] == IDLE || Staged::of(card).is_some()
}

/// A byte to be written, and its place in the card.
type Cell = (usize, u8);

/// A write to a zone, with what its bytes are to hold in the end.
struct Staged {
    zone: Zone,
    address: u8,
    length: u8,
    values: [u8; MOST_STAGED],
}

impl Staged {
    /// The write that the card has to finish.
    fn of(card: &Card) -> Option<Staged> {
        let &[READY, zone, address, length, values @ ..] = card.last_chunk::<{ CARD - FLAG }>()?
        else {
            return None;
        };
        let zone = Zone::new(zone)?;
        (usize::from(length) <= MOST_STAGED).then_some(Staged { zone, address, length, values })
    }

    fn values(&self) -> impl Iterator<Item = u8> + '_ {
        self.values[..self.length.into()].iter().copied()
    }

    /// The cells that stage it; the last one makes it ready.
    fn staging(&self) -> impl Iterator<Item = Cell> + '_ {
        let head = [
            (STAGED_ZONE, self.zone.number() as u8),
            (STAGED_ADDRESS, self.address),
            (STAGED_LENGTH, self.length),
        ];
        head.into_iter().chain((STAGED_VALUES..).zip(self.values())).chain([(FLAG, READY)])
    }

    /// The cells that finish it.
    fn finishing(&self) -> impl Iterator<Item = Cell> + '_ {
        let places = (0..).map(move |i| card::place(self.zone, self.address, i));
        places.zip(self.values()).chain([(FLAG, IDLE)])
    }
}

/// Writes cells in turn. The armed cut is spent; if it comes before the last one is written, the
/// card is off.
fn write_cells(card: &mut Card, state: &mut State, cells: impl Iterator<Item = Cell>) {
    let armed = state.armed.take();
    for (written, (place, value)) in cells.enumerate() {
        match armed {
            Some(Cut { after, junk }) if usize::from(after) == written => {
                // Only bit 0 of the flag is ever in doubt.
                card[place] = if place == FLAG { value & !1 | junk & 1 } else { junk };
                *state = State { off: true, ..State::POWER_UP };
                return;
            }
            _ => card[place] = value,
        }
    }
}

/// Writes to the selected zone, unless that is forbidden, so that power may be cut at any cell.
pub fn write(card: &mut Card, state: &mut State, address: u8, data: &[u8]) {
    // What may not be written takes its time too.
    state.busy = Busy::WRITING;
    let (register, stage) = (card::register(card, state.zone), card::stage(card));
    if !register.may_write(stage, state) {
        return;
    }
    let mut values = [0; MOST_STAGED];
    for (i, (value, &new)) in values.iter_mut().zip(data).enumerate() {
        *value = register.stored(stage, card[card::place(state.zone, address, i)], new);
    }
    let staged = Staged { zone: state.zone, address, length: data.len() as u8, values };
    write_cells(card, state, staged.staging().chain(staged.finishing()));
}

/// Switches the power on, or off and on again; a write that is ready is finished first.
pub fn power_up(card: &mut Card, state: &mut State) {
    *state = State { armed: state.armed, ..State::POWER_UP };
    if let Some(staged) = Staged::of(card) {
        write_cells(card, state, staged.finishing());
    }
}
