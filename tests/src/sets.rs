//! Sets of events that two parallel sides do together, request Four of document 02, and the bytes that they are lent and filed as.
//! Which parallel has which set is in term.rs; what is refused in refusals.rs and reader.rs.

use crate::term::{is_event, MOST_EVENT};

/// "32 bytes each."
pub const SET_BYTES: usize = 32;
/// Sets 0 to 15.
pub const MOST_SETS: usize = 16;

/// "Event k at bit (k-1) mod 8 of byte (k-1)/8."
#[derive(Clone, Copy, PartialEq, Eq, Hash, Debug)]
pub struct EventSet(pub [u8; SET_BYTES]);

impl EventSet {
    pub const EMPTY: EventSet = EventSet([0; SET_BYTES]);

    pub fn of(events: &[u16]) -> EventSet {
        let mut set = EventSet::EMPTY;
        for event in events {
            set.0[(*event as usize - 1) / 8] |= 1 << ((event - 1) % 8);
        }
        set
    }

    /// A number that is no event is in no set.
    pub fn has(&self, number: u16) -> bool {
        is_event(number) && self.0[(number as usize - 1) / 8] >> ((number - 1) % 8) & 1 == 1
    }

    /// In rising order.
    pub fn events(&self) -> Vec<u16> {
        (1..=MOST_EVENT).filter(|event| self.has(*event)).collect()
    }
}

/// The sets in lent bytes whose length is not refused.
pub fn sets_of(bytes: &[u8]) -> Vec<EventSet> {
    bytes.chunks(SET_BYTES).map(|set| EventSet(set.try_into().expect("a multiple of 32"))).collect()
}

pub fn bytes_of(sets: &[EventSet]) -> Vec<u8> {
    sets.iter().flat_map(|set| set.0).collect()
}
