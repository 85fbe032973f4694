//! Seats that were dropped before they could retire.

use std::sync::{Mutex, PoisonError};

use crate::answers::State;
use crate::seat::SeatHandle;

/// The seats that a driver has taken over. Its turns have them retire.
#[derive(Default)]
pub(crate) struct Leaving(Mutex<Vec<SeatHandle>>);

impl Leaving {
    pub(crate) fn add(&self, seat: SeatHandle) {
        self.0.lock().unwrap_or_else(PoisonError::into_inner).push(seat);
    }

    /// Does the phase work of each seat, and frees those that are gone then.
    pub(crate) fn retire(&self) {
        let mut seats = self.0.lock().unwrap_or_else(PoisonError::into_inner);
        seats.retain_mut(|seat| seat.retire() != State::Gone);
    }
}
