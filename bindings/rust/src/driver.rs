//! The coordinator of a service.

use std::sync::Arc;

use crate::answers::{check, error, unlisted, Error, LastCounts, Snapshot, Turn};
use crate::ffi::{self, Handle};
use crate::leaving::Leaving;
use crate::options::Options;
use crate::phase::Phase;
use crate::seat::{Seat, SeatHandle};
use crate::status;

/// Whether a turn may end the phase.
#[derive(Clone, Copy, Debug, PartialEq, Eq)]
#[repr(u32)]
pub enum End {
    /// It may not.
    No = 0,
    /// It may; but a joined phase goes on if no page would be split in the next one.
    IfItServes = 1,
    /// It may in any case, for a snapshot.
    Yes = 2,
}

/// The coordinator of a service: it ends and releases phases.
///
/// A driver that is dropped stops the service: its seats stay in the phase that they run.
pub struct Driver {
    handle: Handle,
    leaving: Arc<Leaving>,
}

impl Driver {
    /// Opens a service with the initial count of each page.
    ///
    /// With the counts and the last likes of an earlier service, it goes on where that ended.
    ///
    /// # Errors
    ///
    /// A wrong number of the options or the counts, or [`Error::NoMemory`].
    ///
    /// # Panics
    ///
    /// If the library is of another version than this crate.
    pub fn open(options: &Options, counts: &[u64]) -> Result<Self, Error> {
        ffi::check_version();
        let mut handle = Handle::default();
        // SAFETY: each slice has the length that is told, and the handle is empty.
        check(unsafe { ffi::likes_open(&options.numbers(counts), &mut handle) })?;
        Ok(Self { handle, leaving: Arc::default() })
    }

    /// Hands out the seats, at the first call seat 0, then 1 and so on, and none once all are taken. A phase changes
    /// only when every seat has answered, so take them all.
    #[must_use]
    pub fn take_seat(&mut self) -> Option<Seat> {
        let mut seat = SeatHandle::default();
        // SAFETY: the driver is borrowed for this call, and the seat's handle is empty.
        let told = unsafe { ffi::likes_driver_take_seat(&mut self.handle, &mut seat.0) };
        is_taken(told).then(|| Seat::new(seat, self.leaving.clone()))
    }

    /// Hands out the phase, once.
    #[must_use]
    pub fn take_phase(&mut self) -> Option<Phase> {
        let mut phase = Handle::default();
        // SAFETY: the driver is borrowed for this call, and the phase's handle is empty.
        let told = unsafe { ffi::likes_driver_take_phase(&mut self.handle, &mut phase) };
        is_taken(told).then(|| Phase::new(phase))
    }

    /// Makes a look, and does at most one thing for the phases. Before it, it has dropped seats retire.
    ///
    /// With `End::No`, a split phase ends if a seat asks for it, once the looks that wait there take half of its room.
    /// A joined phase that all seats have left goes on, whatever is asked: [`Turn::Ended`].
    pub fn turn(&mut self, end: End) -> Turn {
        self.leaving.retire();
        // SAFETY: the driver is borrowed for this call.
        let number = unsafe { ffi::likes_driver_turn(&mut self.handle, end as u32) };
        Turn::of(number).unwrap_or_else(|| unlisted(number))
    }

    /// Writes the counts of the pages `from`, `from + 1` and so on, where a joined phase is ending and every seat has
    /// answered it or is gone. They have all likes of that phase and of those before it. Until a turn releases the next
    /// phase, further calls write the counts of other pages at the same moment.
    ///
    /// # Errors
    ///
    /// [`Error::WrongRange`].
    pub fn snapshot(&mut self, from: u32, counts: &mut [u64]) -> Result<Snapshot, Error> {
        let (at, length) = (counts.as_mut_ptr(), counts.len());
        // SAFETY: the driver is borrowed for this call, and the slice has the length that is told.
        let number = unsafe { ffi::likes_driver_snapshot(&mut self.handle, from, at, length) };
        Snapshot::of(number).ok_or_else(|| error(number))
    }

    /// Writes the final counts of the pages `from`, `from + 1` and so on, where all seats are gone in a joined phase.
    /// Call it as often as you like, for any range. With the first [`LastCounts::Counted`] the service is over.
    ///
    /// At [`LastCounts::NotEnded`], call [`turn`](Self::turn) with [`End::IfItServes`] until it is [`Turn::Ended`], and
    /// try again.
    ///
    /// # Errors
    ///
    /// [`Error::WrongRange`].
    pub fn last_counts(&mut self, from: u32, counts: &mut [u64]) -> Result<LastCounts, Error> {
        let (at, length) = (counts.as_mut_ptr(), counts.len());
        // SAFETY: the driver is borrowed for this call, and the slice has the length that is told.
        let number = unsafe { ffi::likes_driver_last_counts(&mut self.handle, from, at, length) };
        LastCounts::of(number).ok_or_else(|| error(number))
    }

    /// Writes the pages that are split in the present split phase, or were in the last one, and gives those written. A
    /// slice of [`MAX_SPLIT`](crate::MAX_SPLIT) has room for all.
    pub fn split_pages<'a>(&mut self, pages: &'a mut [u32]) -> &'a [u32] {
        // SAFETY: the driver is borrowed for this call, and the slice has the length that is told.
        let told = unsafe { ffi::likes_driver_split_pages(&mut self.handle, pages.as_mut_ptr(), pages.len()) };
        &pages[..told]
    }

    /// Proposes pages to be split beside the marked ones, the first [`MAX_SPLIT`](crate::MAX_SPLIT), in place of those
    /// that the library finds by itself. If there are none, it finds them again. Numbers that are no pages do nothing.
    pub fn propose(&mut self, pages: &[u32]) {
        // SAFETY: the driver is borrowed for this call, and the slice has the length that is told.
        let told = unsafe { ffi::likes_driver_propose(&mut self.handle, pages.as_ptr(), pages.len()) };
        if told != status::OK {
            unlisted(told);
        }
    }

    /// The present phase. Phases with odd numbers are split.
    pub fn phase(&mut self) -> u64 {
        // SAFETY: the driver is borrowed for this call.
        unsafe { ffi::likes_driver_phase(&mut self.handle) }
    }
}

/// Whether a seat or the phase was handed out.
fn is_taken(told: u32) -> bool {
    match told {
        status::OK => true,
        status::ALL_TAKEN => false,
        _ => unlisted(told),
    }
}

impl Drop for Driver {
    fn drop(&mut self) {
        // SAFETY: nobody else has the handle.
        unsafe { ffi::likes_driver_free(&mut self.handle) }
    }
}
