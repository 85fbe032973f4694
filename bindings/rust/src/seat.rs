//! A worker of a service.

use std::mem;
use std::sync::Arc;

use crate::answers::{check, error, unlisted, Error, Glance, Last, Like, Look, State};
use crate::ffi::{self, Handle};
use crate::leaving::Leaving;
use crate::rows::{Answer, Found, Request};

/// A seat as the library has it. It is freed at the end.
#[derive(Default)]
pub(crate) struct SeatHandle(pub(crate) Handle);

impl SeatHandle {
    pub(crate) fn retire(&mut self) -> State {
        // SAFETY: the seat is this thread's own.
        let number = unsafe { ffi::likes_seat_retire(&mut self.0) };
        State::of(number).unwrap_or_else(|| unlisted(number))
    }
}

impl Drop for SeatHandle {
    fn drop(&mut self) {
        // SAFETY: nobody else has the handle. One that is empty stays as it is.
        unsafe { ffi::likes_seat_free(&mut self.0) }
    }
}

/// A worker of a service. A thread owns it or borrows it; it can go to another thread.
///
/// While a phase is ending, each seat that isn't gone is called at least once, by [`turn`](Self::turn) if there is
/// nothing else to do. A seat that isn't called holds up all others.
///
/// A seat that is dropped retires, and its drop waits for no phase. Where it can't retire at once, in a split phase and
/// between two phases, the driver takes it, and the driver's turns have it retire. So it holds up nobody, and no like is
/// lost; found looks that weren't taken are.
///
/// Two threads can't use a seat at the same time:
///
/// ```compile_fail,E0277
/// fn share(seat: &likes::Seat) {
///     std::thread::scope(|scope| { scope.spawn(|| seat); });
/// }
/// ```
pub struct Seat {
    handle: SeatHandle,
    leaving: Arc<Leaving>,
}

impl Seat {
    pub(crate) fn new(handle: SeatHandle, leaving: Arc<Leaving>) -> Self {
        Self { handle, leaving }
    }

    /// The handle, which no other call has meanwhile.
    fn at(&mut self) -> *mut Handle {
        &mut self.handle.0
    }

    /// Adds one like.
    ///
    /// # Errors
    ///
    /// [`Error::UnknownUser`], [`Error::OtherSeat`] and [`Error::UnknownPage`].
    pub fn like(&mut self, user: u32, page: u32) -> Result<Like, Error> {
        // SAFETY: the seat is borrowed for this call.
        let number = unsafe { ffi::likes_seat_like(self.at(), user, page) };
        Like::of(number).ok_or_else(|| error(number))
    }

    /// Looks at a user's last like and a page's count. The tag is any number of yours, which comes back when the look
    /// is found.
    ///
    /// # Errors
    ///
    /// Those of [`like`](Self::like).
    pub fn look(&mut self, user: u32, page: u32, tag: u64) -> Result<Look, Error> {
        let mut answer = Answer::NONE;
        // SAFETY: the seat is borrowed for this call, which writes the answer.
        unsafe { ffi::likes_seat_look(self.at(), user, page, tag, &mut answer) };
        answer.look()
    }

    /// Looks at once, in split phases too. If the page is split, it is [`Glance::Glimpsed`]: the count has all likes of
    /// earlier phases and the seat's own, and may lack other seats' likes of the present phase. Else it is exact.
    ///
    /// # Errors
    ///
    /// Those of [`like`](Self::like).
    pub fn glance(&mut self, user: u32, page: u32) -> Result<Glance, Error> {
        let mut answer = Answer::NONE;
        // SAFETY: the seat is borrowed for this call, which writes the answer.
        unsafe { ffi::likes_seat_glance(self.at(), user, page, &mut answer) };
        answer.glance()
    }

    /// Runs requests one by one, and gives the number of those done. It stops before the first that is
    /// [`Outcome::Between`](crate::Outcome::Between) or [`Outcome::NoRoom`](crate::Outcome::NoRoom), and at the end of
    /// the shorter slice. The answer at which it stopped says why, and those behind it stay as they were.
    #[must_use]
    pub fn run(&mut self, requests: &[Request], answers: &mut [Answer]) -> usize {
        let (asked, told) = (requests.len(), answers.len());
        // SAFETY: the seat is borrowed for this call, and each slice has the length that is told.
        unsafe { ffi::likes_seat_run(self.at(), requests.as_ptr(), asked, answers.as_mut_ptr(), told) }
    }

    /// Takes the next found look, in the order of asking. It works at any time, also when the seat is gone.
    pub fn take_found(&mut self) -> Option<Found> {
        let mut found = Found::NONE;
        // SAFETY: the seat is borrowed for this call, which writes a found look.
        unsafe { ffi::likes_seat_take_found(self.at(), &mut found) }.then_some(found)
    }

    /// A user's last like. It works at any time, also when the seat is gone.
    ///
    /// # Errors
    ///
    /// [`Error::UnknownUser`] and [`Error::OtherSeat`].
    pub fn last(&mut self, user: u32) -> Result<Last, Error> {
        let mut last = Last::NONE;
        // SAFETY: the seat is borrowed for this call, which writes a last like.
        check(unsafe { ffi::likes_seat_last(self.at(), user, &mut last) })?;
        Ok(last)
    }

    /// Writes the last likes of several of the seat's users: those number `from`, `from + 1` and so on of the seat. Of
    /// seat s, number n is user n * seats + s. It works at any time.
    ///
    /// After [`Snapshot::Counted`](crate::Snapshot::Counted), and until a turn releases the next phase, the last likes
    /// of all seats are of the same moment as the counts.
    ///
    /// # Errors
    ///
    /// [`Error::WrongRange`].
    pub fn lasts(&mut self, from: u32, lasts: &mut [Last]) -> Result<(), Error> {
        // SAFETY: the seat is borrowed for this call, and the slice has the length that is told.
        check(unsafe { ffi::likes_seat_lasts(self.at(), from, lasts.as_mut_ptr(), lasts.len()) })
    }

    /// Does what the phase asks of the seat, and nothing else.
    pub fn turn(&mut self) -> State {
        // SAFETY: the seat is borrowed for this call.
        let number = unsafe { ffi::likes_seat_turn(self.at()) };
        State::of(number).unwrap_or_else(|| unlisted(number))
    }

    /// Leaves, where the seat runs a joined phase, ending or not: [`State::Gone`]. Looks that waited are found
    /// first. In a split phase, and between two phases, it is [`turn`](Self::turn): call it again.
    pub fn retire(&mut self) -> State {
        self.handle.retire()
    }

    /// Brings a seat back that is gone, into the phase that goes on now: [`State::Runs`]. [`State::Between`], with
    /// nothing done, where that phase is ending: call it again. Of any other seat it is [`turn`](Self::turn).
    pub fn come_back(&mut self) -> State {
        // SAFETY: the seat is borrowed for this call.
        let number = unsafe { ffi::likes_seat_come_back(self.at()) };
        State::of(number).unwrap_or_else(|| unlisted(number))
    }

    /// The phase that the seat runs or has answered last, and 0 once it is gone. Phases with odd numbers are split.
    pub fn phase(&mut self) -> u64 {
        // SAFETY: the seat is borrowed for this call.
        unsafe { ffi::likes_seat_phase(self.at()) }
    }
}

impl Drop for Seat {
    fn drop(&mut self) {
        if self.retire() != State::Gone {
            self.leaving.add(mem::take(&mut self.handle));
        }
    }
}
