//! A service's seat that a thread holds.

use std::marker::PhantomData;

use crate::answers::Error;
use crate::ffi;
use crate::rows::{Answer, Found, Request};
use crate::service::Service;

/// A seat that a thread holds, by [`Service::with_seat`].
#[derive(Debug)]
pub struct Held<'a> {
    service: &'a Service,
    number: u32,
    /// The thread that has locked the seat unlocks it.
    stays: PhantomData<*mut ()>,
}

impl<'a> Held<'a> {
    pub(crate) fn lock(service: &'a Service, number: u32) -> Result<Self, Error> {
        // SAFETY: the service is open as long as it is borrowed.
        if unsafe { ffi::likes_service_lock(service.at, number) }.is_null() {
            return Err(service.seat_fault(number));
        }
        Ok(Self { service, number, stays: PhantomData })
    }

    /// Runs requests one by one, through changes of phases, and gives the number of those done, at most as many as there
    /// are answers. It stops early only at a look that has no room: take found looks, [`drive`](Self::drive), and go on
    /// with that request. Tags of looks are below 2^63; another is [`Error::WrongTag`].
    #[must_use]
    pub fn run(&mut self, requests: &[Request], answers: &mut [Answer]) -> usize {
        let length = requests.len().min(answers.len());
        // SAFETY: the thread holds the seat, and each slice has the length that is told or more.
        unsafe {
            let at = self.service.at;
            ffi::likes_service_run(at, self.number, requests.as_ptr(), length, answers.as_mut_ptr())
        }
    }

    /// Takes the next found look of such a row, in the order of asking.
    pub fn take_found(&mut self) -> Option<Found> {
        let mut found = Found::NONE;
        // SAFETY: the thread holds the seat, and the call writes a found look.
        unsafe { ffi::likes_service_take_found(self.service.at, self.number, &mut found) }.then_some(found)
    }

    /// Makes a turn of the driver, so that a phase that is due ends.
    pub fn drive(&mut self) {
        // SAFETY: the service is open as long as it is borrowed.
        unsafe { ffi::likes_service_drive(self.service.at) };
    }
}

impl Drop for Held<'_> {
    fn drop(&mut self) {
        // SAFETY: the thread holds the seat.
        unsafe { ffi::likes_service_unlock(self.service.at, self.number) }
    }
}
