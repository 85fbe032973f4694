//! A thread's likes at full speed.

use std::marker::PhantomData;
use std::ptr;

use crate::answers::{check, Error, Seen};
use crate::ffi::{self, RawWriter};
use crate::rows::Answer;
use crate::service::Service;

/// Likes of one thread, which keeps them in rows and hands a row over as a whole. It can go to another thread.
///
/// Others see a like once its row of 64 is full, by a call about a period after the row was begun, or by
/// [`flush`](Self::flush), [`look`](Self::look) and [`close`](Self::close). Without calls there is no bound in time, so
/// a thread flushes before it rests. Likes of a user by one writer are counted in their order.
///
/// A writer that is dropped is flushed. Likes of seats that have left are lost then, and all if the thread holds a seat:
/// `close` tells of them.
///
/// No service ends before its writers:
///
/// ```compile_fail,E0505
/// # use likes::{Error, Options, Service};
/// # fn main() -> Result<(), Error> {
/// let service = Service::open(&Options::new(10), &[0])?;
/// let mut writer = service.writer()?;
/// service.stop()?;
/// writer.like(0, 0)
/// # }
/// ```
#[derive(Debug)]
pub struct Writer<'a> {
    at: *mut RawWriter,
    service: PhantomData<&'a Service>,
}

// SAFETY: the library takes calls on a writer from any thread, one at a time. A writer isn't `Sync`.
unsafe impl Send for Writer<'_> {}

impl<'a> Writer<'a> {
    pub(crate) fn open(service: &'a Service) -> Result<Self, Error> {
        let mut at = ptr::null_mut();
        // SAFETY: the service is open as long as it is borrowed, and the pointer is NULL.
        check(unsafe { ffi::likes_writer_open(service.at, &mut at) })?;
        Ok(Self { at, service: PhantomData })
    }

    /// Keeps a like, which will be counted.
    ///
    /// # Errors
    ///
    /// [`Error::UnknownUser`], [`Error::UnknownPage`], [`Error::HoldsSeat`]; and [`Error::Gone`] or
    /// [`Error::LikeLimit`] where 64 likes are kept for a seat that doesn't take them. The like isn't kept.
    pub fn like(&mut self, user: u32, page: u32) -> Result<(), Error> {
        // SAFETY: the writer is borrowed for this call.
        check(unsafe { ffi::likes_writer_like(self.at, user, page) })
    }

    /// Hands over the likes of the user's seat and all rows with likes of the page, and looks as [`Service::look`] does.
    /// So it shows all that this writer was told before.
    ///
    /// # Errors
    ///
    /// Those of [`Service::look`], and [`Error::Gone`] or [`Error::LikeLimit`] where likes that it would show stay kept.
    pub fn look(&mut self, user: u32, page: u32) -> Result<Seen, Error> {
        let mut answer = Answer::NONE;
        // SAFETY: the writer is borrowed for this call, which writes the answer.
        unsafe { ffi::likes_writer_look(self.at, user, page, &mut answer) };
        answer.seen()
    }

    /// Hands over all likes: each is counted.
    ///
    /// # Errors
    ///
    /// [`Error::Gone`] or [`Error::LikeLimit`] where likes stay kept, for seats that don't take them;
    /// [`Error::HoldsSeat`].
    pub fn flush(&mut self) -> Result<(), Error> {
        // SAFETY: the writer is borrowed for this call.
        check(unsafe { ffi::likes_writer_flush(self.at) })
    }

    /// Forgets the likes that are kept, and gives their number. They are not counted.
    pub fn forget_likes(&mut self) -> usize {
        // SAFETY: the writer is borrowed for this call.
        unsafe { ffi::likes_writer_drop(self.at) }
    }

    /// Flushes, and ends the writer.
    ///
    /// # Errors
    ///
    /// Those of [`flush`](Self::flush), with the writer, which stays open. With `?`, in a function whose error is an
    /// [`Error`], it is dropped.
    pub fn close(mut self) -> Result<(), (Self, Error)> {
        // SAFETY: the writer is this thread's own.
        match check(unsafe { ffi::likes_writer_close(self.at) }) {
            Ok(()) => {
                self.at = ptr::null_mut();
                Ok(())
            }
            Err(error) => Err((self, error)),
        }
    }
}

impl From<(Writer<'_>, Error)> for Error {
    fn from((_, error): (Writer, Error)) -> Self {
        error
    }
}

impl Drop for Writer<'_> {
    fn drop(&mut self) {
        // SAFETY: nobody else has the writer. It may be NULL, and then the calls do nothing.
        unsafe {
            if check(ffi::likes_writer_close(self.at)).is_err() {
                ffi::likes_writer_drop(self.at);
                ffi::likes_writer_close(self.at);
            }
        }
    }
}
