//! A service that threads share.

mod held;
mod writer;

use std::ffi::CString;
use std::os::unix::ffi::OsStrExt;
use std::path::Path;
use std::ptr;
use std::time::Duration;

use crate::answers::{check, error, wanted, Error, Last, Seen, Shown, Statistics};
use crate::ffi::{self, Numbers, RawService};
use crate::options::{Options, MAX_SPLIT};
use crate::rows::Answer;
use crate::status;

pub use held::Held;
pub use writer::Writer;

/// A service with a thread of its own that changes its phases. Threads share it by reference or in an
/// [`Arc`](std::sync::Arc).
///
/// It ends with its drop; [`stop`](Self::stop) also gives its last moment.
///
/// A thread that holds a seat ([`with_seat`](Self::with_seat)) never waits for itself: calls that could wait for a seat
/// are answered [`Error::HoldsSeat`].
///
/// A thread's first call of a service takes memory, and so may a look: [`Error::NoMemory`], where there is none.
#[derive(Debug)]
pub struct Service {
    at: *mut RawService,
    pages: usize,
    users: usize,
    seats: u32,
}

// SAFETY: the library takes calls on a service from any threads at once, but for its end, which owns it.
unsafe impl Send for Service {}
// SAFETY: the same.
unsafe impl Sync for Service {}

/// The counts of all pages and the last likes of all users at one moment. Another service that is opened with them goes
/// on from there.
#[derive(Clone, Debug, Default, PartialEq, Eq)]
pub struct Moment {
    /// The count of each page.
    pub counts: Vec<u64>,
    /// The last like of each user.
    pub lasts: Vec<Last>,
}

/// The last [`Moment`] of a service, and what it has done until then.
#[derive(Clone, Debug, Default, PartialEq, Eq)]
pub struct Ended {
    /// The count of each page.
    pub counts: Vec<u64>,
    /// The last like of each user.
    pub lasts: Vec<Last>,
    /// What the service has done.
    pub statistics: Statistics,
}

impl Service {
    /// Opens a service with the initial count of each page, and starts its thread.
    ///
    /// # Errors
    ///
    /// A wrong number of the options or the counts; [`Error::NoMemory`]; [`Error::NoThread`].
    ///
    /// # Panics
    ///
    /// If the library is of another version than this crate.
    pub fn open(options: &Options, counts: &[u64]) -> Result<Self, Error> {
        ffi::check_version();
        let mut at = ptr::null_mut();
        // SAFETY: each slice has the length that is told, and the pointer is NULL.
        check(unsafe { ffi::likes_service_open(&options.numbers(counts), &mut at) })?;
        Ok(Self::of(at))
    }

    /// Opens a service that goes on from a file of [`save`](Self::save), with as many users and pages or more: 0 is as
    /// many. The options have no last likes.
    ///
    /// # Errors
    ///
    /// [`Error::FileFault`], also where the path has a byte 0; [`Error::NotSaved`], [`Error::OtherVersion`],
    /// [`Error::WrongSize`] and [`Error::WrongSum`]; [`Error::WrongLength`], where there are fewer users or pages than in
    /// the file; [`Error::WrongLasts`], and those of [`open`](Self::open).
    ///
    /// # Panics
    ///
    /// If the library is of another version than this crate.
    pub fn load(path: impl AsRef<Path>, options: &Options, pages: usize) -> Result<Self, Error> {
        ffi::check_version();
        let (path, mut at) = (path_of(path.as_ref())?, ptr::null_mut());
        let numbers = Numbers { counts: ptr::null(), pages, ..options.numbers(&[]) };
        // SAFETY: the path ends with a byte 0, there are no counts, and the pointer is NULL.
        check(unsafe { ffi::likes_service_load(path.as_ptr(), &numbers, &mut at) })?;
        Ok(Self::of(at))
    }

    /// A service that C has opened.
    fn of(at: *mut RawService) -> Self {
        // SAFETY: the service was opened.
        let (pages, users, seats) =
            unsafe { (ffi::likes_service_pages(at), ffi::likes_service_users(at), ffi::likes_service_seats(at)) };
        Self { at, pages, users: users as usize, seats }
    }

    /// Adds one like.
    ///
    /// # Errors
    ///
    /// [`Error::UnknownUser`], [`Error::UnknownPage`], [`Error::LikeLimit`], [`Error::HoldsSeat`], and
    /// [`Error::Gone`] where the user's seat has left.
    pub fn like(&self, user: u32, page: u32) -> Result<(), Error> {
        // SAFETY: the service is open as long as it is borrowed.
        wanted(unsafe { ffi::likes_service_like(self.at, user, page) }, status::LIKED)
    }

    /// Looks at a user's last like and a page's exact count, and waits for about a phase if it has to.
    ///
    /// # Errors
    ///
    /// Those of [`like`](Self::like) but [`Error::LikeLimit`].
    pub fn look(&self, user: u32, page: u32) -> Result<Seen, Error> {
        let mut answer = Answer::NONE;
        // SAFETY: the service is open as long as it is borrowed, and the call writes the answer.
        unsafe { ffi::likes_service_look(self.at, user, page, &mut answer) };
        answer.seen()
    }

    /// Looks as [`look`](Self::look) does, within a time limit, which it hardly exceeds: then there is no answer. A
    /// look that was made keeps its place in the seat's room until the phase ends.
    ///
    /// # Errors
    ///
    /// Those of [`look`](Self::look).
    pub fn look_within(&self, user: u32, page: u32, limit: Duration) -> Result<Option<Seen>, Error> {
        let mut answer = Answer::NONE;
        let limit = u32::try_from(limit.as_micros()).unwrap_or(u32::MAX);
        // SAFETY: the service is open as long as it is borrowed, and the call writes the answer.
        match unsafe { ffi::likes_service_look_within(self.at, user, page, limit, &mut answer) } {
            status::LATE => Ok(None),
            _ => answer.seen().map(Some),
        }
    }

    /// Looks at once. The answer says whether the count is exact, or may lack other seats' likes of the present phase.
    ///
    /// # Errors
    ///
    /// Those of [`like`](Self::like) but [`Error::LikeLimit`].
    pub fn glance(&self, user: u32, page: u32) -> Result<Shown, Error> {
        let mut answer = Answer::NONE;
        // SAFETY: the service is open as long as it is borrowed, and the call writes the answer.
        unsafe { ffi::likes_service_glance(self.at, user, page, &mut answer) };
        answer.shown()
    }

    /// Opens a writer, for a thread's likes at full speed.
    ///
    /// # Errors
    ///
    /// [`Error::NoMemory`].
    pub fn writer(&self) -> Result<Writer<'_>, Error> {
        Writer::open(self)
    }

    /// A user's last like.
    ///
    /// # Errors
    ///
    /// [`Error::UnknownUser`] and [`Error::HoldsSeat`].
    pub fn last(&self, user: u32) -> Result<Last, Error> {
        let mut last = Last::NONE;
        // SAFETY: the service is open as long as it is borrowed, and the call writes a last like.
        check(unsafe { ffi::likes_service_last(self.at, user, &mut last) })?;
        Ok(last)
    }

    /// The last like of each user. Those of one seat are of one moment.
    ///
    /// # Errors
    ///
    /// [`Error::HoldsSeat`].
    pub fn lasts(&self) -> Result<Vec<Last>, Error> {
        let mut lasts = vec![Last::NONE; self.users];
        // SAFETY: the service is open as long as it is borrowed, and the slice has the length that is told.
        check(unsafe { ffi::likes_service_lasts(self.at, lasts.as_mut_ptr(), lasts.len()) })?;
        Ok(lasts)
    }

    /// The counts of all pages at one moment, the end of a joined phase. It takes up to two phases.
    ///
    /// # Errors
    ///
    /// [`Error::HoldsSeat`].
    pub fn counts(&self) -> Result<Vec<u64>, Error> {
        let mut counts = vec![0; self.pages];
        // SAFETY: the service is open as long as it is borrowed, and the slice has the length that is told.
        let told = unsafe { ffi::likes_service_counts(self.at, counts.as_mut_ptr(), counts.len()) };
        wanted(told, status::COUNTED)?;
        Ok(counts)
    }

    /// The counts of all pages at one moment, as by [`counts`](Self::counts), and the last likes of all users then. All
    /// seats stand still meanwhile.
    ///
    /// # Errors
    ///
    /// [`Error::HoldsSeat`], and [`Error::NoMoment`] where another thread has held its seat for a tenth of a second
    /// without a call.
    pub fn snapshot(&self) -> Result<Moment, Error> {
        let mut moment = Moment { counts: vec![0; self.pages], lasts: vec![Last::NONE; self.users] };
        let (counts, lasts) = (&mut moment.counts, &mut moment.lasts);
        // SAFETY: the service is open as long as it is borrowed, and each slice has the length that is told.
        let told = unsafe {
            let (to, last) = (counts.as_mut_ptr(), lasts.as_mut_ptr());
            ffi::likes_service_snapshot(self.at, to, counts.len(), last, lasts.len())
        };
        wanted(told, status::COUNTED)?;
        Ok(moment)
    }

    /// Saves such a moment to a file. After a crash there is the old file or the new one.
    ///
    /// # Errors
    ///
    /// Those of [`snapshot`](Self::snapshot), [`Error::NoMemory`], and [`Error::FileFault`], also where the path has a
    /// byte 0.
    pub fn save(&self, path: impl AsRef<Path>) -> Result<(), Error> {
        let path = path_of(path.as_ref())?;
        // SAFETY: the service is open as long as it is borrowed, and the path ends with a byte 0.
        check(unsafe { ffi::likes_service_save(self.at, path.as_ptr()) })
    }

    /// What the service has done so far.
    #[must_use]
    pub fn statistics(&self) -> Statistics {
        let mut told = ffi::RawStatistics::default();
        // SAFETY: the service is open as long as it is borrowed, and the call writes the statistics.
        unsafe { ffi::likes_service_statistics(self.at, &mut told) };
        Statistics::from(told)
    }

    /// The phase that was last released.
    #[must_use]
    pub fn phase(&self) -> u64 {
        // SAFETY: the service is open as long as it is borrowed.
        unsafe { ffi::likes_service_phase(self.at) }
    }

    /// How many seats there are.
    #[must_use]
    pub const fn seats(&self) -> u32 {
        self.seats
    }

    /// The seat of a user.
    #[must_use]
    pub const fn seat_of(&self, user: u32) -> u32 {
        user % self.seats
    }

    /// Proposes pages to be split, as [`Driver::propose`](crate::Driver::propose) does.
    ///
    /// # Errors
    ///
    /// [`Error::HoldsSeat`].
    pub fn propose(&self, pages: &[u32]) -> Result<(), Error> {
        // SAFETY: the service is open as long as it is borrowed, and the slice has the length that is told.
        check(unsafe { ffi::likes_service_propose(self.at, pages.as_ptr(), pages.len()) })
    }

    /// The pages that are split in the present split phase, or were in the last one. None for a thread that holds a
    /// seat.
    #[must_use]
    pub fn split_pages(&self) -> Vec<u32> {
        let mut pages = vec![0; MAX_SPLIT];
        // SAFETY: the service is open as long as it is borrowed, and the slice has the length that is told.
        let told = unsafe { ffi::likes_service_split_pages(self.at, pages.as_mut_ptr(), pages.len()) };
        pages.truncate(told);
        pages
    }

    /// Lends a seat to a closure, for rows of requests. Nobody else does the seat's phase work meanwhile, so the closure
    /// makes calls of the seat, and waits for nothing.
    ///
    /// # Errors
    ///
    /// [`Error::UnknownSeat`], [`Error::HoldsSeat`] where the thread holds a seat already, and [`Error::NoMemory`].
    pub fn with_seat<R>(&self, number: u32, work: impl FnOnce(&mut Held) -> R) -> Result<R, Error> {
        Ok(work(&mut Held::lock(self, number)?))
    }

    /// Does what is due for the phases. A busy thread may call it once in some 256 requests: then no phase waits until
    /// the service's thread gets a processor.
    pub fn tick(&self) {
        // SAFETY: the service is open as long as it is borrowed.
        unsafe { ffi::likes_service_tick(self.at) }
    }

    /// Has a seat leave, in a few phases. Then likes and looks of its users are [`Error::Gone`].
    ///
    /// # Errors
    ///
    /// [`Error::UnknownSeat`] and [`Error::HoldsSeat`].
    pub fn retire_seat(&self, number: u32) -> Result<(), Error> {
        // SAFETY: the service is open as long as it is borrowed.
        check(unsafe { ffi::likes_service_retire_seat(self.at, number) })
    }

    /// Brings a seat back that has left.
    ///
    /// # Errors
    ///
    /// [`Error::UnknownSeat`] and [`Error::HoldsSeat`].
    pub fn bring_back_seat(&self, number: u32) -> Result<(), Error> {
        // SAFETY: the service is open as long as it is borrowed.
        check(unsafe { ffi::likes_service_bring_back_seat(self.at, number) })
    }

    /// Ends the service, and gives its last moment, with its statistics. Found looks that weren't taken are lost.
    ///
    /// # Errors
    ///
    /// [`Error::OpenWriter`], where a writer was leaked, as by [`mem::forget`](std::mem::forget). The service is leaked
    /// then, too. [`Error::NoMemory`], where this is the thread's first call and there is no memory. The service is
    /// closed then.
    pub fn stop(self) -> Result<Ended, Error> {
        // SAFETY: the service is this thread's own.
        check(unsafe { ffi::likes_service_retire(self.at) })?;
        let (lasts, mut counts) = (self.lasts()?, vec![0; self.pages]);
        // SAFETY: the service is this thread's own, and the slice has the length that is told.
        check(unsafe { ffi::likes_service_stop(self.at, counts.as_mut_ptr(), counts.len()) })?;
        Ok(Ended { counts, lasts, statistics: self.statistics() })
    }

    /// Why a seat can't be held. Where nothing is wrong with it, there is no memory for the thread.
    fn seat_fault(&self, number: u32) -> Error {
        // SAFETY: the service is open as long as it is borrowed.
        match unsafe { ffi::likes_service_seat_fault(self.at, number) } {
            status::OK => Error::NoMemory,
            number => error(number),
        }
    }
}

/// A path for C, which would take what is before a byte 0 for the whole of it.
fn path_of(path: &Path) -> Result<CString, Error> {
    CString::new(path.as_os_str().as_bytes()).ok().ok_or_else(|| {
        // SAFETY: errno is this thread's own.
        unsafe { *ffi::__errno_location() = ffi::EINVAL };
        Error::FileFault
    })
}

impl Drop for Service {
    fn drop(&mut self) {
        // SAFETY: nobody else has the service. Where a writer was leaked, nothing is done.
        unsafe { ffi::likes_service_close(self.at) };
    }
}
