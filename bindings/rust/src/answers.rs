//! What is asked for, and what calls answer.

use std::error;
use std::fmt;
use std::time::Duration;

use crate::ffi::RawStatistics;
use crate::status;

/// An enum of statuses, each with its number.
macro_rules! statuses {
    ($(#[$doc:meta])* $name:ident { $($(#[$of:meta])* $variant:ident = $number:ident,)+ }) => {
        $(#[$doc])*
        #[derive(Clone, Copy, Debug, PartialEq, Eq, Hash)]
        #[repr(u32)]
        pub enum $name {
            $($(#[$of])* $variant = status::$number,)+
        }

        impl $name {
            /// The variant of a status, if there is one.
            pub(crate) const fn of(number: u32) -> Option<Self> {
                match number {
                    $(status::$number => Some(Self::$variant),)+
                    _ => None,
                }
            }
        }

        impl fmt::Display for $name {
            fn fmt(&self, to: &mut fmt::Formatter) -> fmt::Result {
                to.write_str(status::text(*self as u32))
            }
        }
    };
}

statuses! {
    /// What [`Seat::like`](crate::Seat::like) did.
    #[must_use]
    Like {
        /// One like was added, and the page is now its user's last.
        Liked = LIKED,
        /// Not run: the seat is between two phases. Try again, or do other work first.
        Between = BETWEEN,
        /// Not run: the seat has had 2^56 likes.
        LikeLimit = LIKE_LIMIT,
        /// Not run: the seat has retired.
        Gone = GONE,
    }
}

statuses! {
    /// Where a seat is after [`Seat::turn`](crate::Seat::turn) or [`Seat::retire`](crate::Seat::retire).
    State {
        /// It runs a phase.
        Runs = RUNS,
        /// It is between two phases.
        Between = BETWEEN,
        /// It has retired.
        Gone = GONE,
    }
}

statuses! {
    /// What [`Driver::turn`](crate::Driver::turn) did.
    Turn {
        /// The phase goes on.
        GoesOn = GOES_ON,
        /// The end of the phase was announced.
        Announced = ANNOUNCED,
        /// The phase is ending, and a seat has yet to answer.
        NotAllIn = NOT_ALL_IN,
        /// The next phase has begun.
        Released = RELEASED,
        /// All seats are gone, and this turn has nothing to do.
        Ended = ENDED,
    }
}

statuses! {
    /// What [`Driver::snapshot`](crate::Driver::snapshot) did.
    #[must_use]
    Snapshot {
        /// The counts of these pages were written.
        Counted = COUNTED,
        /// Nothing was written: the counts aren't those of the end of a joined phase.
        NoMoment = NO_MOMENT,
    }
}

statuses! {
    /// What [`Driver::last_counts`](crate::Driver::last_counts) did.
    #[must_use]
    LastCounts {
        /// The counts of these pages were written.
        Counted = COUNTED,
        /// Nothing was written: a seat isn't gone yet, or a split phase goes on.
        NotEnded = NOT_ENDED,
    }
}

statuses! {
    /// A wrong number, or too little memory. What was asked for wasn't done.
    ///
    /// If several apply, `open` gives `WrongPeriod`, or else the first in this order. A service gives `NoMemory`,
    /// `HoldsSeat` and `Gone` before it tells of an unknown user or page; only [`Writer::like`](crate::Writer::like)
    /// gives `Gone` after that. The headers have the order of other calls. What `likes.h` refuses beside these can't be
    /// asked for: empty handles, unknown operations and ends, reserved fields.
    Error {
        /// The service has fewer users.
        UnknownUser = UNKNOWN_USER,
        /// The user belongs to another seat.
        OtherSeat = OTHER_SEAT,
        /// The service has fewer pages.
        UnknownPage = UNKNOWN_PAGE,
        /// The range goes past the last page, or past the seat's last user.
        WrongRange = WRONG_RANGE,
        /// There are no pages, or too many.
        WrongPages = WRONG_PAGES,
        /// Too many marks, a mark of no page, two of the same, or marks that can't all have buckets of their own.
        WrongMarks = WRONG_MARKS,
        /// An initial count is over [`MAX_COUNT`](crate::MAX_COUNT).
        WrongCount = WRONG_COUNT,
        /// [`Options::seats`](crate::Options::seats) is wrong.
        WrongSeats = WRONG_SEATS,
        /// [`Options::users`](crate::Options::users) is wrong.
        WrongUsers = WRONG_USERS,
        /// There are last likes, but not one for each user, or one is of no page.
        WrongLasts = WRONG_LASTS,
        /// [`Options::room`](crate::Options::room) is wrong.
        WrongRoom = WRONG_ROOM,
        /// [`Options::hot`](crate::Options::hot) is wrong.
        WrongHot = WRONG_HOT,
        /// There is too little memory.
        NoMemory = NO_MEMORY,
        /// No call gives it: a row that stops at a look without room has [`Outcome::NoRoom`] there.
        NoRoom = NO_ROOM,
        /// Of a [`Service`](crate::Service): the seat has had 2^56 likes.
        LikeLimit = LIKE_LIMIT,
        /// Of a [`Service`](crate::Service): the user's seat has left.
        Gone = GONE,
        /// Of a [`Service`](crate::Service): a thread has held its seat for too long, so there are no counts and last
        /// likes of one moment.
        NoMoment = NO_MOMENT,
        /// Of a [`Service`](crate::Service): its thread can't be started.
        NoThread = NO_THREAD,
        /// Of a [`Service`](crate::Service): [`Options::period`](crate::Options::period) is wrong.
        WrongPeriod = WRONG_PERIOD,
        /// Of a [`Service`](crate::Service): it has fewer seats.
        UnknownSeat = UNKNOWN_SEAT,
        /// Of a [`Service`](crate::Service): the thread holds a seat.
        HoldsSeat = HOLDS_SEAT,
        /// Of a [`Service`](crate::Service): a writer is open.
        OpenWriter = OPEN_WRITER,
        /// Of [`Held::run`](crate::Held::run): the tag of a look is 2^63 or more.
        WrongTag = WRONG_TAG,
        /// Of [`Service::load`](crate::Service::load): there are fewer pages or users than in the file.
        WrongLength = WRONG_LENGTH,
        /// A file of a [`Service`](crate::Service) can't be read or written, for the reason that
        /// [`last_os_error`](std::io::Error::last_os_error) then gives.
        FileFault = FILE_FAULT,
        /// Of [`Service::load`](crate::Service::load): no service has written the file.
        NotSaved = NOT_SAVED,
        /// Of [`Service::load`](crate::Service::load): the file has a version that the library doesn't know.
        OtherVersion = OTHER_VERSION,
        /// Of [`Service::load`](crate::Service::load): the file is not whole.
        WrongSize = WRONG_SIZE,
        /// Of [`Service::load`](crate::Service::load): the file was changed since it was written.
        WrongSum = WRONG_SUM,
    }
}

impl error::Error for Error {}

/// An answer that `likes.h` doesn't list at a call: the library isn't the one that the crate is written for.
pub(crate) fn unlisted(number: u32) -> ! {
    panic!("the library answers {number}, which likes.h doesn't list at this call")
}

/// The error that a status is.
pub(crate) fn error(number: u32) -> Error {
    Error::of(number).unwrap_or_else(|| unlisted(number))
}

/// Ok, or the error that a status is.
pub(crate) fn check(number: u32) -> Result<(), Error> {
    match number {
        status::OK => Ok(()),
        _ => Err(error(number)),
    }
}

/// Ok where a status is the wanted one, or else the error that it is.
pub(crate) fn wanted(number: u32, right: u32) -> Result<(), Error> {
    if number == right {
        Ok(())
    } else {
        Err(error(number))
    }
}

/// What a [`Service`](crate::Service) has done so far.
#[derive(Clone, Copy, Debug, Default, PartialEq, Eq)]
pub struct Statistics {
    /// How many phases have ended.
    pub phases: u64,
    /// How many likes were counted.
    pub likes: u64,
    /// How many single looks were answered. Those of rows aren't among them.
    pub looks: u64,
    /// How many of these looks had to wait.
    pub waits: u64,
    /// How long they waited in all.
    pub wait_time: Duration,
    /// How long one of them waited at most.
    pub longest_wait: Duration,
    /// How many looks had no answer in time.
    pub late: u64,
}

impl From<RawStatistics> for Statistics {
    fn from(told: RawStatistics) -> Self {
        let RawStatistics { phases, likes, looks, waits, late, .. } = told;
        let [wait_time, longest_wait] = [told.wait_time, told.longest_wait].map(Duration::from_nanos);
        Self { phases, likes, looks, waits, wait_time, longest_wait, late }
    }
}

/// The page of a user's last like, or none.
#[derive(Clone, Copy, PartialEq, Eq, Hash)]
#[repr(transparent)]
pub struct Last(u32);

/// As `Some(page)` or `None`.
impl fmt::Debug for Last {
    fn fmt(&self, to: &mut fmt::Formatter) -> fmt::Result {
        self.page().fmt(to)
    }
}

impl Last {
    /// The user has no last like.
    pub const NONE: Self = Self(u32::MAX);

    /// The last like is of this page. (`u32::MAX` is no page.)
    #[must_use]
    pub const fn of(page: u32) -> Self {
        Self(page)
    }

    /// The page, if the user has a last like.
    #[must_use]
    pub const fn page(self) -> Option<u32> {
        match self {
            Self::NONE => None,
            Self(page) => Some(page),
        }
    }
}

impl From<Option<u32>> for Last {
    fn from(page: Option<u32>) -> Self {
        page.map_or(Self::NONE, Self::of)
    }
}

/// What a look shows.
#[derive(Clone, Copy, Debug, PartialEq, Eq)]
pub struct Seen {
    /// The user's last like.
    pub last: Last,
    /// The count of the page.
    pub count: u64,
}

/// What [`Service::glance`](crate::Service::glance) shows.
#[derive(Clone, Copy, Debug, PartialEq, Eq)]
#[must_use]
pub enum Shown {
    /// The count is exact.
    Seen(Seen),
    /// The page is split now: the count may lack other seats' likes of the present phase.
    Glimpsed(Seen),
}

impl Shown {
    /// What it shows, exact or not.
    #[must_use]
    pub const fn seen(self) -> Seen {
        match self {
            Self::Seen(seen) | Self::Glimpsed(seen) => seen,
        }
    }
}

/// What [`Seat::look`](crate::Seat::look) did.
#[derive(Clone, Copy, Debug, PartialEq, Eq)]
#[must_use]
pub enum Look {
    /// The look was answered.
    Seen(Seen),
    /// The look will be found later, with its tag, by [`Seat::take_found`](crate::Seat::take_found).
    Waits,
    /// Not run: the seat is between two phases. Try again, or do other work first.
    Between,
    /// Not run: the page is split, and no more looks may wait. Take found ones.
    NoRoom,
    /// Not run: the seat has retired.
    Gone,
}

/// What [`Seat::glance`](crate::Seat::glance) did.
#[derive(Clone, Copy, Debug, PartialEq, Eq)]
#[must_use]
pub enum Glance {
    /// The glance was answered, and the count is exact.
    Seen(Seen),
    /// The glance was answered, but the page is split now: the count may lack other seats' likes of the present phase.
    Glimpsed(Seen),
    /// Not run: the seat is between two phases. Try again, or do other work first.
    Between,
    /// Not run: the seat has retired.
    Gone,
}

/// What was done for a request of a row.
#[derive(Clone, Copy, Debug, PartialEq, Eq)]
#[must_use]
pub enum Outcome {
    /// One like was added, and the page is now its user's last.
    Liked,
    /// The look or the glance was answered, and the count is exact.
    Seen(Seen),
    /// The glance was answered, but the page is split now: the count may lack other seats' likes of the present phase.
    Glimpsed(Seen),
    /// The look will be found later, with its tag, by [`Seat::take_found`](crate::Seat::take_found).
    Waits,
    /// Not run: the seat is between two phases. The row has stopped here.
    Between,
    /// Not run: the page is split, and no more looks may wait. The row has stopped here.
    NoRoom,
    /// Not run: the seat has had 2^56 likes.
    LikeLimit,
    /// Not run: the seat has retired.
    Gone,
    /// The row hasn't come here yet.
    NotRun,
}

impl fmt::Display for Outcome {
    fn fmt(&self, to: &mut fmt::Formatter) -> fmt::Result {
        to.write_str(match self {
            Self::Liked => status::text(status::LIKED),
            Self::Seen(_) => status::text(status::SEEN),
            Self::Glimpsed(_) => status::text(status::GLIMPSED),
            Self::Waits => status::text(status::WAITS),
            Self::Between => status::text(status::BETWEEN),
            Self::NoRoom => status::text(status::NO_ROOM),
            Self::LikeLimit => status::text(status::LIKE_LIMIT),
            Self::Gone => status::text(status::GONE),
            Self::NotRun => "not run",
        })
    }
}

impl fmt::Display for Look {
    fn fmt(&self, to: &mut fmt::Formatter) -> fmt::Result {
        Outcome::from(*self).fmt(to)
    }
}

impl fmt::Display for Glance {
    fn fmt(&self, to: &mut fmt::Formatter) -> fmt::Result {
        Outcome::from(*self).fmt(to)
    }
}

impl From<Look> for Outcome {
    fn from(look: Look) -> Self {
        match look {
            Look::Seen(seen) => Self::Seen(seen),
            Look::Waits => Self::Waits,
            Look::Between => Self::Between,
            Look::NoRoom => Self::NoRoom,
            Look::Gone => Self::Gone,
        }
    }
}

impl From<Glance> for Outcome {
    fn from(glance: Glance) -> Self {
        match glance {
            Glance::Seen(seen) => Self::Seen(seen),
            Glance::Glimpsed(seen) => Self::Glimpsed(seen),
            Glance::Between => Self::Between,
            Glance::Gone => Self::Gone,
        }
    }
}
