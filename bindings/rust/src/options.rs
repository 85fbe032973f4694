//! What a service is opened with, and the limits of `likes.h`.

use std::ptr;
use std::time::Duration;

use crate::answers::Last;
use crate::ffi::{Numbers, NO_HOT};

/// The most seats of a service.
pub const MAX_SEATS: u32 = 64;
/// The most pages of a service.
pub const MAX_PAGES: u32 = 16_777_216;
/// The most marked pages.
pub const MAX_MARKS: usize = 64;
/// How many pages are split at a time, marked ones among them.
pub const MAX_SPLIT: usize = 64;
/// The most looks that a seat keeps.
pub const MAX_ROOM: u32 = 4096;
/// The most of [`Hot::From`].
pub const MAX_HOT: u32 = 1_000_000;
/// The most of an initial count.
pub const MAX_COUNT: u64 = 1_000_000_000_000_000_000;
/// The longest period.
pub const MAX_PERIOD: Duration = Duration::from_secs(1000);

/// Which pages the library finds by itself, to split them.
#[derive(Clone, Copy, Debug, Default, PartialEq, Eq)]
pub enum Hot {
    /// Those of about 512 likes between two choices. Earlier likes count too, but less.
    #[default]
    Usual,
    /// Those of about so many likes: 1 to [`MAX_HOT`], of which 1 to 511 act as 512.
    From(u32),
    /// None: only marked and proposed pages are split.
    Never,
}

/// The options of a service. Most programs write `Options::new(users)`.
#[derive(Clone, Copy, Debug)]
pub struct Options<'a> {
    /// How many users: 1 or more. They are numbered from 0, and take 4 bytes each.
    pub users: u32,
    /// How many seats: 1 to [`MAX_SEATS`], or 16 for each processor, and at most 64.
    pub seats: Option<u32>,
    /// How many looks a seat keeps, waiting and found ones together: 1 to [`MAX_ROOM`], or 64.
    pub room: Option<u32>,
    /// Which pages get hot.
    pub hot: Hot,
    /// Of a [`Service`](crate::Service), the time from the end of one split phase to that of the next, in whole
    /// microseconds: up to [`MAX_PERIOD`], or a millisecond. No look waits much longer.
    pub period: Option<Duration>,
    /// The pages that are split in every split phase, at most [`MAX_MARKS`], no two alike.
    pub marks: &'a [u32],
    /// The last like of each user, by user number. If there are none, no user has one.
    pub lasts: &'a [Last],
}

impl Options<'_> {
    /// What is usual: no marks, and no last likes.
    #[must_use]
    pub const fn new(users: u32) -> Self {
        Self { users, seats: None, room: None, hot: Hot::Usual, period: None, marks: &[], lasts: &[] }
    }

    /// The options for C, with the counts. It points into both.
    pub(crate) fn numbers(&self, counts: &[u64]) -> Numbers {
        Numbers {
            counts: counts.as_ptr(),
            pages: counts.len(),
            marks: at(self.marks),
            marks_len: self.marks.len(),
            lasts: at(self.lasts),
            lasts_len: self.lasts.len(),
            users: self.users,
            seats: given(self.seats),
            room: given(self.room),
            hot: match self.hot {
                Hot::Usual => 0,
                // Both have a meaning of their own in C. Here they are wrong numbers.
                Hot::From(0 | NO_HOT) => NO_HOT - 1,
                Hot::From(likes) => likes,
                Hot::Never => NO_HOT,
            },
            period_us: self.period.map_or(0, microseconds),
            reserved: 0,
            reserved_too: [0; 5],
        }
    }
}

/// Where a slice begins, and NULL for an empty one: C refuses an array without a length.
fn at<T>(slice: &[T]) -> *const T {
    if slice.is_empty() {
        ptr::null()
    } else {
        slice.as_ptr()
    }
}

/// A number for C, where 0 is the default. Here it is a wrong number.
fn given(number: Option<u32>) -> u32 {
    match number {
        Some(0) => u32::MAX,
        _ => number.unwrap_or(0),
    }
}

/// A period for C. What isn't right is `u32::MAX`, which C refuses.
fn microseconds(period: Duration) -> u32 {
    match u32::try_from(period.as_micros()) {
        Ok(number) if number > 0 => number,
        _ => u32::MAX,
    }
}
