//! Rows of requests and their answers, and looks that were found, as the library has them in memory.

use crate::answers::{self, Error, Glance, Last, Look, Outcome, Seen, Shown};
use crate::status;

/// What is asked for in a request.
#[derive(Clone, Copy, Debug, PartialEq, Eq)]
#[repr(u32)]
pub enum Op {
    /// Adds one like.
    Like = 0,
    /// Looks, and waits where the page is split.
    Look = 1,
    /// Looks at once.
    Glance = 2,
}

/// A request of a row.
#[derive(Clone, Copy, Debug, PartialEq, Eq)]
#[repr(C)]
pub struct Request {
    /// Of a look: any number of yours, which comes back when the look is found.
    pub tag: u64,
    /// Below the service's users.
    pub user: u32,
    /// Below the number of pages.
    pub page: u32,
    /// What is asked for.
    pub op: Op,
    reserved: u32,
}

impl Request {
    /// A like.
    #[must_use]
    pub const fn like(user: u32, page: u32) -> Self {
        Self::new(Op::Like, user, page, 0)
    }

    /// A look with a tag.
    #[must_use]
    pub const fn look(user: u32, page: u32, tag: u64) -> Self {
        Self::new(Op::Look, user, page, tag)
    }

    /// A glance.
    #[must_use]
    pub const fn glance(user: u32, page: u32) -> Self {
        Self::new(Op::Glance, user, page, 0)
    }

    /// A request of any kind.
    #[must_use]
    pub const fn new(op: Op, user: u32, page: u32, tag: u64) -> Self {
        Self { tag, user, page, op, reserved: 0 }
    }
}

/// The answer to a request of a row.
#[derive(Clone, Copy, Debug)]
#[repr(C)]
pub struct Answer {
    count: u64,
    last: Last,
    status: u32,
}

impl Answer {
    /// No answer yet: what a row of answers is filled with.
    pub const NONE: Self = Self { count: 0, last: Last::NONE, status: status::OK };

    /// What was done, or why the request was refused.
    ///
    /// # Errors
    ///
    /// Why the request was refused.
    pub fn outcome(&self) -> Result<Outcome, Error> {
        match self.status {
            status::OK => Ok(Outcome::NotRun),
            status::LIKED => Ok(Outcome::Liked),
            status::LIKE_LIMIT => Ok(Outcome::LikeLimit),
            status::GLIMPSED => self.glance().map(Outcome::from),
            _ => self.look().map(Outcome::from),
        }
    }

    /// What a look came to, or why it was refused.
    pub(crate) fn look(&self) -> Result<Look, Error> {
        match self.status {
            status::WAITS => Ok(Look::Waits),
            status::BETWEEN => Ok(Look::Between),
            status::NO_ROOM => Ok(Look::NoRoom),
            status::GONE => Ok(Look::Gone),
            _ => self.seen().map(Look::Seen),
        }
    }

    /// What a glance came to, or why it was refused.
    pub(crate) fn glance(&self) -> Result<Glance, Error> {
        match self.status {
            status::GLIMPSED => Ok(Glance::Glimpsed(self.numbers())),
            status::BETWEEN => Ok(Glance::Between),
            status::GONE => Ok(Glance::Gone),
            _ => self.seen().map(Glance::Seen),
        }
    }

    /// What a look of a service showed, or why it was refused.
    pub(crate) fn seen(&self) -> Result<Seen, Error> {
        match self.status {
            status::SEEN => Ok(self.numbers()),
            _ => Err(answers::error(self.status)),
        }
    }

    /// What a glance of a service showed, or why it was refused.
    pub(crate) fn shown(&self) -> Result<Shown, Error> {
        match self.status {
            status::GLIMPSED => Ok(Shown::Glimpsed(self.numbers())),
            _ => self.seen().map(Shown::Seen),
        }
    }

    const fn numbers(&self) -> Seen {
        Seen { last: self.last, count: self.count }
    }
}

/// A look that had to wait.
#[derive(Clone, Copy, Debug, PartialEq, Eq)]
#[repr(C)]
pub struct Found {
    /// The tag with which it was asked.
    pub tag: u64,
    /// The page's count in the phase in which it ran.
    pub count: u64,
    /// The phase in which it was asked.
    pub asked: u64,
    /// The phase in which it ran, the next one.
    pub ran: u64,
    /// The user.
    pub user: u32,
    /// The page.
    pub page: u32,
    /// The user's last like at that time.
    pub last: Last,
    reserved: u32,
}

impl Found {
    /// A place for a found look.
    pub(crate) const NONE: Self =
        Self { tag: 0, count: 0, asked: 0, ran: 0, user: 0, page: 0, last: Last::NONE, reserved: 0 };

    /// What the look shows.
    #[must_use]
    pub const fn seen(&self) -> Seen {
        Seen { last: self.last, count: self.count }
    }
}
