//! Likes, counted exactly by several threads at full speed: the live core, as a library that is proved. This crate
//! calls it by its C API, `likes.h`. The crate itself isn't proved.
//!
//! Most programs need [`Service`], which threads share, and a [`Writer`] for each thread with many likes:
//!
//! ```
//! use likes::{Error, Options, Service};
//!
//! let service = Service::open(&Options::new(1000), &[10, 0])?;
//! service.like(7, 1)?;
//! service.like(7, 0)?;
//! let seen = service.look(7, 1)?;
//! assert_eq!((seen.last.page(), seen.count), (Some(0), 1));
//! assert_eq!(service.like(7, 2), Err(Error::UnknownPage));
//! let mut writer = service.writer()?;
//! writer.like(8, 1)?;
//! writer.flush()?;
//! drop(writer);
//! assert_eq!(service.stop()?.counts, [11, 2]);
//! # Ok::<(), Error>(())
//! ```
//!
//! A program that changes phases by itself opens a [`Driver`] and takes its [`Seat`]s and its [`Phase`]. The rules
//! of `likes.h` are rules of types here: no call can be made by two threads at a time, and nothing is used after its end.
//! Two remain: while a phase is ending, each seat is called; and no call is made from a signal handler, or in the child
//! of a fork.
//!
//! What a call did comes as an enum, such as [`Like`] or [`Turn`], and a wrong number as [`Error`]. No number is cut:
//! users and pages are `u32` here and in C.

#![warn(missing_docs)]

mod answers;
mod driver;
mod ffi;
mod leaving;
mod options;
mod phase;
mod rows;
mod seat;
mod service;
pub mod status;

pub use answers::{
    Error, Glance, Last, LastCounts, Like, Look, Outcome, Seen, Shown, Snapshot, State, Statistics, Turn,
};
pub use driver::{Driver, End};
pub use options::{Hot, Options, MAX_COUNT, MAX_HOT, MAX_MARKS, MAX_PAGES, MAX_PERIOD, MAX_ROOM, MAX_SEATS, MAX_SPLIT};
pub use phase::Phase;
pub use rows::{Answer, Found, Op, Request};
pub use seat::Seat;
pub use service::{Ended, Held, Moment, Service, Writer};
