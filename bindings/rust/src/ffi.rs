//! The calls of `likes.h` as the library exports them, and its structures.

use std::ffi::{c_char, c_int, c_void};
use std::mem::{offset_of, size_of};
use std::ptr;

use crate::answers::Last;
use crate::rows::{Answer, Found, Request};

/// `LIKES_VERSION` of the `likes.h` that this crate is written for.
pub const VERSION: u32 = 6;

/// A driver, a seat or a phase. NULL: it is empty. Only a driver has the number of its seats beside.
#[repr(C)]
pub struct Handle {
    at: *mut c_void,
    seats: u64,
}

impl Default for Handle {
    fn default() -> Self {
        Self { at: ptr::null_mut(), seats: 0 }
    }
}

// SAFETY: the library takes calls on a handle from any thread, one at a time. What holds a handle isn't `Sync`.
unsafe impl Send for Handle {}

/// `likes_options`.
#[repr(C)]
pub struct Numbers {
    pub counts: *const u64,
    pub pages: usize,
    pub marks: *const u32,
    pub marks_len: usize,
    pub lasts: *const Last,
    pub lasts_len: usize,
    pub users: u32,
    pub seats: u32,
    pub room: u32,
    pub hot: u32,
    pub period_us: u32,
    pub reserved: u32,
    pub reserved_too: [u64; 5],
}

/// `LIKES_NO_HOT`: no page gets hot by itself.
pub const NO_HOT: u32 = u32::MAX;

/// `likes_service`, which only the library knows.
#[repr(C)]
pub struct RawService {
    unknown: [u8; 0],
}

/// `likes_writer`, which only the library knows.
#[repr(C)]
pub struct RawWriter {
    unknown: [u8; 0],
}

/// `likes_statistics`.
#[derive(Default)]
#[repr(C)]
pub struct RawStatistics {
    pub phases: u64,
    pub likes: u64,
    pub looks: u64,
    pub waits: u64,
    pub wait_time: u64,
    pub longest_wait: u64,
    pub late: u64,
    reserved: [u64; 9],
}

/// The number of "Invalid argument" in errno.
pub const EINVAL: c_int = 22;

/// Panics if the library is of another version than this crate.
pub fn check_version() {
    // SAFETY: the call takes nothing.
    assert_eq!(unsafe { likes_version() }, VERSION, "the version of the library");
}

const _: () = {
    assert!(cfg!(target_endian = "little"));
    assert!(size_of::<Handle>() == 16 && size_of::<Last>() == 4);
    assert!(size_of::<Numbers>() == 112 && offset_of!(Numbers, hot) == 60 && offset_of!(Numbers, reserved_too) == 72);
    assert!(size_of::<RawStatistics>() == 128);
    assert!(size_of::<Request>() == 24 && size_of::<Answer>() == 16 && size_of::<Found>() == 48);
};

extern "C" {
    /// Of the C library: where a thread's errno is.
    pub fn __errno_location() -> *mut c_int;

    pub fn likes_version() -> u32;
    pub fn likes_status_text(status: u32) -> *const c_char;
    pub fn likes_open(options: *const Numbers, driver: *mut Handle) -> u32;

    pub fn likes_driver_take_seat(driver: *mut Handle, seat: *mut Handle) -> u32;
    pub fn likes_driver_take_phase(driver: *mut Handle, phase: *mut Handle) -> u32;
    pub fn likes_driver_turn(driver: *mut Handle, end: u32) -> u32;
    pub fn likes_driver_phase(driver: *mut Handle) -> u64;
    pub fn likes_driver_snapshot(driver: *mut Handle, from: u32, counts: *mut u64, counts_len: usize) -> u32;
    pub fn likes_driver_last_counts(driver: *mut Handle, from: u32, counts: *mut u64, counts_len: usize) -> u32;
    pub fn likes_driver_split_pages(driver: *mut Handle, pages: *mut u32, pages_len: usize) -> usize;
    pub fn likes_driver_propose(driver: *mut Handle, pages: *const u32, pages_len: usize) -> u32;
    pub fn likes_driver_free(driver: *mut Handle);

    pub fn likes_seat_like(seat: *mut Handle, user: u32, page: u32) -> u32;
    pub fn likes_seat_look(seat: *mut Handle, user: u32, page: u32, tag: u64, answer: *mut Answer) -> u32;
    pub fn likes_seat_glance(seat: *mut Handle, user: u32, page: u32, answer: *mut Answer) -> u32;
    pub fn likes_seat_run(
        seat: *mut Handle,
        requests: *const Request,
        requests_len: usize,
        answers: *mut Answer,
        answers_len: usize,
    ) -> usize;
    pub fn likes_seat_take_found(seat: *mut Handle, found: *mut Found) -> bool;
    pub fn likes_seat_last(seat: *mut Handle, user: u32, page: *mut Last) -> u32;
    pub fn likes_seat_lasts(seat: *mut Handle, from: u32, pages: *mut Last, pages_len: usize) -> u32;
    pub fn likes_seat_turn(seat: *mut Handle) -> u32;
    pub fn likes_seat_retire(seat: *mut Handle) -> u32;
    pub fn likes_seat_come_back(seat: *mut Handle) -> u32;
    pub fn likes_seat_phase(seat: *mut Handle) -> u64;
    pub fn likes_seat_free(seat: *mut Handle);

    pub fn likes_phase_now(phase: *const Handle) -> u64;
    pub fn likes_phase_free(phase: *mut Handle);

    pub fn likes_service_open(options: *const Numbers, service: *mut *mut RawService) -> u32;
    pub fn likes_service_load(path: *const c_char, options: *const Numbers, service: *mut *mut RawService) -> u32;
    pub fn likes_service_save(service: *mut RawService, path: *const c_char) -> u32;
    pub fn likes_service_seats(service: *const RawService) -> u32;
    pub fn likes_service_pages(service: *const RawService) -> usize;
    pub fn likes_service_users(service: *const RawService) -> u32;
    pub fn likes_service_close(service: *mut RawService) -> u32;
    pub fn likes_service_seat_fault(service: *const RawService, number: u32) -> u32;
    pub fn likes_service_like(service: *mut RawService, user: u32, page: u32) -> u32;
    pub fn likes_service_look(service: *mut RawService, user: u32, page: u32, answer: *mut Answer) -> u32;
    pub fn likes_service_look_within(
        service: *mut RawService,
        user: u32,
        page: u32,
        microseconds: u32,
        answer: *mut Answer,
    ) -> u32;
    pub fn likes_service_glance(service: *mut RawService, user: u32, page: u32, answer: *mut Answer) -> u32;
    pub fn likes_service_last(service: *mut RawService, user: u32, page: *mut Last) -> u32;
    pub fn likes_service_lasts(service: *mut RawService, lasts: *mut Last, users: usize) -> u32;
    pub fn likes_service_counts(service: *mut RawService, counts: *mut u64, pages: usize) -> u32;
    pub fn likes_service_snapshot(
        service: *mut RawService,
        counts: *mut u64,
        pages: usize,
        lasts: *mut Last,
        users: usize,
    ) -> u32;
    pub fn likes_service_phase(service: *mut RawService) -> u64;
    pub fn likes_service_statistics(service: *mut RawService, statistics: *mut RawStatistics) -> u32;
    pub fn likes_service_propose(service: *mut RawService, pages: *const u32, pages_len: usize) -> u32;
    pub fn likes_service_split_pages(service: *mut RawService, pages: *mut u32, pages_len: usize) -> usize;
    pub fn likes_service_lock(service: *mut RawService, number: u32) -> *mut Handle;
    pub fn likes_service_unlock(service: *mut RawService, number: u32);
    pub fn likes_service_run(
        service: *mut RawService,
        number: u32,
        requests: *const Request,
        length: usize,
        answers: *mut Answer,
    ) -> usize;
    pub fn likes_service_take_found(service: *mut RawService, number: u32, found: *mut Found) -> bool;
    pub fn likes_service_drive(service: *mut RawService) -> u32;
    pub fn likes_service_tick(service: *mut RawService);
    pub fn likes_service_retire_seat(service: *mut RawService, number: u32) -> u32;
    pub fn likes_service_bring_back_seat(service: *mut RawService, number: u32) -> u32;
    pub fn likes_service_retire(service: *mut RawService) -> u32;
    pub fn likes_service_stop(service: *mut RawService, counts: *mut u64, pages: usize) -> u32;

    pub fn likes_writer_open(service: *mut RawService, writer: *mut *mut RawWriter) -> u32;
    pub fn likes_writer_like(writer: *mut RawWriter, user: u32, page: u32) -> u32;
    pub fn likes_writer_look(writer: *mut RawWriter, user: u32, page: u32, answer: *mut Answer) -> u32;
    pub fn likes_writer_flush(writer: *mut RawWriter) -> u32;
    pub fn likes_writer_drop(writer: *mut RawWriter) -> usize;
    pub fn likes_writer_close(writer: *mut RawWriter) -> u32;
}
