//! The phase of a service.

use crate::ffi::{self, Handle};

/// The phase of a service, which any thread can read at any time.
pub struct Phase {
    handle: Handle,
}

// SAFETY: a call only reads, so several threads may call at once.
unsafe impl Sync for Phase {}

impl Phase {
    pub(crate) fn new(handle: Handle) -> Self {
        Self { handle }
    }

    /// The phase that the driver has last released. It may be over by then.
    #[must_use]
    pub fn now(&self) -> u64 {
        // SAFETY: it may be called by several threads at once, and the handle is freed by the last owner alone.
        unsafe { ffi::likes_phase_now(&self.handle) }
    }
}

impl Drop for Phase {
    fn drop(&mut self) {
        // SAFETY: nobody else has the handle.
        unsafe { ffi::likes_phase_free(&mut self.handle) }
    }
}
