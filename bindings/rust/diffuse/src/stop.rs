use crate::error::{self, Error};
use diffuse_sys::*;
use std::fmt;
use std::sync::{Mutex, PoisonError};

/// A stop, by which another thread ends calls of the graphs that have it: [`Graph::stop_by`](crate::Graph::stop_by).
pub struct Stop {
    handle: Mutex<StopHandle>,
}

// SAFETY: a stop may go from one thread to another; by the lock one call at a time uses it.
unsafe impl Send for Stop {}
// SAFETY: as above.
unsafe impl Sync for Stop {}

impl Stop {
    /// A stop that is not set.
    pub fn new() -> Result<Stop, Error> {
        let mut handle = StopHandle::CLOSED;
        // SAFETY: the handle is closed and in use nowhere else.
        error::done(unsafe { diffuse_stop_new(&mut handle) })?;
        Ok(Stop { handle: Mutex::new(handle) })
    }

    /// From now on the searches of the graphs that have it end soon, with [`Error::Stopped`].
    pub fn set(&self) {
        // SAFETY: the lock is held, so that no other call uses the handle.
        self.with(|handle| unsafe { diffuse_stop_set(handle) });
    }

    /// The graphs that have it search again.
    pub fn clear(&self) {
        // SAFETY: as in `set`.
        self.with(|handle| unsafe { diffuse_stop_clear(handle) });
    }

    /// What a call of its handle returns.
    pub(crate) fn with<T>(&self, call: impl FnOnce(*mut StopHandle) -> T) -> T {
        call(&mut *self.handle.lock().unwrap_or_else(PoisonError::into_inner))
    }
}

impl Drop for Stop {
    fn drop(&mut self) {
        // SAFETY: as in `set`.
        self.with(|handle| unsafe { diffuse_stop_free(handle) });
    }
}

impl fmt::Debug for Stop {
    fn fmt(&self, out: &mut fmt::Formatter<'_>) -> fmt::Result {
        out.write_str("Stop")
    }
}
