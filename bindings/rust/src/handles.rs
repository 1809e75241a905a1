//! What the library keeps behind a pointer.
use crate::foreign::{self, Opaque};
use crate::worlds::{Refused, refused};
use std::ptr::{NonNull, null_mut};

/// What the library keeps behind a pointer until this is dropped. It stays on its thread.
#[derive(Debug)]
pub(crate) struct Handle {
    at: NonNull<Opaque>,
    close: unsafe extern "C" fn(*mut Opaque),
}

impl Handle {
    /// What a function makes that writes the pointer where its result is 0, and what gives back all that this holds.
    pub(crate) fn new(
        make: impl FnOnce(&mut *mut Opaque) -> u32,
        close: unsafe extern "C" fn(*mut Opaque),
    ) -> Result<Self, Refused> {
        let mut at = null_mut();
        match (make(&mut at), NonNull::new(at)) {
            (0, Some(at)) => Ok(Self { at, close }),
            (code, _) => Err(refused(code)),
        }
    }

    pub(crate) fn as_ptr(&self) -> *mut Opaque {
        self.at.as_ptr()
    }
}

impl Drop for Handle {
    fn drop(&mut self) {
        // SAFETY: nothing uses the pointer later. `close` gives back what is held, and its own block is of `malloc`.
        unsafe {
            (self.close)(self.as_ptr());
            foreign::free(self.as_ptr());
        }
    }
}
