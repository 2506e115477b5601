//! What the boundary to C takes from Rattle's std, beyond what the core takes: a box that becomes a pointer.

pub use bootcore::shim::{alloc, error, fmt, io, marker, mem, ops, vec};
pub use core::ptr;

pub mod boxed {
    use super::alloc::{AllocError, Allocator};
    use core::alloc::Layout;
    use core::ops::{Deref, DerefMut};

    /// std::boxed::Box, whose memory may be refused.
    pub struct Box<T, A: Allocator> {
        held: alloc::boxed::Box<T>,
        alloc: A,
    }

    impl<T, A: Allocator> Box<T, A> {
        /// Box::new.
        pub fn new(alloc: A, value: T) -> Result<Box<T, A>, AllocError> {
            const { assert!(size_of::<T>() > 0) };
            alloc.grant(size_of::<T>())?;
            // SAFETY: the layout has a size; the block is written before it is a box.
            let held = unsafe {
                let at = alloc::alloc::alloc(Layout::new::<T>()).cast::<T>();
                if at.is_null() {
                    alloc.give_back(size_of::<T>());
                    return Err(AllocError);
                }
                at.write(value);
                alloc::boxed::Box::from_raw(at)
            };
            Ok(Box { held, alloc })
        }

        /// Box::into_raw_with_allocator.
        pub fn into_raw_with_allocator(boxed: Box<T, A>) -> (*mut T, A) {
            (alloc::boxed::Box::into_raw(boxed.held), boxed.alloc)
        }

        /// Box::from_raw.
        ///
        /// # Safety
        ///
        /// The pointer is what `into_raw_with_allocator` gave, and is made a box once.
        pub unsafe fn from_raw(alloc: A, at: *mut T) -> Box<T, A> {
            // SAFETY: the caller's.
            Box { held: unsafe { alloc::boxed::Box::from_raw(at) }, alloc }
        }
    }

    impl<T, A: Allocator> Deref for Box<T, A> {
        type Target = T;

        fn deref(&self) -> &T {
            &self.held
        }
    }

    impl<T, A: Allocator> DerefMut for Box<T, A> {
        fn deref_mut(&mut self) -> &mut T {
            &mut self.held
        }
    }
}

/// prove!, in a constant: it is checked as the crate is built.
#[macro_export]
#[doc(hidden)]
macro_rules! prove {
    ($holds:expr) => {
        assert!($holds)
    };
}

pub mod prelude {
    pub use super::boxed::Box;
    pub use crate::prove;
    pub use bootcore::shim::prelude::*;
}
