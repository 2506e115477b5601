//! The core for C: the calls that the functions of `bootcore.h` are written over, which say what their callers keep.
#![no_std]

extern crate alloc;

#[cfg(feature = "archive")]
mod archive;
// the functions in C alone call these, and test what they are given
#[allow(clippy::not_unsafe_ptr_arg_deref)]
#[doc(hidden)]
pub mod proved;
#[doc(hidden)]
pub mod shim;

// A record has slices where one in C has a pointer and a count. rustc has laid them out so up to now, and promises it nowhere.
const _: () = {
    #[repr(C)]
    struct Slice {
        at: *const u8,
        count: usize,
    }

    // SAFETY: both have the size, and any bytes of a slice are a `Slice`.
    let slice = unsafe { core::mem::transmute::<&[u8], Slice>(&[0; 3]) };
    assert!(slice.count == 3);
    let _ = slice.at;
};
