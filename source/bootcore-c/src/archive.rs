//! What a static library needs that has no std below it. Memory is what the functions in C take theirs from.

use core::alloc::{GlobalAlloc, Layout};
use core::panic::PanicInfo;

/// As `bootcore_block` of c/crossing.h: bit 0 of the first word says whether there is a block.
#[repr(C)]
struct Block {
    is_there: u64,
    at: *mut u8,
}

impl Block {
    fn pointer(self) -> *mut u8 {
        if self.is_there & 1 == 1 { self.at } else { core::ptr::null_mut() }
    }
}

unsafe extern "C" {
    fn rattle_alloc(length: usize, alignment: usize) -> Block;
    fn rattle_realloc(at: *mut u8, kept: usize, length: usize, alignment: usize) -> Block;
    fn rattle_dealloc(at: *mut u8);
}

struct Shared;

// SAFETY: the three answer as malloc, realloc and free do, none where the alignment is above theirs,
// and never end by unwinding.
unsafe impl GlobalAlloc for Shared {
    unsafe fn alloc(&self, layout: Layout) -> *mut u8 {
        unsafe { rattle_alloc(layout.size(), layout.align()) }.pointer()
    }

    unsafe fn dealloc(&self, at: *mut u8, _: Layout) {
        unsafe { rattle_dealloc(at) }
    }

    unsafe fn realloc(&self, at: *mut u8, layout: Layout, size: usize) -> *mut u8 {
        unsafe { rattle_realloc(at, layout.size().min(size), size, layout.align()) }.pointer()
    }
}

#[global_allocator]
static SHARED: Shared = Shared;

/// The proofs rule out a panic; one that comes nevertheless must not go on.
#[panic_handler]
fn stop(_: &PanicInfo<'_>) -> ! {
    loop {
        // SAFETY: each raises an exception, and changes nothing.
        #[cfg(target_arch = "x86_64")]
        unsafe {
            core::arch::asm!("ud2", options(nomem, nostack))
        }
        #[cfg(target_arch = "aarch64")]
        unsafe {
            core::arch::asm!("brk #1", options(nomem, nostack))
        }
    }
}

/// The compiled core of some targets names these, for unwinding, which there is none of.
#[cfg(not(target_os = "none"))]
mod unwinding {
    #[unsafe(no_mangle)]
    extern "C" fn rust_eh_personality() {}

    #[unsafe(no_mangle)]
    extern "C" fn _Unwind_Resume() {}
}
