//! A loader without the standard library, as firmware or a kernel has one, with an allocator that
//! gives nothing back. It loads a kernel of its own into memory. Its status is 0 if all is as it
//! should be, else that of the first step that is not. It is run under Linux, so the C library
//! starts it, and has `memcpy` for the compiler.
#![no_std]
#![no_main]

extern crate alloc;

use alloc::vec;
use core::alloc::{GlobalAlloc, Layout};
use core::cell::UnsafeCell;
use core::panic::PanicInfo;
use core::ptr::null_mut;
use core::sync::atomic::{AtomicUsize, Ordering};

use bootcore::{Entry, Error, Kind, Machine, Memory, Multiboot2, Plan, load};

const HEAP: usize = 8 << 20;
const SIZE: usize = 2 << 20;

struct Heap {
    bytes: UnsafeCell<[u8; HEAP]>,
    next: AtomicUsize,
}

// SAFETY: each block is given once, and nothing else looks into the bytes
unsafe impl Sync for Heap {}

// SAFETY: blocks are as `alloc` says
unsafe impl GlobalAlloc for Heap {
    // SAFETY: a block lies in the bytes, behind those that were given before, and is aligned as asked
    unsafe fn alloc(&self, layout: Layout) -> *mut u8 {
        let first = self.bytes.get() as usize;
        let begin = |next: usize| (first + next).next_multiple_of(layout.align()) - first;
        let end = |next| begin(next).checked_add(layout.size()).filter(|end| *end <= HEAP);
        match self.next.fetch_update(Ordering::Relaxed, Ordering::Relaxed, end) {
            Ok(next) => self.bytes.get().cast::<u8>().wrapping_add(begin(next)),
            Err(_) => null_mut(),
        }
    }

    // SAFETY: a block is never given again
    unsafe fn dealloc(&self, _block: *mut u8, _layout: Layout) {}
}

#[global_allocator]
static THE_HEAP: Heap = Heap { bytes: UnsafeCell::new([0; HEAP]), next: AtomicUsize::new(0) };

#[link(name = "c")]
// SAFETY: this is as the C library declares it
unsafe extern "C" {
    safe fn abort() -> !;
}

#[panic_handler]
fn panic(_: &PanicInfo<'_>) -> ! {
    abort()
}

/// The name of a function of the standard library's that the compiler's tables have, and nothing
/// calls.
// SAFETY: nothing else has the name
#[unsafe(no_mangle)]
extern "C" fn rust_eh_personality() {}

fn run() -> Result<(), i32> {
    // a Multiboot2 header alone, with where it lies and where it is entered
    let sum = 0u32.wrapping_sub(0xE85250D6 + 64);
    let header = [0xE85250D6, 0, 64, sum];
    let tags = [2, 24, 0x100000, 0x100000, 0, 0x102000, 3, 12, 0x100000, 0, 0, 8];
    let mut kernel = vec![0; 64];
    let words = header.into_iter().chain(tags);
    kernel.chunks_exact_mut(4).zip(words).for_each(|(to, word)| to.copy_from_slice(&word.to_le_bytes()));
    let machine = Machine::new(SIZE as u64).region(0, SIZE as u64, Kind::Usable);
    let entry = Entry::from(Multiboot2::new(&kernel).line("quiet").module(b"hello", "greeting"));

    let is = |fact: bool, status| if fact { Ok(()) } else { Err(status) };
    let mut guest = vec![0xA5; SIZE];
    let handoff = load(&mut Memory::new(0, &mut guest), &machine, &entry).map_err(|_| 1)?;
    is(handoff.registers.rip == 0x100000 && handoff.places.len() == 3, 2)?;
    is(guest[0x100000..][..kernel.len()] == kernel && &guest[0x102000..][..5] == b"hello", 3)?;
    let plan = Plan::new(&machine, &entry).map_err(|_| 4)?;
    let mut carried_out = vec![0xA5; SIZE];
    let files: [&[u8]; 2] = [&kernel, b"hello"];
    plan.carry_out(&files, &mut Memory::new(0, &mut carried_out)).map_err(|_| 5)?;
    is(*plan.handoff() == handoff && carried_out == guest, 6)?;
    // once nothing is left a call says so, and what there is stays as it is
    while THE_HEAP.next.fetch_add(1, Ordering::Relaxed) < HEAP {}
    is(Plan::new(&machine, &entry) == Err(Error::NoMemory), 7)?;
    let end = load(&mut Memory::new(0, &mut guest), &machine, &entry);
    is(end == Err(Error::NoMemory) && carried_out == guest, 8)
}

// SAFETY: nothing else has the name
#[unsafe(no_mangle)]
extern "C" fn main() -> i32 {
    run().err().unwrap_or(0)
}
