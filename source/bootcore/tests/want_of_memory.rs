//! Whichever request for memory is refused, a call answers it, and ends no program; what it says
//! that it leaves alone it does.

mod common;

use std::alloc::{GlobalAlloc, Layout, System};
use std::cell::Cell;

use bootcore::*;
use common::*;

thread_local! {
    /// How many requests are granted yet.
    static LEFT: Cell<usize> = const { Cell::new(usize::MAX) };
}

struct Few;

// SAFETY: it is the system's, but that it may refuse
unsafe impl GlobalAlloc for Few {
    // SAFETY: as the system's
    unsafe fn alloc(&self, layout: Layout) -> *mut u8 {
        let left = LEFT.get();
        if left == 0 {
            return std::ptr::null_mut();
        }
        LEFT.set(left - 1);
        // SAFETY: the caller keeps what it asks for
        unsafe { System.alloc(layout) }
    }

    // SAFETY: as the system's
    unsafe fn dealloc(&self, block: *mut u8, layout: Layout) {
        // SAFETY: the block is the system's
        unsafe { System.dealloc(block, layout) }
    }
}

#[global_allocator]
static FEW: Few = Few;

fn with_few<T>(granted: usize, call: impl FnOnce() -> T) -> T {
    LEFT.set(granted);
    let end = call();
    LEFT.set(usize::MAX);
    end
}

/// Makes a call with ever more requests granted, until it wants no more; how many it wanted.
fn often<T>(mut call: impl FnMut(usize) -> Result<T, Error>) -> usize {
    for granted in 0..10000 {
        match call(granted) {
            Err(Error::NoMemory) => {}
            Ok(_) => return granted,
            Err(other) => panic!("{other} with {granted} requests"),
        }
    }
    panic!("it always wants more");
}

/// The same of a call that wants something.
fn wants<T>(mut call: impl FnMut() -> Result<T, Error>) {
    assert!(often(|granted| with_few(granted, &mut call)) > 0);
}

fn entries(look: impl Fn(&Entry<'_>, &Entry<'_>, &[&[u8]])) {
    let (multiboot2, linux) = (multiboot2_kernel(), linux64_kernel());
    let module = |file: File<'static>| Multiboot2::new(&multiboot2).line("k").module(file, "m").rsdp_old(b"RSD PTR ").into();
    look(&module(b"hello".into()), &module(File::Length(5)), &[&multiboot2, b"hello"]);
    let initrd = |file: File<'static>| Linux::new64(&linux).line("k").initrd(file).into();
    look(&initrd(b"hello".into()), &initrd(File::Length(5)), &[&linux, b"hello"]);
}

fn telling() -> Machine {
    let efi = Efi::new(EfiBits::Bits64, 0x7E9E_C018).map([0; 96], 48, 0xF8000);
    let firmware = Firmware::new().screen(screen(0xFD00_0000)).efi(efi).smbios(Smbios::new(3, 0, [1; 9]));
    machine().firmware(firmware.avoid(0x8000..0x9000))
}

#[test]
fn of_a_load_and_a_plan() {
    let machine = telling();
    entries(|whole, of_lengths, files| {
        let mut guest = memory();
        wants(|| {
            assert!(guest.iter().all(|byte| *byte == 0xA5));
            load(&mut Memory::new(0, &mut guest), &machine, whole)
        });
        wants(|| prepare(&machine, of_lengths));
        wants(|| Plan::new(&machine, of_lengths));
        wants(|| unplaced(&machine, of_lengths));
        let plan = Plan::new(&machine, of_lengths).unwrap();
        let mut carried_out = memory();
        with_few(0, || plan.carry_out(files, &mut Memory::new(0, &mut carried_out))).unwrap();
        assert!(carried_out == guest);
    });
}

#[test]
fn of_an_image() {
    let machine = telling();
    entries(|whole, _, _| {
        let mut guest = memory();
        let handoff = load(&mut Memory::new(0, &mut guest), &machine, whole).unwrap();
        wants(|| handoff.image_head());
        let parts = handoff.places.iter().map(|place| &guest[place.address as usize..][..place.length as usize]);
        let image = parts.fold(handoff.image_head().unwrap(), |image, part| [&image[..], part].concat());
        wants(|| walk(&image));
        wants(|| Handoff::from_image_head(&image));
    });
}

#[test]
fn of_a_boot() {
    let machine = telling();
    entries(|whole, _, _| {
        let menu = Menu::new().entry(Linux::new(File::Unreadable)).entry(whole.clone()).fallback(1);
        let wanted = often(|granted| {
            let mut guest = memory();
            with_few(granted, || boot(&mut Memory::new(0, &mut guest), &machine, &menu))
        });
        assert!(wanted > 0);
    });
    let none = Menu::new().entry(Linux::new(b"none"));
    for granted in 0..10000 {
        let mut guest = memory();
        match with_few(granted, || boot(&mut Memory::new(0, &mut guest), &machine, &none)) {
            Err(Error::NoMemory) => {}
            end => {
                return assert_eq!(end, Err(Error::NoEntry(vec![RefusedEntry::new(0, Refusal::NotBzImage)])));
            }
        }
    }
}

#[test]
fn of_a_session() {
    let machine = telling();
    entries(|_, of_lengths, files| {
        let kernel = File::Length(files[0].len() as u64);
        let mut entry = of_lengths.clone();
        match &mut entry {
            Entry::Linux(linux) => linux.kernel = kernel,
            Entry::Multiboot2(multiboot2) => multiboot2.kernel = kernel,
            other => panic!("{other:?}"),
        }
        let menu = Menu::new().entry(entry);
        let wanted = often(|granted| {
            let mut guest = memory();
            with_few(granted, || {
                let mut session = Session::new(Memory::new(0, &mut guest), &machine, &menu)?;
                let mut end = session.start()?;
                while end == Progress::Waiting {
                    let request = session.missing(usize::MAX).unwrap();
                    end = session.pieces(&request, &files[request.file as usize][request.offset() as usize..])?;
                }
                session.outcome()
            })
        });
        assert!(wanted > 0);
    });
}

#[cfg(feature = "digest")]
#[test]
fn of_a_digest() {
    let machine = telling();
    entries(|whole, of_lengths, files| {
        wants(|| digest(&machine, whole));
        wants(|| {
            let mut fed = Digest::new(&machine, of_lengths)?;
            fed.feed_files(files)?;
            fed.finish()
        });
    });
}
