//! The first example: its handoff by each call, and its image.

mod common;

use bootcore::*;
use common::*;

fn entry(kernel: &[u8]) -> Entry<'_> {
    Multiboot2::new(kernel).line("k").module(b"hello", "m").into()
}

/// By the table of docs/BOOT-RULES.md: information lowest, the module from the next frame after the
/// kernel on.
fn is_first(handoff: &Handoff) {
    let place = |role, address, length| Place::new(role, 0, address, length);
    let wanted = [place(Role::Information, 0x1000, 4096), place(Role::Kernel, 0x100000, 80), place(Role::Module, 0x101000, 4096)];
    assert_eq!(handoff.places, wanted);
    assert_eq!((handoff.entry, handoff.protocol), (0, Protocol::Multiboot2));
    let registers = &handoff.registers;
    assert_eq!((registers.bits, registers.rip), (32, 0x100010));
    assert_eq!((registers.rax, registers.rbx, registers.rsi), (0x36D76289, 0x1000, 0));
    assert_eq!((registers.cr0, registers.cr3, registers.cr4), (0x11, 0, 0));
    assert_eq!((registers.efer, registers.gdt_base), (0, 0));
    let Segments { cs, ds, es, fs, gs, ss } = registers.segments();
    let facts = |s: Segment| (s.base, s.limit, s.selector, s.type_, [s.s, s.dpl, s.p, s.avl, s.l, s.db, s.g]);
    assert_eq!(facts(cs), (0, u32::MAX, 0x10, 11, [1, 0, 1, 0, 0, 1, 1]));
    assert_eq!(facts(ds), (0, u32::MAX, 0x18, 3, [1, 0, 1, 0, 0, 1, 1]));
    assert_eq!([es, fs, gs, ss], [ds; 4]);
}

#[test]
fn each_call_hands_over_the_same() {
    let (kernel, machine) = (multiboot2_kernel(), machine());
    let entry = entry(&kernel);
    let mut loaded = memory();
    is_first(&load(&mut Memory::new(0, &mut loaded), &machine, &entry).unwrap());
    is_first(&prepare(&machine, &entry).unwrap());
    is_first(Plan::new(&machine, &entry).unwrap().handoff());
    let mut booted = memory();
    let end = boot(&mut Memory::new(0, &mut booted), &machine, &Menu::new().entry(entry)).unwrap();
    is_first(&end.handoff);
    assert_eq!(end.refusals, []);
    assert!(booted[..POOL] == loaded[..POOL]);
    assert!(booted[POOL..].iter().all(|byte| *byte == 0));
}

#[test]
fn memory_holds_the_parts_and_nothing_else() {
    let kernel = multiboot2_kernel();
    let mut loaded = memory();
    load(&mut Memory::new(0, &mut loaded), &machine(), &entry(&kernel)).unwrap();
    // the kernel's one segment: 48 bytes of its file, then zeros
    assert_eq!(loaded[0x100000..][..48], kernel[0x70..][..48]);
    assert_eq!(loaded[0x100030..][..32], [0; 32]);
    assert_eq!(&loaded[0x101000..][..5], b"hello");
    assert!(loaded[0x101005..0x102000].iter().all(|byte| *byte == 0));
    let beside = loaded.iter().enumerate().filter(|(at, byte)| {
        !(0x1000..0x2000).contains(at)
            && !(0x100000..0x100050).contains(at)
            && !(0x101000..0x102000).contains(at)
            && **byte != 0xA5
    });
    assert_eq!(beside.count(), 0);
}

/// The stored image, which is of version 1: its head is another, its places and parts are the same.
fn stored_image() -> Vec<u8> {
    bytes_of(include_str!("data/first.image.hex"))
}

#[test]
fn parts_are_those_of_the_stored_image() {
    let kernel = multiboot2_kernel();
    let mut loaded = memory();
    let handoff = load(&mut Memory::new(0, &mut loaded), &machine(), &entry(&kernel)).unwrap();
    let mut image = handoff.image_head().unwrap();
    assert_eq!(image.len(), 272 + 3 * 24);
    for place in &handoff.places {
        image.extend_from_slice(&loaded[place.address as usize..][..place.length as usize]);
    }
    let stored = stored_image();
    assert!(image[272..] == stored[104..]);
    assert_eq!(walk(&image), walk(&stored));

    let seen = walk(&image).unwrap();
    assert_eq!((seen.protocol, seen.entry_address), (Protocol::Multiboot2, 0x100010));
    assert_eq!(seen.line, b"k");
    assert_eq!(seen.kernel_parts, [Range { address: 0x100000, length: 80 }]);
    let modules: Vec<_> = seen.modules.iter().map(|module| (module.file, &module.line[..])).collect();
    assert_eq!(modules, [(Range { address: 0x101000, length: 5 }, &b"m"[..])]);
    let runs: Vec<_> = seen.runs.iter().map(|run| (run.range.address, run.range.length, run.kind().unwrap())).collect();
    let wanted = [(0, 0x9F000, Kind::Usable), (0xF0000, 0x10000, Kind::Reserved), (0x100000, 0x300000, Kind::Usable)];
    assert_eq!(runs, wanted);
    assert_eq!((seen.initrd, seen.rsdp_old, seen.rsdp_new), (None, None, None));
}

#[test]
fn a_changed_image_has_its_fault() {
    let mut image = stored_image();
    let fault = |image: &[u8]| walk(image).unwrap_err();
    assert!(matches!(fault(&[]), Error::BadImage(_)));
    assert_eq!(fault(&image[..image.len() - 1]), Error::BadImage(Fault::WrongLength));
    image[8] = 9;
    assert_eq!(fault(&image), Error::BadImage(Fault::BadVersion));
    assert!(fault(&image).to_string().starts_with("bad image 72 BadVersion: "));
}

#[test]
fn copies_of_the_rsdp_and_an_initial_ramdisk_are_seen() {
    let image_of = |entry: &Entry<'_>| {
        let mut loaded = memory();
        let handoff = load(&mut Memory::new(0, &mut loaded), &machine(), entry).unwrap();
        let parts = handoff.places.iter().map(|place| &loaded[place.address as usize..][..place.length as usize]);
        parts.fold(handoff.image_head().unwrap(), |image, part| [&image[..], part].concat())
    };
    let kernel = multiboot2_kernel();
    let entry = Multiboot2::new(&kernel).rsdp_old(b"RSD PTR old").rsdp_new(b"RSD PTR, a new one");
    let seen = walk(&image_of(&entry.into())).unwrap();
    assert_eq!(seen.rsdp_old.as_deref(), Some(&b"RSD PTR old"[..]));
    assert_eq!(seen.rsdp_new.as_deref(), Some(&b"RSD PTR, a new one"[..]));
    let kernel = linux64_kernel();
    let seen = walk(&image_of(&Linux::new64(&kernel).line("quiet").initrd(b"hello").into())).unwrap();
    assert_eq!((seen.protocol, seen.line), (Protocol::Linux64, b"quiet".to_vec()));
    assert_eq!(seen.initrd.unwrap().length, 5);
}

#[test]
fn a_refusal_is_said_in_words() {
    let (machine, mut memory) = (machine(), memory());
    let refused = load(&mut Memory::new(0, &mut memory), &machine, &Multiboot2::new(b"hello").into()).unwrap_err();
    assert_eq!(refused, Error::Refused(Refusal::NoHeader));
    assert_eq!(
        refused.to_string(),
        "refused 4 NoHeader: no Multiboot2 header in the first 32768 bytes, at a multiple of 8, \
         with a right sum"
    );
    let kernel = linux_kernel();
    let refused = prepare(&machine, &Linux::new64(&kernel).into()).unwrap_err();
    assert_eq!(refused, Error::Refused(Refusal::No64Entry));
    let kernel = multiboot2_kernel();
    let refused = Plan::new(&machine, &Multiboot2::new(&kernel).line("a\0b").into()).unwrap_err();
    assert_eq!(refused, Error::Refused(Refusal::LineHasNul));
    let overlap = Refusal::SegmentsOverlap { one: 1, other: 2 };
    assert!(overlap.to_string().starts_with("refused 15 SegmentsOverlap(1, 2): "));
    assert_eq!((overlap.number(), overlap.meaning()), (15, "the two segments overlap: they share a byte"));
    assert_eq!((Refusal::from_number(15, 1, 2), overlap.carries()), (overlap, (1, 2)));
    assert_eq!(Error::from(overlap), Error::Refused(overlap));
    assert_eq!(Refusal::from_number(9999, 1, 2), Refusal::Other { number: 9999, first: 1, second: 2 });
    assert_eq!(Refusal::BadTag { offset: 0x30 }.to_string().split(':').next(), Some("refused 7 BadTag(0x30)"));
}

#[test]
fn a_line_that_is_too_long_is_told_with_its_limit() {
    let (multiboot2, mut linux, machine) = (multiboot2_kernel(), linux_kernel(), machine());
    let lines: Vec<String> = [0, 99, 100, 101, MAX_LINE, MAX_LINE + 1].iter().map(|length| "x".repeat(*length)).collect();
    let agrees = |entry: Entry<'_>, file, length, limit| {
        let long = entry.long_line().map(|line| (line.file, line.length, line.limit));
        assert_eq!(long, (length > limit).then_some((file, length, limit)));
        let refused = prepare(&machine, &entry) == Err(Refusal::LineTooLong.into());
        assert_eq!(refused, long.is_some());
    };
    for line in &lines {
        agrees(Multiboot2::new(&multiboot2).line(line).into(), 0, line.len(), MAX_LINE);
        let module = Multiboot2::new(&multiboot2).module(b"", "m").module(b"", line);
        agrees(module.into(), 2, line.len(), MAX_LINE);
    }
    for limit in [99, 100, MAX_LINE - 1, MAX_LINE, MAX_LINE + 1, usize::MAX] {
        linux[0x238..0x23C].copy_from_slice(&(limit as u32).to_le_bytes());
        for line in &lines {
            agrees(Linux::new(&linux).line(line).into(), 0, line.len(), limit.min(MAX_LINE));
        }
    }
}

#[test]
fn the_head_of_an_image_is_read_back() {
    let kernel = linux64_kernel();
    let mut handoff = prepare(&machine(), &Linux::new64(&kernel).line("k").initrd(File::Length(5)).into()).unwrap();
    let head = handoff.image_head().unwrap();
    assert_eq!(Handoff::from_image_head(&head), Ok(handoff.clone()));
    assert_eq!(Handoff::from_image_head(&head[..head.len() - 1]), Err(Fault::WrongLength.into()));
    assert_eq!(Handoff::from_image_head(b"no image"), Err(Fault::BadMagic.into()));
    let stored = Handoff::from_image_head(&stored_image()).unwrap();
    assert_eq!(stored.places, prepare(&machine(), &entry(&multiboot2_kernel())).unwrap().places);
    // as many as an image may have, and one more
    handoff.places = (0..256).map(|i| Place::new(Role::Module, i, u64::from(i) << 12, 4096)).collect();
    assert_eq!(Handoff::from_image_head(&handoff.image_head().unwrap()), Ok(handoff.clone()));
    handoff.places.push(Place::new(Role::Module, 256, 1 << 20, 4096));
    assert_eq!(Handoff::from_image_head(&handoff.image_head().unwrap()), Err(Fault::BadHeader.into()));
}
