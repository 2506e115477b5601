//! What firmware tells, and what a kernel is told of it: by a boot of each protocol, whose image is
//! walked.

mod common;

use bootcore::*;
use common::*;

const MULTIBOOT2: &str = include_str!("data/firmware.toml");
const LINUX: &str = include_str!("data/firmware_linux.toml");
const CASES: &str = include_str!("data/told.cases");

/// The bytes of a key of a description: digits between quotes of whichever kind.
fn bytes_at(description: &str, key: &str) -> Vec<u8> {
    let value = description.split(&format!("\n{key} = ")).nth(1).unwrap();
    let quotes = if value.starts_with("\"\"\"") { "\"\"\"" } else { "\"" };
    bytes_of(value.split(quotes).nth(1).unwrap())
}

/// The SHA-256 of a case's image.
fn of_case(name: &str) -> &str {
    let line = CASES.lines().find(|line| line.split('|').next() == Some(name));
    line.unwrap().rsplit('|').next().unwrap()
}

fn hex(digest: &[u8]) -> String {
    digest.iter().map(|byte| format!("{byte:02x}")).collect()
}

/// The facts of both descriptions.
fn all_facts() -> Firmware {
    let efi = Efi::new(EfiBits::Bits64, 0x7E9E_C018).map(bytes_at(MULTIBOOT2, "map"), 48, 0xF8000);
    Firmware::new().screen(screen(0xFD00_0000)).rsdp(0xE0000).efi(efi.secure_boot(SecureBoot::Disabled)).smbios(Smbios::new(
        3,
        0,
        bytes_at(MULTIBOOT2, "tables"),
    ))
}

/// The machine of both descriptions.
fn telling(firmware: Firmware) -> Machine {
    let mut machine = machine();
    machine.firmware = firmware;
    machine
}

/// Looks at the entry of each protocol, and at the name that its cases begin with.
fn with_entries(look: impl Fn(&Entry<'_>, &str)) {
    let (multiboot2, linux) = (bytes_at(MULTIBOOT2, "hex"), bytes_at(LINUX, "hex"));
    let mut linux64 = linux.clone();
    linux64[0x236] = 1;
    linux64.resize(linux.len() + 512, 0xCC);
    let initrd: Vec<u8> = (0xA0..0xAA).collect();
    look(&Multiboot2::new(&multiboot2).line("k").into(), "told");
    look(&Linux::new(&linux).line("k").initrd(&initrd).into(), "linux_told");
    look(&Linux::new64(&linux64).line("k").initrd(&initrd).into(), "linux64_told");
}

/// What the kernel of an entry sees that is booted, of whose image the digest is the case's.
fn booted(machine: &Machine, entry: &Entry<'_>, case: &str) -> Seen {
    let mut memory = memory();
    let menu = Menu::new().entry(entry.clone());
    let handoff = boot(&mut Memory::new(0, &mut memory), machine, &menu).unwrap().handoff;
    let parts = handoff.places.iter().map(|place| &memory[place.address as usize..][..place.length as usize]);
    let image = parts.fold(handoff.image_head().unwrap(), |image, part| [&image[..], part].concat());
    let digests = digest(machine, entry).unwrap();
    assert_eq!((digests.image_length, hex(&digests.image).as_str()), (image.len() as u64, of_case(case)));
    walk(&image).unwrap()
}

#[test]
fn a_kernel_is_told_all_that_its_protocol_tells() {
    let machine = telling(all_facts());
    let given = &machine.firmware;
    let efi = given.efi.as_ref().unwrap();
    with_entries(|entry, case| {
        let seen = booted(&machine, entry, &format!("{case}_all"));
        let told = &seen.firmware;
        let is_multiboot2 = seen.protocol == Protocol::Multiboot2;
        assert_eq!(told.screen, given.screen);
        assert_eq!(told.rsdp, if is_multiboot2 { None } else { given.rsdp });
        assert_eq!(told.smbios, if is_multiboot2 { given.smbios.clone() } else { None });
        let seen_efi = told.efi.as_ref().unwrap();
        assert_eq!((seen_efi.bits, seen_efi.system_table), (efi.bits, efi.system_table));
        assert_eq!((seen_efi.descriptor_size, seen_efi.descriptor_version), (48, 1));
        assert_eq!(seen_efi.map_length as usize, efi.map.len());
        let of_protocol = (seen_efi.map.as_ref(), seen_efi.map_address, seen_efi.secure_boot);
        let wanted =
            if is_multiboot2 { (Some(&efi.map), 0, SecureBoot::NotTold) } else { (None, efi.map_address, efi.secure_boot) };
        assert_eq!(of_protocol, wanted);
    });
}

/// The images are those that a machine without firmware's facts has always had.
#[test]
fn without_facts_it_is_told_nothing() {
    let machine = telling(Firmware::default());
    with_entries(|entry, case| {
        let told = booted(&machine, entry, &format!("{case}_nothing")).firmware;
        assert_eq!((told.screen, told.rsdp), (None, None));
        assert_eq!((told.efi, told.smbios), (None, None));
    });
}

#[test]
fn what_is_zero_or_empty_is_not_told() {
    let mut nothing = Firmware::new()
        .screen(Screen::new(0).depth(8))
        .rsdp(0)
        .efi(Efi::new(EfiBits::Bits32, 0).map([1], 7, 1))
        .smbios(Smbios::new(3, 0, []));
    nothing.avoided = vec![0..0; MAX_AVOIDED];
    let machine = telling(nothing);
    with_entries(|entry, case| drop(booted(&machine, entry, &format!("{case}_nothing"))));
}

/// Memory that is told as usable, and free once the kernel runs.
#[test]
fn nothing_is_placed_in_a_range_to_avoid() {
    with_entries(|entry, _| {
        let before = prepare(&machine(), entry).unwrap();
        let first = &before.places[0];
        let mut machine = machine();
        machine.firmware.avoided.push(first.address..first.address + 1);
        let after = prepare(&machine, entry).unwrap();
        assert!(after.places.iter().all(|place| place.address != first.address));
        let all = 0..POOL as u64;
        machine.firmware.avoided.push(all);
        machine.firmware.avoided.push(POOL as u64..SIZE as u64);
        machine.pool_length = 0;
        let refused = prepare(&machine, entry).unwrap_err();
        let wanted = [Refusal::NotUsable, Refusal::NoRoom].map(Error::Refused);
        assert!(wanted.contains(&refused), "{refused}");
    });
}

/// A session has a copy of its own of what firmware tells: the machine may end before it starts.
#[test]
fn a_session_keeps_what_firmware_tells() {
    let kernel = bytes_at(MULTIBOOT2, "hex");
    let menu = Menu::new().entry(Multiboot2::new(File::Length(kernel.len() as u64)).line("k"));
    let (mut memory, mut loaded) = (memory(), common::memory());
    let mut session = {
        let machine = telling(all_facts());
        Session::new(Memory::new(0, &mut memory), &machine, &menu).unwrap()
    };
    assert_eq!(session.start(), Ok(Progress::Waiting));
    let request = session.missing(PIECE).unwrap();
    assert_eq!(session.pieces(&request, &kernel), Ok(Progress::Done));
    let came = session.outcome().unwrap().unwrap();
    drop(session);
    let entry = Entry::from(Multiboot2::new(&kernel).line("k"));
    let wanted = load(&mut Memory::new(0, &mut loaded), &telling(all_facts()), &entry).unwrap();
    assert_eq!(came.handoff, wanted);
    assert!(memory[..POOL] == loaded[..POOL]);
}
