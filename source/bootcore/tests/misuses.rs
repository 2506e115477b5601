//! Each misuse is told as its error, and nothing is changed then.

mod common;

use bootcore::*;
use common::*;

fn misuse<T: std::fmt::Debug>(end: Result<T, Error>) -> Misuse {
    match end {
        Err(Error::Misuse(misuse)) => misuse,
        other => panic!("{:?}", other),
    }
}

/// A load, a preparation and a plan end alike.
fn all(wanted: Misuse, machine: &Machine, entry: impl for<'a> Fn(&'a [u8]) -> Entry<'a>) {
    let kernel = multiboot2_kernel();
    let entry = entry(&kernel);
    let mut memory = memory();
    assert_eq!(misuse(load(&mut Memory::new(0, &mut memory), machine, &entry)), wanted);
    assert_eq!(misuse(prepare(machine, &entry)), wanted);
    assert_eq!(misuse(Plan::new(machine, &entry)), wanted);
    assert!(memory.iter().all(|byte| *byte == 0xA5));
}

fn right(kernel: &[u8]) -> Entry<'_> {
    Multiboot2::new(kernel).line("k").module(b"hello", "m").into()
}

#[test]
fn of_a_machine() {
    let right = right;
    all(Misuse::BadSize, &of_size(SIZE as u64 + 1), right);
    all(Misuse::BadSize, &of_size(0), right);
    all(Misuse::BadSize, &of_size(u64::MAX), right);
    let many = (0..MAX_REGIONS).fold(machine(), |machine, _| machine.region(0, 4096, Kind::Nvs));
    all(Misuse::TooManyRegions, &many, right);
    all(Misuse::BadRegion, &machine().region(1 << 52, 1, Kind::Usable), right);
    all(Misuse::BadRegion, &machine().region(u64::MAX, u64::MAX, Kind::Usable), right);
    all(Misuse::BadPool, &machine().pool(1, 0), right);
    all(Misuse::BadPool, &machine().pool(4096, 1), right);
    all(Misuse::BadPool, &machine().pool(4096, u64::MAX), right);
    all(Misuse::BadPool, &machine().pool(0x9F000, 4096), right);
}

/// A machine with a change of what firmware tells.
fn told(change: impl Fn(&mut Firmware)) -> Machine {
    let mut machine = machine();
    machine.firmware.screen = Some(screen(0xE000_0000));
    machine.firmware.efi = Some(Efi::new(EfiBits::Bits64, 1 << 33).map([0; 96], 48, 0xD000_0000));
    change(&mut machine.firmware);
    machine
}

#[test]
fn of_firmware() {
    let right = right;
    let screen = |change: fn(&mut Screen)| told(|firmware| change(firmware.screen.as_mut().unwrap()));
    let efi = |change: fn(&mut Efi)| told(|firmware| change(firmware.efi.as_mut().unwrap()));
    all(Misuse::BadScreenSize, &screen(|screen| screen.width = 0), right);
    all(Misuse::BadScreenDepth, &screen(|screen| screen.depth = 8), right);
    all(Misuse::BadScreenColor, &screen(|screen| screen.red.size = 17), right);
    all(Misuse::BadScreenPitch, &screen(|screen| screen.pitch = 4095), right);
    all(Misuse::BadScreenPlace, &screen(|screen| screen.base = u64::MAX), right);
    all(Misuse::BadRsdp, &told(|firmware| firmware.rsdp = Some(0x10000)), right);
    all(Misuse::BadSystemTable, &efi(|efi| efi.bits = EfiBits::Bits32), right);
    all(Misuse::BadDescriptors, &efi(|efi| efi.descriptor_version = 2), right);
    all(Misuse::BadEfiMapSize, &efi(|efi| efi.map.push(0)), right);
    all(Misuse::BadEfiMapPlace, &efi(|efi| efi.map_address += 4), right);
    let tables = Smbios::new(3, 0, [0; 0x10001]);
    all(Misuse::BadSmbiosSize, &told(|firmware| firmware.smbios = Some(tables.clone())), right);
    all(Misuse::TooManyAvoided, &told(|firmware| firmware.avoided = vec![0..0; 129]), right);
    all(Misuse::BadAvoided, &told(|firmware| firmware.avoided.push(1 << 52..(1 << 52) + 1)), right);
    let backwards = std::ops::Range { start: 1, end: 0 };
    all(Misuse::BadAvoided, &told(|firmware| firmware.avoided.push(backwards.clone())), right);
    all(Misuse::PoolAvoided, &told(|firmware| firmware.avoided.push(POOL as u64..POOL as u64 + 1)), right);
}

#[test]
fn the_bad_region_is_told() {
    let bad = |machine: Machine| machine.bad_region();
    assert_eq!(bad(machine()), None);
    assert_eq!(bad(machine().region((1 << 52) - 1, 1, Kind::Nvs)), None);
    assert_eq!(bad(machine().region(1 << 52, 1, Kind::Nvs).region(u64::MAX, u64::MAX, Kind::Usable)), Some(3));
    // that there are too many is told before
    let many = (0..MAX_REGIONS - 3).fold(machine().region(1 << 52, 1, Kind::Nvs), |machine, _| machine.region(0, 0, Kind::Nvs));
    assert_eq!(bad(many.clone()), None);
    let mut few = many;
    few.regions.remove(0);
    assert_eq!(bad(few), Some(2));
}

#[test]
fn of_an_entry() {
    let machine = &machine();
    all(Misuse::NoBytes, machine, |_| Multiboot2::new(File::Length(80)).into());
    all(Misuse::BadFile, machine, |_| Multiboot2::new(File::Unreadable).into());
    all(Misuse::BadFile, machine, |kernel| Multiboot2::new(kernel).module(File::Unreadable, "m").into());
    all(Misuse::BadFile, machine, |_| Linux::new(b"none").initrd(File::Unreadable).into());
    all(Misuse::TooManyModules, machine, |kernel| {
        (0..=MAX_MODULES).fold(Multiboot2::new(kernel), |entry, _| entry.module(b"", "")).into()
    });
    let long = [0; MAX_RSDP + 1];
    let kernel = multiboot2_kernel();
    let entry = Multiboot2::new(&kernel).rsdp_new(&long).into();
    assert_eq!(misuse(prepare(machine, &entry)), Misuse::LongRsdp);
    let entry = Multiboot2::new(&kernel).rsdp_old(&long).into();
    assert_eq!(misuse(Plan::new(machine, &entry)), Misuse::LongRsdp);
}

#[test]
fn of_a_load_alone() {
    let (kernel, machine, mut memory) = (multiboot2_kernel(), machine(), memory());
    let mut load_at = |address, length, entry: &Entry<'_>| {
        let end = load(&mut Memory::new(address, &mut memory[..length]), &machine, entry);
        assert!(memory.iter().all(|byte| *byte == 0xA5));
        end
    };
    let entry = right(&kernel);
    assert_eq!(misuse(load_at(0, SIZE - 1, &entry)), Misuse::BadMemory);
    assert_eq!(misuse(load_at(1 << 32, SIZE, &entry)), Misuse::BadMemory);
    assert_eq!(load_at(0x2000, SIZE - 0x2000, &entry), Err(Error::Outside));
    let of_length = Multiboot2::new(&kernel).module(File::Length(5), "m").into();
    assert_eq!(misuse(load_at(0, SIZE, &of_length)), Misuse::NoBytes);
    let of_length = Linux::new(b"none").initrd(File::Length(5)).into();
    assert_eq!(misuse(load_at(0, SIZE, &of_length)), Misuse::NoBytes);
}

/// Of an empty file no byte is to come.
#[test]
fn an_empty_file_is_at_hand() {
    let (kernel, machine) = (multiboot2_kernel(), machine());
    let (mut by_bytes, mut by_length) = (memory(), memory());
    let with = |file| Multiboot2::new(&kernel).module(file, "m");
    let wanted = load(&mut Memory::new(0, &mut by_bytes), &machine, &with(b"".into()).into());
    let came = load(&mut Memory::new(0, &mut by_length), &machine, &with(File::Length(0)).into());
    assert!(came.is_ok() && came == wanted && by_length == by_bytes);
    let menu = Menu::new().entry(Linux::new(File::Length(0))).entry(with(File::Length(0))).fallback(1);
    let booted = boot(&mut Memory::new(0, &mut memory()), &machine, &menu).unwrap();
    assert_eq!(booted.refusals, [RefusedEntry::new(0, Refusal::NotBzImage)]);
    assert_eq!(prepare(&machine, &Linux::new(File::Length(0)).into()), Err(Refusal::NotBzImage.into()));
}

#[test]
fn of_carrying_out() {
    let kernel = multiboot2_kernel();
    let plan = Plan::new(&machine(), &right(&kernel)).unwrap();
    let mut memory = memory();
    let mut carry_out = |files: &[&[u8]], address, length| {
        let end = plan.carry_out(files, &mut [Memory::new(address, &mut memory[..length])]);
        assert!(memory.iter().all(|byte| *byte == 0xA5));
        end
    };
    assert_eq!(misuse(carry_out(&[&kernel], 0, SIZE)), Misuse::BadFile);
    assert_eq!(misuse(carry_out(&[&kernel, b"hell"], 0, SIZE)), Misuse::BadFile);
    assert_eq!(misuse(carry_out(&[], 0, SIZE)), Misuse::BadFile);
    assert_eq!(carry_out(&[&kernel, b"hello"], 0x2000, SIZE), Err(Error::Outside));
    assert_eq!(carry_out(&[&kernel, b"hello"], 0, 0x101FFF), Err(Error::Outside));
    assert_eq!(carry_out(&[&kernel, b"hello"], u64::MAX, SIZE), Err(Error::Outside));
    assert_eq!(plan.carry_out(&[&kernel, b"hello"], &mut []), Err(Error::Outside));
}

#[test]
fn of_a_menu() {
    let (kernel, machine) = (multiboot2_kernel(), machine());
    let menu = || Menu::new().entry(right(&kernel));
    let all = |wanted: Misuse, machine: &Machine, menu: &Menu<'_>| {
        let (mut memory, mut other) = (memory(), memory());
        assert_eq!(misuse(boot(&mut Memory::new(0, &mut memory), machine, menu)), wanted);
        assert_eq!(misuse(Session::new(Memory::new(0, &mut other), machine, menu)), wanted);
        assert!(memory.iter().chain(&other).all(|byte| *byte == 0xA5));
    };
    all(Misuse::BadIndex, &machine, &Menu::new());
    all(Misuse::BadIndex, &machine, &menu().first(1));
    all(Misuse::BadIndex, &machine, &menu().fallback(0).fallback(u32::MAX));
    let many = (0..=MAX_ENTRIES).fold(Menu::new(), |menu, _| menu.entry(Linux::new(b"")));
    all(Misuse::TooManyEntries, &machine, &many);
    let with = |modules, copy| (0..modules).fold(Multiboot2::new(&kernel).rsdp_new(copy), |entry, _| entry.module(b"", ""));
    let long = [0; MAX_RSDP + 1];
    all(Misuse::LongRsdp, &machine, &menu().entry(with(0, &long[..])));
    all(Misuse::TooManyModules, &machine, &menu().entry(with(0, &long[..])).entry(with(MAX_MODULES + 1, b"")));
    // of several misuses the first is told
    let many = (0..MAX_ENTRIES).fold(Menu::new().first(99), |menu, _| menu.entry(with(1, &long[..])));
    all(Misuse::TooManyEntries, &machine, &many.entry(with(MAX_MODULES + 1, b"")));
    all(Misuse::BadSize, &of_size(4096), &menu());
    all(Misuse::BadPool, &machine.clone().pool(0, 4096), &menu());
    let mut memory = memory();
    let no_entry = Menu::new();
    let end = boot(&mut Memory::new(4096, &mut memory), &machine, &no_entry);
    assert_eq!(misuse(end), Misuse::BadMemory); // of several the first is told
    let of_length = Menu::new().entry(Linux::new(File::Length(5)));
    assert_eq!(misuse(boot(&mut Memory::new(0, &mut memory), &machine, &of_length)), Misuse::NoBytes);
    assert_eq!(misuse(boot(&mut Memory::new(4096, &mut memory), &machine, &menu())), Misuse::BadMemory);
    assert_eq!(misuse(boot(&mut Memory::new(0, &mut memory[1..]), &machine, &menu())), Misuse::BadMemory);
}

#[test]
fn of_a_session() {
    let (kernel, machine) = (multiboot2_kernel(), machine());
    let menu = Menu::new().entry(right(&kernel));
    let mut memory = memory();
    let mut short = Session::new(Memory::new(0, &mut memory[1..]), &machine, &menu).unwrap();
    assert_eq!(misuse(short.start()), Misuse::BadMemory);
    drop(short);
    let low = machine.clone().pool(0x1000, 0x10000);
    let mut above = Session::new(Memory::new(0x2000, &mut memory[0x2000..]), &low, &menu).unwrap();
    assert_eq!(misuse(above.start()), Misuse::LowPool);
    drop(above);
    assert_eq!(misuse(boot(&mut Memory::new(0x2000, &mut memory[0x2000..]), &low, &menu)), Misuse::LowPool);
    // an empty one begins nowhere
    let none = machine.clone().pool(0x1000, 0);
    let end = boot(&mut Memory::new(0x2000, &mut memory[0x2000..]), &none, &menu);
    assert_eq!(end, Err(Error::NoEntry(vec![RefusedEntry::new(0, Refusal::NoPool)])));
    let mut high = Session::new(Memory::new(1 << 32, &mut memory), &machine, &menu).unwrap();
    let request = Request::default();
    assert_eq!(misuse(high.start()), Misuse::BadMemory);
    assert_eq!(misuse(high.pieces(&request, b"hello")), Misuse::BadMemory);
    assert_eq!(misuse(high.fault(&request)), Misuse::BadMemory);
    drop(high);
    assert!(memory.iter().all(|byte| *byte == 0xA5));
}

#[test]
fn numbers_and_words() {
    let mut words: Vec<_> = (101..=119).map(|number| Misuse::from_number(number).to_string()).collect();
    assert!((0..200).all(|number| Misuse::from_number(number).number() == number));
    assert!(words.iter().all(|word| !word.is_empty()));
    words.sort();
    words.dedup();
    assert_eq!(words.len(), 19);
    // a reserved word: no program in Rust sets one
    assert_eq!(Misuse::from_number(102), Misuse::Other(102));
    assert_eq!(Error::Misuse(Misuse::BadSize).to_string(), Misuse::BadSize.to_string());
}

#[test]
fn the_greatest_length_is_too_long_and_not_unreadable() {
    let (kernel, machine) = (multiboot2_kernel(), machine());
    let with = |file| Multiboot2::new(&kernel).module(file, "m").into();
    assert_eq!(misuse(prepare(&machine, &with(File::Unreadable))), Misuse::BadFile);
    let too_long = Err(Error::Refused(Refusal::NoRoom));
    for length in [u64::MAX, u64::MAX - 1, 1 << 40] {
        assert_eq!(prepare(&machine, &with(File::Length(length))), too_long);
        assert_eq!(Plan::new(&machine, &with(File::Length(length))).map(|plan| plan.handoff().clone()), too_long);
        let mut memory = memory();
        let menu = Menu::new().entry(Linux::new(File::Length(length)));
        let mut session = Session::new(Memory::new(0, &mut memory), &machine, &menu).unwrap();
        assert_eq!(session.start(), Ok(Progress::Failed));
        let refused = vec![RefusedEntry::new(0, Refusal::FileTooLong { file: 0 })];
        assert_eq!(session.outcome(), Err(Error::NoEntry(refused)));
    }
}
