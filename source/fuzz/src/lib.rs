//! What the targets share: a machine and its entries, drawn from bytes, and what must hold of whatever is drawn.

use bootcore::*;

/// The machine's memory.
pub const SIZE: usize = 4 << 20;

/// What is left of the bytes; behind their end there are zeros.
pub struct Drawn<'d>(pub &'d [u8]);

impl<'d> Drawn<'d> {
    pub fn byte(&mut self) -> u8 {
        self.0.split_off_first().copied().unwrap_or(0)
    }

    /// A number, most often one near a border.
    pub fn number(&mut self) -> u64 {
        let borders = [0, 4096, 0x9F000, 1 << 20, 3 << 20, SIZE as u64, 1 << 32, 1 << 52, 1 << 63];
        match self.byte() {
            n @ 0..128 => borders[usize::from(n) % borders.len()].wrapping_add_signed(i64::from(self.byte().cast_signed())),
            n => u64::from(n) << (self.byte() % 64),
        }
    }

    pub fn bytes(&mut self, most: usize) -> &'d [u8] {
        let length = usize::from(self.byte()).min(most).min(self.0.len());
        self.0.split_off(..length).unwrap_or_default()
    }

    /// A machine, the plain one where its first byte is 0.
    pub fn machine(&mut self) -> Machine {
        let mut machine = Machine::new(SIZE as u64)
            .region(0, 0x9F000, Kind::Usable)
            .region(0xF0000, 0x10000, Kind::Reserved)
            .region(1 << 20, 3 << 20, Kind::Usable)
            .pool(3 << 20, 1 << 20);
        let has = self.byte();
        if has & 1 != 0 {
            let kind = Kind::from_number(u32::from(self.byte() % 5) + 1).unwrap_or(Kind::Reserved);
            machine = machine.region(self.number(), self.number(), kind);
        }
        if has & 2 != 0 {
            let begin = self.number();
            machine.firmware.avoided.push(begin..begin.wrapping_add(self.number()));
        }
        if has & 4 != 0 {
            machine = machine.pool(self.number(), self.number());
        }
        if has & 8 != 0 {
            let screen =
                Screen::new(self.number()).size(u32::from(self.byte()), u32::from(self.byte())).pitch(self.number() as u32);
            machine.firmware.screen = Some(screen);
        }
        if has & 16 != 0 {
            machine.firmware.rsdp = Some(self.number());
        }
        if has & 32 != 0 {
            let bits = if self.byte() & 1 == 0 { EfiBits::Bits64 } else { EfiBits::Bits32 };
            let (table, width) = (self.number(), u32::from(self.byte()));
            machine.firmware.efi = Some(Efi::new(bits, table).map(self.bytes(240), width, self.number()));
        }
        if has & 64 != 0 {
            machine.firmware.smbios = Some(Smbios::new(self.byte(), self.byte(), self.bytes(255)));
        }
        if has & 128 != 0 {
            machine.size = self.number();
        }
        machine
    }

    /// A Multiboot2 entry of this kernel.
    pub fn multiboot2(&mut self, kernel: &'d [u8]) -> Entry<'d> {
        let mut entry = Multiboot2::new(kernel).line(self.line());
        for _ in 0..self.byte() % 4 {
            entry = entry.module(self.bytes(64), self.line());
        }
        if self.byte() & 1 != 0 {
            entry = entry.rsdp_old(self.line()).rsdp_new(self.line());
        }
        entry.into()
    }

    /// A Linux entry of this kernel.
    pub fn linux(&mut self, kernel: &'d [u8]) -> Entry<'d> {
        let choice = self.byte();
        let mut linux = if choice & 1 == 0 { Linux::new(kernel) } else { Linux::new64(kernel) }.line(self.line());
        if choice & 2 != 0 {
            linux = linux.initrd(self.bytes(64));
        }
        linux.into()
    }

    fn line(&mut self) -> &'static [u8] {
        &b"console=ttyS0 quiet root=/dev/vda"[..usize::from(self.byte()) % 33]
    }
}

/// The bytes of a machine whose memory was something else before.
fn memory() -> Vec<u8> {
    vec![0; SIZE]
}

/// The files of an entry, its kernel first.
fn files_of<'a>(entry: &Entry<'a>) -> Vec<&'a [u8]> {
    let files: Vec<File<'a>> = match entry {
        Entry::Multiboot2(entry) => {
            core::iter::once(entry.kernel).chain(entry.modules.iter().map(|module| module.file)).collect()
        }
        Entry::Linux(entry) => core::iter::once(entry.kernel).chain(entry.initrd).collect(),
        _ => Vec::new(),
    };
    files.into_iter().map(|file| if let File::Bytes(bytes) = file { bytes } else { &[] }).collect()
}

/// A plan that is carried out leaves what a load leaves, and both are refused alike; a walk reads back the image of it; and the
/// digest of the entry is that of the files as they come.
pub fn load_entry(machine: &Machine, entry: &Entry<'_>) {
    let files = files_of(entry);
    let (plan, mut loaded, mut carried) = (Plan::new(machine, entry), memory(), memory());
    let handoff = load(&mut Memory::new(0, &mut loaded), machine, entry);
    let (plan, handoff) = match (plan, handoff) {
        (_, Err(Error::Misuse(_))) if machine.size > SIZE as u64 => return, // this memory lacks some of the machine's
        (Ok(plan), Ok(handoff)) => (plan, handoff),
        (Err(planned), Err(told)) => return assert_eq!(planned, told),
        (planned, told) => panic!("{planned:?} {told:?}"),
    };
    assert_eq!(plan.handoff(), &handoff);
    plan.carry_out(&files, &mut Memory::new(0, &mut carried)).expect("what was planned");
    assert!(loaded == carried);
    let mut image = handoff.image_head().expect("memory");
    for place in &handoff.places {
        image.extend_from_slice(&loaded[place.address as usize..][..place.length as usize]);
    }
    walk(&image).expect("what was loaded is read back");
    assert_eq!(Handoff::from_image_head(&image).expect("its head"), handoff);
    let mut fed = Digest::new(machine, entry).expect("what was planned");
    fed.feed_files(&files).expect("the files");
    assert_eq!(fed.finish().expect("it was fed").expect("all"), digest(machine, entry).expect("what was planned"));
}

/// A boot, and a session to which pieces come in a drawn order and perhaps not at all: without a fault they end alike.
pub fn boot_menu(drawn: &mut Drawn<'_>, machine: &Machine, menu: &Menu<'_>) {
    let files: Vec<Vec<&[u8]>> = menu.entries.iter().map(files_of).collect();
    let (mut booted, mut fetched) = (memory(), memory());
    let at_once = boot(&mut Memory::new(0, &mut booted), machine, menu);
    let mut session = match Session::new(Memory::new(0, &mut fetched), machine, menu) {
        Ok(session) => session,
        Err(error) => return assert_eq!(at_once.expect_err("what a session refuses"), error),
    };
    let (mut progress, mut is_whole) = (session.start(), true);
    while let Ok(Progress::Waiting | Progress::Next) = progress {
        let requests: Vec<Request> = session.requests(8 * PIECE).collect();
        let request = &requests[usize::from(drawn.byte()) % requests.len()];
        progress = if drawn.byte() == 255 {
            is_whole = false;
            session.fault(request)
        } else {
            session.pieces(
                request,
                &files[request.entry as usize][request.file as usize][request.offset() as usize..][..request.length as usize],
            )
        };
    }
    let outcome = session.outcome();
    if let (true, Ok(at_once), Ok(Some(outcome))) = (is_whole, &at_once, &outcome) {
        assert_eq!(at_once.handoff, outcome.handoff);
        for place in &outcome.handoff.places {
            let range = place.address as usize..(place.address + place.length) as usize;
            assert!(booted[range.clone()] == fetched[range]);
        }
    }
}

/// The target's entry for libFuzzer, or, where it is built without, a main function that runs files once.
#[macro_export]
macro_rules! target {
    ($run:path) => {
        /// # Safety
        ///
        /// The pointer is one to so many bytes.
        #[cfg(fuzzing)]
        #[unsafe(no_mangle)]
        pub unsafe extern "C" fn LLVMFuzzerTestOneInput(bytes: *const u8, length: usize) -> i32 {
            // SAFETY: libFuzzer gives so many; of none the pointer may be null.
            $run(if length == 0 { &[] } else { unsafe { core::slice::from_raw_parts(bytes, length) } });
            0
        }

        #[cfg(not(fuzzing))]
        fn main() {
            for path in std::env::args().skip(1) {
                $run(&std::fs::read(path).expect("an input"));
            }
        }
    };
}
