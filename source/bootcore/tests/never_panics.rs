//! Whatever is given, no call panics, with the sums of a debug build checked; and a refusal changes
//! no byte.

mod common;

use bootcore::*;
use common::*;

struct Random(u64);

impl Random {
    fn next(&mut self) -> u64 {
        self.0 ^= self.0 << 13;
        self.0 ^= self.0 >> 7;
        self.0 ^= self.0 << 17;
        self.0
    }

    fn below(&mut self, most: u64) -> u64 {
        self.next() % most
    }

    /// A number near a border.
    fn number(&mut self) -> u64 {
        let borders = [0, 4096, 1 << 20, SIZE as u64, 1 << 30, 1 << 32, 1 << 40, 1 << 52, 1 << 63, u64::MAX];
        let border = borders[self.below(10) as usize];
        match self.below(4) {
            0 => border.wrapping_sub(self.below(5000)),
            1 => border.wrapping_add(self.below(5000)),
            _ => border,
        }
    }

    fn kind(&mut self) -> Kind {
        Kind::from_number(self.below(5) as u32 + 1).unwrap()
    }

    fn machine(&mut self) -> Machine {
        let mut machine = machine();
        for _ in 0..self.below(9).saturating_sub(6) {
            machine = machine.region(self.number(), self.number(), self.kind());
        }
        match self.below(15) {
            0 => machine.size = self.number(),
            1 => machine = machine.pool(self.number(), self.number()),
            2 => machine.firmware.avoided.push(self.number()..self.number()),
            3 => {
                machine.firmware.rsdp = Some(self.number());
                machine.firmware.screen = Some(screen(self.number()));
                machine.firmware.smbios = Some(Smbios::new(3, 0, vec![0; self.below(70000) as usize]));
            }
            4 => {
                let bits = if self.below(2) == 0 { EfiBits::Bits32 } else { EfiBits::Bits64 };
                let map = vec![0; self.below(3) as usize * 48];
                machine.firmware.efi = Some(Efi::new(bits, self.number()).map(map, 48, self.number()));
            }
            _ => {}
        }
        machine
    }

    fn file(&mut self, base: &[u8]) -> Vec<u8> {
        let mut file = base.to_vec();
        for _ in 0..self.below(4) {
            let at = self.below(file.len().min(0x300) as u64 - 8) as usize / 4 * 4;
            let number = self.number();
            match self.below(2) {
                0 => file[at..at + 4].copy_from_slice(&(number as u32).to_le_bytes()),
                _ => file[at] = number as u8,
            }
        }
        if self.below(8) == 0 {
            file.truncate(self.below(file.len() as u64) as usize + 8);
        }
        file
    }
}

#[test]
fn whatever_is_given() {
    let kernels = [multiboot2_kernel(), linux_kernel(), linux64_kernel()];
    let mut random = Random(0x9E3779B97F4A7C15);
    let mut counts = [0u32; 4]; // loaded, refused, misused, other
    let rounds = std::env::var("ROUNDS").map_or(300, |rounds| rounds.parse().unwrap());
    let (mut guest, untouched) = (memory(), memory());
    for _ in 0..rounds {
        let machine = random.machine();
        let which = random.below(3) as usize;
        let kernel = random.file(&kernels[which]);
        let (side, count) = (vec![7; random.below(9000) as usize], random.below(70).saturating_sub(60));
        let entry: Entry<'_> = match which {
            0 => (0..count).fold(Multiboot2::new(&kernel).line("k"), |entry, _| entry.module(&side, "m")).into(),
            1 => Linux::new(&kernel).initrd(&side).into(),
            _ => Linux::new64(&kernel).line("k").into(),
        };
        let of_length: Entry<'_> = Linux::new64(&kernel).initrd(File::Length(random.number())).into();
        let _ = (prepare(&machine, &of_length), unplaced(&machine, &of_length), Plan::new(&machine, &of_length));
        #[cfg(feature = "digest")]
        let _ = Digest::new(&machine, &of_length);
        let base = if random.below(4) == 0 { random.below(3) * 4096 } else { 0 };
        let end = load(&mut Memory::new(base, &mut guest[base as usize..]), &machine, &entry);
        counts[match &end {
            Ok(_) => 0,
            Err(Error::Refused(_)) => 1,
            Err(Error::Misuse(_)) => 2,
            Err(_) => 3,
        }] += 1;
        match end {
            Ok(handoff) => {
                let image = handoff.places.iter().fold(handoff.image_head().unwrap(), |image, place| {
                    [&image[..], &guest[(place.address) as usize..][..place.length as usize]].concat()
                });
                assert_eq!(Handoff::from_image_head(&image), Ok(handoff.clone()));
                walk(&image).unwrap();
                let mut changed = image.clone();
                for _ in 0..4 {
                    let at = random.below(changed.len().min(5000) as u64) as usize;
                    changed[at] = random.next() as u8;
                }
                let _ = walk(&changed);
                #[cfg(feature = "digest")]
                assert_eq!(digest(&machine, &entry).unwrap().image_length, image.len() as u64);
                guest.fill(0xA5);
            }
            Err(_) => assert!(guest == untouched),
        }
        let menu = Menu::new().entry(of_length).entry(entry.clone()).first(random.below(3) as u32).fallback(1).fallback(0);
        if let Ok(mut session) = Session::new(Memory::new(base, &mut guest[base as usize..]), &machine, &menu) {
            let _ = session.start();
            for _ in 0..6 {
                let mut request = session.missing(random.below(20000) as usize).unwrap_or_default();
                let bytes = vec![0; (request.length + random.below(2)).min(1 << 20) as usize];
                let _ = session.pieces(&request, &bytes);
                request.piece = request.piece.wrapping_sub(random.below(2) as u32);
                request.attempt = request.attempt.wrapping_sub(random.below(2) as u32);
                request.file = random.number() as u32;
                let _ = (session.missing_after(&request, usize::MAX), session.pieces(&request, &[0; 5000]));
            }
            let _ = (session.fault(&session.missing(1).unwrap_or_default()), session.outcome());
        }
        let _ = boot(&mut Memory::new(base, &mut guest[base as usize..]), &machine, &Menu::new().entry(entry));
        guest.fill(0xA5);
    }
    println!("loaded, refused, misused, other: {counts:?}");
    assert!(counts[..3].iter().all(|count| *count > 0));
}
