// Included once for each that is called, whose calls are `calls`.

use bootcore::{Color, Efi, EfiBits, Entry, File, Firmware, Kind, Linux, Machine, Menu, Multiboot2, Screen, SecureBoot, Smbios};

use crate::told;

const FIRST: &str = include_str!(concat!(env!("BOOTCORE_EXAMPLES"), "/first.toml"));
const SECOND: &str = include_str!(concat!(env!("BOOTCORE_EXAMPLES"), "/second.toml"));
const SIZE: usize = 0x400000;
const POOL: u64 = 0x300000;

/// The bytes of the first file of a description.
fn first_file(description: &str) -> Vec<u8> {
    let value = description.split("hex = ").nth(1).unwrap();
    let quotes = if value.starts_with("\"\"\"") { "\"\"\"" } else { "\"" };
    let digits = value.split(quotes).nth(1).unwrap().bytes().filter(u8::is_ascii_hexdigit);
    let digits: Vec<u8> = digits.collect();
    let byte = |pair: &[u8]| u8::from_str_radix(std::str::from_utf8(pair).unwrap(), 16).unwrap();
    digits.chunks(2).map(byte).collect()
}

/// Numbers that a seed decides.
struct Drawn(u64);

impl Drawn {
    fn next(&mut self) -> u64 {
        self.0 ^= self.0 << 13;
        self.0 ^= self.0 >> 7;
        self.0 ^= self.0 << 17;
        self.0
    }

    fn below(&mut self, most: u64) -> u64 {
        self.next() % most
    }

    fn one_in(&mut self, count: u64) -> bool {
        self.below(count) == 0
    }

    /// A number near a border.
    fn number(&mut self) -> u64 {
        let borders = [0, 4096, 1 << 20, SIZE as u64, 1 << 30, 1 << 32, 1 << 40, 1 << 52, 1 << 63, u64::MAX];
        let border = borders[self.below(10) as usize];
        match self.below(4) {
            0 => border.wrapping_sub(self.below(5000)),
            1 => border.wrapping_add(self.below(5000)),
            _ => border,
        }
    }

    fn kind(&mut self) -> Kind {
        Kind::from_number(self.below(5) as u32 + 1).unwrap()
    }

    fn color(&mut self) -> Color {
        Color::new(self.below(33) as u8, 8)
    }

    fn screen(&mut self) -> Screen {
        let right = |position| Color::new(position, 8);
        let screen = Screen::new(0xE000_0000).size(1024, 768).pitch(4096);
        let screen = screen.colors(right(16), right(8), right(0));
        match self.below(8) {
            0 => Screen::new(self.number()).size(800, 600).pitch(3200).colors(right(16), right(8), right(0)),
            1 => screen.pitch(self.number() as u32),
            2 => screen.size(self.number() as u32, self.number() as u32),
            3 => screen.depth(self.below(34) as u8),
            4 => screen.colors(self.color(), self.color(), self.color()),
            _ => screen,
        }
    }

    fn efi(&mut self) -> Efi {
        let bits = if self.one_in(3) { EfiBits::Bits32 } else { EfiBits::Bits64 };
        let (mut system_table, mut address, mut size) = (0x7E9E_C018, 0xF8000, 48);
        match self.below(10) {
            0 => system_table = self.number(),
            1 => address = self.number(),
            2 => size = self.number() as u32,
            _ => {}
        }
        let map = vec![1; self.below(4) as usize * 48 + self.one_in(10) as usize];
        let states = [SecureBoot::NotTold, SecureBoot::Unknown, SecureBoot::Disabled, SecureBoot::Enabled];
        let mut efi = Efi::new(bits, system_table).map(map, size, address);
        efi.secure_boot = states[self.below(4) as usize];
        efi.descriptor_version = if self.one_in(20) { 2 } else { 1 };
        efi
    }

    fn firmware(&mut self) -> Firmware {
        let mut firmware = Firmware::new();
        if self.one_in(2) {
            firmware.screen = Some(self.screen());
        }
        if self.one_in(2) {
            firmware.rsdp = Some(if self.one_in(4) { self.number() } else { 0xE0000 });
        }
        if self.one_in(2) {
            firmware.efi = Some(self.efi());
        }
        if self.one_in(2) {
            let length = if self.one_in(6) { self.below(70000) } else { self.below(99) };
            firmware.smbios = Some(Smbios::new(3, self.below(9) as u8, vec![5; length as usize]));
        }
        for _ in 0..if self.one_in(50) { 130 } else { self.below(3) } {
            let start = if self.one_in(9) { self.number() } else { self.below(POOL) };
            let length = if self.one_in(9) { self.number() } else { self.below(0x2000) };
            firmware.avoided.push(start..start.wrapping_add(length));
        }
        firmware
    }

    fn machine(&mut self) -> Machine {
        let mut machine = Machine::new(SIZE as u64)
            .region(0, 0x9F000, Kind::Usable)
            .region(0xF0000, 0x10000, Kind::Reserved)
            .region(0x100000, 0x300000, Kind::Usable)
            .pool(POOL, SIZE as u64 - POOL);
        for _ in 0..if self.one_in(60) { 140 } else { self.below(9).saturating_sub(6) } {
            machine = machine.region(self.number(), self.number(), self.kind());
        }
        match self.below(20) {
            0 => machine.size = self.number(),
            1 => machine = machine.pool(self.number(), self.number()),
            2 => machine = machine.pool(0x1000, 0x10000),
            3 => machine.pool_length = 4096 * self.below(4),
            _ => {}
        }
        if self.one_in(2) {
            machine.firmware = self.firmware();
        }
        machine
    }

    fn kernel(&mut self, which: usize) -> Vec<u8> {
        let mut kernel = first_file(if which == 0 { FIRST } else { SECOND });
        if which == 2 {
            kernel[0x236] = 1;
            kernel.resize(kernel.len() + 0x200, 0);
        }
        for _ in 0..self.below(7).saturating_sub(3) {
            let at = self.below(kernel.len().min(0x300) as u64 - 8) as usize / 4 * 4;
            let number = self.number();
            match self.below(2) {
                0 => kernel[at..at + 4].copy_from_slice(&(number as u32).to_le_bytes()),
                _ => kernel[at] = number as u8,
            }
        }
        if self.one_in(12) {
            kernel.truncate(self.below(kernel.len() as u64) as usize + 8);
        }
        kernel
    }

    fn line(&mut self) -> String {
        let length = [1, 10, 255, 256, 4095, 4096][self.below(6) as usize];
        if self.one_in(20) { "a\0b".into() } else { "l".repeat(length) }
    }
}

/// What an entry is made of: the kernel's protocol, files and lines.
struct Given {
    which: usize,
    kernel: Vec<u8>,
    sides: Vec<(Vec<u8>, String)>,
    line: String,
    copies: [Vec<u8>; 2],
}

impl Given {
    fn drawn(drawn: &mut Drawn) -> Given {
        let which = drawn.below(3) as usize;
        let count = match which {
            0 if drawn.one_in(40) => 60 + drawn.below(8),
            0 => drawn.below(4),
            _ => drawn.below(2),
        };
        let sides = (0..count).map(|i| {
            let most = if drawn.one_in(9) { 0x200000 } else { 9000 };
            let length = drawn.below(most) as usize;
            ((0..length).map(|k| (k * 7 + i as usize) as u8).collect(), drawn.line())
        });
        let sides = sides.collect();
        let copy = |drawn: &mut Drawn| vec![9; [0, 0, 20, 36, 256, 257][drawn.below(6) as usize]];
        let copies = [copy(drawn), copy(drawn)];
        Given { which, kernel: drawn.kernel(which), sides, line: drawn.line(), copies }
    }

    /// With each file as `file` has it, the kernel's number 0.
    fn entry<'a>(&'a self, file: impl Fn(usize, &'a [u8]) -> File<'a>) -> Entry<'a> {
        let kernel = file(0, &self.kernel);
        if self.which == 0 {
            let entry = Multiboot2::new(kernel).line(&self.line);
            let entry = entry.rsdp_old(&self.copies[0]).rsdp_new(&self.copies[1]);
            let sides = self.sides.iter().enumerate();
            return sides.fold(entry, |entry, (i, (bytes, line))| entry.module(file(i + 1, bytes), line)).into();
        }
        let entry = if self.which == 1 { Linux::new(kernel) } else { Linux::new64(kernel) };
        let entry = entry.line(&self.line);
        match self.sides.first() {
            Some((bytes, _)) => entry.initrd(file(1, bytes)).into(),
            None => entry.into(),
        }
    }

    fn files(&self) -> Vec<&[u8]> {
        let sides = self.sides.iter().map(|(bytes, _)| &bytes[..]);
        std::iter::once(&self.kernel[..]).chain(sides).collect()
    }
}

fn sum(bytes: &[u8]) -> u64 {
    bytes.chunks(8).fold(bytes.len() as u64, |sum, word| {
        let mut whole = [0; 8];
        whole[..word.len()].copy_from_slice(word);
        (sum ^ u64::from_le_bytes(whole)).wrapping_mul(0x9E3779B97F4A7C15).rotate_left(23)
    })
}

fn length_of(bytes: &[u8]) -> File<'static> {
    File::Length(bytes.len() as u64)
}

/// What a call said, with a name.
struct Said(Vec<String>);

impl Said {
    fn says(&mut self, name: &str, told: impl Into<String>) {
        self.0.push(format!("{name}: {}", told.into()));
    }
}

fn plans(said: &mut Said, drawn: &mut Drawn, machine: &Machine, entry: &Entry<'_>, files: &[&[u8]]) {
    match calls::plan(machine, entry) {
        Ok(plan) => {
            said.says("plan", plan.told());
            let mut guest = vec![0xA5; SIZE];
            let (low, high) = guest.split_at_mut(drawn.below(SIZE as u64) as usize);
            let cut = low.len() as u64 + drawn.one_in(9) as u64;
            let files = &files[..files.len() - drawn.one_in(9) as usize];
            said.says("carry out", plan.carry_out(files, &mut [(cut, high), (0, low)]));
            said.says("carried out", sum(&guest).to_string());
        }
        Err(why) => said.says("plan", why),
    }
}

fn digests(said: &mut Said, drawn: &mut Drawn, machine: &Machine, entry: &Entry<'_>) {
    match calls::Digest::new(machine, entry) {
        Ok(mut digest) => {
            while let Some((file, offset, length)) = digest.wanted() {
                said.says("wanted", format!("{file} {offset} {length} {}", digest.finish()));
                if length > 1 << 22 {
                    break;
                }
                let count = match drawn.below(6) {
                    0 => length + 1,
                    1 => drawn.below(length + 1),
                    _ => length,
                };
                said.says("feed", digest.feed(&vec![1; count as usize]));
            }
            said.says("more", digest.feed(b"1"));
            said.says("finish", digest.finish());
        }
        Err(why) => said.says("digest of pieces", why),
    }
}

fn sessions(said: &mut Said, drawn: &mut Drawn, mut session: calls::Session<'_>, menu: &[&Given]) {
    said.says("missing before", format!("{:?}", session.missing(1)));
    said.says("start", session.start());
    for _ in 0..40 {
        let most = drawn.below(20000) as usize;
        let Some(mut request) = session.missing(most) else { break };
        said.says("missing", format!("{request:?} {}", session.outcome()));
        let after = session.missing_after(&request, most);
        said.says("after", format!("{after:?}"));
        if drawn.one_in(3) {
            request = after.unwrap_or(request);
        }
        match drawn.below(12) {
            0 => request.attempt = request.attempt.wrapping_sub(1),
            1 => request.piece = request.piece.wrapping_add(drawn.number() as u32),
            2 => request.file = drawn.below(4) as u32,
            _ => {}
        }
        let files = menu.get(request.entry as usize).map(|given| given.files()).unwrap_or_default();
        let file = files.get(request.file as usize).copied().unwrap_or_default();
        let bytes = file.get(request.offset() as usize..).unwrap_or_default();
        let bytes = &bytes[..bytes.len().min(request.length as usize)];
        let end = match drawn.below(30) {
            0 => session.fault(&request),
            1 => session.pieces(&request, &[bytes, b"x"].concat()),
            2 => session.pieces(&request, &bytes[..bytes.len() / 2]),
            3 => session.pieces(&request, &[]),
            _ => session.pieces(&request, bytes),
        };
        said.says("came", end);
        said.says("behind", format!("{:?}", session.missing_after(&request, most)));
    }
    said.says("outcome", session.outcome());
    said.says("again", session.start());
}

fn images(said: &mut Said, drawn: &mut Drawn, head: &[u8], guest: &[u8]) {
    let mut image = head.to_vec();
    for place in head[272..].chunks(24) {
        let number = |at: usize| u64::from_le_bytes(place[at..at + 8].try_into().unwrap()) as usize;
        image.extend_from_slice(&guest[number(8)..][..number(16)]);
    }
    for round in 0..5 {
        if round > 0 {
            let at = drawn.below(image.len().min(8000) as u64) as usize;
            image[at] = drawn.next() as u8;
        }
        said.says("walk", format!("{:x?}", calls::walk(&image)));
        let read = calls::read_head(&image);
        said.says("head", read.map_or_else(|why| why, |head| told::hex(&head)));
    }
    let cut = drawn.below(image.len() as u64) as usize;
    said.says("walk, cut", format!("{:x?}", calls::walk(&image[..cut])));
}

/// The machine of a case, with the memory that it is booted in, from an address on.
fn memory(drawn: &mut Drawn) -> (u64, Vec<u8>) {
    let base = if drawn.one_in(4) { drawn.below(3) * 4096 } else { 0 };
    let more = if drawn.one_in(12) { [4096, 1, 8192][drawn.below(3) as usize] } else { 0 };
    (base, vec![0xA5; SIZE - base as usize + more])
}

/// All that is said in a case, and how its load ended: loaded, refused, misused, otherwise.
pub fn case(seed: u64) -> (Vec<String>, usize) {
    let mut drawn = Drawn(seed);
    let mut said = Said(Vec::new());
    let machine = drawn.machine();
    let given = [Given::drawn(&mut drawn), Given::drawn(&mut drawn)];
    let odd = drawn.number();
    let whole = given[0].entry(|_, bytes| bytes.into());
    let of_lengths = given[0].entry(|i, bytes| if i == 0 { bytes.into() } else { length_of(bytes) });
    let of_an_odd = given[1].entry(|i, bytes| if i == 0 { bytes.into() } else { File::Length(odd) });
    let files = given[0].files();

    said.says("bad region", format!("{:?}", calls::bad_region(&machine)));
    for entry in [&whole, &of_lengths, &of_an_odd] {
        let prepared = calls::prepare(&machine, entry);
        said.says("prepare", prepared.map_or_else(|why| why, |head| told::hex(&head)));
        said.says("unplaced", calls::unplaced(&machine, entry));
        plans(&mut said, &mut drawn, &machine, entry, &files);
        digests(&mut said, &mut drawn, &machine, entry);
        said.says("digest", calls::digest(&machine, entry));
    }

    let (base, mut guest) = memory(&mut drawn);
    let end = calls::load(base, &mut guest, &machine, &whole);
    said.says("loaded", sum(&guest).to_string());
    let which = match &end {
        Ok(_) => 0,
        Err(why) if why.starts_with("refused") => 1,
        Err(why) if why.starts_with("misuse") => 2,
        Err(_) => 3,
    };
    match end {
        Ok(head) => {
            said.says("load", told::hex(&head));
            let whole = [vec![0; base as usize], guest].concat();
            images(&mut said, &mut drawn, &head, &whole);
        }
        Err(why) => said.says("load", why),
    }

    let drawn_file = |kind: u64, bytes: &'static [u8]| match kind {
        0 => File::Unreadable,
        _ => File::Bytes(bytes),
    };
    let other = given[1].entry(|i, bytes| match drawn_file(odd % 7 + i as u64, &[]) {
        File::Unreadable => File::Unreadable,
        _ => bytes.into(),
    });
    let mut menu = Menu::new().entry(other).entry(whole.clone()).first(drawn.below(5) as u32 % 3);
    for _ in 0..drawn.below(4) {
        menu = menu.fallback(drawn.below(9) as u32 / 4);
    }
    if drawn.one_in(60) {
        menu = (0..33).fold(menu, |menu, _| menu.entry(Linux::new(b"none")));
    }
    let (base, mut guest) = memory(&mut drawn);
    said.says("boot", calls::boot(base, &mut guest, &machine, &menu));
    said.says("booted", sum(&guest).to_string());

    let mut guest = vec![0xA5; guest.len()];
    match calls::Session::new(base, &mut guest, &machine, &menu) {
        Ok(session) => sessions(&mut said, &mut drawn, session, &[&given[1], &given[0]]),
        Err(why) => said.says("session", why),
    }
    said.says("after the session", sum(&guest).to_string());
    (said.0, which)
}
