//! The calls of the package bootcore, told as those of `c_calls.rs`.

use bootcore::{Entry, Error, Handoff, Machine, Memory, Menu, Request, SecureBoot, Source};

use crate::told;

fn error_of(error: Error) -> String {
    match error {
        Error::Refused(refusal) => refusal.to_string(),
        Error::BadImage(fault) => fault.to_string(),
        Error::NoEntry(refused) => told::no_entry(&lines_of(&refused)),
        Error::NoMemory => "no memory".into(),
        Error::Outside => "outside".into(),
        Error::Misuse(misuse) => format!("misuse {}", misuse.number()),
        other => format!("{other:?}"),
    }
}

fn lines_of(refused: &[bootcore::RefusedEntry]) -> Vec<(u32, String)> {
    refused.iter().map(|one| (one.entry, one.refusal.to_string())).collect()
}

fn ended<T>(end: Result<T, Error>, tell: impl FnOnce(T) -> String) -> String {
    end.map_or_else(error_of, tell)
}

fn head_of(handoff: Handoff) -> Result<Vec<u8>, Error> {
    handoff.image_head()
}

pub fn status_text(status: u32) -> String {
    match status {
        4 => Error::NoMemory.to_string(),
        6 => Error::Outside.to_string(),
        misuse => bootcore::Misuse::from_number(misuse).to_string(),
    }
}

pub fn refusal_text(number: u32) -> String {
    if number < 71 {
        bootcore::Refusal::from_number(number, 0, 0).meaning().into()
    } else {
        bootcore::Fault::from_number(number, 0, 0).meaning().into()
    }
}

pub fn refusal_line(number: u32, first: u64, second: u64) -> String {
    if number < 71 {
        bootcore::Refusal::from_number(number, first, second).to_string()
    } else {
        bootcore::Fault::from_number(number, first, second).to_string()
    }
}

pub fn bad_region(machine: &Machine) -> Option<usize> {
    machine.bad_region()
}

pub fn load(base: u64, bytes: &mut [u8], machine: &Machine, entry: &Entry<'_>) -> Result<Vec<u8>, String> {
    let end = bootcore::load(&mut Memory::new(base, bytes), machine, entry);
    end.and_then(head_of).map_err(error_of)
}

pub fn prepare(machine: &Machine, entry: &Entry<'_>) -> Result<Vec<u8>, String> {
    bootcore::prepare(machine, entry).and_then(head_of).map_err(error_of)
}

pub fn unplaced(machine: &Machine, entry: &Entry<'_>) -> String {
    ended(bootcore::unplaced(machine, entry), |part| match part {
        None => "all have a place".into(),
        Some(part) => told::unplaced([
            part.role.number().into(),
            part.index.into(),
            part.length,
            part.alignment,
            part.low,
            part.high,
            part.address,
            part.choice.number().into(),
        ]),
    })
}

pub struct Plan(bootcore::Plan);

pub fn plan(machine: &Machine, entry: &Entry<'_>) -> Result<Plan, String> {
    bootcore::Plan::new(machine, entry).map(Plan).map_err(error_of)
}

impl Plan {
    pub fn told(&self) -> String {
        let head = self.0.handoff().image_head().unwrap();
        let steps = self.0.steps().map(|step| match step.source {
            Source::File { file, offset } => told::step(step.address, step.length, Some((file, offset)), &[]),
            Source::Own(bytes) => told::step(step.address, step.length, None, bytes),
            _ => told::step(step.address, step.length, None, &[]),
        });
        told::plan(&head, steps)
    }

    pub fn carry_out(&self, files: &[&[u8]], pieces: &mut [(u64, &mut [u8])]) -> String {
        let pieces = pieces.iter_mut().map(|(address, bytes)| Memory::new(*address, bytes));
        let mut pieces: Vec<_> = pieces.collect();
        let memory: &mut [Memory<'_>] = &mut pieces;
        ended(self.0.carry_out(files, memory), |()| "carried out".into())
    }
}

fn booted(booted: bootcore::Booted) -> String {
    let head = booted.handoff.image_head().unwrap();
    told::booted(booted.handoff.entry, &head, &lines_of(&booted.refusals))
}

pub fn boot(base: u64, bytes: &mut [u8], machine: &Machine, menu: &Menu<'_>) -> String {
    ended(bootcore::boot(&mut Memory::new(base, bytes), machine, menu), booted)
}

pub struct Session<'m>(bootcore::Session<'m>);

fn progress(end: Result<bootcore::Progress, Error>) -> String {
    ended(end, |progress| format!("{progress:?}").to_lowercase())
}

impl<'m> Session<'m> {
    pub fn new(base: u64, bytes: &'m mut [u8], machine: &Machine, menu: &Menu<'_>) -> Result<Session<'m>, String> {
        let made = bootcore::Session::new(Memory::new(base, bytes), machine, menu);
        made.map(Session).map_err(error_of)
    }

    pub fn start(&mut self) -> String {
        progress(self.0.start())
    }

    pub fn pieces(&mut self, request: &Request, bytes: &[u8]) -> String {
        progress(self.0.pieces(request, bytes))
    }

    pub fn fault(&mut self, request: &Request) -> String {
        progress(self.0.fault(request))
    }

    pub fn missing(&self, most: usize) -> Option<Request> {
        self.0.missing(most)
    }

    pub fn missing_after(&self, request: &Request, most: usize) -> Option<Request> {
        self.0.missing_after(request, most)
    }

    pub fn outcome(&self) -> String {
        ended(self.0.outcome(), |outcome| outcome.map_or("waits".into(), booted))
    }
}

pub fn read_head(head: &[u8]) -> Result<Vec<u8>, String> {
    Handoff::from_image_head(head).and_then(head_of).map_err(error_of)
}

fn secure_boot_number(secure_boot: SecureBoot) -> u64 {
    let all = [SecureBoot::NotTold, SecureBoot::Unknown, SecureBoot::Disabled, SecureBoot::Enabled];
    all.iter().position(|one| *one == secure_boot).unwrap() as u64
}

pub fn walk(image: &[u8]) -> Result<told::Seen, String> {
    let seen = bootcore::walk(image).map_err(error_of)?;
    let color = |color: bootcore::Color| (color.position, color.size);
    let pair = |range: bootcore::Range| (range.address, range.length);
    let module = |module: bootcore::SeenModule| {
        let (address, length) = pair(module.file);
        (address, length, module.line)
    };
    let run = |run: bootcore::Run| (run.range.address, run.range.length, run.number);
    Ok(told::Seen {
        protocol: seen.protocol.number(),
        entry_address: seen.entry_address,
        line: seen.line,
        kernel_parts: seen.kernel_parts.into_iter().map(pair).collect(),
        modules: seen.modules.into_iter().map(module).collect(),
        runs: seen.runs.into_iter().map(run).collect(),
        initrd: seen.initrd.map(pair),
        rsdp: [seen.rsdp_old, seen.rsdp_new],
        screen: seen.firmware.screen.map(|screen| told::Screen {
            numbers: [screen.base, screen.pitch.into(), screen.width.into(), screen.height.into(), screen.depth.into()],
            colors: [color(screen.red), color(screen.green), color(screen.blue)],
        }),
        rsdp_address: seen.firmware.rsdp,
        efi: seen.firmware.efi.map(|efi| told::Efi {
            numbers: [
                if efi.bits == bootcore::EfiBits::Bits32 { 32 } else { 64 },
                efi.system_table,
                efi.map_address,
                efi.map_length,
                efi.descriptor_size.into(),
                efi.descriptor_version.into(),
                secure_boot_number(efi.secure_boot),
            ],
            map: efi.map,
        }),
        smbios: seen.firmware.smbios.map(|smbios| (smbios.major, smbios.minor, smbios.tables)),
    })
}

fn digests_told(digests: bootcore::Digests) -> String {
    let parts = digests.parts.iter().map(|part| {
        let place = &part.place;
        (place.role.number(), place.index, place.address, place.length, part.sha256)
    });
    let (image, head) = (&digests.image, &digests.head);
    told::digests(digests.image_length, image, digests.head_length, head, parts)
}

pub fn digest(machine: &Machine, entry: &Entry<'_>) -> String {
    ended(bootcore::digest(machine, entry), digests_told)
}

pub struct Digest(bootcore::Digest);

impl Digest {
    pub fn new(machine: &Machine, entry: &Entry<'_>) -> Result<Digest, String> {
        bootcore::Digest::new(machine, entry).map(Digest).map_err(error_of)
    }

    pub fn wanted(&self) -> Option<(usize, u64, u64)> {
        self.0.wanted().map(|range| (range.file, range.offset, range.length))
    }

    pub fn feed(&mut self, bytes: &[u8]) -> String {
        ended(self.0.feed(bytes), |()| "fed".into())
    }

    pub fn finish(&self) -> String {
        ended(self.0.finish(), |digests| digests.map_or("waits".into(), digests_told))
    }
}
