//! The calls of bootcore.h for the drivers in Rust: from what the package bootcore has for a
//! machine, an entry and a menu, as text in one form, and as `facade.rs` tells what the package does.
//! Safe for these drivers alone: memory is a slice, and each pointer that is passed is made of a slice
//! or a vector that stands during the call.

use std::ffi::{CStr, c_char, c_void};
use std::mem::MaybeUninit;
use std::ptr::{null, null_mut};

use bootcore::{EfiBits, File, SecureBoot};

use crate::told;

const DONE: u32 = 0;
const REFUSED: u32 = 1;
const WAITING: u32 = 2;
const NEXT: u32 = 3;
const NO_MEMORY: u32 = 4;
const FAILED: u32 = 5;
const OUTSIDE: u32 = 6;
const SMALL_ROOM: u32 = 104;
const ABSENT: u64 = u64::MAX;

/// Records of the headers. Each is numbers and pointers, of which 0 is one.
macro_rules! records {
    ($($name:ident { $($field:ident: $kind:ty,)* })*) => {
        $(
            #[derive(Clone, Copy)]
            #[repr(C)]
            struct $name {
                $($field: $kind,)*
            }

            impl $name {
                #[allow(dead_code)] // not all are made so
                fn zero() -> $name {
                    // SAFETY: its fields are numbers and pointers, of which 0 is one
                    unsafe { MaybeUninit::zeroed().assume_init() }
                }
            }
        )*
    };
}

records! {
    Bytes { bytes: *const c_void, length: usize, }
    Region { base: u64, length: u64, kind: u32, reserved: u32, }
    Machine {
        size: u64, pool_base: u64, pool_length: u64, regions: *const Region, region_count: usize,
        firmware: *const Firmware, reserved: [u64; 3],
    }
    Color { position: u8, size: u8, }
    Screen {
        base: u64, pitch: u32, width: u32, height: u32, depth: u8, reserved8: u8,
        red: Color, green: Color, blue: Color, reserved32: u32,
    }
    Efi {
        system_table: u64, map: Bytes, map_address: u64, bits: u32, descriptor_size: u32,
        descriptor_version: u32, secure_boot: u32,
    }
    Smbios { tables: Bytes, major: u8, minor: u8, reserved16: u16, reserved32: u32, }
    Avoided { base: u64, length: u64, }
    Firmware {
        screen: Screen, rsdp: u64, efi: Efi, smbios: Smbios, avoided: *const Avoided,
        avoided_count: usize, reserved: [u64; 6],
    }
    Module { file: Bytes, line: Bytes, reserved: [u64; 2], }
    Entry {
        protocol: u32, reserved32: u32, kernel: Bytes, line: Bytes, initrd: Bytes, rsdp_old: Bytes,
        rsdp_new: Bytes, modules: *const Module, module_count: usize, reserved: [u64; 4],
    }
    Memory { address: u64, bytes: *mut c_void, length: usize, reserved: u64, }
    Place { role: u32, index: u32, address: u64, length: u64, reserved: u64, }
    Handoff { entry: u32, protocol: u32, place_count: u32, reserved: u32, registers: [u64; 36], }
    Refusal { entry: u32, number: u32, first: u64, second: u64, reserved: u64, }
    Outcome {
        places: *mut Place, place_room: usize, refusals: *mut Refusal, refusal_room: usize,
        handoff: Handoff, refusal_count: usize, reserved: [u64; 4],
    }
    Step { address: u64, length: u64, offset: u64, source: u32, file: u32, reserved: u64, }
    Layout {
        places: *mut Place, place_room: usize, steps: *mut Step, step_room: usize, own: *mut u8,
        own_room: usize, handoff: Handoff, place_count: usize, step_count: usize,
        own_length: usize, refusal: Refusal, planned: u64, reserved: [u64; 4],
    }
    UnplacedPart {
        role: u32, index: u32, length: u64, alignment: u64, low: u64, high: u64, address: u64,
        choice: u32, reserved: u32,
    }
    Menu {
        entries: *const Entry, entry_count: usize, fallbacks: *const u32, fallback_count: usize,
        first: u32, reserved32: u32, reserved: [u64; 4],
    }
    Request {
        entry: u32, attempt: u32, file: u32, piece: u32, length: u64, reserved: u64,
    }
    KeptStruct { kept: *mut c_void, }
    Range { offset: u64, length: u64, }
    Seen {
        protocol: u32, reserved32: u32, kernel_part_count: u64, module_count: u64, run_count: u64,
        entry_address: u64, line_length: u64, initrd: u64, initrd_length: u64, text_length: u64,
        rsdp_old: Range, rsdp_new: Range, reserved: [u64; 4],
    }
    SeenPart { address: u64, length: u64, reserved: u64, }
    SeenModule { address: u64, length: u64, line: Range, reserved: u64, }
    SeenEfi {
        system_table: u64, map_address: u64, map_length: u64, bits: u32, descriptor_size: u32,
        descriptor_version: u32, secure_boot: u32, map: Range,
    }
    SeenSmbios { tables: Range, major: u8, minor: u8, reserved16: u16, reserved32: u32, }
    SeenFirmware { screen: Screen, rsdp: u64, efi: SeenEfi, smbios: SeenSmbios, reserved: [u64; 4], }
    SeenArrays {
        kernel_parts: *mut SeenPart, kernel_part_room: usize, modules: *mut SeenModule,
        module_room: usize, runs: *mut Region, run_room: usize, text: *mut u8, text_room: usize,
        firmware: *mut SeenFirmware, reserved: [u64; 3],
    }
    FileRange { file: u64, offset: u64, length: u64, reserved: u64, }
    PartDigest { place: Place, sha256: [u8; 32], reserved: u64, }
    Digests {
        image_length: u64, head_length: u64, image_sha256: [u8; 32], head_sha256: [u8; 32],
        part_count: u64, reserved: [u64; 4],
    }
}

/// Functions of the headers, by the convention of the archive's machine.
macro_rules! functions {
    ($($lines:tt)*) => {
        // SAFETY: they are as the headers declare them
        #[cfg(target_arch = "x86_64")]
        unsafe extern "sysv64" {
            $($lines)*
        }
        // SAFETY: as above
        #[cfg(not(target_arch = "x86_64"))]
        unsafe extern "C" {
            $($lines)*
        }
    };
}

functions! {
    fn bootcore_bad_region(machine: *const Machine) -> usize;
    fn bootcore_load(
        memory: *const Memory, machine: *const Machine, entry: *const Entry, outcome: *mut Outcome,
    ) -> u32;
    fn bootcore_prepare(machine: *const Machine, entry: *const Entry, outcome: *mut Outcome) -> u32;
    fn bootcore_plan(machine: *const Machine, entry: *const Entry, layout: *mut Layout) -> u32;
    fn bootcore_unplaced(
        machine: *const Machine, entry: *const Entry, part: *mut UnplacedPart, refusal: *mut Refusal,
    ) -> u32;
    fn bootcore_carry_out(
        layout: *const Layout, files: *const Bytes, file_count: usize, memory: *const Memory,
        memory_count: usize,
    ) -> u32;
    fn bootcore_boot(
        memory: *const Memory, machine: *const Machine, menu: *const Menu, outcome: *mut Outcome,
    ) -> u32;
    fn bootcore_session_make(
        session: *mut KeptStruct, machine: *const Machine, menu: *const Menu,
    ) -> u32;
    fn bootcore_session_start(session: *mut KeptStruct, memory: *const Memory) -> u32;
    fn bootcore_session_pieces(
        session: *mut KeptStruct, memory: *const Memory, request: *const Request,
        bytes: *const c_void, length: usize,
    ) -> u32;
    fn bootcore_session_fault(
        session: *mut KeptStruct, memory: *const Memory, request: *const Request,
    ) -> u32;
    fn bootcore_session_missing(
        session: *const KeptStruct, most: usize, request: *mut Request,
    ) -> bool;
    fn bootcore_session_missing_after(
        session: *const KeptStruct, most: usize, request: *mut Request,
    ) -> bool;
    fn bootcore_session_outcome(session: *const KeptStruct, outcome: *mut Outcome) -> u32;
    fn bootcore_session_free(session: *mut KeptStruct);
    fn bootcore_status_text(status: u32) -> *const c_char;
    fn bootcore_refusal_text(number: u32) -> *const c_char;
    fn bootcore_refusal_line(refusal: *const Refusal, buffer: *mut c_char, length: usize) -> usize;
    fn bootcore_image_head(
        handoff: *const Handoff, places: *const Place, head: *mut u8, length: usize,
    ) -> usize;
    fn bootcore_image_head_read(
        head: *const c_void, length: usize, handoff: *mut Handoff, places: *mut Place,
        place_room: usize, fault: *mut Refusal,
    ) -> u32;
    fn bootcore_walk_all(
        image: *const c_void, image_length: usize, seen: *mut Seen, arrays: *const SeenArrays,
        fault: *mut Refusal,
    ) -> u32;
    fn bootcore_digest_make(
        digest: *mut KeptStruct, machine: *const Machine, entry: *const Entry,
        refusal: *mut Refusal,
    ) -> u32;
    fn bootcore_digest_wanted(digest: *const KeptStruct, range: *mut FileRange) -> bool;
    fn bootcore_digest_feed(digest: *mut KeptStruct, bytes: *const c_void, length: usize) -> u32;
    fn bootcore_digest_told(
        digest: *const KeptStruct, digests: *mut Digests, parts: *mut PartDigest, room: usize,
    ) -> u32;
    fn bootcore_digest_free(digest: *mut KeptStruct);
    fn bootcore_digest_entry(
        machine: *const Machine, entry: *const Entry, digests: *mut Digests,
        parts: *mut PartDigest, room: usize, refusal: *mut Refusal,
    ) -> u32;
}

// ---- what is given

fn bytes_of(bytes: &[u8]) -> Bytes {
    Bytes { bytes: bytes.as_ptr().cast(), length: bytes.len() }
}

fn file_of(file: File<'_>) -> Bytes {
    match file {
        File::Bytes(bytes) => bytes_of(bytes),
        // a null pointer and no length would be no file
        File::Length(0) => bytes_of(&[]),
        // the greatest number means that a file can't be read
        File::Length(length) => Bytes { bytes: null(), length: (length as usize).min(usize::MAX - 1) },
        _ => Bytes { bytes: null(), length: usize::MAX },
    }
}

/// A machine of the header's, and what it points to.
struct GivenMachine {
    machine: Machine,
    _regions: Vec<Region>,
    _avoided: Vec<Avoided>,
    _firmware: Box<Firmware>,
}

fn firmware_of(told: &bootcore::Firmware, avoided: &[Avoided]) -> Firmware {
    let mut firmware = Firmware { avoided: avoided.as_ptr(), avoided_count: avoided.len(), ..Firmware::zero() };
    if let Some(screen) = &told.screen {
        let color = |color: bootcore::Color| Color { position: color.position, size: color.size };
        firmware.screen = Screen {
            base: screen.base,
            pitch: screen.pitch,
            width: screen.width,
            height: screen.height,
            depth: screen.depth,
            red: color(screen.red),
            green: color(screen.green),
            blue: color(screen.blue),
            ..Screen::zero()
        };
    }
    firmware.rsdp = told.rsdp.unwrap_or(0);
    if let Some(efi) = &told.efi {
        firmware.efi = Efi {
            system_table: efi.system_table,
            map: bytes_of(&efi.map),
            map_address: efi.map_address,
            bits: if efi.bits == EfiBits::Bits32 { 32 } else { 64 },
            descriptor_size: efi.descriptor_size,
            descriptor_version: efi.descriptor_version,
            secure_boot: secure_boot_number(efi.secure_boot),
        };
    }
    if let Some(smbios) = &told.smbios {
        firmware.smbios = Smbios { tables: bytes_of(&smbios.tables), major: smbios.major, minor: smbios.minor, ..Smbios::zero() };
    }
    firmware
}

fn secure_boot_number(secure_boot: SecureBoot) -> u32 {
    match secure_boot {
        SecureBoot::Unknown => 1,
        SecureBoot::Disabled => 2,
        SecureBoot::Enabled => 3,
        _ => 0,
    }
}

impl GivenMachine {
    fn of(machine: &bootcore::Machine) -> GivenMachine {
        let region = |region: &bootcore::Region| {
            let (base, length, kind) = (region.base, region.length, region.kind.number());
            Region { base, length, kind, reserved: 0 }
        };
        // of a range that goes backwards the end is one that no range may have
        let range = |range: &std::ops::Range<u64>| {
            let length = range.end.checked_sub(range.start).unwrap_or(u64::MAX);
            Avoided { base: range.start, length }
        };
        let regions: Vec<_> = machine.regions.iter().map(region).collect();
        let avoided: Vec<_> = machine.firmware.avoided.iter().map(range).collect();
        let firmware = Box::new(firmware_of(&machine.firmware, &avoided));
        let machine = Machine {
            size: machine.size,
            pool_base: machine.pool_base,
            pool_length: machine.pool_length,
            regions: regions.as_ptr(),
            region_count: regions.len(),
            firmware: &*firmware,
            ..Machine::zero()
        };
        GivenMachine { machine, _regions: regions, _avoided: avoided, _firmware: firmware }
    }
}

/// Entries of the header's, and their modules.
struct GivenEntries {
    entries: Vec<Entry>,
    _modules: Vec<Vec<Module>>,
}

fn entry_of(entry: &bootcore::Entry<'_>) -> (Entry, Vec<Module>) {
    let mut made = Entry { protocol: entry.protocol().number(), ..Entry::zero() };
    let mut modules = Vec::new();
    match entry {
        bootcore::Entry::Multiboot2(entry) => {
            (made.kernel, made.line) = (file_of(entry.kernel), bytes_of(entry.line));
            (made.rsdp_old, made.rsdp_new) = (bytes_of(entry.rsdp_old), bytes_of(entry.rsdp_new));
            modules.extend(entry.modules.iter().map(|module| Module {
                file: file_of(module.file),
                line: bytes_of(module.line),
                reserved: [0; 2],
            }));
        }
        bootcore::Entry::Linux(entry) => {
            (made.kernel, made.line) = (file_of(entry.kernel), bytes_of(entry.line));
            made.initrd = entry.initrd.map_or(made.initrd, file_of);
        }
        other => panic!("{other:?}"),
    }
    (made.modules, made.module_count) = (modules.as_ptr(), modules.len());
    (made, modules)
}

impl GivenEntries {
    fn of(entries: &[bootcore::Entry<'_>]) -> GivenEntries {
        let (entries, modules) = entries.iter().map(entry_of).unzip();
        GivenEntries { entries, _modules: modules }
    }
}

fn menu_of(menu: &bootcore::Menu<'_>, given: &GivenEntries) -> Menu {
    Menu {
        entries: given.entries.as_ptr(),
        entry_count: given.entries.len(),
        fallbacks: menu.fallbacks.as_ptr(),
        fallback_count: menu.fallbacks.len(),
        first: menu.first,
        ..Menu::zero()
    }
}

fn memory_of(address: u64, bytes: &mut [u8]) -> Memory {
    Memory { address, bytes: bytes.as_mut_ptr().cast(), length: bytes.len(), reserved: 0 }
}

// ---- what is told

fn text_at(text: *const c_char) -> String {
    // SAFETY: it is constant text of the archive's, which ends in a zero byte
    unsafe { CStr::from_ptr(text) }.to_str().unwrap().into()
}

pub fn status_text(status: u32) -> String {
    // SAFETY: the status may be any
    text_at(unsafe { bootcore_status_text(status) })
}

pub fn refusal_text(number: u32) -> String {
    // SAFETY: the number may be any
    text_at(unsafe { bootcore_refusal_text(number) })
}

pub fn refusal_line(number: u32, first: u64, second: u64) -> String {
    let refusal = Refusal { number, first, second, ..Refusal::zero() };
    let mut line = vec![0u8; 1000];
    // SAFETY: the buffer has the length that is told
    let length = unsafe { bootcore_refusal_line(&refusal, line.as_mut_ptr().cast(), line.len()) };
    String::from_utf8(line[..length].to_vec()).unwrap()
}

fn line_of(refusal: &Refusal) -> String {
    refusal_line(refusal.number, refusal.first, refusal.second)
}

fn error_of(status: u32) -> String {
    match status {
        NO_MEMORY => "no memory".into(),
        OUTSIDE => "outside".into(),
        other => format!("misuse {other}"),
    }
}

fn head_of(handoff: &Handoff, places: &[Place]) -> Vec<u8> {
    assert_eq!(handoff.place_count as usize, places.len());
    let mut head = vec![0; 272 + 24 * places.len()];
    // SAFETY: there are as many places as are told, and the head has the length that is told
    let length = unsafe { bootcore_image_head(handoff, places.as_ptr(), head.as_mut_ptr(), head.len()) };
    assert_eq!(length, head.len());
    head
}

/// A call that is told an outcome, with room for all.
fn with_outcome(call: impl FnOnce(*mut Outcome) -> u32) -> (u32, Outcome, Vec<Place>, Vec<Refusal>) {
    let (mut places, mut refusals) = (vec![Place::zero(); 256], vec![Refusal::zero(); 32]);
    let mut outcome = Outcome {
        places: places.as_mut_ptr(),
        place_room: places.len(),
        refusals: refusals.as_mut_ptr(),
        refusal_room: refusals.len(),
        ..Outcome::zero()
    };
    let status = call(&mut outcome);
    places.truncate(outcome.handoff.place_count as usize);
    refusals.truncate(outcome.refusal_count);
    (status, outcome, places, refusals)
}

/// What a load or a preparation tells.
fn handed_over(call: impl FnOnce(*mut Outcome) -> u32) -> Result<Vec<u8>, String> {
    let (status, outcome, places, refusals) = with_outcome(call);
    match status {
        DONE => Ok(head_of(&outcome.handoff, &places)),
        REFUSED => Err(line_of(&refusals[0])),
        other => Err(error_of(other)),
    }
}

/// What a boot or a session tells.
fn booted(call: impl FnOnce(*mut Outcome) -> u32) -> String {
    let (status, outcome, places, refusals) = with_outcome(call);
    let refused: Vec<_> = refusals.iter().map(|refusal| (refusal.entry, line_of(refusal))).collect();
    match status {
        DONE => told::booted(outcome.handoff.entry, &head_of(&outcome.handoff, &places), &refused),
        REFUSED => told::no_entry(&refused),
        WAITING | NEXT => "waits".into(),
        other => error_of(other),
    }
}

// ---- calls

pub fn bad_region(machine: &bootcore::Machine) -> Option<usize> {
    let given = GivenMachine::of(machine);
    // SAFETY: the machine and its regions stand during the call
    let index = unsafe { bootcore_bad_region(&given.machine) };
    (index < machine.regions.len()).then_some(index)
}

pub fn load(base: u64, bytes: &mut [u8], machine: &bootcore::Machine, entry: &bootcore::Entry<'_>) -> Result<Vec<u8>, String> {
    let (given, entries) = (GivenMachine::of(machine), GivenEntries::of(std::slice::from_ref(entry)));
    let memory = memory_of(base, bytes);
    // SAFETY: each pointer is that of a slice or a vector that stands during the call; memory is borrowed by `&mut`
    handed_over(|outcome| unsafe { bootcore_load(&memory, &given.machine, &entries.entries[0], outcome) })
}

pub fn prepare(machine: &bootcore::Machine, entry: &bootcore::Entry<'_>) -> Result<Vec<u8>, String> {
    let (given, entries) = (GivenMachine::of(machine), GivenEntries::of(std::slice::from_ref(entry)));
    // SAFETY: as for `load`
    handed_over(|outcome| unsafe { bootcore_prepare(&given.machine, &entries.entries[0], outcome) })
}

pub fn unplaced(machine: &bootcore::Machine, entry: &bootcore::Entry<'_>) -> String {
    let (given, entries) = (GivenMachine::of(machine), GivenEntries::of(std::slice::from_ref(entry)));
    let (mut part, mut refusal) = (UnplacedPart::zero(), Refusal::zero());
    // SAFETY: as for `load`; what is told is this function's own
    let status = unsafe { bootcore_unplaced(&given.machine, &entries.entries[0], &mut part, &mut refusal) };
    match status {
        DONE if part.role == 0 => "all have a place".into(),
        DONE => told::unplaced([
            part.role.into(),
            part.index.into(),
            part.length,
            part.alignment,
            part.low,
            part.high,
            part.address,
            part.choice.into(),
        ]),
        REFUSED => line_of(&refusal),
        other => error_of(other),
    }
}

/// A plan as it is told, and what it points to.
pub struct Plan {
    layout: Layout,
    places: Vec<Place>,
    steps: Vec<Step>,
    own: Vec<u8>,
}

pub fn plan(machine: &bootcore::Machine, entry: &bootcore::Entry<'_>) -> Result<Plan, String> {
    let (given, entries) = (GivenMachine::of(machine), GivenEntries::of(std::slice::from_ref(entry)));
    let mut plan = Plan { layout: Layout::zero(), places: Vec::new(), steps: Vec::new(), own: Vec::new() };
    loop {
        let layout = &mut plan.layout;
        (layout.places, layout.place_room) = (plan.places.as_mut_ptr(), plan.places.len());
        (layout.steps, layout.step_room) = (plan.steps.as_mut_ptr(), plan.steps.len());
        (layout.own, layout.own_room) = (plan.own.as_mut_ptr(), plan.own.len());
        // SAFETY: as for `load`; the arrays have the room that is told
        match unsafe { bootcore_plan(&given.machine, &entries.entries[0], layout) } {
            DONE => return Ok(plan),
            SMALL_ROOM => {
                plan.places.resize(layout.place_count, Place::zero());
                plan.steps.resize(layout.step_count, Step::zero());
                plan.own.resize(layout.own_length, 0);
            }
            REFUSED => return Err(line_of(&layout.refusal)),
            other => return Err(error_of(other)),
        }
    }
}

impl Plan {
    pub fn told(&self) -> String {
        let head = head_of(&self.layout.handoff, &self.places[..self.layout.place_count]);
        let steps = self.steps[..self.layout.step_count].iter();
        let steps = steps.map(|step| match step.source {
            1 => told::step(step.address, step.length, Some((step.file as usize, step.offset)), &[]),
            2 => told::step(step.address, step.length, None, &self.own[step.offset as usize..][..step.length as usize]),
            _ => told::step(step.address, step.length, None, &[]),
        });
        told::plan(&head, steps)
    }

    pub fn carry_out(&self, files: &[&[u8]], pieces: &mut [(u64, &mut [u8])]) -> String {
        let files: Vec<_> = files.iter().map(|file| bytes_of(file)).collect();
        let memory: Vec<_> = pieces.iter_mut().map(|(address, bytes)| memory_of(*address, bytes)).collect();
        let mut layout = self.layout;
        (layout.steps, layout.own) = (self.steps.as_ptr().cast_mut(), self.own.as_ptr().cast_mut());
        // SAFETY: as for `load`; the layout is read alone
        match unsafe { bootcore_carry_out(&layout, files.as_ptr(), files.len(), memory.as_ptr(), memory.len()) } {
            DONE => "carried out".into(),
            other => error_of(other),
        }
    }
}

pub fn boot(base: u64, bytes: &mut [u8], machine: &bootcore::Machine, menu: &bootcore::Menu<'_>) -> String {
    let (given, entries) = (GivenMachine::of(machine), GivenEntries::of(&menu.entries));
    let (memory, menu) = (memory_of(base, bytes), menu_of(menu, &entries));
    // SAFETY: as for `load`
    booted(|outcome| unsafe { bootcore_boot(&memory, &given.machine, &menu, outcome) })
}

/// A session, and the memory that it has.
pub struct Session<'m> {
    kept: KeptStruct,
    base: u64,
    bytes: &'m mut [u8],
}

impl Drop for Session<'_> {
    fn drop(&mut self) {
        // SAFETY: the struct is as the calls before left it, and this is the last one
        unsafe { bootcore_session_free(&mut self.kept) }
    }
}

fn progress(status: u32) -> String {
    match status {
        DONE => "done".into(),
        WAITING => "waiting".into(),
        NEXT => "next".into(),
        FAILED => "failed".into(),
        other => error_of(other),
    }
}

fn request_of(request: &bootcore::Request) -> Request {
    let bootcore::Request { entry, attempt, file, piece, length, .. } = *request;
    Request { entry, attempt, file, piece, length, reserved: 0 }
}

fn request_told(request: &Request) -> bootcore::Request {
    let mut told = bootcore::Request::new(request.attempt, request.file, request.piece);
    (told.entry, told.length) = (request.entry, request.length);
    told
}

impl<'m> Session<'m> {
    pub fn new(
        base: u64,
        bytes: &'m mut [u8],
        machine: &bootcore::Machine,
        menu: &bootcore::Menu<'_>,
    ) -> Result<Session<'m>, String> {
        let (given, entries) = (GivenMachine::of(machine), GivenEntries::of(&menu.entries));
        let menu = menu_of(menu, &entries);
        let mut session = Session { kept: KeptStruct { kept: null_mut() }, base, bytes };
        // SAFETY: as for `load`; the struct keeps nothing yet
        match unsafe { bootcore_session_make(&mut session.kept, &given.machine, &menu) } {
            DONE => Ok(session),
            other => Err(error_of(other)),
        }
    }

    pub fn start(&mut self) -> String {
        let memory = memory_of(self.base, self.bytes);
        // SAFETY: the struct is these calls' alone, and the memory is the session's
        progress(unsafe { bootcore_session_start(&mut self.kept, &memory) })
    }

    pub fn pieces(&mut self, request: &bootcore::Request, bytes: &[u8]) -> String {
        let (memory, request) = (memory_of(self.base, self.bytes), request_of(request));
        // SAFETY: as for `start`
        progress(unsafe { bootcore_session_pieces(&mut self.kept, &memory, &request, bytes.as_ptr().cast(), bytes.len()) })
    }

    pub fn fault(&mut self, request: &bootcore::Request) -> String {
        let (memory, request) = (memory_of(self.base, self.bytes), request_of(request));
        // SAFETY: as for `start`
        progress(unsafe { bootcore_session_fault(&mut self.kept, &memory, &request) })
    }

    pub fn missing(&self, most: usize) -> Option<bootcore::Request> {
        let mut request = Request::zero();
        // SAFETY: the struct is only read
        let is_told = unsafe { bootcore_session_missing(&self.kept, most, &mut request) };
        is_told.then(|| request_told(&request))
    }

    pub fn missing_after(&self, request: &bootcore::Request, most: usize) -> Option<bootcore::Request> {
        let mut request = request_of(request);
        // SAFETY: the struct is only read
        let is_told = unsafe { bootcore_session_missing_after(&self.kept, most, &mut request) };
        is_told.then(|| request_told(&request))
    }

    pub fn outcome(&self) -> String {
        // SAFETY: the struct is only read
        booted(|outcome| unsafe { bootcore_session_outcome(&self.kept, outcome) })
    }
}

pub fn read_head(head: &[u8]) -> Result<Vec<u8>, String> {
    let (mut handoff, mut fault) = (Handoff::zero(), Refusal::zero());
    let mut places = vec![Place::zero(); 256];
    let (room, to) = (places.len(), places.as_mut_ptr());
    // SAFETY: the head is borrowed, with its length; the places have the room that is told
    match unsafe { bootcore_image_head_read(head.as_ptr().cast(), head.len(), &mut handoff, to, room, &mut fault) } {
        DONE => {
            places.truncate(handoff.place_count as usize);
            Ok(head_of(&handoff, &places))
        }
        REFUSED => Err(line_of(&fault)),
        other => Err(error_of(other)),
    }
}

pub fn walk(image: &[u8]) -> Result<told::Seen, String> {
    let (mut seen, mut fault, mut firmware) = (Seen::zero(), Refusal::zero(), SeenFirmware::zero());
    let (mut parts, mut modules) = (Vec::<SeenPart>::new(), Vec::<SeenModule>::new());
    let (mut runs, mut text) = (Vec::<Region>::new(), Vec::<u8>::new());
    loop {
        let arrays = SeenArrays {
            kernel_parts: parts.as_mut_ptr(),
            kernel_part_room: parts.len(),
            modules: modules.as_mut_ptr(),
            module_room: modules.len(),
            runs: runs.as_mut_ptr(),
            run_room: runs.len(),
            text: text.as_mut_ptr(),
            text_room: text.len(),
            firmware: &mut firmware,
            reserved: [0; 3],
        };
        // SAFETY: the image is borrowed, with its length; the arrays have the room that is told
        let status = unsafe { bootcore_walk_all(image.as_ptr().cast(), image.len(), &mut seen, &arrays, &mut fault) };
        match status {
            DONE => break,
            SMALL_ROOM => {
                parts.resize(seen.kernel_part_count as usize, SeenPart::zero());
                modules.resize(seen.module_count as usize, SeenModule::zero());
                runs.resize(seen.run_count as usize, Region::zero());
                text.resize(seen.text_length as usize, 0);
            }
            REFUSED => return Err(line_of(&fault)),
            other => return Err(error_of(other)),
        }
    }
    let text_of = |range: Range| text[range.offset as usize..][..range.length as usize].to_vec();
    let copy_of = |range: Range| (range.offset != ABSENT).then(|| text_of(range));
    let (screen, efi, smbios) = (&firmware.screen, &firmware.efi, &firmware.smbios);
    let color = |color: Color| (color.position, color.size);
    Ok(told::Seen {
        protocol: seen.protocol,
        entry_address: seen.entry_address,
        line: text_of(Range { offset: 0, length: seen.line_length }),
        kernel_parts: parts.iter().map(|part| (part.address, part.length)).collect(),
        modules: modules.iter().map(|module| (module.address, module.length, text_of(module.line))).collect(),
        runs: runs.iter().map(|run| (run.base, run.length, run.kind)).collect(),
        initrd: (seen.initrd_length != 0).then_some((seen.initrd, seen.initrd_length)),
        rsdp: [copy_of(seen.rsdp_old), copy_of(seen.rsdp_new)],
        screen: (screen.base != 0).then(|| told::Screen {
            numbers: [screen.base, screen.pitch.into(), screen.width.into(), screen.height.into(), screen.depth.into()],
            colors: [color(screen.red), color(screen.green), color(screen.blue)],
        }),
        rsdp_address: (firmware.rsdp != 0).then_some(firmware.rsdp),
        efi: (efi.system_table != 0).then(|| told::Efi {
            numbers: [
                efi.bits.into(),
                efi.system_table,
                efi.map_address,
                efi.map_length,
                efi.descriptor_size.into(),
                efi.descriptor_version.into(),
                efi.secure_boot.into(),
            ],
            map: copy_of(efi.map),
        }),
        smbios: copy_of(smbios.tables).map(|tables| (smbios.major, smbios.minor, tables)),
    })
}

fn digests_told(digests: &Digests, parts: &[PartDigest]) -> String {
    let parts = parts[..digests.part_count as usize].iter().map(|part| {
        let place = &part.place;
        (place.role, place.index, place.address, place.length, part.sha256)
    });
    told::digests(digests.image_length, &digests.image_sha256, digests.head_length, &digests.head_sha256, parts)
}

pub fn digest(machine: &bootcore::Machine, entry: &bootcore::Entry<'_>) -> String {
    let (given, entries) = (GivenMachine::of(machine), GivenEntries::of(std::slice::from_ref(entry)));
    let (mut digests, mut refusal) = (Digests::zero(), Refusal::zero());
    let mut parts = vec![PartDigest::zero(); 256];
    // SAFETY: as for `load`; the array has the room that is told
    match unsafe {
        bootcore_digest_entry(&given.machine, &entries.entries[0], &mut digests, parts.as_mut_ptr(), parts.len(), &mut refusal)
    } {
        DONE => digests_told(&digests, &parts),
        REFUSED => line_of(&refusal),
        other => error_of(other),
    }
}

/// A digest that is fed.
pub struct Digest(KeptStruct);

impl Drop for Digest {
    fn drop(&mut self) {
        // SAFETY: the struct is as the calls before left it, and this is the last one
        unsafe { bootcore_digest_free(&mut self.0) }
    }
}

impl Digest {
    pub fn new(machine: &bootcore::Machine, entry: &bootcore::Entry<'_>) -> Result<Digest, String> {
        let (given, entries) = (GivenMachine::of(machine), GivenEntries::of(std::slice::from_ref(entry)));
        let (mut digest, mut refusal) = (Digest(KeptStruct { kept: null_mut() }), Refusal::zero());
        // SAFETY: as for `load`; the struct keeps nothing yet
        match unsafe { bootcore_digest_make(&mut digest.0, &given.machine, &entries.entries[0], &mut refusal) } {
            DONE => Ok(digest),
            REFUSED => Err(line_of(&refusal)),
            other => Err(error_of(other)),
        }
    }

    pub fn wanted(&self) -> Option<(usize, u64, u64)> {
        let mut range = FileRange::zero();
        // SAFETY: the struct is only read
        let is_told = unsafe { bootcore_digest_wanted(&self.0, &mut range) };
        is_told.then_some((range.file as usize, range.offset, range.length))
    }

    pub fn feed(&mut self, bytes: &[u8]) -> String {
        // SAFETY: the bytes are borrowed, with their length
        match unsafe { bootcore_digest_feed(&mut self.0, bytes.as_ptr().cast(), bytes.len()) } {
            DONE | WAITING => "fed".into(),
            other => error_of(other),
        }
    }

    pub fn finish(&self) -> String {
        let (mut digests, mut parts) = (Digests::zero(), vec![PartDigest::zero(); 256]);
        // SAFETY: the array has the room that is told
        match unsafe { bootcore_digest_told(&self.0, &mut digests, parts.as_mut_ptr(), parts.len()) } {
            DONE => digests_told(&digests, &parts),
            WAITING => "waits".into(),
            other => error_of(other),
        }
    }
}
