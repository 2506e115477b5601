//! The entries of rows: `multiboot2 line=BYTES module=BYTES:BYTES .. rsdp_old=BYTES rsdp_new=BYTES`, `linux line=BYTES
//! initrd=BYTES`, or the same with `linux64`; prepared and loaded, and why they are refused.

use crate::refusing::Refusing;
use crate::row::{Answered, Row, Stop, require};
use crate::session::Session;
use crate::words::{cut, field};
use bootcore::proved::bl_load::{Entry, Handoff, Module, Plan, PrepFault, Refusal, load, prepare};
use bootcore::proved::bl_map::Machine;
use bootcore::proved::bl_mem::{Bytes, Flat, SliceView, Views};
use bootcore::proved::bl_plan::Protocol;
use bootcore::shim::alloc::AllocError;
use bootcore::shim::vec::Vec as CoreVec;

/// An entry, whose files are named by their index.
#[derive(Clone)]
pub struct RowEntry {
    pub protocol: Protocol,
    pub kernel: u32,
    pub line: Vec<u8>,
    /// Each file after the kernel, with its line; that of an initial ramdisk is not used.
    pub modules: Vec<(u32, Vec<u8>)>,
    /// Copies of an RSDP; one without bytes is a copy too.
    pub rsdp_old: Option<Vec<u8>>,
    pub rsdp_new: Option<Vec<u8>>,
}

/// The protocol of this name.
pub fn protocol_of(name: &str) -> Answered<Protocol> {
    Protocol::from_name(name).ok_or(Stop::BadRow)
}

fn copy_over<'h>(heap: &'h Refusing, copy: &Option<Vec<u8>>) -> Result<Option<Bytes<&'h Refusing>>, AllocError> {
    copy.as_ref().map(|bytes| Bytes::copy(heap, bytes)).transpose()
}

impl RowEntry {
    /// An entry that has its kernel alone.
    pub fn new(protocol: Protocol, kernel: u32, line: Vec<u8>) -> RowEntry {
        RowEntry { protocol, kernel, line, modules: Vec::new(), rsdp_old: None, rsdp_new: None }
    }

    /// Takes the copy that `rsdp_old` or `rsdp_new` is: a Multiboot2 entry may have each once.
    pub fn add_copy(&mut self, session: &Session, key: &str, copy: &str) -> Answered {
        let place = if key == "rsdp_old" { &mut self.rsdp_old } else { &mut self.rsdp_new };
        require(self.protocol == Protocol::Multiboot2 && place.is_none())?;
        *place = Some(session.bytes(copy)?);
        Ok(())
    }

    fn modules_over<'h>(&self, heap: &'h Refusing) -> Result<CoreVec<Module<&'h Refusing>, &'h Refusing>, AllocError> {
        let mut modules = CoreVec::new(heap);
        for (file, line) in &self.modules {
            modules.push(Module { file: *file, line: Bytes::copy(heap, line)? })?;
        }
        Ok(modules)
    }

    /// The entry, over a heap.
    pub fn entry_over<'h>(&self, heap: &'h Refusing) -> Result<Entry<&'h Refusing>, AllocError> {
        let kernel = self.kernel;
        let line = Bytes::copy(heap, &self.line)?;
        Ok(match self.protocol {
            Protocol::Multiboot2 => Entry::Multiboot2 {
                kernel,
                line,
                modules: self.modules_over(heap)?,
                rsdp_old: copy_over(heap, &self.rsdp_old)?,
                rsdp_new: copy_over(heap, &self.rsdp_new)?,
            },
            Protocol::Linux | Protocol::Linux64 => Entry::Linux {
                kernel,
                line,
                initrd: self.modules.first().map(|(file, _)| *file),
                wide: self.protocol == Protocol::Linux64,
            },
        })
    }
}

/// A refusal as its number and what it tells.
pub fn refusal_text(refusal: Refusal) -> String {
    let number = refusal.number();
    let told = match refusal {
        Refusal::BadTag(place) => place,
        Refusal::UnsupportedTag(kind) => kind.into(),
        Refusal::UnsupportedRequest(kind) => kind.into(),
        Refusal::NoFile(index) | Refusal::FileFault(index) | Refusal::FileTooLong(index) => index.into(),
        Refusal::SegmentCut(index) | Refusal::AddressTooHigh(index) => index as u64,
        Refusal::SegmentsOverlap(one, other) => return format!("{number} {one:x} {other:x}"),
        _ => return number.to_string(),
    };
    format!("{number} {told:x}")
}

/// The end of an answer where a kernel is not read or an entry is not prepared.
pub fn fault(before: &str, fault: impl Into<PrepFault>) -> Stop {
    match fault.into() {
        PrepFault::NoMemory => Stop::NoMemory,
        PrepFault::Refused(refusal) => Stop::Answer(format!("{before}{}", refusal_text(refusal))),
    }
}

/// The entry of the words that are left, and its files: the row's bytes, which are its kernel, and those of its words.
fn read_entry(row: &mut Row<'_>) -> Answered<(RowEntry, Vec<Vec<u8>>)> {
    let session = row.session;
    let protocol = protocol_of(row.word())?;
    let mut entry = RowEntry::new(protocol, 0, row.bytes_field("line")?);
    let mut files = vec![row.bytes.to_vec()];
    for word in row.rest().split_whitespace() {
        if let Some((key @ ("rsdp_old" | "rsdp_new"), copy)) = word.split_once('=') {
            entry.add_copy(session, key, copy)?;
            continue;
        }
        let (file, line) = match protocol {
            Protocol::Multiboot2 => cut(field(word, "module")?, ":")?,
            Protocol::Linux | Protocol::Linux64 => (field(word, "initrd")?, ""),
        };
        entry.modules.push((files.len() as u32, session.bytes(line)?));
        files.push(session.bytes(file)?);
    }
    Ok((entry, files))
}

/// What is prepared for an entry that has these files.
fn plan_of<'h>(
    heap: &'h Refusing,
    machine: &Machine<&'h Refusing>,
    entry: &RowEntry,
    files: &[SliceView<'_>],
) -> Answered<Plan<&'h Refusing>> {
    let entry = entry.entry_over(heap)?;
    require(entry.file_count() == files.len() && entry.is_within_limits())?;
    prepare(heap, machine, &entry, files).map_err(|why| fault("refused ", why))
}

/// What is prepared for the entry of the words that are left, on the last machine, all over the heap.
pub fn prepared_entry<'a>(row: &mut Row<'a>) -> Answered<Plan<&'a Refusing>> {
    let (entry, files) = read_entry(row)?;
    let views: Vec<_> = files.iter().map(|file| SliceView::new(file)).collect();
    plan_of(row.heap, &row.machine_over(row.heap)?, &entry, &views)
}

/// Memory that holds an entry's parts, what the kernel is handed, and how many requests for memory loading made.
pub struct LoadedEntry<'h> {
    pub memory: Flat<&'h Refusing>,
    pub handoff: Handoff<&'h Refusing>,
    pub requests: u64,
}

/// The entry of the words that are left, after `fill=BYTE`, loaded over the heap: its parts in the machine's memory, each byte of
/// which was that one before.
pub fn loaded_entry<'a>(row: &mut Row<'a>) -> Answered<LoadedEntry<'a>> {
    let heap = row.heap;
    let fill = row.number_field("fill")?;
    let (entry, files) = read_entry(row)?;
    let views: Vec<_> = files.iter().map(|file| SliceView::new(file)).collect();
    let machine = row.machine_over(heap)?;
    let plan = plan_of(heap, &machine, &entry, &views)?;
    let mut memory = Flat::new(heap, machine.size(), fill)?;
    let before = heap.asked();
    let handoff = load(&mut memory, plan, &Views { views: &views });
    Ok(LoadedEntry { memory, handoff, requests: heap.asked() - before })
}
