//! What a row says of a boot: a menu, its files, and how they come.
//!
//! `file=BYTES`, `file=missing`, `file=long`: the files, by their index. `entry=ENTRY`: the entries, as
//! `multiboot2:KERNEL:LINE+FILE:LINE ..`, `linux:KERNEL:LINE+INITRD`, or the same with `linux64`; `entry=ENTRY*COUNT`: one so
//! often; `modules=N`: N more modules of the last one before; `rsdp_old=BYTES`, `rsdp_new=BYTES`: its copies of the RSDP.
//! `default=N`, `fallback=N,N`. `store=forward`, `reverse`, `silent`, or `script`, and then `twice=A.F.P,..`, `fail=A.F.P,..`,
//! `picks=N,N,..`. `answers=N`: the store gives so many answers, and then nothing more.

use crate::entries::{RowEntry, protocol_of};
use crate::menus::script_store::Script;
use crate::refusing::Refusing;
use crate::row::{Answered, Row, Stop, core_vec};
use crate::session::Session;
use crate::words::{cut, cut_or, number, numbers};
use bootcore::proved::bl_map::Machine;
use bootcore::proved::bl_mem::Bytes;
use bootcore::proved::bl_session::{FILE_LIMIT, Fetched, Menu, MenuFault, Order, Ticket};
use bootcore::shim::alloc::AllocError;
use bootcore::shim::vec::Vec as CoreVec;

/// A file of a menu.
enum RowFile {
    Missing,
    /// One byte longer than a file may be.
    Long,
    Whole(Vec<u8>),
}

/// How a store answers.
#[derive(Clone, Copy)]
pub enum StoreKind {
    Files(Order),
    Script,
}

/// What a row says of a boot.
pub struct BootFields {
    files: Vec<RowFile>,
    entries: Vec<RowEntry>,
    default: u32,
    fallbacks: Vec<u32>,
    pub store: StoreKind,
    /// How many answers the store gives, and then nothing more.
    pub answers: u64,
    pub script: Script,
}

/// What a boot goes by, whatever store and memory it has.
pub struct Plan<'h> {
    pub machine: Machine<&'h Refusing>,
    pub menu: Menu<&'h Refusing>,
}

/// The ticket that `ATTEMPT.FILE.PIECE` is.
pub fn ticket_of(word: &str) -> Answered<Ticket> {
    let (attempt, rest) = cut(word, ".")?;
    let (file, piece) = cut(rest, ".")?;
    Ok(Ticket { attempt: number(attempt)?, file: number(file)?, piece: number(piece)? })
}

fn tickets_of(list: &str) -> Answered<Vec<Ticket>> {
    list.split(',').map(ticket_of).collect()
}

/// A file by its index, and its line, if it has one.
fn module_of(session: &Session, text: &str) -> Answered<(u32, Vec<u8>)> {
    let (file, line) = cut_or(text, ':', "");
    Ok((number(file)?, session.bytes(line)?))
}

fn entry_of(session: &Session, text: &str) -> Answered<RowEntry> {
    let (name, rest) = cut(text, ":")?;
    let mut modules = rest.split('+').map(|word| module_of(session, word));
    let (kernel, line) = modules.next().ok_or(Stop::BadRow)??;
    Ok(RowEntry { modules: modules.collect::<Answered<_>>()?, ..RowEntry::new(protocol_of(name)?, kernel, line) })
}

impl BootFields {
    /// The fields that these words are.
    pub fn of(session: &Session, words: &str) -> Answered<BootFields> {
        let mut fields = BootFields {
            files: Vec::new(),
            entries: Vec::new(),
            default: 0,
            fallbacks: Vec::new(),
            store: StoreKind::Files(Order::Forward),
            answers: u64::MAX,
            script: Script::default(),
        };
        for word in words.split_whitespace() {
            let (key, value) = cut(word, "=")?;
            fields.add(session, key, value)?;
        }
        Ok(fields)
    }

    fn last_entry(&mut self) -> Answered<&mut RowEntry> {
        self.entries.last_mut().ok_or(Stop::BadRow)
    }

    fn add(&mut self, session: &Session, key: &str, value: &str) -> Answered {
        match key {
            "file" => self.files.push(match value {
                "missing" => RowFile::Missing,
                "long" => RowFile::Long,
                _ => RowFile::Whole(session.bytes(value)?),
            }),
            "entry" => {
                let (entry, count) = cut_or(value, '*', "1");
                let entry = entry_of(session, entry)?;
                self.entries.extend((0..number::<u64>(count)?).map(|_| entry.clone()));
            }
            "modules" => {
                let entry = self.last_entry()?;
                let file = entry.kernel.wrapping_add(1);
                entry.modules.extend((0..number::<u64>(value)?).map(|_| (file, Vec::new())));
            }
            "rsdp_old" | "rsdp_new" => self.last_entry()?.add_copy(session, key, value)?,
            "default" => self.default = number(value)?,
            "fallback" => self.fallbacks = numbers(value)?,
            "store" => match value {
                "forward" => self.store = StoreKind::Files(Order::Forward),
                "reverse" => self.store = StoreKind::Files(Order::Reverse),
                "script" => self.store = StoreKind::Script,
                "silent" => self.answers = 0,
                _ => return Err(Stop::BadRow),
            },
            "answers" => self.answers = number(value)?,
            "twice" => self.script.twice = tickets_of(value)?,
            "fail" => self.script.fail = tickets_of(value)?,
            "picks" => self.script.picks = numbers(value)?.into(),
            _ => return Err(Stop::BadRow),
        }
        Ok(())
    }

    /// The menu, over a heap.
    pub fn menu_over<'h>(&self, heap: &'h Refusing) -> Result<Menu<&'h Refusing>, MenuFault> {
        let mut entries = CoreVec::new(heap);
        for entry in &self.entries {
            entries.push(entry.entry_over(heap)?)?;
        }
        Menu::new(heap, entries, self.default, &self.fallbacks)
    }

    /// The last machine and the menu, over a heap that refuses nothing. A row whose menu is refused can't be read.
    pub fn plan_over<'h>(&self, row: &Row<'_>, beside: &'h Refusing) -> Answered<Plan<'h>> {
        let machine = row.machine_over(beside)?;
        Ok(Plan { machine, menu: self.menu_over(beside).map_err(|_| Stop::BadRow)? })
    }

    /// The files, over a heap.
    pub fn files_over<'h>(&self, heap: &'h Refusing) -> Result<CoreVec<Fetched<&'h Refusing>, &'h Refusing>, AllocError> {
        let mut files = CoreVec::new(heap);
        for file in &self.files {
            files.push(match file {
                RowFile::Missing => Fetched::Missing,
                RowFile::Long => Fetched::TooLong(FILE_LIMIT + 1),
                RowFile::Whole(bytes) => Fetched::Bytes(Bytes::copy(heap, bytes)?),
            })?;
        }
        Ok(files)
    }

    /// The length of each file, by its index.
    pub fn sizes(&self) -> CoreVec<Option<u64>> {
        let sizes = self.files.iter().map(|file| match file {
            RowFile::Missing => None,
            RowFile::Long => Some(FILE_LIMIT + 1),
            RowFile::Whole(bytes) => Some(bytes.len() as u64),
        });
        core_vec(&sizes.collect::<Vec<_>>())
    }
}
