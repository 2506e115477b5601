//! A menu with fallbacks: booted at once, or piece by piece.

use alloc::vec::Vec;
use core::fmt;

use crate::entry::{Entry, File, Menu};
use crate::error::{Error, Misuse, RefusedEntry};
use crate::handoff::Handoff;
use crate::lists::list;
use crate::machine::Machine;
use crate::memory::Memory;
use crate::proved::bl_session::{self, Event, Order, OwnedSession, SliceStore, Ticket};
use crate::shim::alloc::{AllocError, Global};
use crate::shim::vec::Vec as CoreVec;
use crate::{PIECE, given, told};

/// How a boot ended by which an entry is handed over.
#[derive(Clone, Debug, PartialEq, Eq, Hash)]
#[non_exhaustive]
pub struct Booted {
    /// What its kernel is handed.
    pub handoff: Handoff,
    /// The entries that were refused before it, in order.
    pub refusals: Vec<RefusedEntry>,
}

/// Boots the first entry of a menu, in the order of attempts, that is not refused. Its files come
/// into the machine's pool, and are read back from there to their places: memory is a slice, which
/// nobody else writes meanwhile.
///
/// `memory` ends at the machine's size. After the end, and after [`Error::NoEntry`], the pool is 0
/// where no part lies, and each other byte beside the parts as before.
///
/// ```
/// use bootcore::{boot, Error, File, Kind, Linux, Machine, Memory, Menu, Refusal};
///
/// let machine = Machine::new(4 << 20).region(0, 4 << 20, Kind::Usable).pool(3 << 20, 1 << 20);
/// let (first, second) = (Linux::new(File::Unreadable), Linux::new(b"no kernel"));
/// let menu = Menu::new().entry(first).entry(second).fallback(1);
/// let mut guest = vec![0; 4 << 20];
/// match boot(&mut Memory::new(0, &mut guest), &machine, &menu) {
///     Err(Error::NoEntry(refused)) => {
///         assert_eq!(refused[0].refusal, Refusal::NoFile { file: 0 });
///         assert_eq!(refused[1].refusal, Refusal::NotBzImage);
///     }
///     other => panic!("{:?}", other),
/// }
/// ```
pub fn boot(memory: &mut Memory<'_>, machine: &Machine, menu: &Menu<'_>) -> Result<Booted, Error> {
    let files = || menu.entries.iter().flat_map(Entry::files);
    if files().any(File::is_to_come) {
        return Err(Misuse::NoBytes.into());
    }
    let machine = given::machine_of(machine)?;
    memory.base_below(machine.size())?;
    let menu = given::menu_of(menu)?;
    let files = list(files().map(File::bytes))?;
    let mut memory = memory.booting(&machine)?;
    let mut store = SliceStore::new(Global, &files, Order::Forward);
    told::booted_told(bl_session::run(Global, &mut memory, &mut store, &machine, &menu).as_ref())
}

/// Pieces that are awaited, one after the other in a file: `length` bytes from the offset `piece *
/// PIECE` on.
#[derive(Clone, Copy, Debug, Default, PartialEq, Eq, Hash)]
#[non_exhaustive]
pub struct Request {
    /// The index of the entry in the menu.
    pub entry: u32,
    /// Which attempt it is, from 0 on.
    pub attempt: u32,
    /// The file's place in its entry, of which the kernel's is 0.
    pub file: u32,
    /// The first piece's index in the file.
    pub piece: u32,
    /// The bytes of all.
    pub length: u64,
}

impl Request {
    /// One of a file of an attempt, from a piece on.
    pub fn new(attempt: u32, file: u32, piece: u32) -> Request {
        Request { attempt, file, piece, ..Request::default() }
    }

    /// The offset in the file from which on bytes are awaited.
    pub fn offset(&self) -> u64 {
        u64::from(self.piece) * crate::PIECE as u64
    }
}

/// How far a session is.
#[derive(Clone, Copy, Debug, PartialEq, Eq, Hash)]
#[non_exhaustive]
pub enum Progress {
    /// Pieces are awaited, or the session was not started.
    Waiting,
    /// The same, after one refusal or more: ask again what is missing.
    Next,
    /// An entry is handed over: [`Session::outcome`] has it.
    Done,
    /// No entry is left, or memory ran out: [`Session::outcome`] says which.
    Failed,
}

/// A boot that is told the pieces of its files as they come, in any order.
///
/// The session has the memory for as long as it lives, since the pieces that came lie there:
///
/// ```compile_fail,E0506
/// # use bootcore::{Machine, Memory, Menu, Session};
/// let mut guest = vec![0; 4 << 20];
/// let memory = Memory::new(0, &mut guest);
/// let mut session = Session::new(memory, &Machine::new(4 << 20), &Menu::new()).unwrap();
/// guest[0] = 1; // the session has it
/// session.start();
/// ```
///
/// It is freed when it is dropped.
///
/// ```
/// use bootcore::{File, Kind, Linux, Machine, Memory, Menu, Progress, Session};
///
/// # fn main() -> Result<(), bootcore::Error> {
/// let machine = Machine::new(4 << 20).region(0, 4 << 20, Kind::Usable).pool(3 << 20, 1 << 20);
/// let menu = Menu::new().entry(Linux::new(File::Length(5000)));
/// let mut guest = vec![0; 4 << 20];
/// let mut session = Session::new(Memory::new(0, &mut guest), &machine, &menu)?;
/// assert_eq!(session.start()?, Progress::Waiting);
/// let request = session.missing(4096).unwrap();
/// assert_eq!((request.offset(), request.length), (0, 4096));
/// assert_eq!(session.pieces(&request, &[0; 4096])?, Progress::Waiting);
/// let request = session.missing(4096).unwrap();
/// assert_eq!((request.offset(), request.length), (4096, 904));
/// assert_eq!(session.fault(&request)?, Progress::Failed);
/// println!("{}", session.outcome().unwrap_err());
/// # Ok(())
/// # }
/// ```
pub struct Session<'m> {
    kept: OwnedSession<Global>,
    memory: Memory<'m>,
}

impl<'m> Session<'m> {
    /// Makes a session of a menu, which is not yet started. Of each file the length is looked at;
    /// its bytes come later.
    pub fn new(memory: Memory<'m>, machine: &Machine, menu: &Menu<'_>) -> Result<Session<'m>, Error> {
        let made = given::machine_of(machine)?;
        let core_menu = given::menu_of(menu)?;
        let mut sizes = CoreVec::new(Global);
        for file in menu.entries.iter().flat_map(Entry::files) {
            sizes.push(file.length()).map_err(AllocError::from)?;
        }
        Ok(Session { kept: OwnedSession::new(Global, made, core_menu, sizes), memory })
    }

    /// Starts it: the first attempt begins. One that was started before stays as it is.
    pub fn start(&mut self) -> Result<Progress, Error> {
        let mut memory = self.memory.booting(self.kept.machine())?;
        Ok(progress(self.kept.start(&mut memory)))
    }

    /// Tells that pieces came: bytes from the beginning of a request, which are copied. They are
    /// whole pieces; a file's last one has its own length. They may be fewer than were asked for. A
    /// piece that is not awaited changes nothing, as one that is cut or padded:
    /// [`missing`](Session::missing) tells it again.
    pub fn pieces(&mut self, request: &Request, bytes: &[u8]) -> Result<Progress, Error> {
        let mut memory = self.memory.booting(self.kept.machine())?;
        let (mut ticket, mut rest) = (ticket_of(request), bytes);
        loop {
            let (piece, behind) = rest.split_at(rest.len().min(PIECE));
            let come = progress(self.kept.event(&mut memory, Event::Piece(ticket, piece)));
            // behind the last piece that has an index there is none
            match ticket.piece.checked_add(1) {
                Some(next) if come == Progress::Waiting && !behind.is_empty() => ticket.piece = next,
                _ => return Ok(come),
            }
            rest = behind;
        }
    }

    /// Tells that the first piece of a request can't be read: its entry is refused, and the next
    /// attempt begins.
    pub fn fault(&mut self, request: &Request) -> Result<Progress, Error> {
        let mut memory = self.memory.booting(self.kept.machine())?;
        Ok(progress(self.kept.event(&mut memory, Event::Fault(ticket_of(request)))))
    }

    /// The first pieces that are awaited, files and pieces ascending: at most so many bytes of one
    /// file, but at least a piece.
    pub fn missing(&self, most: usize) -> Option<Request> {
        self.run_from(self.kept.missing()?, most)
    }

    /// The first ones behind those of a request; behind one of another attempt, the first of the
    /// running one.
    pub fn missing_after(&self, request: &Request, most: usize) -> Option<Request> {
        let first = self.kept.missing()?;
        // one of another attempt is behind none of this one's
        if request.attempt != first.ticket.attempt {
            return self.run_from(first, most);
        }
        let pieces = request.length.div_ceil(PIECE as u64).max(1) - 1;
        let last = u64::from(request.piece).saturating_add(pieces).min(u32::MAX.into()) as u32;
        self.run_from(self.kept.missing_after(Ticket { piece: last, ..ticket_of(request) })?, most)
    }

    /// All that are awaited, as requests of at most so many bytes.
    pub fn requests(&self, most: usize) -> impl Iterator<Item = Request> + '_ {
        core::iter::successors(self.missing(most), move |request| self.missing_after(request, most))
    }

    /// How it ended: nothing while pieces are awaited.
    pub fn outcome(&self) -> Result<Option<Booted>, Error> {
        self.kept.outcome().map(told::booted_told).transpose()
    }

    /// The memory.
    pub fn memory(&self) -> &Memory<'m> {
        &self.memory
    }

    /// A request that begins with this piece, as long as the same file's next piece is awaited and
    /// there is room for it.
    fn run_from(&self, first: bl_session::Request, most: usize) -> Option<Request> {
        let (menu, attempt) = (self.kept.menu(), first.ticket.attempt);
        // each attempt that awaits pieces is one of the menu's
        let entry = if (attempt as usize) < menu.attempts() {
            menu.entry_of(attempt as usize)
        } else {
            return None;
        };
        let mut length = u64::from(first.len);
        let mut last = first.ticket;
        while let Some(next) = self.kept.missing_after(last).filter(|_| length < most as u64) {
            let follows = Some(next.ticket.piece) == last.piece.checked_add(1);
            let is_same = (next.ticket.attempt, next.ticket.file) == (last.attempt, last.file);
            if !follows || !is_same || u64::from(next.len) > most as u64 - length {
                break;
            }
            length += u64::from(next.len);
            last = next.ticket;
        }
        Some(Request { entry, attempt, file: first.ticket.file, piece: first.ticket.piece, length })
    }
}

impl fmt::Debug for Session<'_> {
    fn fmt(&self, to: &mut fmt::Formatter<'_>) -> fmt::Result {
        to.debug_struct("Session").field("memory", self.memory()).finish_non_exhaustive()
    }
}

fn ticket_of(request: &Request) -> Ticket {
    Ticket { attempt: request.attempt, file: request.file, piece: request.piece }
}

fn progress(progress: bl_session::Progress) -> Progress {
    match progress {
        bl_session::Progress::Done => Progress::Done,
        bl_session::Progress::Waiting => Progress::Waiting,
        bl_session::Progress::Next(_) => Progress::Next,
        bl_session::Progress::Failed => Progress::Failed,
    }
}
