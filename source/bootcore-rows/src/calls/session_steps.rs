//! `session MENU .. do STEP; STEP ..`: a session that is told one letter after the other.
//!
//! A step is a letter (`start`, `piece A.F.P BYTES`, `fault A.F.P`), `waiting`, `missing` (the piece that is awaited first),
//! `missing A.F.P` (the first one after that of this ticket), `outcome`, `outside` (whether memory outside the pool and the parts
//! is as it was), or `read AT LENGTH`.

use crate::calls::memory::{self, give_pool};
use crate::menus::boot_end::{parts_of, say_end};
use crate::menus::boot_fields::{BootFields, ticket_of};
use crate::menus::memory_after::{FILL, outside_text};
use crate::refusing::Refusing;
use crate::row::{Answered, Row, Stop, say};
use crate::words::cut;
use bootcore::proved::bl_mem::Sparse;
use bootcore::proved::bl_session::{Event, Progress, Session, Ticket};
use std::ops::Range;

/// A session with its memory, which reads as a5 everywhere at first, and its machine's pool.
struct Rig<'a, 'h> {
    session: Session<'a, &'h Refusing>,
    memory: Sparse<&'h Refusing>,
    pool: Range<u64>,
}

fn progress_text(progress: Progress) -> String {
    match progress {
        Progress::Waiting => "waiting".to_owned(),
        Progress::Next(attempt) => format!("next {attempt:x}"),
        Progress::Done => "done".to_owned(),
        Progress::Failed => "failed".to_owned(),
    }
}

impl Rig<'_, '_> {
    fn event(&mut self, event: Event<'_>) -> Answered<String> {
        give_pool(&mut self.memory, &self.pool)?;
        Ok(progress_text(self.session.event(&mut self.memory, event)))
    }

    /// The first piece that is awaited, or the first one after that of a ticket: its file's index in the menu, its ticket, its
    /// length.
    fn missing_text(&self, after: Option<Ticket>) -> String {
        let request = match after {
            Some(ticket) => self.session.missing_after(ticket),
            None => self.session.missing(),
        };
        request.map_or("none".to_owned(), |request| {
            let Ticket { attempt, file, piece } = request.ticket;
            format!("file {:x} ticket {attempt:x}.{file:x}.{piece:x} length {:x}", request.file, request.len)
        })
    }
}

fn step(row: &mut Row<'_>, rig: &mut Rig<'_, '_>) -> Answered {
    let said = match row.word() {
        "start" => progress_text(rig.session.start(&mut rig.memory)),
        "piece" => {
            let ticket = ticket_of(row.word())?;
            let bytes = row.session.bytes(row.rest())?;
            rig.event(Event::Piece(ticket, &bytes))?
        }
        "fault" => rig.event(Event::Fault(ticket_of(row.word())?))?,
        "waiting" => if rig.session.is_waiting() { "yes" } else { "no" }.to_owned(),
        "missing" => match row.word() {
            "" => rig.missing_text(None),
            ticket => rig.missing_text(Some(ticket_of(ticket)?)),
        },
        "outcome" => match rig.session.outcome() {
            Some(end) => return say_end(row, &rig.memory, &rig.pool, end),
            None => "none".to_owned(),
        },
        "outside" => outside_text(&rig.memory, &rig.pool, rig.session.outcome().map_or(&[], parts_of))?.to_owned(),
        "read" => return memory::step(row, &mut rig.memory, "read"),
        _ => return Err(Stop::BadRow),
    };
    say!(row, "{said}");
    Ok(())
}

/// Tells a session over the heap each letter. Its machine and its menu stand over another heap, so that their requests are not
/// refused.
pub fn answer(row: &mut Row<'_>) -> Answered {
    let (words, steps) = cut(row.rest(), " do ")?;
    let fields = BootFields::of(row.session, words)?;
    let plan = fields.plan_over(row, &row.session.beside)?;
    let sizes = fields.sizes();
    let memory = Sparse::new(row.heap, plan.machine.size(), FILL)?;
    let session = Session::new(row.heap, &plan.machine, &plan.menu, &sizes)?;
    let mut rig = Rig { session, memory, pool: plan.machine.pool() };
    for words in steps.split(';') {
        // once memory ran out, each later step may say so
        row.step(words, 0, |row| step(row, &mut rig))?;
    }
    Ok(())
}
