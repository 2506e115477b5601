//! `run MENU ..`: a whole boot over a store, on the last machine.

use crate::menus::boot_end::{parts_of, say_end};
use crate::menus::boot_fields::{BootFields, Plan, StoreKind};
use crate::menus::dry_store::DryStore;
use crate::menus::memory_after::{FILL, outside_text};
use crate::menus::script_store::ScriptStore;
use crate::refusing::Refusing;
use crate::row::{Answered, Row, say};
use bootcore::proved::bl_mem::Sparse;
use bootcore::proved::bl_session::{FileStore, Store, run};

/// Boots over the heap and over a store that gives so many answers alone, and says what came of it.
fn boot<'h>(row: &mut Row<'_>, heap: &'h Refusing, plan: &Plan<'h>, store: impl Store, answers: u64) -> Answered {
    let mut store = DryStore::new(heap, store, answers);
    let mut memory = Sparse::new(heap, plan.machine.size(), FILL)?;
    let end = run(heap, &mut memory, &mut store, &plan.machine, &plan.menu);
    let pool = plan.machine.pool();
    say!(row, "{}, ", outside_text(&memory, &pool, parts_of(end.as_ref()))?);
    say_end(row, &memory, &pool, end.as_ref())
}

/// Boots a menu over a store. The machine, the menu and the files stand over another heap, so that their requests are not
/// refused, and what a script says.
pub fn answer(row: &mut Row<'_>) -> Answered {
    let (heap, beside) = (row.heap, &row.session.beside);
    let fields = BootFields::of(row.session, row.rest())?;
    let plan = fields.plan_over(row, beside)?;
    let files = fields.files_over(beside)?;
    let answers = fields.answers;
    match fields.store {
        StoreKind::Files(order) => boot(row, heap, &plan, FileStore::new(heap, files, order), answers),
        StoreKind::Script => boot(row, heap, &plan, ScriptStore::new(heap, files, fields.script), answers),
    }
}
