//! A store that gives so many answers, and then nothing more: from then on each attempt that asks for a piece is refused for the
//! file of its first missing one.

use crate::refusing::Refusing;
use bootcore::proved::bl_session::{Completion, Store, Ticket};
use bootcore::shim::alloc::AllocError;
use bootcore::shim::vec::Vec as CoreVec;

/// A store that gives so many answers of another one, and then nothing more.
pub struct DryStore<'h, S: Store> {
    store: S,
    answers: u64,
    /// What was asked after the last answer: for a piece of a file under a ticket, or for an answer more.
    asked: CoreVec<Option<(u32, Ticket)>, &'h Refusing>,
}

impl<'h, S: Store> DryStore<'h, S> {
    /// A store that gives so many answers of this one.
    pub fn new(heap: &'h Refusing, store: S, answers: u64) -> DryStore<'h, S> {
        DryStore { store, answers, asked: CoreVec::new(heap) }
    }
}

impl<S: Store> Store for DryStore<'_, S> {
    type Alloc = S::Alloc;

    fn size(&self, file: u32) -> Result<Option<u64>, AllocError> {
        self.store.size(file)
    }

    fn left(&self) -> u64 {
        if self.asked.is_empty() { self.store.left().min(self.answers) } else { 0 }
    }

    fn submit(&mut self, file: u32, ticket: Ticket) -> Result<(), AllocError> {
        if self.answers > 0 && self.asked.is_empty() {
            return self.store.submit(file, ticket);
        }
        Ok(self.asked.push(Some((file, ticket)))?)
    }

    fn next(&mut self) -> Result<Option<Completion<S::Alloc>>, AllocError> {
        if self.answers > 0 && self.asked.is_empty() {
            let answer = self.store.next()?;
            self.answers -= u64::from(answer.is_some());
            return Ok(answer);
        }
        self.asked.push(None)?;
        Ok(None)
    }
}
