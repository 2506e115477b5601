//! An allocator that refuses the nth request for memory and each one after it, so that no second try hides the first refusal.

use bootcore::shim::alloc::{AllocError, Allocator};
use std::cell::Cell;

/// Counts requests, and refuses from the `nth` on; at 0 it refuses none. A growth is a request too, since it asks for a new
/// block.
pub struct Refusing {
    nth: u64,
    asked: Cell<u64>,
    held: Cell<u64>,
}

impl Refusing {
    /// Was asked for nothing yet.
    pub fn new(nth: u64) -> Refusing {
        Refusing { nth, asked: Cell::new(0), held: Cell::new(0) }
    }

    /// How many requests there were, refused ones too.
    pub fn asked(&self) -> u64 {
        self.asked.get()
    }

    /// How many blocks were handed out and not yet given back.
    pub fn held(&self) -> u64 {
        self.held.get()
    }

    /// How many requests were refused.
    pub fn refused(&self) -> u64 {
        match self.nth {
            0 => 0,
            nth => (self.asked() + 1).saturating_sub(nth),
        }
    }
}

impl Allocator for Refusing {
    fn grant(&self, _bytes: usize) -> Result<(), AllocError> {
        self.asked.set(self.asked() + 1);
        if self.refused() != 0 {
            return Err(AllocError);
        }
        self.held.set(self.held() + 1);
        Ok(())
    }

    fn give_back(&self, _bytes: usize) {
        self.held.set(self.held() - 1);
    }
}
