//! The readers of an image: of its head, of boot information, and of boot parameters.
#![cfg_attr(fuzzing, no_main)]

use bootcore::{Handoff, walk};
use bootcore_fuzz::target;

fn run(bytes: &[u8]) {
    let (seen, head) = (walk(bytes), Handoff::from_image_head(bytes));
    if let Ok(seen) = seen {
        assert_eq!(walk(bytes).expect("as before"), seen);
        head.expect("the head of what was read");
    }
}

target!(run);
