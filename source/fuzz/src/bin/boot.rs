//! A whole boot: `machine menu pieces kernel kernel`.
#![cfg_attr(fuzzing, no_main)]

use bootcore::Menu;
use bootcore_fuzz::{Drawn, boot_menu, target};

fn run(bytes: &[u8]) {
    let (head, kernels) = bytes.split_at(bytes.len().min(256));
    let mut drawn = Drawn(head);
    let machine = drawn.machine();
    let (one, two) = kernels.split_at((usize::from(drawn.byte()) << 8).min(kernels.len()));
    let mut menu = Menu::new();
    for _ in 0..=drawn.byte() % 3 {
        let kernel = if drawn.byte() & 1 == 0 { two } else { one };
        menu = menu.entry(if drawn.byte() & 1 == 0 { drawn.multiboot2(kernel) } else { drawn.linux(kernel) });
    }
    menu = menu.first(u32::from(drawn.byte() % 4)).fallback(u32::from(drawn.byte() % 4)).fallback(u32::from(drawn.byte() % 4));
    boot_menu(&mut drawn, &machine, &menu);
}

target!(run);
