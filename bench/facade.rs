//! Seconds of calls of the package for Rust and of the library for C, in one run: they take turns, and the best of all rounds
//! counts. It shows each pair and its ratio, and what both hand over must be the same.
//!
//!     facade KERNEL INITRD ROUNDS
//!
//! `bench/facade.sh` builds it.

#[allow(dead_code)] // not all calls are timed
#[path = "../tests/drivers/beside_c/c_calls.rs"]
mod c_calls;
#[allow(dead_code)]
#[path = "../tests/drivers/beside_c/told.rs"]
mod told;

use std::time::{Duration, Instant};

use bootcore::{Entry, File, Kind, Linux, Machine, Memory, Menu, Plan, boot, digest, load, walk};

const SIZE: usize = 1 << 30;
const POOL: u64 = 0x2400_0000;
const PLANS: u32 = 2000;

fn time(call: impl FnOnce()) -> Duration {
    let began = Instant::now();
    call();
    began.elapsed()
}

fn show(name: &str, rounds: u32, mut in_rust: impl FnMut(), mut in_c: impl FnMut()) {
    let mut best = [Duration::MAX; 2];
    for _ in 0..rounds {
        best = [best[0].min(time(&mut in_c)), best[1].min(time(&mut in_rust))];
    }
    let [c, rust] = best.map(|time| time.as_secs_f64());
    println!("{name:<26} {c:>10.6} {rust:>10.6} {:>6.2}", rust / c);
}

fn main() {
    let words: Vec<String> = std::env::args().collect();
    let [_, kernel, initrd, rounds] = &words[..] else { panic!("facade KERNEL INITRD ROUNDS") };
    let (kernel, initrd) = (std::fs::read(kernel).unwrap(), std::fs::read(initrd).unwrap());
    let rounds: u32 = rounds.parse().unwrap();
    let machine =
        Machine::new(SIZE as u64).region(0, 0x9F000, Kind::Usable).region(1 << 20, SIZE as u64 - (1 << 20), Kind::Usable);
    let with_pool = machine.clone().pool(POOL, SIZE as u64 - POOL);
    let linux = Linux::new(&kernel).line("bench");
    let planned = Entry::from(linux.clone().initrd(File::Length(initrd.len() as u64)));
    let whole = Entry::from(linux.initrd(&initrd));
    let menu = Menu::new().entry(whole.clone());
    let (mut one, mut other) = (vec![0; SIZE], vec![0; SIZE]);

    println!("{:<26} {:>10} {:>10} {:>6}   the best of {rounds} rounds", "seconds", "C", "Rust", "ratio");
    show(
        &format!("{PLANS} plans"),
        rounds,
        || (0..PLANS).for_each(|_| drop(Plan::new(&machine, &planned).unwrap())),
        || (0..PLANS).for_each(|_| drop(c_calls::plan(&machine, &planned).unwrap_or_else(|why| panic!("{why}")))),
    );
    show(
        "load",
        rounds,
        || drop(load(&mut Memory::new(0, &mut one), &machine, &whole).unwrap()),
        || drop(c_calls::load(0, &mut other, &machine, &whole).unwrap()),
    );
    show(
        "boot through a pool",
        rounds,
        || drop(boot(&mut Memory::new(0, &mut one), &with_pool, &menu).unwrap()),
        || drop(c_calls::boot(0, &mut other, &with_pool, &menu)),
    );
    assert!(one == other, "what both load differs");
    let handoff = load(&mut Memory::new(0, &mut one), &machine, &whole).unwrap();
    drop(other);
    let mut image = handoff.image_head().unwrap();
    for place in &handoff.places {
        image.extend_from_slice(&one[place.address as usize..][..place.length as usize]);
    }
    drop(one);
    let name = format!("walk of {} MiB", image.len() >> 20);
    show(&name, rounds, || drop(walk(&image).unwrap()), || drop(c_calls::walk(&image).unwrap()));
    drop(image);
    show(
        "digest",
        rounds,
        || drop(digest(&machine, &whole).unwrap()),
        || assert!(c_calls::digest(&machine, &whole).len() > 200),
    );
}
