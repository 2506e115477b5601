//! A plan that is carried out loads the entry.

mod common;

use bootcore::*;
use common::*;

/// Entries of each protocol, with their files in the order of a plan.
fn with_entries(look: impl Fn(&Entry<'_>, &Entry<'_>, &[&[u8]])) {
    let (multiboot2, linux, linux64) = (multiboot2_kernel(), linux_kernel(), linux64_kernel());
    let first: Vec<u8> = (0..10000u32).map(|i| (i * 7 + i / 256) as u8).collect();
    let second = b"verbose=1\n";
    let length = |file: &[u8]| File::Length(file.len() as u64);
    // whole, and with the lengths of the files beside the kernel
    let entry = |one: File<'static>, other: File<'static>| -> Entry<'_> {
        Multiboot2::new(&multiboot2).line("verbose").module(one, "first").module(other, "second").into()
    };
    let whole = Multiboot2::new(&multiboot2).line("verbose").module(&first, "first").module(second, "second");
    look(&whole.into(), &entry(length(&first), length(second)), &[&multiboot2, &first, second]);
    let empty = Multiboot2::new(&multiboot2).module(b"", "empty").into();
    let of_length = Multiboot2::new(&multiboot2).module(File::Length(0), "empty").into();
    look(&empty, &of_length, &[&multiboot2, b""]);
    for linux in [Linux::new(&linux), Linux::new64(&linux64)] {
        let kernel = match linux.kernel {
            File::Bytes(bytes) => bytes,
            _ => unreachable!(),
        };
        let linux = linux.line("console=ttyS0");
        let none = Entry::from(linux.clone());
        let entry = |initrd: File<'static>| Entry::from(linux.clone().initrd(initrd));
        look(&none, &none, &[kernel]);
        look(&linux.clone().initrd(&first).into(), &entry(length(&first)), &[kernel, &first]);
        look(&entry(b"".into()), &entry(File::Length(0)), &[kernel, b""]);
    }
}

fn carry_out(plan: &Plan, files: &[&[u8]], memory: &mut [u8]) {
    for step in plan {
        let to = &mut memory[step.address as usize..][..step.length as usize];
        match step.source {
            Source::File { file, offset } => to.copy_from_slice(&files[file][offset as usize..][..to.len()]),
            Source::Own(bytes) => to.copy_from_slice(bytes),
            Source::Zeros => to.fill(0),
            other => panic!("{:?}", other),
        }
    }
}

#[test]
fn by_a_loop_or_by_a_call_it_equals_a_load() {
    with_entries(|entry, of_lengths, files| {
        let machine = machine();
        let mut loaded = memory();
        let handoff = load(&mut Memory::new(0, &mut loaded), &machine, entry).unwrap();
        let plan = Plan::new(&machine, of_lengths).unwrap();
        assert_eq!(plan.handoff(), &handoff);
        assert!(plan == Plan::new(&machine, entry).unwrap());
        assert_eq!((plan.places(), plan.registers()), (&handoff.places[..], &handoff.registers));
        assert_eq!(prepare(&machine, of_lengths).unwrap(), handoff);

        let mut by_loop = memory();
        carry_out(&plan, files, &mut by_loop);
        assert!(by_loop == loaded);

        let mut by_call = memory();
        let (low, high) = by_call.split_at_mut(0x100020); // in the kernel
        plan.carry_out(files, &mut [Memory::new(0x100020, high), Memory::new(0, low)]).unwrap();
        assert!(by_call == loaded);
    });
}

#[test]
fn steps_ascend_and_are_the_parts() {
    with_entries(|_, of_lengths, _| {
        let plan = Plan::new(&machine(), of_lengths).unwrap();
        let mut covered: Vec<(u64, u64)> = Vec::new();
        for step in &plan {
            let end = step.address + step.length;
            match covered.last_mut() {
                Some(last) if last.1 == step.address => last.1 = end,
                last => {
                    assert!(last.is_none_or(|last| last.1 < step.address));
                    covered.push((step.address, end));
                }
            }
            assert!(step.length > 0);
        }
        for place in plan.places() {
            let is_in = |run: &&(u64, u64)| run.0 <= place.address && place.address + place.length <= run.1;
            assert_eq!(covered.iter().filter(is_in).count(), 1);
        }
        let length = |steps: Vec<u64>| steps.into_iter().sum::<u64>();
        assert_eq!(
            length(plan.steps().map(|step| step.length).collect()),
            length(plan.places().iter().map(|place| place.length).collect())
        );
        assert_eq!(plan.steps().len(), plan.steps().count());
        let own = |step: Step<'_>| matches!(step.source, Source::Own(_)).then_some(step.length);
        assert!(plan.steps().filter_map(own).sum::<u64>() <= plan.own().len() as u64);
    });
}

#[test]
fn a_plan_outlives_what_it_was_made_of() {
    let plan = {
        let kernel = linux64_kernel();
        Plan::new(&machine(), &Linux::new64(&kernel).into()).unwrap()
    };
    assert_eq!(plan.registers().bits, 64);
    assert_eq!(plan.registers().segments().cs.l, 1);
    assert!(plan.places().iter().any(|place| place.role == Role::PageTables));
}

#[test]
fn threads_plan_at_once() {
    let (kernel, machine) = (linux64_kernel(), machine());
    let entry = Entry::from(Linux::new64(&kernel).line("quiet").initrd(File::Length(5)));
    let wanted = Plan::new(&machine, &entry).unwrap();
    std::thread::scope(|scope| {
        let plan_often = || (0..100).all(|_| Plan::new(&machine, &entry).as_ref() == Ok(&wanted));
        let threads: Vec<_> = (0..8).map(|_| scope.spawn(plan_often)).collect();
        assert!(threads.into_iter().all(|thread| thread.join().unwrap()));
    });
}
