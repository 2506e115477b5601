//! Digests of what is handed over: at once, and as files come.

mod common;

use bootcore::*;
use common::*;

const MEASURED: &str = include_str!("data/MEASURED.md");

fn hex(digest: &[u8]) -> String {
    digest.iter().map(|byte| format!("{:02x}", byte)).collect()
}

/// Length and SHA-256 of a line of the table that docs/MEASURED.md has of the second example: name,
/// index, address, length, SHA-256.
fn measured(name: &str) -> (u64, String) {
    let lines = MEASURED.lines().map(|line| line.split_whitespace().collect::<Vec<_>>());
    let mut found = lines.filter(|words| words.len() == 5 && words[0] == name && words[4].len() == 64);
    let words = found.next().unwrap();
    (words[3].parse().unwrap(), words[4].into())
}

fn second<'a>(kernel: &'a [u8], initrd: File<'a>) -> Entry<'a> {
    Linux::new(kernel).line("console=ttyS0").initrd(initrd).into()
}

#[test]
fn they_are_those_of_the_image() {
    let kernel = linux_kernel();
    let digests = digest(&machine(), &second(&kernel, b"hello".into())).unwrap();
    assert_eq!((digests.image_length, hex(&digests.image)), measured("image"));
    assert_eq!((digests.head_length, hex(&digests.head)), measured("head"));
    let handoff = prepare(&machine(), &second(&kernel, b"hello".into())).unwrap();
    assert_eq!(digests.head_length as usize, handoff.image_head().unwrap().len());
    let names = ["parameters", "line", "gdt", "kernel", "initrd"];
    assert_eq!(digests.parts.len(), names.len());
    for (part, name) in digests.parts.iter().zip(names) {
        assert_eq!((part.place.length, hex(&part.sha256)), measured(name));
    }
    assert!(digests.parts.iter().map(|part| &part.place).eq(&handoff.places));
}

#[test]
fn they_do_not_depend_on_the_pieces() {
    let kernel = multiboot2_kernel();
    let module: Vec<u8> = (0..20000u32).map(|i| (i * 7 + i / 256) as u8).collect();
    let entry = |file| -> Entry<'_> { Multiboot2::new(&kernel).line("k").module(file, "m").into() };
    let whole = Multiboot2::new(&kernel).line("k").module(&module, "m").into();
    let wanted = digest(&machine(), &whole).unwrap();
    let files: [&[u8]; 2] = [&kernel, &module];
    for most in [1, 7, 4096, 5000, usize::MAX] {
        let mut digest = Digest::new(&machine(), &entry(File::Length(20000))).unwrap();
        while let Some(range) = digest.wanted() {
            assert_eq!(digest.finish(), Ok(None));
            let bytes = &files[range.file][range.offset as usize..][..range.length as usize];
            digest.feed(&bytes[..bytes.len().min(most)]).unwrap();
            digest.feed(b"").unwrap();
        }
        assert_eq!(digest.feed(b"1"), Err(Error::Misuse(Misuse::Unwanted)));
        assert_eq!(digest.finish(), Ok(Some(wanted.clone())));
        assert_eq!(digest.finish(), Ok(Some(wanted.clone()))); // and again
    }
    let mut digest = Digest::new(&machine(), &entry(File::Length(20000))).unwrap();
    let range = digest.wanted().unwrap();
    assert_eq!(digest.feed(&vec![0; range.length as usize + 1]), Err(Error::Misuse(Misuse::Unwanted)));
    assert_eq!(digest.wanted(), Some(range));
    assert_eq!(digest.feed_files(&[&kernel, &module[1..]]), Err(Error::Misuse(Misuse::BadFile)));
    assert_eq!(digest.feed_files(&[&kernel]), Err(Error::Misuse(Misuse::BadFile)));
    digest.feed_files(&files).unwrap();
    assert_eq!(digest.finish(), Ok(Some(wanted)));
}

#[test]
fn what_is_not_loaded_has_none() {
    let (kernel, machine) = (linux_kernel(), machine());
    let refused = Error::Refused(Refusal::NotBzImage);
    assert_eq!(digest(&machine, &Linux::new(b"none").into()), Err(refused.clone()));
    assert_eq!(Digest::new(&machine, &Linux::new(b"none").into()).map(drop), Err(refused));
    let of_length = second(&kernel, File::Length(5));
    assert_eq!(digest(&machine, &of_length), Err(Error::Misuse(Misuse::NoBytes)));
    let unreadable = second(&kernel, File::Unreadable);
    assert_eq!(Digest::new(&machine, &unreadable).map(drop), Err(Error::Misuse(Misuse::BadFile)));
    assert_eq!(Digest::new(&of_size(4096), &of_length).map(drop), Err(Error::Misuse(Misuse::BadSize)));
}

#[test]
fn it_goes_to_another_thread_and_outlives_its_entry() {
    let machine = machine();
    let (kernel, mut digest) = {
        let kernel = linux_kernel();
        let digest = Digest::new(&machine, &second(&kernel, File::Length(5))).unwrap();
        (kernel.clone(), digest)
    };
    let fed = std::thread::spawn(move || {
        digest.feed_files(&[&kernel, b"hello"]).unwrap();
        digest.finish().unwrap().map(|digests| hex(&digests.image))
    });
    assert_eq!(fed.join().unwrap(), Some(measured("image").1));
}

#[test]
fn many_are_freed() {
    let kernel = linux_kernel();
    for _ in 0..200 {
        let mut digest = Digest::new(&machine(), &second(&kernel, File::Length(5))).unwrap();
        let range = digest.wanted().unwrap();
        digest.feed(&kernel[range.offset as usize..][..1]).unwrap();
    }
}

#[test]
fn threads_look_at_one() {
    let kernel = linux_kernel();
    let mut digest = Digest::new(&machine(), &second(&kernel, File::Length(5))).unwrap();
    digest.feed_files(&[&kernel, b"hello"]).unwrap();
    let (digest, wanted) = (&digest, measured("image").1);
    std::thread::scope(|scope| {
        let look = || (digest.wanted(), digest.finish().unwrap().map(|digests| hex(&digests.image)));
        let looks: Vec<_> = (0..8).map(|_| scope.spawn(look)).collect();
        looks.into_iter().for_each(|look| assert_eq!(look.join().unwrap(), (None, Some(wanted.clone()))));
    });
}
