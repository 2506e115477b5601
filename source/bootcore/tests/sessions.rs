//! A boot piece by piece ends as one at once.

mod common;

use bootcore::*;
use common::*;

/// A file that repeats itself nowhere.
fn file(length: usize) -> Vec<u8> {
    (0..length).map(|i| (i * 7 + i / 256) as u8).collect()
}

fn entry<'a>(kernel: File<'a>, module: File<'a>, line: &'a str) -> Multiboot2<'a> {
    Multiboot2::new(kernel).line("k").module(module, line)
}

/// Two entries with a kernel and a module each.
fn menu<'a>(kernels: [File<'a>; 2], modules: [File<'a>; 2]) -> Menu<'a> {
    let [first, second] = modules;
    Menu::new().entry(entry(kernels[0], first, "first")).entry(entry(kernels[1], second, "second")).fallback(1)
}

#[test]
fn in_any_order_it_ends_as_a_boot() {
    let (kernel, one, other, machine) = (multiboot2_kernel(), file(20000), file(40000), machine());
    let files: [[&[u8]; 2]; 2] = [[&kernel, &one], [&kernel, &other]];
    let length = |file: &[u8]| File::Length(file.len() as u64);
    let mut memory = memory();
    let lengths = menu([length(&kernel); 2], [length(&one), length(&other)]);
    let mut session = Session::new(Memory::new(0, &mut memory), &machine, &lengths).unwrap();
    assert_eq!(session.outcome(), Ok(None));
    assert_eq!(session.start(), Ok(Progress::Waiting));
    let mut queue: Vec<Request> = session.requests(2 * PIECE).collect();
    let asked: u64 = queue.iter().map(|request| request.length).sum();
    assert_eq!(asked as usize, kernel.len() + one.len());
    let (mut lot, mut end) = (1u32, Progress::Waiting);
    while matches!(end, Progress::Waiting | Progress::Next) {
        lot = lot.wrapping_mul(1103515245).wrapping_add(12345);
        let request = queue.swap_remove((lot >> 16) as usize % queue.len());
        // the third piece of the first module can't be read
        end = if request.entry == 0 && request.file == 1 && request.piece == 2 {
            session.fault(&request).unwrap()
        } else {
            let bytes = &files[request.entry as usize][request.file as usize][request.offset() as usize..];
            session.pieces(&request, &bytes[..request.length as usize]).unwrap()
        };
        if end == Progress::Next {
            queue.extend(session.requests(2 * PIECE));
        }
    }
    assert_eq!(end, Progress::Done);
    assert_eq!(session.missing(PIECE), None);
    let came = session.outcome().unwrap().unwrap();
    assert_eq!(came.refusals, [RefusedEntry::new(0, Refusal::FileFault { file: 1 })]);
    assert_eq!(session.start(), Ok(Progress::Done)); // and again
    let left = session.memory().bytes().to_vec();
    drop(session);
    assert!(left == memory);

    let mut other_memory = common::memory();
    let whole = menu([(&kernel).into(); 2], [File::Unreadable, (&other).into()]);
    let wanted = boot(&mut Memory::new(0, &mut other_memory), &machine, &whole).unwrap();
    assert_eq!(came.handoff, wanted.handoff);
    assert_eq!(came.handoff.entry, 1);
    assert_eq!(wanted.refusals, [RefusedEntry::new(0, Refusal::NoFile { file: 1 })]);
    assert!(memory == other_memory);
}

#[test]
fn what_is_not_awaited_changes_nothing() {
    let (kernel, machine) = (multiboot2_kernel(), machine());
    let mut memory = memory();
    let lengths = Menu::new().entry(Linux::new(File::Length(PIECE as u64 + 9))).entry(Multiboot2::new(&kernel)).fallback(1);
    let mut session = Session::new(Memory::new(0, &mut memory), &machine, &lengths).unwrap();
    let mut request = Request::new(0, 0, 0);
    request.length = 9;
    assert_eq!(session.pieces(&request, &[0; 9]), Ok(Progress::Waiting)); // not started
    assert_eq!(session.missing(PIECE), None);
    assert_eq!(session.start(), Ok(Progress::Waiting));
    let first = session.missing(0).unwrap();
    assert_eq!((first.piece, first.length), (0, PIECE as u64));
    let second = session.missing_after(&first, 0).unwrap();
    assert_eq!((second.piece, second.length, second.offset()), (1, 9, PIECE as u64));
    assert_eq!(session.missing_after(&second, 0), None);
    let before = session.memory().bytes().to_vec();
    let others = [Request::new(1, 0, 0), Request::new(0, 9, 0), Request::new(0, 0, 2), Request::new(0, 0, u32::MAX)];
    for request in others {
        assert_eq!(session.pieces(&request, &[0; 2 * PIECE]), Ok(Progress::Waiting));
        assert_eq!(session.fault(&request), Ok(Progress::Waiting));
    }
    assert!(session.memory().bytes() == before);
    assert_eq!(session.fault(&second), Ok(Progress::Next));
    let request = session.missing(usize::MAX).unwrap();
    assert_eq!((request.entry, request.attempt, request.length), (1, 1, kernel.len() as u64));
    assert_eq!(session.pieces(&request, &kernel), Ok(Progress::Done));
}

/// Behind a request of another attempt the running one has all that it awaits, wherever that
/// request lies.
#[test]
fn behind_another_attempt_the_first_is_told() {
    let (kernel, machine, mut memory) = (multiboot2_kernel(), machine(), memory());
    let files = [(&kernel).into(), File::Length(3 * PIECE as u64)];
    let menu = menu([files[0]; 2], [files[1]; 2]);
    let mut session = Session::new(Memory::new(0, &mut memory), &machine, &menu).unwrap();
    session.start().unwrap();
    assert_eq!(session.fault(&Request::new(0, 1, 1)), Ok(Progress::Next));
    let first = session.missing(PIECE).unwrap();
    assert_eq!((first.attempt, first.file, first.piece), (1, 0, 0));
    for (file, piece) in [(0, 0), (1, 1), (1, 2), (7, u32::MAX)] {
        for attempt in [0, 2, u32::MAX] {
            assert_eq!(session.missing_after(&Request::new(attempt, file, piece), PIECE), Some(first));
        }
    }
    let second = session.missing_after(&first, PIECE).unwrap();
    assert_eq!((second.attempt, second.file, second.piece), (1, 1, 0));
    assert_eq!(session.missing_after(&Request::new(1, 1, 2), PIECE), None);
}

/// A request has pieces of one file that follow each other.
#[test]
fn pieces_of_a_request_follow_each_other() {
    let (kernel, machine, mut memory) = (multiboot2_kernel(), machine(), memory());
    let module = file(4 * PIECE);
    let menu = Menu::new().entry(entry((&kernel).into(), (&module).into(), "m"));
    let mut session = Session::new(Memory::new(0, &mut memory), &machine, &menu).unwrap();
    session.start().unwrap();
    let mut comes = |piece: u32| {
        let bytes = &module[piece as usize * PIECE..][..PIECE];
        session.pieces(&Request::new(0, 1, piece), bytes).unwrap();
        let requests = session.requests(usize::MAX);
        requests.map(|request| (request.file, request.piece, request.length as usize)).collect::<Vec<_>>()
    };
    // the module's second piece is no second one of the kernel
    assert_eq!(comes(0), [(0, 0, kernel.len()), (1, 1, 3 * PIECE)]);
    assert_eq!(comes(2), [(0, 0, kernel.len()), (1, 1, PIECE), (1, 3, PIECE)]);
}

/// A request has as many pieces as fit into what is asked for, and one at least.
#[test]
fn a_request_has_at_most_what_is_asked_for() {
    let (machine, mut memory) = (machine(), memory());
    let menu = Menu::new().entry(Linux::new(File::Length(3 * PIECE as u64 + 5)));
    let mut session = Session::new(Memory::new(0, &mut memory), &machine, &menu).unwrap();
    session.start().unwrap();
    let cases = [(0, 1), (1, 1), (PIECE, 1), (2 * PIECE - 1, 1), (2 * PIECE, 2), (3 * PIECE + 4, 3)];
    for (most, pieces) in cases {
        assert_eq!(session.missing(most).map(|request| request.length as usize), Some(pieces * PIECE));
    }
    let all = session.missing(3 * PIECE + 5).unwrap();
    assert_eq!(all.length as usize, 3 * PIECE + 5);
}

/// Bytes behind those that end an attempt are of no other one, and its end is told.
#[test]
fn an_attempt_ends_among_pieces() {
    let (kernel, machine, mut memory) = (multiboot2_kernel(), machine(), memory());
    let menu = Menu::new().entry(Linux::new(File::Length(PIECE as u64))).entry(Multiboot2::new(&kernel)).fallback(1);
    let mut session = Session::new(Memory::new(0, &mut memory), &machine, &menu).unwrap();
    session.start().unwrap();
    let request = session.missing(PIECE).unwrap();
    assert_eq!(session.pieces(&request, &[0; PIECE + 100]), Ok(Progress::Next));
    assert_eq!(session.missing(usize::MAX).map(|request| (request.entry, request.piece)), Some((1, 0)));
}

#[test]
fn no_entry_is_left() {
    let mut memory = memory();
    let menu = Menu::new().entry(Linux::new(File::Unreadable)).entry(Linux::new(b"none")).fallback(1);
    let wanted =
        Error::NoEntry(vec![RefusedEntry::new(0, Refusal::NoFile { file: 0 }), RefusedEntry::new(1, Refusal::NotBzImage)]);
    assert_eq!(boot(&mut Memory::new(0, &mut memory), &machine(), &menu), Err(wanted.clone()));
    let mut session = Session::new(Memory::new(0, &mut memory), &machine(), &menu).unwrap();
    assert_eq!(session.start(), Ok(Progress::Next));
    let request = session.missing(PIECE).unwrap();
    assert_eq!(session.pieces(&request, b"none"), Ok(Progress::Failed));
    assert_eq!(session.outcome(), Err(wanted.clone()));
    drop(session);
    assert_eq!(
        wanted.to_string(),
        "no entry is left: entry 0: refused 1 NoFile(0): the file can't be read: it is missing, \
         or no regular file; \
         entry 1: refused 22 NotBzImage: not a bzImage"
    );
    let small = machine().pool(POOL as u64, 0);
    let menu = Menu::new().entry(Linux::new(b"none"));
    let end = boot(&mut Memory::new(0, &mut memory), &small, &menu);
    assert_eq!(end, Err(Error::NoEntry(vec![RefusedEntry::new(0, Refusal::NoPool)])));
}

#[test]
fn a_session_goes_to_another_thread() {
    let kernel = multiboot2_kernel();
    let mut memory = memory();
    let menu = Menu::new().entry(Multiboot2::new(&kernel));
    let mut session = Session::new(Memory::new(0, &mut memory), &machine(), &menu).unwrap();
    session.start().unwrap();
    let (kernel, rip) = (&kernel, |booted: Booted| booted.handoff.registers.rip);
    let entered = std::thread::scope(|scope| {
        let boots = scope.spawn(move || {
            let request = session.missing(usize::MAX).unwrap();
            session.pieces(&request, kernel).unwrap();
            session.outcome().unwrap().map(rip)
        });
        boots.join().unwrap()
    });
    assert_eq!(entered, Some(0x100010));
}

#[test]
fn many_sessions_are_freed() {
    for _ in 0..200 {
        let mut memory = vec![0; SIZE];
        let menu = Menu::new().entry(Linux::new(File::Length(5000)));
        let mut session = Session::new(Memory::new(0, &mut memory), &machine(), &menu).unwrap();
        session.start().unwrap();
    }
}
