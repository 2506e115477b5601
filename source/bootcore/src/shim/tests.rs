//! Each function of the shim, beside what its contract in the toolchain's library says.

use super::alloc::{AllocError, AllocFailed, Allocator, Global};
use super::byteorder::LittleEndian;
use super::io;
use super::vec::{CollectWith, ToVecWith, Vec};
use alloc::format;
use core::cell::Cell;

/// Counts requests, refuses from the nth on, and knows how many bytes are lent.
#[derive(Default)]
struct Counting {
    nth: usize,
    asked: Cell<usize>,
    lent: Cell<usize>,
}

impl Counting {
    fn refusing(nth: usize) -> Counting {
        Counting { nth, ..Counting::default() }
    }
}

impl Allocator for Counting {
    fn grant(&self, bytes: usize) -> Result<(), AllocError> {
        self.asked.set(self.asked.get() + 1);
        if self.nth != 0 && self.asked.get() >= self.nth {
            return Err(AllocError);
        }
        self.lent.set(self.lent.get() + bytes);
        Ok(())
    }

    fn give_back(&self, bytes: usize) {
        self.lent.set(self.lent.get().checked_sub(bytes).expect("it was lent"));
    }
}

#[test]
fn new_and_with_capacity() {
    let heap = Counting::default();
    assert!(Vec::<u32, _>::new(&heap).is_empty());
    assert_eq!(Vec::<u32, _>::with_capacity(&heap, 0).unwrap().capacity(), 0);
    assert_eq!(heap.asked.get(), 0);
    let made = Vec::<u32, _>::with_capacity(&heap, 3).unwrap();
    assert_eq!((made.len(), made.capacity(), heap.asked.get(), heap.lent.get()), (0, 3, 1, 12));
    assert_eq!(made.allocator().asked.get(), 1);
    drop(made);
    assert_eq!(heap.lent.get(), 0);
    assert!(Vec::<u32, _>::with_capacity(&Counting::refusing(1), 1).is_err());
    assert!(Vec::<u64>::with_capacity(Global, usize::MAX).is_err());
}

#[test]
fn reserve_doubles_and_begins_with_a_least() {
    fn grown<T>(mores: &[usize]) -> usize {
        let heap = Counting::default();
        let mut made = Vec::<T, _>::new(&heap);
        for more in mores {
            made.reserve(*more).unwrap();
        }
        assert_eq!(heap.lent.get(), made.capacity() * size_of::<T>());
        made.capacity()
    }
    assert_eq!((grown::<u8>(&[1]), grown::<u16>(&[1]), grown::<[u8; 1024]>(&[1]), grown::<[u8; 1025]>(&[1])), (8, 4, 4, 1));
    assert_eq!((grown::<u8>(&[9]), grown::<u8>(&[9, 10]), grown::<u8>(&[9, 40]), grown::<u8>(&[9, 3])), (9, 18, 40, 9));
    let heap = Counting::refusing(2);
    let mut made = Vec::from_slice(&heap, &[1u8, 2]).unwrap();
    assert_eq!((made.reserve(0), made.reserve(1)), (Ok(()), Err(AllocError)));
    assert_eq!((made.as_slice(), made.capacity(), heap.lent.get()), (&[1, 2][..], 2, 2));
    assert_eq!(Vec::from_slice(Global, &[1u64]).unwrap().reserve(usize::MAX), Err(AllocError));
}

#[test]
fn reserve_exact() {
    let heap = Counting::refusing(3);
    let mut made = Vec::from_slice(&heap, &[1u16, 2]).unwrap();
    assert_eq!((made.reserve_exact(5), made.capacity()), (Ok(()), 7));
    assert_eq!((made.reserve_exact(5), heap.asked.get(), heap.lent.get()), (Ok(()), 2, 14));
    assert_eq!((made.reserve_exact(6), made.capacity(), made.as_slice()), (Err(AllocError), 7, &[1, 2][..]));
    assert_eq!(made.reserve_exact(usize::MAX), Err(AllocError));
}

#[test]
fn push_insert_pop_remove() {
    let mut made = Vec::new(Global);
    for n in [10, 30] {
        made.push(n).unwrap();
    }
    made.insert(1, 20).unwrap();
    made.insert(3, 40).unwrap();
    made.insert(0, 5).unwrap();
    assert_eq!(made.as_slice(), [5, 10, 20, 30, 40]);
    assert_eq!((made.remove(1), made.pop(), made.as_slice()), (10, Some(40), &[5, 20, 30][..]));
    made.as_mut_slice()[0] = 7;
    made[1] += 1;
    assert_eq!((&made).into_iter().copied().collect_with(Global).unwrap(), made);
    assert_eq!(format!("{made:?}"), "[7, 21, 30]");
    made.truncate(5);
    assert_eq!(made.len(), 3);
    made.truncate(1);
    assert_eq!((made.as_slice(), made.capacity() >= 5), (&[7][..], true));
    made.clear();
    assert_eq!((made.pop(), made.is_empty(), made.capacity() >= 5), (None, true, true));
}

#[test]
fn what_finds_no_room_comes_back() {
    let heap = Counting::refusing(2);
    let mut made = Vec::with_capacity(&heap, 1).unwrap();
    made.push(1).unwrap();
    let AllocFailed { value } = made.push(2).unwrap_err();
    assert_eq!((value, made.as_slice()), (2, &[1][..]));
    let refused = made.insert(0, 3).unwrap_err();
    assert_eq!(format!("{refused:?}"), "AllocFailed");
    assert_eq!((refused.value, made.as_slice()), (3, &[1][..]));
    assert_eq!(AllocError::from(made.push(4).unwrap_err()), AllocError);
    assert_eq!(format!("{AllocError}"), "out of memory");
    assert_eq!(made.extend_from_slice(&[5, 6]), Err(AllocError));
    assert_eq!(made.resize(9, 7), Err(AllocError));
    assert_eq!((made.as_slice(), heap.lent.get()), (&[1][..], 4));
}

#[test]
fn from_slice_from_elem_extend_resize() {
    let mut made = Vec::from_slice(Global, b"abc").unwrap();
    assert_eq!((made.as_slice(), made.capacity()), (&b"abc"[..], 3));
    made.extend_from_slice(b"de").unwrap();
    made.resize(7, b'!').unwrap();
    assert_eq!(made.as_slice(), b"abcde!!");
    made.resize(2, b'?').unwrap();
    assert_eq!((made.as_slice(), made.capacity()), (&b"ab"[..], 8));
    let filled = Vec::from_elem(Global, 9u16, 3).unwrap();
    assert_eq!((filled.as_slice(), filled.capacity()), (&[9, 9, 9][..], 3));
    assert_eq!(Vec::from_elem(Global, 9u16, 0).unwrap().capacity(), 0);
}

#[test]
fn collect_and_to_vec() {
    let heap = Counting::default();
    assert!((0..0u8).collect_with(&heap).unwrap().is_empty());
    assert_eq!(heap.asked.get(), 0);
    assert_eq!((0..100u64).collect_with(&heap).unwrap().len(), 100);
    assert_eq!(heap.asked.get(), 1);
    // more are foretold than memory is there for: the first is tried alone
    let refusing = Counting::refusing(1);
    assert_eq!((0..2u8).collect_with(&refusing).unwrap_err(), AllocError);
    assert_eq!(refusing.asked.get(), 2);
    // nothing is foretold
    let odd = (0..20u32).filter(|n| n % 2 == 1).collect_with(Global).unwrap();
    assert_eq!((odd.len(), odd.first(), odd.last()), (10, Some(&1), Some(&19)));
    assert_eq!([1, 2].to_vec_with(Global).unwrap().as_slice(), [1, 2]);
    assert!([1].to_vec_with(&Counting::refusing(1)).is_err());
}

#[test]
fn what_is_dropped_is_given_back() {
    let heap = Counting::default();
    let mut made = Vec::<Vec<u8, &Counting>, &Counting>::new(&heap);
    for n in 0..20 {
        made.push(Vec::from_elem(&heap, 0, n).unwrap()).unwrap();
    }
    made.truncate(10);
    made.remove(3);
    assert!(heap.lent.get() > 0);
    drop(made);
    assert_eq!(heap.lent.get(), 0);
}

#[test]
fn read_write_sink() {
    let (mut source, mut out) = (&b"abcde"[..], [0; 3]);
    assert_eq!((io::Read::read(&mut source, &mut out), &out, source), (Ok(3), b"abc", &b"de"[..]));
    assert_eq!((io::Read::read(&mut source, &mut out), &out[..2]), (Ok(2), &b"de"[..]));
    assert_eq!(io::Read::read(&mut source, &mut out), Ok(0));
    assert_eq!(io::Write::write(&mut io::sink(), b"abc"), Ok(3));
}

#[cfg(feature = "std")]
#[test]
fn a_fault_of_a_reader_is_one() {
    struct Bad;

    impl std::io::Read for Bad {
        fn read(&mut self, _: &mut [u8]) -> std::io::Result<usize> {
            Err(std::io::ErrorKind::TimedOut.into())
        }
    }

    assert_eq!(io::Read::read(&mut Bad, &mut [0]), Err(io::Error));
    let mut full = &mut [0u8; 2][..];
    assert_eq!(io::Write::write(&mut full, b"abc"), Ok(2));
}

#[test]
fn little_endian() {
    let bytes = [1, 2, 3, 4, 5, 6, 7, 8, 9];
    assert_eq!(LittleEndian::read_u16(&bytes), 0x0201);
    assert_eq!(LittleEndian::read_u32(&bytes[1..]), 0x05040302);
    assert_eq!(LittleEndian::read_u64(&bytes[1..]), 0x0908070605040302);
    let mut out = [0xFF; 9];
    LittleEndian::write_u16(&mut out, 0x0201);
    LittleEndian::write_u32(&mut out[2..], 0x06050403);
    assert_eq!(out, [1, 2, 3, 4, 5, 6, 0xFF, 0xFF, 0xFF]);
    LittleEndian::write_u64(&mut out, 0x0807060504030201);
    assert_eq!(out, [1, 2, 3, 4, 5, 6, 7, 8, 0xFF]);
    LittleEndian::write_u16_into(&[0x0102, 0x0304], &mut out[..4]);
    LittleEndian::write_u32_into(&[0x01020304], &mut out[4..8]);
    assert_eq!(out[..8], [2, 1, 4, 3, 4, 3, 2, 1]);
    LittleEndian::write_u64_into(&[1], &mut out[..8]);
    assert_eq!(out, [1, 0, 0, 0, 0, 0, 0, 0, 0xFF]);
}

#[test]
#[should_panic]
fn little_endian_requires_a_fields_bytes() {
    LittleEndian::read_u32(&[1, 2, 3]);
}

#[test]
#[should_panic]
fn little_endian_requires_room_for_just_these() {
    LittleEndian::write_u16_into(&[1], &mut [0; 3]);
}

/// FIPS 180-2, appendix B.
#[cfg(feature = "digest")]
#[test]
fn sha256() {
    use super::sha2::Sha256;

    const ABC: &str = "ba7816bf8f01cfea414140de5dae2223b00361a396177a9cb410ff61f20015ad";
    let hex = |digest: [u8; 32]| digest.iter().map(|byte| format!("{byte:02x}")).collect::<alloc::string::String>();
    assert_eq!(hex(Sha256::digest(b"abc")), ABC);
    let mut hasher = Sha256::new();
    hasher.update(b"a");
    let mut other = hasher.try_clone().unwrap();
    hasher.update(b"bc");
    assert_eq!(hex(hasher.finalize()), ABC);
    other.update(b"");
    other.update(b"bc");
    assert_eq!(hex(other.finalize()), ABC);
}
