//! What the proved source takes of its toolchain's library, where that differs from Rust's: growth that may be refused, as a
//! `Result`, and an allocator that is passed. Memory is the global allocator's; an [`alloc::Allocator`] only says whether a request
//! may be made, and hears of it.
//!
//! Each item says which one of that library it stands for, by its path there, and means the same: what follows the path is
//! what its contract says. Where a contract has a `requires`, the function panics if that is broken, as Rust's does.
//! shim/tests.rs tries each function. There is no `unsafe`.

#[cfg(test)]
mod tests;

pub use core::{error, fmt, mem, ops};

#[cfg(not(all(target_pointer_width = "64", target_endian = "little")))]
compile_error!("what is proved is proved of a usize of 64 bits, and tried on little-endian machines alone");

/// `std::marker`.
pub mod marker {
    pub use core::marker::{PhantomData, Send, Sync};
}

/// `std::alloc`, as far as the source has allocators as values.
pub mod alloc {
    use core::fmt;

    /// `std::alloc::AllocError`: a request for memory was refused.
    #[derive(Clone, Copy, Debug, PartialEq, Eq)]
    pub struct AllocError;

    impl fmt::Display for AllocError {
        fn fmt(&self, f: &mut fmt::Formatter<'_>) -> fmt::Result {
            f.write_str("out of memory")
        }
    }

    impl core::error::Error for AllocError {}

    /// `std::alloc::AllocFailed`: a value found no room, and comes back.
    pub struct AllocFailed<T> {
        pub value: T,
    }

    impl<T> fmt::Debug for AllocFailed<T> {
        fn fmt(&self, f: &mut fmt::Formatter<'_>) -> fmt::Result {
            f.write_str("AllocFailed")
        }
    }

    impl<T> From<AllocFailed<T>> for AllocError {
        fn from(_: AllocFailed<T>) -> AllocError {
            AllocError
        }
    }

    /// `std::alloc::Allocator`: who answers for memory. There it gives blocks; here it is asked before the global allocator is.
    pub trait Allocator {
        /// `Allocator::allocate` and `Allocator::grow`, each a request: whether a block of so many bytes may be asked for.
        fn grant(&self, _bytes: usize) -> Result<(), AllocError> {
            Ok(())
        }

        /// `Allocator::deallocate`: a block of so many bytes is given back. A block that has grown was given back, too.
        fn give_back(&self, _bytes: usize) {}
    }

    /// As in `std::alloc`: a reference to an allocator is one.
    impl<A: Allocator + ?Sized> Allocator for &A {
        fn grant(&self, bytes: usize) -> Result<(), AllocError> {
            (**self).grant(bytes)
        }

        fn give_back(&self, bytes: usize) {
            (**self).give_back(bytes);
        }
    }

    /// `std::alloc::Global`: refuses nothing by itself.
    #[derive(Clone, Copy, Debug, Default, PartialEq, Eq)]
    pub struct Global;

    impl Allocator for Global {}
}

/// `std::vec`.
pub mod vec {
    use super::alloc::{AllocError, AllocFailed, Allocator, Global};
    use core::{fmt, mem, ops};

    /// `std::vec::Vec`: each growth may be refused, and then nothing has changed.
    pub struct Vec<T, A: Allocator = Global> {
        held: alloc::vec::Vec<T>,
        alloc: A,
    }

    impl<T, A: Allocator> Vec<T, A> {
        /// `Vec::new`: empty, and asks for nothing.
        pub fn new(alloc: A) -> Vec<T, A> {
            Vec { held: alloc::vec::Vec::new(), alloc }
        }

        /// `Vec::with_capacity`: empty, with room for exactly so many; it asks for nothing where that is none.
        pub fn with_capacity(alloc: A, capacity: usize) -> Result<Vec<T, A>, AllocError> {
            let mut made = Vec::new(alloc);
            if capacity > 0 {
                made.move_to(capacity)?;
            }
            Ok(made)
        }

        /// `Vec::allocator`.
        pub fn allocator(&self) -> &A {
            &self.alloc
        }

        /// `Vec::len`.
        pub fn len(&self) -> usize {
            self.held.len()
        }

        /// `Vec::is_empty`.
        pub fn is_empty(&self) -> bool {
            self.held.is_empty()
        }

        /// `Vec::capacity`: at least what was asked for.
        pub fn capacity(&self) -> usize {
            self.held.capacity()
        }

        /// `Vec::as_slice`.
        pub fn as_slice(&self) -> &[T] {
            &self.held
        }

        /// `Vec::as_mut_slice`.
        pub fn as_mut_slice(&mut self) -> &mut [T] {
            &mut self.held
        }

        /// `Vec::reserve`: room for so many more, which is asked for once, twice as much as before if that is more.
        pub fn reserve(&mut self, more: usize) -> Result<(), AllocError> {
            if more <= self.held.capacity() - self.held.len() {
                return Ok(());
            }
            let least = match mem::size_of::<T>() {
                0..=1 => 8,
                2..=1024 => 4,
                _ => 1,
            };
            let wanted = self.held.len().checked_add(more).ok_or(AllocError)?;
            self.move_to(wanted.max(self.held.capacity().saturating_mul(2)).max(least))
        }

        /// `Vec::reserve_exact`: room for just so many more.
        pub fn reserve_exact(&mut self, more: usize) -> Result<(), AllocError> {
            if more <= self.held.capacity() - self.held.len() {
                return Ok(());
            }
            self.move_to(self.held.len().checked_add(more).ok_or(AllocError)?)
        }

        /// To a block for so many, which are more than there is room for.
        fn move_to(&mut self, capacity: usize) -> Result<(), AllocError> {
            let width = mem::size_of::<T>();
            let before = self.held.capacity() * width;
            let wanted = capacity.checked_mul(width).ok_or(AllocError)?;
            self.alloc.grant(wanted)?;
            let made = self.held.try_reserve_exact(capacity - self.held.len());
            let left = if made.is_ok() { before } else { wanted };
            if left > 0 {
                self.alloc.give_back(left);
            }
            made.map_err(|_| AllocError)
        }

        /// `Vec::push`: a value that finds no room comes back.
        pub fn push(&mut self, value: T) -> Result<(), AllocFailed<T>> {
            if self.reserve(1).is_err() {
                return Err(AllocFailed { value });
            }
            self.held.push(value);
            Ok(())
        }

        /// `Vec::insert`, which requires that the place is at most the length: a value that finds no room comes back.
        pub fn insert(&mut self, at: usize, value: T) -> Result<(), AllocFailed<T>> {
            if self.reserve(1).is_err() {
                return Err(AllocFailed { value });
            }
            self.held.insert(at, value);
            Ok(())
        }

        /// `Vec::pop`.
        pub fn pop(&mut self) -> Option<T> {
            self.held.pop()
        }

        /// `Vec::remove`, which requires that the place is below the length.
        pub fn remove(&mut self, at: usize) -> T {
            self.held.remove(at)
        }

        /// `Vec::truncate`: the first so many stay.
        pub fn truncate(&mut self, len: usize) {
            self.held.truncate(len);
        }

        /// `Vec::clear`: the room stays.
        pub fn clear(&mut self) {
            self.held.clear();
        }
    }

    impl<T: Clone, A: Allocator> Vec<T, A> {
        /// `Vec::from_slice`: the items of a slice, with room for no more.
        pub fn from_slice(alloc: A, items: &[T]) -> Result<Vec<T, A>, AllocError> {
            let mut made = Vec::with_capacity(alloc, items.len())?;
            made.held.extend_from_slice(items);
            Ok(made)
        }

        /// `Vec::from_elem`: an item so often, with room for no more.
        pub fn from_elem(alloc: A, item: T, count: usize) -> Result<Vec<T, A>, AllocError> {
            let mut made = Vec::with_capacity(alloc, count)?;
            made.held.resize(count, item);
            Ok(made)
        }

        /// `Vec::extend_from_slice`.
        pub fn extend_from_slice(&mut self, items: &[T]) -> Result<(), AllocError> {
            self.reserve(items.len())?;
            self.held.extend_from_slice(items);
            Ok(())
        }

        /// `Vec::resize`: cut to a length, or filled up to it with an item.
        pub fn resize(&mut self, len: usize, item: T) -> Result<(), AllocError> {
            self.reserve(len.saturating_sub(self.held.len()))?;
            self.held.resize(len, item);
            Ok(())
        }
    }

    /// As in `std::vec`: its block is given back.
    impl<T, A: Allocator> Drop for Vec<T, A> {
        fn drop(&mut self) {
            let left = self.held.capacity() * mem::size_of::<T>();
            if left > 0 {
                self.alloc.give_back(left);
            }
        }
    }

    impl<T, A: Allocator> ops::Deref for Vec<T, A> {
        type Target = [T];

        /// `Vec::deref`.
        fn deref(&self) -> &[T] {
            &self.held
        }
    }

    impl<T, A: Allocator> ops::DerefMut for Vec<T, A> {
        /// `Vec::deref_mut`.
        fn deref_mut(&mut self) -> &mut [T] {
            &mut self.held
        }
    }

    impl<'a, T, A: Allocator> IntoIterator for &'a Vec<T, A> {
        type Item = &'a T;
        type IntoIter = core::slice::Iter<'a, T>;

        /// `<&Vec as IntoIterator>::into_iter`.
        fn into_iter(self) -> Self::IntoIter {
            self.held.iter()
        }
    }

    impl<T: fmt::Debug, A: Allocator> fmt::Debug for Vec<T, A> {
        fn fmt(&self, f: &mut fmt::Formatter<'_>) -> fmt::Result {
            self.held.fmt(f)
        }
    }

    /// As in `std::vec`: the allocator is not compared.
    impl<T: PartialEq, A: Allocator> PartialEq for Vec<T, A> {
        fn eq(&self, other: &Vec<T, A>) -> bool {
            self.held == other.held
        }
    }

    impl<T: Eq, A: Allocator> Eq for Vec<T, A> {}

    /// `Iterator::collect` into a vector, which there takes its allocator.
    pub trait CollectWith: Iterator + Sized {
        /// It makes room as `Vec::extend` there: for the first item and for as many after it as the iterator foretells, or, where
        /// these are refused, for the first alone.
        fn collect_with<A: Allocator>(mut self, alloc: A) -> Result<Vec<Self::Item, A>, AllocError> {
            let mut made = Vec::new(alloc);
            while let Some(item) = self.next() {
                if made.held.len() == made.held.capacity() {
                    made.reserve(self.size_hint().0.saturating_add(1)).or_else(|_| made.reserve(1))?;
                }
                made.held.push(item);
            }
            Ok(made)
        }
    }

    impl<I: Iterator> CollectWith for I {}

    /// `<[T]>::to_vec`, which there takes its allocator.
    pub trait ToVecWith<T> {
        fn to_vec_with<A: Allocator>(&self, alloc: A) -> Result<Vec<T, A>, AllocError>;
    }

    impl<T: Clone> ToVecWith<T> for [T] {
        fn to_vec_with<A: Allocator>(&self, alloc: A) -> Result<Vec<T, A>, AllocError> {
            Vec::from_slice(alloc, self)
        }
    }
}

/// `std::io`, of which the core asks whether a reader or a writer failed, and no more.
pub mod io {
    /// `std::io::Error`, without why.
    #[derive(Clone, Copy, Debug, PartialEq, Eq)]
    pub struct Error;

    /// `std::io::Read`.
    pub trait Read {
        /// `Read::read`: how many bytes of `out` were filled, at most all; none at the end.
        fn read(&mut self, out: &mut [u8]) -> Result<usize, Error>;
    }

    /// `std::io::Write`.
    pub trait Write {
        /// `Write::write`: how many bytes of `part` were taken, at most all.
        fn write(&mut self, part: &[u8]) -> Result<usize, Error>;
    }

    /// As in `std::io`: it reads from a slice, which then begins behind what was read.
    #[cfg(not(feature = "std"))]
    impl Read for &[u8] {
        fn read(&mut self, out: &mut [u8]) -> Result<usize, Error> {
            let (part, rest) = self.split_at(out.len().min(self.len()));
            out[..part.len()].copy_from_slice(part);
            *self = rest;
            Ok(part.len())
        }
    }

    /// A reader of Rust's library.
    #[cfg(feature = "std")]
    impl<R: std::io::Read> Read for R {
        fn read(&mut self, out: &mut [u8]) -> Result<usize, Error> {
            std::io::Read::read(self, out).map_err(|_| Error)
        }
    }

    /// A writer of Rust's library.
    #[cfg(feature = "std")]
    impl<W: std::io::Write> Write for W {
        fn write(&mut self, part: &[u8]) -> Result<usize, Error> {
            std::io::Write::write(self, part).map_err(|_| Error)
        }
    }

    /// `std::io::Sink`: takes all.
    #[cfg(not(feature = "std"))]
    pub struct Sink;

    #[cfg(not(feature = "std"))]
    impl Write for Sink {
        fn write(&mut self, part: &[u8]) -> Result<usize, Error> {
            Ok(part.len())
        }
    }

    /// `std::io::sink`.
    #[cfg(not(feature = "std"))]
    pub fn sink() -> Sink {
        Sink
    }

    #[cfg(feature = "std")]
    pub use std::io::sink;
}

/// The toolchain's port of the crate `byteorder`, of which the source uses one order of bytes.
pub mod byteorder {
    /// `byteorder::ByteOrder`, whose functions are here the type's own.
    pub trait ByteOrder {}

    /// `byteorder::LittleEndian`.
    pub struct LittleEndian;

    impl ByteOrder for LittleEndian {}

    macro_rules! numbers {
        ($($number:ident $read:ident $write:ident $write_all:ident;)*) => {
            impl LittleEndian {
                $(
                    #[doc = concat!("`LittleEndian::", stringify!($read), "`, of the first bytes, which are required to be there.")]
                    pub fn $read(bytes: &[u8]) -> $number {
                        let (field, _) = bytes.split_first_chunk().expect("a field's bytes");
                        $number::from_le_bytes(*field)
                    }

                    #[doc = concat!("`LittleEndian::", stringify!($write), "`, into the first bytes, which are required to be there.")]
                    pub fn $write(out: &mut [u8], number: $number) {
                        out[..size_of::<$number>()].copy_from_slice(&number.to_le_bytes());
                    }

                    #[doc = concat!("`LittleEndian::", stringify!($write_all), "`, which requires room for just these.")]
                    pub fn $write_all(numbers: &[$number], out: &mut [u8]) {
                        const WIDTH: usize = size_of::<$number>();
                        assert_eq!(out.len(), WIDTH * numbers.len());
                        for (field, number) in out.chunks_exact_mut(WIDTH).zip(numbers) {
                            field.copy_from_slice(&number.to_le_bytes());
                        }
                    }
                )*
            }
        };
    }

    numbers! {
        u16 read_u16 write_u16 write_u16_into;
        u32 read_u32 write_u32 write_u32_into;
        u64 read_u64 write_u64 write_u64_into;
    }
}

/// The toolchain's port of the crate `sha2`, over that crate.
#[cfg(feature = "digest")]
pub mod sha2 {
    use super::alloc::AllocError;

    /// `sha2::Digest`, whose functions are here the type's own.
    pub trait Digest {}

    /// `sha2::Sha256`.
    pub struct Sha256(sha2::Sha256);

    impl Digest for Sha256 {}

    #[allow(clippy::new_without_default, clippy::should_implement_trait, reason = "as the port has them")]
    impl Sha256 {
        /// `Sha256::new`.
        pub fn new() -> Sha256 {
            Sha256(sha2::Digest::new())
        }

        /// `Sha256::digest`.
        pub fn digest(bytes: &[u8]) -> [u8; 32] {
            <sha2::Sha256 as sha2::Digest>::digest(bytes).into()
        }

        /// `Sha256::update`.
        pub fn update(&mut self, bytes: &[u8]) {
            sha2::Digest::update(&mut self.0, bytes);
        }

        /// `Sha256::clone`, which never fails: it has no block of its own.
        pub fn try_clone(&self) -> Result<Sha256, AllocError> {
            Ok(Sha256(self.0.clone()))
        }

        /// `Sha256::finalize`.
        pub fn finalize(self) -> [u8; 32] {
            sha2::Digest::finalize(self.0).into()
        }
    }
}

/// What every module of the source has without an import.
pub mod prelude {
    pub use super::vec::{CollectWith, ToVecWith, Vec};
}
