//! Digests of what an entry hands over.

use alloc::vec::Vec;
use core::fmt;

use crate::entry::Entry;
use crate::error::{Error, Misuse};
use crate::handoff::Place;
use crate::lists::list;
use crate::machine::Machine;
use crate::proved::bl_digest::{self, Digesting, ImageDigest};
use crate::shim::alloc::Global;
use crate::{given, told};

/// A part, and its digest.
#[derive(Clone, Copy, Debug, PartialEq, Eq, Hash)]
#[non_exhaustive]
pub struct PartDigest {
    /// Where it lies.
    pub place: Place,
    /// The SHA-256 of its bytes, as many as its place has.
    pub sha256: [u8; 32],
}

/// The digests of an image of version 2: by SHA-256, of the whole and of each piece of it. Head and
/// parts are all of it, each byte once.
#[derive(Clone, Debug, PartialEq, Eq, Hash)]
#[non_exhaustive]
pub struct Digests {
    /// How many bytes the image has.
    pub image_length: u64,
    /// The SHA-256 of the image.
    pub image: [u8; 32],
    /// How many bytes stand before the parts, as
    /// [`Handoff::image_head`](crate::Handoff::image_head) has them.
    pub head_length: u64,
    /// The SHA-256 of these.
    pub head: [u8; 32],
    /// The parts, by ascending address.
    pub parts: Vec<PartDigest>,
}

/// Bytes of a file of an entry: `length` of them, at least 1.
#[derive(Clone, Copy, Debug, PartialEq, Eq, Hash)]
#[non_exhaustive]
pub struct FileRange {
    /// 0 is the kernel, k module k - 1, or 1 the initial ramdisk.
    pub file: usize,
    /// Where they begin in the file.
    pub offset: u64,
    /// How many there are.
    pub length: u64,
}

/// The digests of what [`load`](crate::load()) would hand over, of an entry whose files are all at
/// hand.
///
/// ```
/// use bootcore::{digest, Entry, Error, Kind, Linux, Machine, Refusal};
///
/// let machine = Machine::new(1 << 20).region(0, 0x9F000, Kind::Usable);
/// let entry = Entry::from(Linux::new(b"no kernel"));
/// assert_eq!(digest(&machine, &entry), Err(Error::Refused(Refusal::NotBzImage)));
/// ```
pub fn digest(machine: &Machine, entry: &Entry<'_>) -> Result<Digests, Error> {
    let whole = given::Whole::of(machine, entry, |_| Ok(()))?;
    let plan = whole.plan()?;
    let digests = bl_digest::digest_plan(Global, &plan, &whole.views)?;
    digests_told(digests.image(), digests.parts())
}

/// The digests of what an entry would hand over, whose files are fed as they come: in pieces of any
/// length, but in the order in which they are wanted. It makes no image.
///
/// ```no_run
/// use bootcore::{Digest, Entry, File, Kind, Linux, Machine};
/// use std::io::{Read, Seek, SeekFrom};
///
/// # fn main() -> Result<(), Box<dyn std::error::Error>> {
/// let kernel = std::fs::read("vmlinuz")?;
/// let mut initrd = std::fs::File::open("initrd.img")?;
/// let machine = Machine::new(512 << 20)
///     .region(0, 0x9F000, Kind::Usable)
///     .region(1 << 20, 511 << 20, Kind::Usable);
/// let entry = Entry::from(Linux::new64(&kernel).initrd(File::Length(initrd.metadata()?.len())));
/// let mut digest = Digest::new(&machine, &entry)?;
/// let mut buffer = vec![0; 1 << 16];
/// while let Some(range) = digest.wanted() {
///     let length = range.length.min(buffer.len() as u64) as usize;
///     if range.file == 0 {
///         digest.feed(&kernel[range.offset as usize..][..length])?;
///     } else {
///         initrd.seek(SeekFrom::Start(range.offset))?;
///         initrd.read_exact(&mut buffer[..length])?;
///         digest.feed(&buffer[..length])?;
///     }
/// }
/// let digests = digest.finish()?.expect("nothing is wanted");
/// println!("{:02x?}", digests.image);
/// # Ok(())
/// # }
/// ```
pub struct Digest {
    kept: Digesting<Global>,
}

impl fmt::Debug for Digest {
    fn fmt(&self, to: &mut fmt::Formatter<'_>) -> fmt::Result {
        to.debug_struct("Digest").field("wanted", &self.wanted()).finish_non_exhaustive()
    }
}

impl Digest {
    /// Begins the digest of an entry on a machine, from the kernel's bytes and the other files'
    /// lengths. The kernel's bytes are still to be fed, as they are wanted.
    pub fn new(machine: &Machine, entry: &Entry<'_>) -> Result<Digest, Error> {
        let plan = given::ByLengths::of(machine, entry)?.plan()?;
        Ok(Digest { kept: Digesting::begin(Global, &plan)? })
    }

    /// The bytes that are wanted next: what is left of a range once some of it was fed; nothing
    /// once all were fed. Of a file only what lies in a part is wanted, and not always in the
    /// file's own order.
    pub fn wanted(&self) -> Option<FileRange> {
        self.kept.wanted().map(|range| FileRange { file: range.file, offset: range.offset, length: range.length })
    }

    /// Feeds the first bytes of what is wanted, or all of it; more are [`Misuse::Unwanted`], and
    /// change nothing.
    pub fn feed(&mut self, bytes: &[u8]) -> Result<(), Error> {
        // the core asks that there is no more than is wanted
        if bytes.len() as u64 > self.wanted().map_or(0, |range| range.length) {
            return Err(Misuse::Unwanted.into());
        }
        if !bytes.is_empty() {
            self.kept.feed(bytes);
        }
        Ok(())
    }

    /// Feeds all that is wanted, from files that are at hand: the kernel, then the modules or the
    /// initial ramdisk, of at least the lengths that it was begun with. With too few or too short
    /// ones it is [`Misuse::BadFile`], and what came before the first of these was fed.
    pub fn feed_files(&mut self, files: &[&[u8]]) -> Result<(), Error> {
        while let Some(range) = self.wanted() {
            let (offset, length) = (range.offset as usize, range.length as usize);
            let bytes = files.get(range.file).and_then(|file| file.get(offset..)?.get(..length));
            self.feed(bytes.ok_or(Misuse::BadFile)?)?;
        }
        Ok(())
    }

    /// The digests; nothing while bytes are wanted.
    pub fn finish(&self) -> Result<Option<Digests>, Error> {
        // the core asks that nothing is wanted
        match self.wanted() {
            Some(_) => Ok(None),
            None => digests_told(self.kept.image(), self.kept.parts()).map(Some),
        }
    }
}

fn digests_told(image: ImageDigest, parts: &[bl_digest::PartDigest]) -> Result<Digests, Error> {
    let part = |part: &bl_digest::PartDigest| PartDigest { place: told::place_told(&part.place), sha256: part.sha256 };
    Ok(Digests {
        image_length: image.length,
        image: image.sha256,
        head_length: image.front_length,
        head: image.front_sha256,
        parts: list(parts.iter().map(part))?,
    })
}
