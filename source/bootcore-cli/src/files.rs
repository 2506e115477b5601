//! Files of the operating system, as the crate bootcore's modules path_files and image_file have them.

use bootcore::proved::bl_image::{DeviceFault, IoSink, IoSource, Sink};
use bootcore::proved::bl_mem::Bytes;
use bootcore::shim::alloc::{AllocError, Allocator};
use bootcore::shim::vec::Vec;
use bootcore_cli::proved::program_commands::{AskedNames, FILE_LIMIT, Fetched, Files};
use std::fs::{self, File};
use std::io::{self, ErrorKind, Read, Write};

/// Reads the regular file at a path whole, unless it is longer than `limit` bytes.
///
/// The length is taken first: above the limit nothing is read, and of a file that grows meanwhile
/// at most one byte more than the limit. A path at which no regular file stands is an error, since
/// a device may never end and a pipe may never begin.
pub fn read_file<A: Allocator>(alloc: A, path: &str, limit: u64) -> io::Result<Fetched<A>> {
    let metadata = fs::metadata(path)?;
    if !metadata.is_file() {
        return Err(io::Error::new(ErrorKind::InvalidInput, "no regular file"));
    }
    if metadata.len() > limit {
        return Ok(Fetched::TooLong(metadata.len()));
    }
    // One byte more, so that the end is found with no larger room for it.
    let mut room = usize::try_from(metadata.len()).map_err(|_| ErrorKind::OutOfMemory)?.saturating_add(1);
    let mut file = File::open(path)?.take(limit.saturating_add(1));
    let (mut bytes, mut count) = (Vec::new(alloc), 0);
    loop {
        bytes.resize(room, 0).map_err(|_| ErrorKind::OutOfMemory)?;
        match file.read(&mut bytes[count..]) {
            Ok(0) => break,
            Ok(more) => count += more,
            Err(error) if error.kind() == ErrorKind::Interrupted => {}
            Err(error) => return Err(error),
        }
        if count == room {
            room = room.saturating_mul(2);
        }
    }
    if count as u64 > limit {
        return Ok(Fetched::TooLong(count as u64));
    }
    bytes.truncate(count);
    Ok(Fetched::Bytes(Bytes::from(bytes)))
}

/// Says on standard error which file can't be read, and what the system says of it.
pub fn tell_fault(path: &str, error: &io::Error) {
    let _ = writeln!(io::stderr(), "file fault: {path}: {error}");
}

/// Files by their paths, relative to the current folder. Each one that can't be read, and each path
/// at which no regular file stands, is a fault; it is told where the files were asked to tell.
pub struct PathFiles {
    tells: bool,
    faults: u64,
    asked: AskedNames,
}

impl PathFiles {
    pub fn new() -> PathFiles {
        PathFiles { tells: false, faults: 0, asked: AskedNames::new() }
    }

    /// The same, but each fault is told on standard error, with what the system says.
    pub fn telling() -> PathFiles {
        PathFiles { tells: true, ..PathFiles::new() }
    }
}

impl Files for PathFiles {
    fn fetch<A: Allocator>(&mut self, alloc: A, name: &str) -> Result<Fetched<A>, AllocError> {
        self.asked = self.asked.with_name(name.as_bytes());
        match read_file(alloc, name, FILE_LIMIT) {
            Ok(file) => Ok(file),
            Err(error) if error.kind() == ErrorKind::OutOfMemory => Err(AllocError),
            Err(error) => {
                self.faults += 1;
                if self.tells {
                    tell_fault(name, &error);
                }
                Ok(Fetched::Missing)
            }
        }
    }

    fn faults(&self) -> u64 {
        self.faults
    }
}

/// A sink that creates its file, or empties an older one, at its first write. A file that can't be
/// created is a fault of that write. A file that was begun stays after a fault.
pub struct ImageFile<'a> {
    path: &'a str,
    sink: Option<IoSink<File>>,
    not_created: u64,
}

impl<'a> ImageFile<'a> {
    pub fn new(path: &'a str) -> ImageFile<'a> {
        ImageFile { path, sink: None, not_created: 0 }
    }
}

impl Sink for ImageFile<'_> {
    fn write(&mut self, part: &[u8]) -> Result<usize, DeviceFault> {
        let sink = match &mut self.sink {
            Some(sink) => sink,
            None => match File::create(self.path) {
                Ok(file) => self.sink.insert(IoSink::new(file)),
                Err(_) => {
                    self.not_created += 1;
                    return Err(DeviceFault);
                }
            },
        };
        sink.write(part)
    }

    fn faults(&self) -> u64 {
        self.not_created + self.sink.as_ref().map_or(0, |sink| sink.faults())
    }
}

/// Opens the image at a path, or answers the status where there is no regular file that can be opened.
pub fn open_image(path: &str) -> Result<IoSource<File>, u8> {
    let status = |error: io::Error| if error.kind() == ErrorKind::OutOfMemory { 4 } else { 3 };
    if !fs::metadata(path).map_err(status)?.is_file() {
        return Err(3);
    }
    File::open(path).map(IoSource::new).map_err(status)
}
