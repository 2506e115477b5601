//! Lists that answer want of memory, where those of the standard library end the program.

use alloc::vec::Vec;

use crate::error::Error;

/// All items.
pub(crate) fn list<T>(items: impl Iterator<Item = T>) -> Result<Vec<T>, Error> {
    let mut made = Vec::new();
    made.try_reserve_exact(items.size_hint().0).map_err(|_| Error::NoMemory)?;
    for item in items {
        made.try_reserve(1).map_err(|_| Error::NoMemory)?;
        made.push(item);
    }
    Ok(made)
}

/// All items, or the first error.
pub(crate) fn checked_list<T>(items: impl Iterator<Item = Result<T, Error>>) -> Result<Vec<T>, Error> {
    let mut error = None;
    let made = list(items.map_while(|item| item.map_err(|why| error = Some(why)).ok()))?;
    error.map_or(Ok(made), Err)
}

/// A copy of bytes.
pub(crate) fn copy(bytes: &[u8]) -> Result<Vec<u8>, Error> {
    let mut made = Vec::new();
    made.try_reserve_exact(bytes.len()).map_err(|_| Error::NoMemory)?;
    made.extend_from_slice(bytes);
    Ok(made)
}
