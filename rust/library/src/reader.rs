//! Entries whose bytes come in pieces.

use crate::Entry;
use crate::made::entry::ReadError;
use core::fmt;

/// Takes the bytes of an entry in pieces, and keeps them: at most [`MOST_ENTRY_BYTES`](crate::limits::MOST_ENTRY_BYTES), for
/// which it has room of its own, so it is best kept in one place. How the bytes are cut into pieces makes no difference.
///
/// ```
/// use ti_terminfo::EntryReader;
///
/// # fn main() -> Result<(), Box<dyn std::error::Error>> {
/// let file = std::fs::read("examples/linux")?;
/// let mut reader = EntryReader::new();
/// for piece in file.chunks(100) {
///     reader.feed(piece)?;
/// }
/// assert!(reader.finish()?.flag("am"));
/// # Ok(())
/// # }
/// ```
#[derive(Clone)]
pub struct EntryReader {
    inner: crate::made::entry::EntryReader,
}

impl EntryReader {
    /// A reader that has no bytes yet.
    pub fn new() -> EntryReader {
        EntryReader { inner: crate::made::entry::EntryReader::new() }
    }

    /// Takes a piece of any length after those before it.
    ///
    /// # Errors
    ///
    /// The first check that fails on the bytes so far. It is returned for each later piece too, of which nothing is kept.
    pub fn feed(&mut self, piece: &[u8]) -> Result<(), ReadError> {
        self.inner.feed(piece)
    }

    /// How many bytes are kept.
    pub fn kept(&self) -> usize {
        self.inner.kept()
    }

    /// The entry that the bytes so far are. More may follow.
    ///
    /// # Errors
    ///
    /// What an earlier piece was refused for, or that the bytes end before an entry does.
    pub fn finish(&self) -> Result<Entry<'_>, ReadError> {
        Ok(Entry { inner: self.inner.finish()? })
    }

    /// Takes all bytes of a source.
    ///
    /// ```
    /// # fn main() -> Result<(), Box<dyn std::error::Error>> {
    /// let mut reader = ti_terminfo::EntryReader::new();
    /// reader.read_from(&mut std::fs::File::open("examples/linux")?)?;
    /// assert_eq!(reader.finish()?.number("colors"), Some(8));
    /// # Ok(())
    /// # }
    /// ```
    ///
    /// # Errors
    ///
    /// That of the source, or of the kind `InvalidData` with the [`ReadError`](crate::ReadError) inside.
    #[cfg(feature = "std")]
    pub fn read_from(&mut self, source: &mut impl std::io::Read) -> std::io::Result<()> {
        let mut piece = [0; 512];
        loop {
            match source.read(&mut piece) {
                Ok(0) => return Ok(()),
                Ok(count) => self.feed(&piece[..count])?,
                Err(error) if error.kind() == std::io::ErrorKind::Interrupted => {}
                Err(error) => return Err(error),
            }
        }
    }
}

impl Default for EntryReader {
    fn default() -> EntryReader {
        EntryReader::new()
    }
}

impl fmt::Debug for EntryReader {
    fn fmt(&self, f: &mut fmt::Formatter<'_>) -> fmt::Result {
        f.debug_struct("EntryReader").field("kept", &self.kept()).finish_non_exhaustive()
    }
}
