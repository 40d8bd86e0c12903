//! Padding: the pad bytes that give a slow terminal the time that marks such as `$<5>` ask for.

#[cfg(feature = "alloc")]
use crate::made::pad::PadError;
use crate::made::pad::Padding;

/// The string with the pad bytes that its delays ask for in their place.
///
/// ```
/// use ti_terminfo::{Padding, pad};
///
/// # fn main() -> Result<(), Box<dyn std::error::Error>> {
/// // At 1000 bytes a second, 5 milliseconds take 5 bytes.
/// let slow = Padding::new(1000, 1, false, b'.').ok_or("out of range")?;
/// assert_eq!(pad(b"a$<5>b", &slow)?, b"a.....b");
/// // Without a rate the marks are only taken out.
/// assert_eq!(pad(b"a$<5>b", &Padding::default())?, b"ab");
/// # Ok(())
/// # }
/// ```
///
/// # Errors
///
/// The string would have more than [`MOST_PADDED_BYTES`](crate::limits::MOST_PADDED_BYTES), or memory was refused.
#[cfg(feature = "alloc")]
pub fn pad(text: &[u8], padding: &Padding) -> Result<alloc::vec::Vec<u8>, PadError> {
    Ok(crate::made::pad::pad(crate::kit::Global, text, padding)?.into_items())
}

/// Writes the string with the pad bytes that its delays ask for to a sink, all at once.
///
/// ```
/// use ti_terminfo::{Padding, pad_to};
///
/// # fn main() -> std::io::Result<()> {
/// let flash = b"\x1b[?5h$<200/>\x1b[?5l";
/// pad_to(&mut std::io::stdout(), flash, &Padding::default())
/// # }
/// ```
///
/// # Errors
///
/// That of the sink, or of the kind `InvalidInput` with the [`PadError`](crate::PadError) inside.
#[cfg(feature = "std")]
pub fn pad_to(sink: &mut impl std::io::Write, text: &[u8], padding: &Padding) -> std::io::Result<()> {
    sink.write_all(&pad(text, padding)?)
}

/// No pad bytes: a line without a rate.
impl Default for Padding {
    fn default() -> Padding {
        match Padding::new(0, 1, false, 0) {
            Some(padding) => padding,
            None => unreachable!("both numbers are in their range"),
        }
    }
}
