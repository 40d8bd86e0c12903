//! Capabilities that are sent many times over numbers.

use crate::expand::ExpandError;
use crate::made::expand::Vars;
use crate::made::kept::{CompileError, expand_kept};
use crate::made::pad::{PadIntoError, Padding, pad_into};
use core::fmt;

/// How many parameters a capability can have.
const MOST_PARAMETERS: usize = 9;

/// Why a compiled capability is not sent.
#[derive(Clone, Copy, Debug, PartialEq, Eq)]
#[non_exhaustive]
pub enum SendError {
    /// More than nine numbers are given, which are this many.
    TooManyParameters {
        /// How many are given.
        given: usize,
    },
    /// The slice is too short.
    OutTooSmall {
        /// The bound of the expansion, or then the bytes of the output and the padded output together.
        need: u64,
    },
    /// The padded output would have more than [`MOST_PADDED_BYTES`](crate::limits::MOST_PADDED_BYTES).
    TooMuch {
        /// How many it would have.
        need: u128,
    },
}

impl fmt::Display for SendError {
    fn fmt(&self, f: &mut fmt::Formatter<'_>) -> fmt::Result {
        match self {
            SendError::TooManyParameters { given } => write!(f, "TooManyParameters {given}"),
            SendError::OutTooSmall { need } => write!(f, "OutTooSmall {need}"),
            SendError::TooMuch { need } => write!(f, "TooMuch {need}"),
        }
    }
}

impl core::error::Error for SendError {}

/// Pads the output at the front of a slice, and returns how many bytes that makes. An output without a `$` has no delay.
fn pad_at_front(padding: &Padding, written: usize, out: &mut [u8]) -> Result<usize, SendError> {
    let (text, rest) = out.split_at_mut(written);
    if written <= rest.len() && !text.contains(&b'$') {
        return Ok(written);
    }
    let padded = pad_into(text, padding, rest).map_err(|fault| match fault {
        PadIntoError::TooMuch { need } => SendError::TooMuch { need },
        PadIntoError::OutTooSmall { need } => SendError::OutTooSmall { need: written as u64 + need },
    })?;
    out.copy_within(written..written + padded, 0);
    Ok(padded)
}

/// A capability that was compiled into steps, which take half of the time of [`expand_into`](crate::expand_into) or less. It takes
/// no memory, and has 800 bytes.
///
/// ```
/// use ti_terminfo::{Kept, Vars};
///
/// # fn main() -> Result<(), Box<dyn std::error::Error>> {
/// let cup = Kept::compile(b"\x1b[%i%p1%d;%p2%dH")?;
/// let (mut vars, mut out) = (Vars::new(), [0; 64]);
/// let written = cup.expand_into(&[4, 9], &mut vars, &mut out)?;
/// assert_eq!(&out[..written], b"\x1b[5;10H");
/// # Ok(())
/// # }
/// ```
#[derive(Clone, Copy)]
pub struct Kept<'a>(crate::made::kept::Kept<'a>);

impl<'a> Kept<'a> {
    /// Compiles the bytes of a capability, which are lent.
    ///
    /// # Errors
    ///
    /// `Refused` if they are no capability. `DoesNotFit` if it takes a string, or needs more than 8 values on its stack or more
    /// than 96 steps: expand it with [`expand_into`](crate::expand_into).
    pub fn compile(bytes: &'a [u8]) -> Result<Self, CompileError> {
        crate::made::kept::Kept::compile(bytes).map(Kept)
    }

    /// The most bytes that an expansion writes.
    pub fn bound(&self) -> u64 {
        self.0.bound
    }

    /// Whether it sets or gets a variable. If not, an expansion neither reads nor changes those that it is given.
    pub fn has_variables(&self) -> bool {
        self.0.varied != 0
    }

    /// Writes what the capability writes for at most nine numbers to the front of a slice, and returns how many bytes that are;
    /// numbers that are not given are 0. The slice needs as many bytes as [`Kept::bound`] says, and what it holds after the output
    /// is left open.
    ///
    /// # Errors
    ///
    /// `TooManyParameters` or `OutTooSmall`. The variables and the slice are as before then.
    pub fn expand_into(&self, numbers: &[i32], vars: &mut Vars, out: &mut [u8]) -> Result<usize, ExpandError> {
        if numbers.len() > MOST_PARAMETERS {
            return Err(ExpandError::TooManyParameters { given: numbers.len() });
        }
        expand_kept(&self.0, numbers, vars, out).ok_or(ExpandError::OutTooSmall { need: self.0.bound })
    }

    /// Writes what a terminal is sent for at most nine numbers to the front of a slice: the output with pad bytes in place of its
    /// delays, and returns how many bytes that are. The slice needs as many bytes as [`Kept::bound`] says, and as many as the
    /// output and the padded output have together; what it holds after the bytes to send is left open.
    ///
    /// ```
    /// use ti_terminfo::{Kept, Padding, Vars};
    ///
    /// # fn main() -> Result<(), Box<dyn std::error::Error>> {
    /// let bell = Kept::compile(b"\x07$<100>")?;
    /// let (mut vars, mut out) = (Vars::new(), [0; 64]);
    /// let sent = bell.send_into(&[], &mut vars, &Padding::default(), &mut out)?;
    /// assert_eq!(&out[..sent], b"\x07");
    /// # Ok(())
    /// # }
    /// ```
    ///
    /// # Errors
    ///
    /// Any of [`SendError`]. The variables are as before then; what the slice holds is left open.
    pub fn send_into(&self, numbers: &[i32], vars: &mut Vars, padding: &Padding, out: &mut [u8]) -> Result<usize, SendError> {
        if numbers.len() > MOST_PARAMETERS {
            return Err(SendError::TooManyParameters { given: numbers.len() });
        }
        let before = vars.clone();
        let written = expand_kept(&self.0, numbers, vars, out).ok_or(SendError::OutTooSmall { need: self.0.bound })?;
        pad_at_front(padding, written, out).inspect_err(|_| *vars = before)
    }
}

impl fmt::Debug for Kept<'_> {
    fn fmt(&self, f: &mut fmt::Formatter<'_>) -> fmt::Result {
        f.debug_struct("Kept").field("bound", &self.bound()).field("has_variables", &self.has_variables()).finish_non_exhaustive()
    }
}
