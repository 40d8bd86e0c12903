//! Expanding capabilities: what a terminal is sent for some parameters.

use crate::limits::MOST_VALUES;
use crate::made::cap::{Capability, Tape, Token};
use crate::made::expand::{ExpandFault, Run, Value, Vars};
use core::fmt;
use core::num::TryFromIntError;

/// How many parameters a capability can have.
const MOST_PARAMETERS: usize = 9;

/// Nearly all capabilities have no greater depth, and less room takes less time to make.
const FEW_VALUES: usize = 4;

/// Why a capability is not expanded.
#[derive(Clone, Copy, Debug, PartialEq, Eq)]
#[non_exhaustive]
pub enum ExpandError {
    /// More than nine parameters are given, which are this many.
    TooManyParameters {
        /// How many are given.
        given: usize,
    },
    /// The string of this parameter, counted from 1, has more than [`MOST_TEXT_BYTES`](crate::limits::MOST_TEXT_BYTES).
    TextTooLong {
        /// The lowest such parameter.
        parameter: u8,
    },
    /// The slice is shorter than what the capability can write for these parameters: its bound for the longest string.
    OutTooSmall {
        /// The bound.
        need: u64,
    },
    /// Memory for the output was refused.
    Memory,
}

impl fmt::Display for ExpandError {
    fn fmt(&self, f: &mut fmt::Formatter<'_>) -> fmt::Result {
        match self {
            ExpandError::TooManyParameters { given } => write!(f, "TooManyParameters {given}"),
            ExpandError::TextTooLong { parameter } => write!(f, "TextTooLong {parameter}"),
            ExpandError::OutTooSmall { need } => write!(f, "OutTooSmall {need}"),
            ExpandError::Memory => f.write_str("Memory"),
        }
    }
}

impl core::error::Error for ExpandError {}

impl From<ExpandFault> for ExpandError {
    fn from(fault: ExpandFault) -> ExpandError {
        match fault {
            ExpandFault::TextTooLong { parameter } => ExpandError::TextTooLong { parameter },
            ExpandFault::OutTooSmall { need } => ExpandError::OutTooSmall { need },
            // The stack below has room for the most values of any capability.
            ExpandFault::Memory | ExpandFault::StackTooSmall { .. } => ExpandError::Memory,
        }
    }
}

/// All nine parameters, of which those that are not given are 0.
fn nine<'a>(parameters: &[Value<'a>]) -> Result<[Value<'a>; MOST_PARAMETERS], ExpandError> {
    let mut all = [Value::Num(0); MOST_PARAMETERS];
    let given = parameters.len();
    all.get_mut(..given).ok_or(ExpandError::TooManyParameters { given })?.copy_from_slice(parameters);
    Ok(all)
}

/// What a capability writes for at most nine parameters; those that are not given are 0. Capabilities keep numbers in the
/// variables from one expansion to the next.
///
/// ```
/// use ti_terminfo::{Capability, Vars, expand};
///
/// # fn main() -> Result<(), Box<dyn std::error::Error>> {
/// let cup = Capability::parse(b"\x1b[%i%p1%d;%p2%dH")?;
/// assert_eq!(expand(&cup, &[4.into(), 9.into()], &mut Vars::new())?, b"\x1b[5;10H");
///
/// let title = Capability::parse(b"\x1b]2;%p1%s\x07")?;
/// assert_eq!(expand(&title, &["here".into()], &mut Vars::new())?, b"\x1b]2;here\x07");
/// # Ok(())
/// # }
/// ```
///
/// # Errors
///
/// Any of [`ExpandError`] but `OutTooSmall`. The variables are as before then.
#[cfg(feature = "alloc")]
pub fn expand(
    capability: &Capability<'_>,
    parameters: &[Value<'_>],
    vars: &mut Vars,
) -> Result<alloc::vec::Vec<u8>, ExpandError> {
    let out = crate::made::expand::expand(crate::kit::Global, capability, &nine(parameters)?, vars)?;
    Ok(out.into_items())
}

/// Writes what a capability writes for at most nine parameters to a sink, all at once.
///
/// ```
/// use ti_terminfo::{Capability, Vars, expand_to};
///
/// # fn main() -> Result<(), Box<dyn std::error::Error>> {
/// let blank = Capability::parse(b"\x1b[%p1%dX")?;
/// expand_to(&mut std::io::stdout(), &blank, &[3.into()], &mut Vars::new())?;
/// # Ok(())
/// # }
/// ```
///
/// # Errors
///
/// That of the sink, or of the kind `InvalidInput` with the [`ExpandError`] inside.
#[cfg(feature = "std")]
pub fn expand_to(
    sink: &mut impl std::io::Write,
    capability: &Capability<'_>,
    parameters: &[Value<'_>],
    vars: &mut Vars,
) -> std::io::Result<()> {
    sink.write_all(&expand(capability, parameters, vars)?)
}

/// Writes what a capability writes for at most nine parameters to the front of a slice, and returns how many bytes that are,
/// with how many tokens ran. It takes no memory. The slice is long enough if it has as many bytes as [`Capability::bound`]
/// says for the longest string among the parameters.
///
/// ```
/// use ti_terminfo::{Capability, ExpandError, Vars, expand_into};
///
/// # fn main() -> Result<(), Box<dyn std::error::Error>> {
/// let cup = Capability::parse(b"\x1b[%i%p1%d;%p2%dH")?;
/// let (mut vars, mut out) = (Vars::new(), [0; 64]);
/// let run = expand_into(&cup, &[4.into(), 9.into()], &mut vars, &mut out)?;
/// assert_eq!(&out[..run.written], b"\x1b[5;10H");
///
/// let refused = expand_into(&cup, &[4.into(), 9.into()], &mut vars, &mut [0; 7]).unwrap_err();
/// assert_eq!(refused, ExpandError::OutTooSmall { need: cup.bound(0) });
/// # Ok(())
/// # }
/// ```
///
/// # Errors
///
/// Any of [`ExpandError`] but `Memory`. The variables and the slice are as before then.
pub fn expand_into(
    capability: &Capability<'_>,
    parameters: &[Value<'_>],
    vars: &mut Vars,
    out: &mut [u8],
) -> Result<Run, ExpandError> {
    let parameters = nine(parameters)?;
    if capability.depth() <= FEW_VALUES {
        let mut stack = [Value::Num(0); FEW_VALUES];
        return Ok(crate::made::expand::expand_into(capability.tape(), &parameters, vars, &mut stack, out)?);
    }
    expand_deep(capability, &parameters, vars, out)
}

/// As [`expand_into`], with a stack of the most values. It is a function of its own, since the compiler clears the room of all
/// that a function holds as it starts.
#[inline(never)]
fn expand_deep(
    capability: &Capability<'_>,
    parameters: &[Value<'_>; MOST_PARAMETERS],
    vars: &mut Vars,
    out: &mut [u8],
) -> Result<Run, ExpandError> {
    let mut stack = [Value::Num(0); MOST_VALUES];
    Ok(crate::made::expand::expand_into(capability.tape(), parameters, vars, &mut stack, out)?)
}

/// Numbers that 32 bits hold. A condition is 1 or 0.
macro_rules! from_numbers {
    ($($number:ty)*) => {
        $(
            impl From<$number> for Value<'_> {
                fn from(number: $number) -> Self {
                    Value::Num(number.into())
                }
            }
        )*
    };
}

from_numbers!(i32 i16 u16 i8 u8 bool);

/// Numbers that 32 bits may not hold, such as a row that is a `usize`.
macro_rules! try_from_numbers {
    ($($number:ty)*) => {
        $(
            impl TryFrom<$number> for Value<'_> {
                type Error = TryFromIntError;

                fn try_from(number: $number) -> Result<Self, TryFromIntError> {
                    Ok(Value::Num(number.try_into()?))
                }
            }
        )*
    };
}

try_from_numbers!(usize u32 i64 u64 isize);

impl<'a> From<&'a [u8]> for Value<'a> {
    fn from(text: &'a [u8]) -> Self {
        Value::Text(text)
    }
}

impl<'a, const N: usize> From<&'a [u8; N]> for Value<'a> {
    fn from(text: &'a [u8; N]) -> Self {
        Value::Text(text)
    }
}

impl<'a> From<&'a str> for Value<'a> {
    fn from(text: &'a str) -> Self {
        Value::Text(text.as_bytes())
    }
}

/// Each variable is 0.
impl Default for Vars {
    fn default() -> Vars {
        Vars::new()
    }
}

/// The tokens that are left.
impl Iterator for Tape<'_> {
    type Item = Token;

    fn next(&mut self) -> Option<Token> {
        self.token()
    }
}
