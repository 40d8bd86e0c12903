//! How values that hold bytes of an entry are printed for a programmer: in the notation of terminfo(5).

use crate::made::cap::Capability;
use crate::made::escape::escape_into;
use crate::made::expand::Value;
use crate::made::words::Text;
use core::fmt;

/// The bytes whose notation is made in a room of its own; without `alloc` no more of a string is printed.
const FEW: usize = 64;

/// Bytes, printed in quotation marks.
pub(crate) struct Shown<'a>(pub(crate) &'a [u8]);

impl fmt::Debug for Shown<'_> {
    fn fmt(&self, f: &mut fmt::Formatter<'_>) -> fmt::Result {
        let Shown(bytes) = *self;
        if bytes.len() > FEW {
            #[cfg(feature = "alloc")]
            return write!(f, "\"{}\"", crate::notation(bytes));
        }
        let mut room = [0; 4 * FEW];
        let count = escape_into(&bytes[..bytes.len().min(FEW)], &mut room).unwrap_or(0);
        let more = if bytes.len() > FEW { ".." } else { "" };
        write!(f, "\"{}\"{more}", str::from_utf8(&room[..count]).unwrap_or_default())
    }
}

impl fmt::Debug for Text<'_> {
    fn fmt(&self, f: &mut fmt::Formatter<'_>) -> fmt::Result {
        match self {
            Text::Absent => f.write_str("Absent"),
            Text::Cancelled => f.write_str("Cancelled"),
            Text::Value(bytes) => f.debug_tuple("Value").field(&Shown(bytes)).finish(),
        }
    }
}

impl fmt::Debug for Value<'_> {
    fn fmt(&self, f: &mut fmt::Formatter<'_>) -> fmt::Result {
        match self {
            Value::Num(number) => f.debug_tuple("Num").field(number).finish(),
            Value::Text(bytes) => f.debug_tuple("Text").field(&Shown(bytes)).finish(),
        }
    }
}

impl fmt::Debug for Capability<'_> {
    fn fmt(&self, f: &mut fmt::Formatter<'_>) -> fmt::Result {
        f.debug_tuple("Capability").field(&Shown(self.bytes)).finish()
    }
}
