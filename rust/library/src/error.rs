//! What faults are to other errors. They print their names, as the sources say, and a place or a number after it.

use crate::made::cap::ParseError;
use crate::made::entry::ReadError;
use crate::made::kept::CompileError;
use crate::made::pad::{PadError, PadIntoError};
use core::error::Error;

impl Error for CompileError {
    fn source(&self) -> Option<&(dyn Error + 'static)> {
        match self {
            CompileError::Refused(refused) => Some(refused),
            CompileError::DoesNotFit => None,
        }
    }
}

/// Makes each fault an error of reading and writing, of a kind, with the fault inside.
macro_rules! io_errors {
    ($($fault:ty => $kind:ident,)*) => {
        $(
            #[cfg(feature = "std")]
            impl From<$fault> for std::io::Error {
                fn from(fault: $fault) -> std::io::Error {
                    std::io::Error::new(std::io::ErrorKind::$kind, fault)
                }
            }
        )*
    };
}

io_errors! {
    ReadError => InvalidData,
    ParseError => InvalidData,
    crate::EncodeError => InvalidInput,
    crate::EncodeIntoError => InvalidInput,
    PadError => InvalidInput,
    PadIntoError => InvalidInput,
    CompileError => InvalidInput,
    crate::ExpandError => InvalidInput,
    crate::SendError => InvalidInput,
}
