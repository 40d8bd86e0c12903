//! What the faults say in sentences, beside their names.

use crate::made::cap::{ParseError, ParseFault};
use crate::made::draft::{EncodeError, EncodeIntoError};
use crate::made::entry::{ReadError, ReadFault};
use crate::made::kept::CompileError;
use crate::made::pad::{PadError, PadIntoError};
use crate::{ExpandError, SendError};
use core::fmt;

/// What a fault says to a person, in one sentence without a full stop at its end.
#[derive(Clone, Copy)]
pub struct Message<'a>(&'a dyn Says);

/// A fault that has a sentence.
trait Says {
    fn say(&self, f: &mut fmt::Formatter<'_>) -> fmt::Result;
}

impl fmt::Display for Message<'_> {
    fn fmt(&self, f: &mut fmt::Formatter<'_>) -> fmt::Result {
        self.0.say(f)
    }
}

impl fmt::Debug for Message<'_> {
    fn fmt(&self, f: &mut fmt::Formatter<'_>) -> fmt::Result {
        self.0.say(f)
    }
}

macro_rules! messages {
    ($($fault:ty: $example:literal,)*) => {
        $(
            impl $fault {
                /// What it says to a person, in one sentence. `Display` is the fault's name, for programs.
                ///
                /// ```
                #[doc = $example]
                /// ```
                pub fn message(&self) -> Message<'_> {
                    Message(self)
                }
            }
        )*
    };
}

messages! {
    ReadError: "let fault = ti_terminfo::Entry::read(b\"hello\").unwrap_err();
assert_eq!(fault.to_string(), \"BadMagic at 0\");
assert_eq!(fault.message().to_string(), \"the first two bytes are those of no compiled entry\");",
    ParseError: "let fault = ti_terminfo::Capability::parse(b\"\\x1b[%p0\").unwrap_err();
assert_eq!(fault.to_string(), \"BadParameter at 2\");
assert_eq!(fault.message().to_string(), \"at byte 2: %p is followed by no digit of 1 to 9\");",
    CompileError: "let fault = ti_terminfo::Kept::compile(b\"%p1%s\").unwrap_err();
assert_eq!(fault.to_string(), \"DoesNotFit\");
assert_eq!(fault.message().to_string(), \"the capability takes a string, or needs more steps or values than are kept\");",
    EncodeError: "let fault = ti_terminfo::EncodeError::NulInText;
assert_eq!(fault.to_string(), \"NulInText\");
assert_eq!(fault.message().to_string(), \"a string holds a NUL\");",
    EncodeIntoError: "let fault = ti_terminfo::EncodeIntoError::OutTooSmall { need: 22 };
assert_eq!(fault.to_string(), \"OutTooSmall 22\");
assert_eq!(fault.message().to_string(), \"the slice has less than the 22 bytes of the entry\");",
    ExpandError: "let fault = ti_terminfo::ExpandError::OutTooSmall { need: 26 };
assert_eq!(fault.to_string(), \"OutTooSmall 26\");
assert_eq!(fault.message().to_string(), \"the slice has less than the 26 bytes that may be written\");",
    SendError: "let fault = ti_terminfo::Kept::compile(b\"%p1%d\").unwrap()
    .send_into(&[7], &mut ti_terminfo::Vars::new(), &ti_terminfo::Padding::default(), &mut [0; 9]).unwrap_err();
assert_eq!(fault.to_string(), \"OutTooSmall 11\");
assert_eq!(fault.message().to_string(), \"the slice has less than the 11 bytes that may be written\");",
    PadError: "let fault = ti_terminfo::PadError::Memory;
assert_eq!(fault.to_string(), \"Memory\");
assert_eq!(fault.message().to_string(), \"memory was refused\");",
    PadIntoError: "let fault = ti_terminfo::PadIntoError::OutTooSmall { need: 9 };
assert_eq!(fault.to_string(), \"OutTooSmall 9\");
assert_eq!(fault.message().to_string(), \"the slice has less than the 9 bytes of the padded string\");",
}

const NO_MEMORY: &str = "memory was refused";

impl Says for ReadError {
    fn say(&self, f: &mut fmt::Formatter<'_>) -> fmt::Result {
        let place = self.place;
        let what = match self.fault {
            ReadFault::Truncated => return write!(f, "the entry was cut: it has {place} bytes only"),
            ReadFault::BadMagic => return f.write_str("the first two bytes are those of no compiled entry"),
            ReadFault::HeaderTooBig => return f.write_str("by its header the entry has more than 32768 bytes"),
            ReadFault::ExtendedTooBig => return f.write_str("with its extended part the entry has more than 32768 bytes"),
            ReadFault::BadHeader => "a size or a count of the header is negative",
            ReadFault::BadNames => "the names are empty, hold a NUL or do not end with one",
            ReadFault::BadFlag => "a boolean is none of 0, 1, 254 and 255",
            ReadFault::BadPad => "a byte between two sections is not 0",
            ReadFault::BadNumber => "a number is below -2",
            ReadFault::BadOffset => "the offset of a string is not within the string table",
            ReadFault::Unterminated => "a string or a user-defined name has no NUL at its end",
            ReadFault::BadExtendedHeader => "a size or a count of the extended header is negative",
            ReadFault::BadExtendedName => "the offset of a user-defined name is not within its table",
            ReadFault::Trailing => "bytes follow the end of the entry",
        };
        write!(f, "at byte {place}: {what}")
    }
}

impl Says for ParseError {
    fn say(&self, f: &mut fmt::Formatter<'_>) -> fmt::Result {
        let what = match self.fault {
            ParseFault::TooLong => return f.write_str("the capability has more than 32767 bytes"),
            ParseFault::CutShort => "the bytes end inside an escape",
            ParseFault::UnknownEscape => "no escape starts with the byte after the %",
            ParseFault::BadParameter => "%p is followed by no digit of 1 to 9",
            ParseFault::BadVariable => "%P or %g is followed by no letter",
            ParseFault::BadConstant => "%{ or %' is followed by no number up to 2147483647 and its end",
            ParseFault::BadFormat => "a format has a width above 255, or flags that do not go with its conversion",
            ParseFault::StrayThen => "%t stands where no conditional waits for it",
            ParseFault::StrayElse => "%e stands where no conditional waits for it",
            ParseFault::StrayEnd => "%; stands where no conditional is open",
            ParseFault::NoThen => "a conditional ends before its %t",
            ParseFault::NestTooDeep => "more than 32 conditionals are open at once",
            ParseFault::StackTooDeep => "more than 32 values would stand on the stack",
        };
        write!(f, "at byte {}: {what}", self.place)
    }
}

impl Says for CompileError {
    fn say(&self, f: &mut fmt::Formatter<'_>) -> fmt::Result {
        match self {
            CompileError::Refused(refused) => refused.say(f),
            CompileError::DoesNotFit => {
                f.write_str("the capability takes a string, or needs more steps or values than are kept")
            }
        }
    }
}

impl Says for EncodeError {
    fn say(&self, f: &mut fmt::Formatter<'_>) -> fmt::Result {
        f.write_str(match self {
            EncodeError::BadName => "the names are empty or hold a NUL, or a user-defined name holds one",
            EncodeError::NulInText => "a string holds a NUL",
            EncodeError::NumberOutOfRange => "a number is negative, or above 32767 without the wide format",
            EncodeError::TooManyOrLong => "the entry would have more than 32768 bytes",
            EncodeError::Memory => NO_MEMORY,
        })
    }
}

impl Says for EncodeIntoError {
    fn say(&self, f: &mut fmt::Formatter<'_>) -> fmt::Result {
        match self {
            EncodeIntoError::Refused(refused) => refused.say(f),
            EncodeIntoError::OutTooSmall { need } => write!(f, "the slice has less than the {need} bytes of the entry"),
        }
    }
}

impl Says for ExpandError {
    fn say(&self, f: &mut fmt::Formatter<'_>) -> fmt::Result {
        match self {
            ExpandError::TooManyParameters { given } => write!(f, "{given} parameters are given, and at most nine are taken"),
            ExpandError::TextTooLong { parameter } => write!(f, "the string of parameter {parameter} has more than 32767 bytes"),
            ExpandError::OutTooSmall { need } => write!(f, "the slice has less than the {need} bytes that may be written"),
            ExpandError::Memory => f.write_str(NO_MEMORY),
        }
    }
}

impl Says for SendError {
    fn say(&self, f: &mut fmt::Formatter<'_>) -> fmt::Result {
        match *self {
            SendError::TooManyParameters { given } => ExpandError::TooManyParameters { given }.say(f),
            SendError::OutTooSmall { need } => ExpandError::OutTooSmall { need }.say(f),
            SendError::TooMuch { need } => PadError::TooMuch { need }.say(f),
        }
    }
}

impl Says for PadError {
    fn say(&self, f: &mut fmt::Formatter<'_>) -> fmt::Result {
        match self {
            PadError::TooMuch { need } => write!(f, "the padded string would have {need} bytes, and at most 67108864 are made"),
            PadError::Memory => f.write_str(NO_MEMORY),
        }
    }
}

impl Says for PadIntoError {
    fn say(&self, f: &mut fmt::Formatter<'_>) -> fmt::Result {
        match self {
            PadIntoError::TooMuch { need } => PadError::TooMuch { need: *need }.say(f),
            PadIntoError::OutTooSmall { need } => write!(f, "the slice has less than the {need} bytes of the padded string"),
        }
    }
}
