//! How the programs over `ti_parser` print a function.

use crate::made::expand::Value;
use crate::made::parser::{Function, FunctionNumber, Intermediates};

impl std::fmt::Debug for Value<'_> {
    fn fmt(&self, f: &mut std::fmt::Formatter<'_>) -> std::fmt::Result {
        f.write_str("Value")
    }
}

fn number(number: &FunctionNumber) -> String {
    match number {
        FunctionNumber::Absent => String::new(),
        FunctionNumber::Known(value) => value.to_string(),
        FunctionNumber::Large => "*".into(),
        FunctionNumber::Any => "?".into(),
    }
}

fn hex(byte: Option<u8>) -> String {
    byte.map_or(String::new(), |byte| format!("{byte:02x}"))
}

pub fn shown(function: &Function) -> String {
    let numbers = function.numbers.as_slice();
    let listed: Vec<String> = numbers.iter().map(number).collect();
    let between = match function.intermediates {
        Intermediates::Empty => String::new(),
        Intermediates::Single(byte) => format!("{byte:02x}"),
        Intermediates::Pair(first, second) => format!("{first:02x}{second:02x}"),
        Intermediates::Many => "many".into(),
    };
    format!(
        "{:?}/{}/{}:{}/{between}/{}/{}{}",
        function.kind,
        hex(function.marker),
        numbers.len(),
        listed.join(";"),
        hex(function.letter),
        u8::from(function.asks),
        u8::from(function.is_overfull),
    )
}
