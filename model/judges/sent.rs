//! Prints what `functions_of` of `ti_parser` reports: for each line a line with a field for each reading and each way to take padding
//! marks out, which has the outcome, the functions with their places, the ends with the places at which they were opened, and the place at which a string is cut off. A line
//! has what the first parameter may be, and the hexadecimal bytes of a capability.

extern crate alloc;

mod kit;
mod made;
mod shown;

use kit::Global;
use made::cap::Capability;
use made::parser::{Coding, Configuration, FirstCharacter, Marks, Reading, Reception, Within, functions_of};
use shown::shown;
use std::io::{self, BufRead, Write};

fn end(parser: &Configuration, opened: Option<usize>) -> String {
    let place = opened.map_or(String::new(), |place| place.to_string());
    format!("{:?}+{:?}+{}@{place}", parser.state, parser.begun, shown(&parser.underway))
}

fn first(word: &str) -> FirstCharacter {
    match word {
        "printable" => FirstCharacter::Printable,
        "designator" => FirstCharacter::Designator,
        _ => FirstCharacter::Any,
    }
}

fn main() -> io::Result<()> {
    let mut out = io::BufWriter::new(io::stdout().lock());
    for line in io::stdin().lock().lines() {
        let line = line?;
        let (word, digits) = line.split_once(' ').expect("two words");
        let bytes: Vec<u8> = (0..digits.len() / 2).map(|at| u8::from_str_radix(&digits[2 * at..2 * at + 2], 16).expect("digits")).collect();
        let Ok(capability) = Capability::parse(&bytes) else {
            writeln!(out, "refused")?;
            continue;
        };
        let mut fields = Vec::new();
        for coding in [Coding::Utf8, Coding::Utf8WithC1, Coding::Bytes] {
            for within in [Within::StartsAnew, Within::GoesOn] {
                for marks in [Marks::Untouched, Marks::Tputs, Marks::TiPad] {
                    let reception = Reception { reading: Reading { coding, within }, marks, first_character: first(word) };
                    let sent = functions_of(Global, reception, &capability).expect("memory");
                    let functions: Vec<String> = sent.functions.iter().zip(sent.places.iter()).map(|(function, place)| format!("{}@{place}", shown(function))).collect();
                    let ends: Vec<String> = sent.ends.iter().zip(sent.opened.iter()).map(|(parser, opened)| end(parser, *opened)).collect();
                    let cut = sent.cut.map_or(String::new(), |place| place.to_string());
                    fields.push(format!("{:?} {} {} {cut}", sent.outcome, functions.join(","), ends.join(",")));
                }
            }
        }
        writeln!(out, "{}", fields.join("\t"))?;
    }
    out.flush()
}
