//! Prints what the parser of `ti_parser` hands out: for each line of hexadecimal bytes a line with a field for each reading.

extern crate alloc;

mod kit;
mod made;
mod shown;

use made::parser::{Coding, Configuration, Reading, Within};
use shown::shown;
use std::io::{self, BufRead, Write};

fn functions(bytes: &[u8], reading: Reading) -> String {
    let mut parser = Configuration::new();
    let mut all = Vec::new();
    for byte in bytes {
        let out = parser.step(reading, *byte);
        all.extend(out.ended.iter().chain(out.function.iter()).map(shown));
    }
    all.join(" ")
}

fn main() -> io::Result<()> {
    let mut out = io::BufWriter::new(io::stdout());
    for line in io::stdin().lock().lines() {
        let line = line?;
        let pairs = line.as_bytes().chunks(2);
        let bytes: Vec<u8> = pairs.map(|pair| u8::from_str_radix(std::str::from_utf8(pair).unwrap(), 16).unwrap()).collect();
        let mut fields = Vec::new();
        for coding in [Coding::Utf8, Coding::Utf8WithC1, Coding::Bytes] {
            for within in [Within::StartsAnew, Within::GoesOn] {
                fields.push(functions(&bytes, Reading { coding, within }));
            }
        }
        writeln!(out, "{}", fields.join("\t"))?;
    }
    Ok(())
}
