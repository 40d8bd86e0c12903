//! Prints what `beyond_table` of `ti_allow` reports: for each line with a name and the hexadecimal bytes of a capability a line with a
//! field for each function, computed byte and end that is not in the table.

extern crate alloc;

mod kit;
mod made;
mod shown;

use kit::Global;
use made::allow::{Found, beyond_table, effect_of};
use made::cap::Capability;
use shown::shown;
use std::io::{self, BufRead, Write};

fn told(name: &[u8], found: &Found) -> String {
    match found {
        Found::Function(function, place) => {
            let effect = effect_of(name, function).map_or("unknown-function".into(), |effect| format!("{effect:?}"));
            format!("{}@{place}={effect}", shown(function))
        }
        Found::ComputedByte => "computed-byte".into(),
        Found::Open(state, opened) => format!("string-open={state:?}{}", opened.map_or(String::new(), |place| format!("@{place}"))),
        Found::Cut(place) => format!("string-cut@{place}"),
        Found::NotTried => "not-tried".into(),
    }
}

fn main() -> io::Result<()> {
    let mut out = io::BufWriter::new(io::stdout().lock());
    for line in io::stdin().lock().lines() {
        let line = line?;
        let (name, digits) = line.split_once(' ').expect("a name and digits");
        let bytes: Vec<u8> = (0..digits.len() / 2).map(|at| u8::from_str_radix(&digits[2 * at..2 * at + 2], 16).expect("digits")).collect();
        let Ok(capability) = Capability::parse(&bytes) else {
            writeln!(out, "refused")?;
            continue;
        };
        let found = beyond_table(Global, name.as_bytes(), &capability).expect("memory");
        let fields: Vec<String> = found.iter().map(|one| told(name.as_bytes(), one)).collect();
        writeln!(out, "{}", fields.join("\t"))?;
    }
    out.flush()
}
