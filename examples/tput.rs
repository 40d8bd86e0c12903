//! Writes what a string of an entry sends, as tput does: tput ENTRY-FILE NAME [PARAM..]
//! A parameter that is a decimal number is one, any other is a string.

use std::error::Error;
use std::io::{self, ErrorKind, Write};
use std::process::ExitCode;
use std::{env, fs};
use ti_terminfo::{Capability, Entry, Item, Padding, Value, Vars, expand, pad};

/// What the string with a name sends for these parameters, without its delays.
fn sent(file: &[u8], name: &str, words: &[String]) -> Result<Vec<u8>, Box<dyn Error>> {
    let text = match Entry::read(file)?.find(name) {
        Some(Item::Text(text)) => text.value().ok_or("this terminal has no such string")?,
        Some(_) => return Err("this is a flag or a number".into()),
        None => return Err("no capability has this name".into()),
    };
    let parameters: Vec<_> =
        words.iter().map(|word| word.parse::<i32>().map_or(word.as_str().into(), Value::from)).collect();
    let output = expand(&Capability::parse(text)?, &parameters, &mut Vars::new())?;
    Ok(pad(&output, &Padding::default())?)
}

/// Writes all at once. A reader that has closed the pipe, as `head` does, is no fault.
fn write(output: &[u8]) -> io::Result<()> {
    match io::stdout().write_all(output).and_then(|()| io::stdout().flush()) {
        Err(fault) if fault.kind() == ErrorKind::BrokenPipe => Ok(()),
        done => done,
    }
}

fn main() -> ExitCode {
    let words: Vec<String> = env::args().skip(1).collect();
    let [path, name, rest @ ..] = words.as_slice() else {
        return ExitCode::from(2);
    };
    let file = fs::read(path).map_err(Into::into);
    let written = file.and_then(|file| sent(&file, name, rest)).and_then(|output| Ok(write(&output)?));
    if let Err(fault) = written {
        let _ = writeln!(io::stderr(), "tput: {fault}");
        return ExitCode::FAILURE;
    }
    ExitCode::SUCCESS
}
