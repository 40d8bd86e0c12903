//! Says what is wrong with a file that is no compiled entry, and where; its status is 1 then: refuse FILE

use std::process::ExitCode;
use std::{env, fs};
use ti_terminfo::Entry;

fn main() -> ExitCode {
    let Some((path, file)) = env::args().nth(1).and_then(|path| Some((path.clone(), fs::read(path).ok()?))) else {
        return ExitCode::from(2);
    };
    match Entry::read(&file) {
        Ok(_) => ExitCode::SUCCESS,
        Err(fault) => {
            println!("{path}: {}", fault.message());
            ExitCode::FAILURE
        }
    }
}
