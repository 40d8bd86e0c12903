//! Opens the entry of this terminal, and prints what it can do: terminal [NAME]
//!
//! The crate leaves it to its caller to find the file of an entry. `open` below does it as ncurses does, and can be copied: it
//! looks for the name, or `TERM`, in the folders of `folders`, below the first letter of the name or, as on macOS, its number.

use std::error::Error;
use std::io::{self, ErrorKind, Write};
use std::path::{Path, PathBuf};
use std::process::ExitCode;
use std::{env, fs};
use ti_terminfo::Entry;

/// Where ncurses of most systems has its entries. Yours may be told by `infocmp -D`.
const SHARED: [&str; 4] = ["/etc/terminfo", "/lib/terminfo", "/usr/share/terminfo", "/usr/local/share/terminfo"];

/// The folders of compiled entries, in the order in which they are searched. In `TERMINFO_DIRS` an empty name means the shared ones.
fn folders() -> Vec<PathBuf> {
    let own = env::var_os("TERMINFO").map(PathBuf::from);
    let home = env::home_dir().map(|home| home.join(".terminfo"));
    let listed = env::var_os("TERMINFO_DIRS").unwrap_or_default();
    let shared = || SHARED.map(PathBuf::from).to_vec();
    let listed = env::split_paths(&listed).flat_map(|folder| if folder == Path::new("") { shared() } else { vec![folder] });
    own.into_iter().chain(home).chain(listed).chain(shared()).collect()
}

/// The bytes of the entry with a name. A name must not lead out of the folders.
fn open(name: &str) -> io::Result<Vec<u8>> {
    let first = name.chars().next().filter(|first| *first != '.' && !name.contains(['/', '\\']));
    let first = first.ok_or(ErrorKind::InvalidInput)?;
    for folder in folders() {
        for below in [first.to_string(), format!("{:02x}", u32::from(first))] {
            match fs::read(folder.join(below).join(name)) {
                Err(fault) if matches!(fault.kind(), ErrorKind::NotFound | ErrorKind::NotADirectory) => {}
                read => return read,
            }
        }
    }
    Err(ErrorKind::NotFound.into())
}

/// Prints the entry's capabilities by their short and long names.
fn print(out: &mut impl Write, entry: &Entry<'_>) -> io::Result<()> {
    writeln!(out, "{:?}", entry)?;
    for (name, item) in entry.items().filter(|(_, item)| item.is_there()) {
        writeln!(out, "{name} {} {item:?}", name.long().unwrap_or("of the entry's own"))?;
    }
    out.flush()
}

fn run() -> Result<(), Box<dyn Error>> {
    let name = env::args().nth(1).or(env::var("TERM").ok()).ok_or("neither NAME nor TERM is set")?;
    let file = open(&name).map_err(|fault| format!("{name}: {fault}"))?;
    let entry = Entry::read(&file).map_err(|fault| format!("{name}: {}", fault.message()))?;
    match print(&mut io::stdout().lock(), &entry) {
        // Who reads has enough, as `head` does.
        Err(fault) if fault.kind() == ErrorKind::BrokenPipe => Ok(()),
        done => Ok(done?),
    }
}

fn main() -> ExitCode {
    match run() {
        Ok(()) => ExitCode::SUCCESS,
        Err(fault) => {
            let _ = writeln!(io::stderr(), "terminal: {fault}");
            ExitCode::FAILURE
        }
    }
}
