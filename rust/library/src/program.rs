//! The whole program `ti`, made from the sources like the rest of this crate.

use crate::kit::host::HostRuntime;
use crate::kit::{AllocError, Allocator, Global, Vec};
use crate::made::tool::{Files, Store, Terminals, one_file, run_at};
use std::io;
use std::process::ExitCode;

/// Runs `ti` on the words, the streams and the files of this process, and returns its exit status.
pub fn main() -> ExitCode {
    crate::made::ti::main(HostRuntime)
}

/// What a run of [`run`] came to.
#[derive(Clone, Debug, PartialEq, Eq)]
pub struct Outcome {
    /// The exit status.
    pub status: u8,
    /// What it wrote on standard output.
    pub output: std::vec::Vec<u8>,
    /// What it wrote on standard error.
    pub errors: std::vec::Vec<u8>,
}

/// Runs `ti` on words, which follow its name, and on bytes in memory: `input` is standard input, and any file that the words name
/// holds `file`. Nothing of the system is read or written.
///
/// ```
/// let outcome = ti_terminfo::program::run(&["cap", "n:7"], b"\x1b[%p1%dG", &[]);
/// assert_eq!((outcome.status, outcome.output.as_slice()), (0, b"\x1b[7G".as_slice()));
/// ```
pub fn run(words: &[&str], input: &[u8], file: &[u8]) -> Outcome {
    run_with(Terminals::NONE, words, input, file)
}

/// The same with the lines on faults as a person at a terminal gets them: each with a sentence on what to do.
///
/// ```
/// let outcome = ti_terminfo::program::run_for_person(&["show", "notes"], &[], b"no entry");
/// assert_eq!(outcome.errors, b"notes: entry: BadMagic at 0\n  this is no compiled entry; compile a terminfo source with tic -x\n");
/// ```
pub fn run_for_person(words: &[&str], input: &[u8], file: &[u8]) -> Outcome {
    run_with(Terminals { errors: true, ..Terminals::NONE }, words, input, file)
}

fn run_with(terminals: Terminals, words: &[&str], input: &[u8], file: &[u8]) -> Outcome {
    let words = [&["ti"], words].concat();
    let (mut output, mut errors) = (Vec::new(Global), Vec::new(Global));
    let (mut input, store) = (input, InMemory { file });
    let status = run_at(&store, Global, Global, terminals, &words, &mut input, &mut output, &mut errors);
    Outcome { status, output: output.into_items(), errors: errors.into_items() }
}

/// A store in which each name is that of one file.
struct InMemory<'a> {
    file: &'a [u8],
}

impl Store for InMemory<'_> {
    fn find<A: Allocator + Copy>(&self, alloc: A, name: &str) -> io::Result<Files<A>> {
        Ok(one_file(alloc, name, None)?)
    }

    fn read<A: Allocator>(&self, _name: &str, contents: &mut Vec<u8, A>) -> io::Result<()> {
        Ok(contents.extend_from_slice(self.file)?)
    }
}

impl From<AllocError> for io::Error {
    fn from(_refused: AllocError) -> io::Error {
        io::ErrorKind::OutOfMemory.into()
    }
}

impl<A: Allocator> io::Write for Vec<u8, A> {
    fn write(&mut self, bytes: &[u8]) -> io::Result<usize> {
        self.extend_from_slice(bytes)?;
        Ok(bytes.len())
    }

    fn flush(&mut self) -> io::Result<()> {
        Ok(())
    }
}
