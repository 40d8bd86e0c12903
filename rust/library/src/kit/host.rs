//! What the program takes of the system: its words and streams, and files.

use super::text::String;
use super::Global;
use std::io::{self, IsTerminal as _, Read, Write};

/// What the program starts with.
#[derive(Clone, Copy, Debug)]
pub struct HostRuntime;

impl HostRuntime {
    pub fn alloc(&self) -> Global {
        Global
    }

    pub fn stdin(&self) -> Stdin {
        Stdin
    }

    pub fn stdout(&self) -> Stdout {
        Stdout
    }

    pub fn stderr(&self) -> Stderr {
        Stderr
    }
}

/// Standard input.
#[derive(Clone, Copy, Debug)]
pub struct Stdin;

impl Stdin {
    pub fn is_terminal(&self) -> bool {
        io::stdin().is_terminal()
    }
}

impl Read for Stdin {
    fn read(&mut self, bytes: &mut [u8]) -> io::Result<usize> {
        io::stdin().read(bytes)
    }
}

/// Standard output, which keeps no bytes back, so that each failure is reported.
#[derive(Clone, Copy, Debug)]
pub struct Stdout;

impl Stdout {
    pub fn is_terminal(&self) -> bool {
        io::stdout().is_terminal()
    }
}

impl Write for Stdout {
    fn write(&mut self, bytes: &[u8]) -> io::Result<usize> {
        let mut stdout = io::stdout().lock();
        let count = stdout.write(bytes)?;
        stdout.flush()?;
        Ok(count)
    }

    fn flush(&mut self) -> io::Result<()> {
        io::stdout().flush()
    }
}

/// Standard error.
#[derive(Clone, Copy, Debug)]
pub struct Stderr;

impl Stderr {
    pub fn is_terminal(&self) -> bool {
        io::stderr().is_terminal()
    }
}

impl Write for Stderr {
    fn write(&mut self, bytes: &[u8]) -> io::Result<usize> {
        io::stderr().write(bytes)
    }

    fn flush(&mut self) -> io::Result<()> {
        io::stderr().flush()
    }
}

/// Writes a line on standard error.
pub fn print_error(_host: &HostRuntime, line: &str) -> io::Result<()> {
    Stderr.write_all(&[line.as_bytes(), b"\n"].concat())
}

pub mod env {
    use super::*;

    pub use std::env::VarError;

    /// The words of the command line. One that is not UTF-8 is a fault.
    pub fn args(_host: &HostRuntime) -> io::Result<impl Iterator<Item = String>> {
        let words = std::env::args_os().map(|word| word.into_string().map(String::of));
        let words: Result<std::vec::Vec<_>, _> = words.collect();
        Ok(words.map_err(|_| io::ErrorKind::InvalidData)?.into_iter())
    }

    pub fn var(_host: &HostRuntime, name: &str) -> Result<String, VarError> {
        std::env::var(name).map(String::of)
    }
}

pub mod fs {
    use super::*;
    pub use std::fs::Metadata;
    use std::fs::File;

    pub fn metadata(_host: &HostRuntime, name: &str) -> io::Result<Metadata> {
        std::fs::metadata(name)
    }

    pub fn open(_host: &HostRuntime, name: &str) -> io::Result<File> {
        File::open(name)
    }

    /// What is in a folder. A name that is not UTF-8 is a fault.
    pub fn read_dir(_host: &HostRuntime, name: &str) -> io::Result<impl Iterator<Item = io::Result<DirEntry>>> {
        let entries = std::fs::read_dir(name)?;
        Ok(entries.map(|entry| {
            let entry = entry?;
            let path = entry.path().into_os_string().into_string().map_err(|_| io::ErrorKind::InvalidFilename)?;
            Ok(DirEntry { path: String::of(path), entry })
        }))
    }

    /// A file, a folder or a link in a folder.
    #[derive(Debug)]
    pub struct DirEntry {
        path: String,
        entry: std::fs::DirEntry,
    }

    impl DirEntry {
        pub fn path(&self) -> &String {
            &self.path
        }

        pub fn metadata(&self) -> io::Result<Metadata> {
            self.entry.metadata()
        }
    }
}

pub mod os {
    pub mod unix {
        pub mod fs {
            use std::fs::Metadata;

            /// Which file it is.
            pub trait MetadataExt {
                fn dev(&self) -> u64;

                fn ino(&self) -> u64;
            }

            #[cfg(unix)]
            impl MetadataExt for Metadata {
                fn dev(&self) -> u64 {
                    std::os::unix::fs::MetadataExt::dev(self)
                }

                fn ino(&self) -> u64 {
                    std::os::unix::fs::MetadataExt::ino(self)
                }
            }

            /// A system that has no such numbers: each file counts as one that was not found before.
            #[cfg(not(unix))]
            impl MetadataExt for Metadata {
                fn dev(&self) -> u64 {
                    0
                }

                fn ino(&self) -> u64 {
                    use std::sync::atomic::{AtomicU64, Ordering};
                    static COUNT: AtomicU64 = AtomicU64::new(0);
                    COUNT.fetch_add(1, Ordering::Relaxed)
                }
            }
        }
    }
}
