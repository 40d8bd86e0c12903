//! `ti` reads, checks, compares, expands and writes compiled terminfo entries. All of it is in the crate `ti-terminfo`.
#![forbid(unsafe_code)]

fn main() -> std::process::ExitCode {
    ti_terminfo::program::main()
}
