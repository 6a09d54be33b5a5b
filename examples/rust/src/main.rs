//! Prints the report on the sheet that standard input holds, as the program `encounter` does: a
//! read or a write that fails is told on standard error, with exit status 1.
//!
//! `main` is the C library's. Rust's own opens /dev/null in the place of a standard input that is
//! closed, which would be answered as an empty sheet.

#![no_main]

use std::fs::File;
use std::io::{Read, Write};
use std::mem::ManuallyDrop;
use std::os::fd::FromRawFd;

/// One byte more than the largest sheet has, which is enough to see that an input is too long.
const ROOM: u64 = 4097;

fn run() -> Result<(), String> {
    // Neither file closes its descriptor at the end, since neither is dropped.
    let [input, mut output] = [0, 1].map(|fd| ManuallyDrop::new(unsafe { File::from_raw_fd(fd) }));
    let mut sheet = Vec::new();
    (&*input).take(ROOM).read_to_end(&mut sheet).map_err(|e| format!("standard input: {e}"))?;
    let report = encounter_report::report(&sheet);
    output.write_all(report.as_bytes()).map_err(|e| format!("standard output: {e}"))
}

#[no_mangle]
pub extern "C" fn main() -> i32 {
    match run() {
        Ok(()) => 0,
        Err(message) => {
            // Where standard error fails too there is nobody to tell.
            let _ = writeln!(std::io::stderr(), "{message}");
            1
        }
    }
}
