//! `oracle compare [N [PART]]`: compares each ported function with its reference on N inputs (default 1,000,000); with a part, those of
//! `elementary`, `motion`, `plots`, `ruling`, `assessment`, `avoidance` or `sheets` alone.
//! `oracle outcomes [N [PART]]`: counts what the references of `avoidance` and `sheets` answer on the inputs that `compare` would use.
//! `oracle sheet`: prints what the program `encounter` has to print for the sheet on standard input.
//! `oracle vectors`: writes the records and answers that the gate replays.
//! `oracle bench`: measures the port beside the Rust.
//! `oracle calls [PART]`: calls the port's functions of `elementary`, `module`, `worst` or `typical`, for a tool that counts instructions.

mod arcs;
mod assessment;
mod avoidance;
mod bench;
mod big;
mod circular;
mod compare;
mod inputs;
mod method;
mod motion;
mod plots;
mod port;
mod ruling;
mod sheet_compare;
mod sheet_inputs;
mod sheet_winds;
mod vectors;

// The listed Rust, unchanged, on the port's elementary functions.
include!("kinavis/root.rs");
use port::{asin, atan2, cos, hypot, sin, sqrt};

fn main() {
    let words: Vec<String> = std::env::args().skip(1).collect();
    let count = || words.get(1).map_or(1_000_000, |w| w.parse().expect("a number of inputs"));
    let part = words.get(2).map(String::as_str);
    match words.first().map(String::as_str) {
        Some("compare") => {
            if !compare::all(count(), part) {
                std::process::exit(1);
            }
        }
        Some("outcomes") => compare::outcomes(count(), part),
        Some("sheet") => sheet_compare::print(),
        Some("vectors") => vectors::write(),
        Some("bench") => bench::all(),
        Some("calls") => bench::calls(words.get(1).map_or("elementary", String::as_str)),
        _ => {
            eprintln!("oracle compare [N [PART]] | outcomes [N [PART]] | sheet | vectors | bench | calls [PART]");
            std::process::exit(2);
        }
    }
}
