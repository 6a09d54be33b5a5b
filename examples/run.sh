#!/bin/sh
# Builds the C and the Rust example and runs each on document 01's sample sheet; both must print what the program `encounter` prints.
set -eu
cd "$(dirname "$0")/.."

(cd crates/exports_report && rt lib)
mkdir -p target/examples
cc -std=c11 -Wall -Wextra -Werror -O2 -Iinclude -o target/examples/report examples/report.c crates/exports_report/out/libexports_report.a
cargo build --quiet --release --manifest-path examples/rust/Cargo.toml --target-dir target/examples/rust

for program in target/examples/report target/examples/rust/release/encounter-report; do
    "$program" <crates/encounter/stdin >target/examples/printed
    cmp target/examples/printed crates/encounter/stdout
    echo "$program:"
    cat target/examples/printed
done
