//! Writes the demo's tape to standard output. Run in the repository's root:
//! `cargo run --manifest-path rust/Cargo.toml -p tape --bin sample > demo/sample.tape`

#![forbid(unsafe_code)]

use std::io::{self, Write};

fn main() -> io::Result<()> {
    io::stdout().write_all(&tape::sample::tape().bytes())
}
