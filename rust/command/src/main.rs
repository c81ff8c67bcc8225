//! `quotebook COMMAND RECORDING [options]`

use std::process::ExitCode;

fn main() -> ExitCode {
    let words: Result<Vec<String>, _> = std::env::args_os()
        .skip(1)
        .map(|word| word.into_string())
        .collect();
    match words {
        Ok(words) => ExitCode::from(command::run(&words)),
        Err(word) => {
            eprintln!("quotebook: {} is no text", word.display());
            ExitCode::from(2)
        }
    }
}
