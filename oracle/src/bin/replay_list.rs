//! Writes the fixed list of the Rust's answers to the file that the argument names.

use std::process::ExitCode;

#[cfg(oracle)]
fn main() -> ExitCode {
    let Some(path) = std::env::args_os().nth(1) else {
        eprintln!("usage: replay_list FILE");
        return ExitCode::from(2);
    };
    if let Err(error) = std::fs::write(&path, oracle::replay::file()) {
        eprintln!("replay_list: {}: {error}", path.display());
        return ExitCode::FAILURE;
    }
    ExitCode::SUCCESS
}

#[cfg(not(oracle))]
fn main() -> ExitCode {
    eprintln!("replay_list: the Rust of cfb 0.15.0 is not here, so there are no answers to list");
    ExitCode::FAILURE
}
