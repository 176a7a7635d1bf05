//! Writes every printed file in its place.

use std::process::ExitCode;

fn main() -> ExitCode {
    for file in gen::files() {
        if let Err(error) = std::fs::write(file.path(), &file.text) {
            eprintln!("{}: {error}", file.path().display());
            return ExitCode::FAILURE;
        }
    }
    ExitCode::SUCCESS
}
