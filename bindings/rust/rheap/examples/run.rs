//! Runs a trace of commands, from standard input, on a heap that collects by itself, and prints
//! what it answers.

use std::io::{self, Read, Write};
use std::process::ExitCode;

fn main() -> io::Result<ExitCode> {
    let mut trace = Vec::new();
    io::stdin().read_to_end(&mut trace)?;
    match rheap::run_paced(&trace, None) {
        Ok(answers) => io::stdout().write_all(&answers)?,
        Err(error) => {
            eprintln!("run: {error}");
            return Ok(ExitCode::FAILURE);
        }
    }
    Ok(ExitCode::SUCCESS)
}
