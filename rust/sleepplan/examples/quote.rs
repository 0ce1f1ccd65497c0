//! Prints the sleep of each row of a table: `quote FILE`. A row's name is the second word of its line.

use std::process::ExitCode;

fn quote(path: &str) -> Result<(), Box<dyn std::error::Error>> {
    let text = std::fs::read(path)?;
    sleepplan::check(&text)?;
    let lines = std::str::from_utf8(&text)?.lines().skip(1);
    for (row, line) in lines.enumerate() {
        let name = line.split(' ').nth(1).unwrap_or("");
        println!("row {row} ({name}) may sleep {} ticks", sleepplan::sleep(&text, row as u64)?);
    }
    Ok(())
}

fn main() -> ExitCode {
    let Some(path) = std::env::args().nth(1) else {
        eprintln!("usage: quote FILE");
        return ExitCode::FAILURE;
    };
    match quote(&path) {
        Ok(()) => ExitCode::SUCCESS,
        Err(error) => {
            eprintln!("{path}: {error}");
            ExitCode::FAILURE
        }
    }
}
