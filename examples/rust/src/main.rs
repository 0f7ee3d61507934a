//! Replays the schedule on standard input, or debugs it where commands come after it. It writes what
//! `txos` writes, but says what is wrong with a text that can't be read.
use std::io::{self, Read};
use std::process::ExitCode;

mod txos;

fn main() -> io::Result<ExitCode> {
    let mut text = Vec::new();
    io::stdin().read_to_end(&mut text)?;
    if let Err(error) = txos::check(&text) {
        eprint!("{error}");
        return Ok(ExitCode::FAILURE);
    }
    match txos::replay(&text).or_else(|_| txos::debug(&text)) {
        Ok(answer) => {
            print!("{answer}");
            Ok(ExitCode::SUCCESS)
        }
        Err(error) => {
            eprintln!("{error}");
            Ok(ExitCode::FAILURE)
        }
    }
}
