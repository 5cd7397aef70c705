//! Reads records from standard input and prints the lines that they must give.

use std::io::{self, Read, Write};
use std::process::ExitCode;

use oracle::answer::{Build, stream_coefficients, stream_lines};

const USAGE: &str = "usage: oracle [--unaltered | --coefficients] < records";

fn main() -> ExitCode {
    let arguments: Vec<String> = std::env::args().skip(1).collect();
    let answer: fn(&[u8]) -> String =
        match arguments.iter().map(String::as_str).collect::<Vec<_>>()[..] {
            [] => |stream| stream_lines(Build::PowerRule, stream),
            ["--unaltered"] => |stream| stream_lines(Build::Unaltered, stream),
            ["--coefficients"] => stream_coefficients,
            _ => {
                eprintln!("{USAGE}");
                return ExitCode::from(2);
            }
        };
    match print(answer) {
        Ok(true) => ExitCode::SUCCESS,
        Ok(false) => {
            eprintln!("oracle: the reading of document 01 and segv differ, see the X lines");
            ExitCode::FAILURE
        }
        Err(error) => {
            eprintln!("oracle: {error}");
            ExitCode::from(2)
        }
    }
}

/// False where the reading and the Rust differ.
fn print(answer: fn(&[u8]) -> String) -> io::Result<bool> {
    let mut stream = Vec::new();
    io::stdin().read_to_end(&mut stream)?;
    let lines = answer(&stream);
    io::stdout().write_all(lines.as_bytes())?;
    Ok(!lines.lines().any(|line| line.starts_with('X')))
}
