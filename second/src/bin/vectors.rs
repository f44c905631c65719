//! `vectors source` prints the module of the program `cases` that makes a fixed sample of generated
//! calls, and `vectors lines` the lines that it prints if the library agrees with this program.

#![forbid(unsafe_code)]

use std::process::ExitCode;

use second::vectors::{lines, sample, source};

fn main() -> ExitCode {
    let asked: Vec<String> = std::env::args().skip(1).collect();
    match asked.iter().map(String::as_str).collect::<Vec<_>>()[..] {
        ["source"] => print!("{}", source(&sample())),
        ["lines"] => print!("{}", lines(&sample())),
        _ => {
            eprintln!("usage: vectors source|lines");
            return ExitCode::from(2);
        }
    }
    ExitCode::SUCCESS
}
