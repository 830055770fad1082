//! A second, independent implementation of the secrecy compiler and its
//! leakage machine, for comparison with the first.
//!
//! `second drive` answers request lines from standard input.
//! `second generate SEED COUNT` prints about COUNT request lines.
//! `second blocks` prints padded blocks, whole and damaged, with their answers.

mod bounds;
mod check;
mod compile;
mod damage;
mod describe;
mod generate;
mod image;
mod interpreter;
mod labels;
mod levels;
mod limits;
mod machine;
mod neighbours;
mod operators;
mod padding;
mod probe;
mod program;
mod protocol;
mod random;
mod recordings;
mod refusal;
mod sorts;
mod step_counts;
mod words;

use std::io::{self, BufReader, BufWriter, ErrorKind};
use std::process::ExitCode;

fn main() -> ExitCode {
    let arguments: Vec<String> = std::env::args().skip(1).collect();
    let fields: Vec<&str> = arguments.iter().map(String::as_str).collect();
    let output = BufWriter::with_capacity(1 << 16, io::stdout().lock());
    let done = match fields[..] {
        ["drive"] => protocol::drive(BufReader::with_capacity(1 << 16, io::stdin().lock()), output),
        ["generate", seed, count] => match (seed.parse(), count.parse()) {
            (Ok(seed), Ok(count)) => generate::generate(seed, count, output),
            _ => return usage(),
        },
        ["blocks"] => padding::blocks(output),
        _ => return usage(),
    };
    match done {
        Ok(()) => ExitCode::SUCCESS,
        // The reader has seen enough.
        Err(error) if error.kind() == ErrorKind::BrokenPipe => ExitCode::SUCCESS,
        Err(error) => {
            eprintln!("second: {error}");
            ExitCode::FAILURE
        }
    }
}

fn usage() -> ExitCode {
    eprintln!("usage: second drive | second generate SEED COUNT | second blocks");
    ExitCode::from(2)
}
