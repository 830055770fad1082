//! Compares the speed of the proved library with that of the second program,
//! on the same images and requests.
//!
//! Prints five tables: rates side by side, how the time grows when the work
//! doubles, checks of fors inside each other, the library's previews beside its
//! calls, and bounds beside checks. `bench/draw` makes a picture of the first two. Each request checks
//! its image anew, on both sides, as the machine asks. The lent buffers are
//! allocated once and not cleared between two runs.

#[allow(dead_code)]
#[path = "../../second/src/bounds.rs"]
mod bounds;
#[allow(dead_code)]
#[path = "../../second/src/check.rs"]
mod check;
#[allow(dead_code)]
#[path = "../../second/src/compile.rs"]
mod compile;
#[allow(dead_code)]
#[path = "../../second/src/image.rs"]
mod image;
#[allow(dead_code)]
#[path = "../../second/src/interpreter.rs"]
mod interpreter;
#[allow(dead_code)]
#[path = "../../second/src/labels.rs"]
mod labels;
#[allow(dead_code)]
#[path = "../../second/src/operators.rs"]
mod operators;
#[allow(dead_code)]
#[path = "../../second/src/refusal.rs"]
mod refusal;
#[allow(dead_code)]
#[path = "../../second/src/sorts.rs"]
mod sorts;
#[allow(dead_code)]
#[path = "../../second/src/words.rs"]
mod words;

mod library;
mod measure;
mod second;
mod workloads;

use std::process::ExitCode;

use measure::{bound_table, growth_table, nesting_table, preview_table, rate_table};

fn main() -> ExitCode {
    // fewer passes make a quick trial
    let passes = std::env::args().nth(1).map_or(Some(1_000_000), |given| given.parse().ok());
    let Some(passes @ 64..=1_000_000) = passes else {
        eprintln!("usage: bench [PASSES], from 64 to 1000000");
        return ExitCode::from(2);
    };
    rate_table(passes);
    growth_table(passes);
    nesting_table();
    preview_table(passes);
    bound_table();
    ExitCode::SUCCESS
}
