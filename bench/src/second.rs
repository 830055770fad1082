//! The second program, asked for the same work as the library: a call checks its image first.

use crate::workloads::{Answer, Call};
use crate::{bounds, check, compile, interpreter};

pub fn check(image: &[u8]) -> bool {
    check::check(image).is_ok()
}

pub fn compile(image: &[u8], capacity: usize) -> Option<usize> {
    compile::compile(image, capacity as u64).ok().map(|words| words.len())
}

pub fn call(image: &[u8], cells: &mut [u32], call: &Call, trace_capacity: usize) -> Answer {
    let image = check::check(image).expect("the workloads are accepted");
    let arguments: Vec<u32> = call
        .arguments
        .chunks_exact(4)
        .map(|word| u32::from_be_bytes([word[0], word[1], word[2], word[3]]))
        .collect();
    let called = &image.procedures[0];
    let outcome =
        interpreter::run(&image, called, cells, u32::MAX, trace_capacity as u64, &arguments);
    Answer { done: outcome.end.is_ok(), result: outcome.end.unwrap_or(0), steps: outcome.steps }
}

pub fn bound(image: &[u8], procedure: u32) -> Option<u32> {
    let image = check::check(image).expect("the workloads are accepted");
    bounds::bound(&image, procedure as usize).ok()
}
