//! The proved library through its C interface.

use crate::workloads::{Answer, Call};

extern "C" {
    fn tinesage_check(image: *const u8, image_len: usize, answer: *mut u8, answer_len: usize);
    fn tinesage_compile(
        image: *const u8,
        image_len: usize,
        out: *mut u8,
        out_len: usize,
        answer: *mut u8,
        answer_len: usize,
    );
    fn tinesage_call(
        image: *const u8,
        image_len: usize,
        cells: *mut u8,
        cells_len: usize,
        procedure: u32,
        arguments: *const u8,
        arguments_len: usize,
        budget: u32,
        trace: *mut u8,
        trace_len: usize,
        answer: *mut u8,
        answer_len: usize,
    );
    fn tinesage_preview(
        image: *const u8,
        image_len: usize,
        cells: *const u8,
        cells_len: usize,
        procedure: u32,
        arguments: *const u8,
        arguments_len: usize,
        budget: u32,
        trace: *mut u8,
        trace_len: usize,
        answer: *mut u8,
        answer_len: usize,
    );
    fn tinesage_bound(
        image: *const u8,
        image_len: usize,
        cells: *const u8,
        cells_len: usize,
        procedure: u32,
        answer: *mut u8,
        answer_len: usize,
    );
}

type AnswerBytes = [u8; 28];

fn word(bytes: &AnswerBytes, at: usize) -> u32 {
    u32::from_be_bytes([bytes[4 * at], bytes[4 * at + 1], bytes[4 * at + 2], bytes[4 * at + 3]])
}

/// Whether the image is accepted.
pub fn check(image: &[u8]) -> bool {
    let mut answer = [0; 28];
    // Each pointer is that of a slice, given with its own length.
    unsafe { tinesage_check(image.as_ptr(), image.len(), answer.as_mut_ptr(), answer.len()) };
    word(&answer, 0) == 0
}

/// The number of words written, if the image compiles.
pub fn compile(image: &[u8], out: &mut [u8]) -> Option<usize> {
    let mut answer = [0; 28];
    let (image_len, out_len) = (image.len(), out.len());
    unsafe {
        tinesage_compile(
            image.as_ptr(),
            image_len,
            out.as_mut_ptr(),
            out_len,
            answer.as_mut_ptr(),
            answer.len(),
        );
    }
    (word(&answer, 0) == 0).then(|| word(&answer, 6) as usize)
}

pub fn call(image: &[u8], cells: &mut [u8], call: &Call, trace: &mut [u8]) -> Answer {
    let mut answer = [0; 28];
    unsafe {
        tinesage_call(
            image.as_ptr(),
            image.len(),
            cells.as_mut_ptr(),
            cells.len(),
            0,
            call.arguments.as_ptr(),
            call.arguments.len(),
            u32::MAX,
            trace.as_mut_ptr(),
            trace.len(),
            answer.as_mut_ptr(),
            answer.len(),
        );
    }
    answered(&answer)
}

pub fn preview(image: &[u8], cells: &[u8], call: &Call, trace: &mut [u8]) -> Answer {
    let mut answer = [0; 28];
    unsafe {
        tinesage_preview(
            image.as_ptr(),
            image.len(),
            cells.as_ptr(),
            cells.len(),
            0,
            call.arguments.as_ptr(),
            call.arguments.len(),
            u32::MAX,
            trace.as_mut_ptr(),
            trace.len(),
            answer.as_mut_ptr(),
            answer.len(),
        );
    }
    answered(&answer)
}

/// The most steps of a call of the procedure, where they are known ahead.
pub fn bound(image: &[u8], cells: &[u8], procedure: u32) -> Option<u32> {
    let mut answer = [0; 28];
    unsafe {
        tinesage_bound(
            image.as_ptr(),
            image.len(),
            cells.as_ptr(),
            cells.len(),
            procedure,
            answer.as_mut_ptr(),
            answer.len(),
        );
    }
    (word(&answer, 0) == 0).then(|| word(&answer, 3))
}

fn answered(answer: &AnswerBytes) -> Answer {
    Answer { done: word(answer, 0) == 0, result: word(answer, 3), steps: word(answer, 4) }
}
