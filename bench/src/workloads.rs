//! The images that are measured. Each has one procedure, but for the chain of calls.

use crate::words::{self, statement, word};

pub struct Call {
    /// words, most significant byte first
    pub arguments: Vec<u8>,
    /// the number of cells of the image's arrays
    pub cells: usize,
}

#[derive(PartialEq, Eq, Debug)]
pub struct Answer {
    pub done: bool,
    pub result: u32,
    pub steps: u32,
}

pub struct Workload {
    pub name: &'static str,
    pub image: Vec<u8>,
    pub call: Call,
}

const HEADER: u32 = 0x1000_0001;
const PUBLIC_WORD: u32 = 0x4000_0000;
const SECRET_WORD: u32 = 0x4000_0001;
const SECRET_BOOLEAN: u32 = 0x4000_0003;
const ADD: u32 = 0xD000_0000;
const AND: u32 = 0xD000_0003;
const XOR: u32 = 0xD000_0005;
const EQUAL: u32 = 0xD000_000B;
const LESS: u32 = 0xD000_000C;

fn workload(name: &'static str, image: &[u32], arguments: &[u32]) -> Workload {
    let call = Call { arguments: words::to_bytes(arguments), cells: 0 };
    Workload { name, image: words::to_bytes(image), call }
}

fn procedure(parameters: u32, locals: u32) -> u32 {
    word(words::PROCEDURE, parameters << 8 | locals)
}

fn block(count: u32) -> u32 {
    word(words::BLOCK, count)
}

fn constant(value: u32) -> u32 {
    word(words::CONSTANT, value)
}

fn variable(number: u32) -> u32 {
    word(words::VARIABLE, number)
}

/// The paper's example: 1 where the secret parameter is 7, else 0.
pub fn small_routine() -> Workload {
    let mut image = vec![HEADER, procedure(1, 0), SECRET_WORD, SECRET_WORD, block(2)];
    image.extend([statement(words::IF, 0), EQUAL, variable(0), constant(7)]);
    image.extend([block(1), statement(words::RETURN, 0), constant(1), block(0)]);
    image.extend([statement(words::RETURN, 0), constant(0)]);
    workload("small routine", &image, &[7])
}

/// v := v + 3, so many times.
fn push_additions(image: &mut Vec<u32>, number: u32, count: u32) {
    for _ in 0..count {
        image.extend([statement(words::ASSIGN, number), ADD, variable(number), constant(3)]);
    }
}

/// A secret if around equal assignments, of exactly `length` words; the length leaves 0 modulo 4.
pub fn long_source(length: u32) -> Workload {
    let additions = (length - 12) / 4;
    let mut image =
        vec![HEADER, procedure(1, 1), SECRET_WORD, SECRET_BOOLEAN, SECRET_WORD, block(1)];
    image.extend([statement(words::IF, 0), variable(0), block(additions + 1)]);
    push_additions(&mut image, 1, additions);
    image.extend([statement(words::ASSIGN, 1), constant(0), block(0)]);
    assert_eq!(image.len(), length as usize);
    workload("long source", &image, &[1])
}

/// for i from 0 to passes: v := v + i; returns v.
pub fn hot_loop(passes: u32) -> Workload {
    let mut image = vec![HEADER, procedure(0, 2), PUBLIC_WORD, PUBLIC_WORD, PUBLIC_WORD, block(2)];
    image.extend([statement(words::FOR, 0), constant(0), constant(passes), block(1)]);
    image.extend([statement(words::ASSIGN, 1), ADD, variable(1), variable(0)]);
    image.extend([statement(words::RETURN, 0), variable(1)]);
    workload("hot loop", &image, &[])
}

/// for i from 0 to passes: if i = passes, an arm of `arm` words that is never taken, else v := v + 3; returns v.
pub fn untaken_arm(passes: u32, arm: u32) -> Workload {
    let mut image = vec![HEADER, procedure(0, 2), PUBLIC_WORD, PUBLIC_WORD, PUBLIC_WORD, block(2)];
    image.extend([statement(words::FOR, 0), constant(0), constant(passes), block(1)]);
    image.extend([statement(words::IF, 0), EQUAL, variable(0), constant(passes)]);
    image.push(block(arm / 4));
    push_additions(&mut image, 1, arm / 4);
    image.push(block(1));
    push_additions(&mut image, 1, 1);
    image.extend([statement(words::RETURN, 0), variable(1)]);
    workload("untaken arm", &image, &[])
}

/// for i from 0 to passes, over an array of 16 cells: a[i and 15] := a[i and 15] + i; v := select(i < 7, a[i and 15], v);
/// if i and 1 = 0, v := v + 3, else v := v xor i; returns v. Four entries a pass.
pub fn mixed(passes: u32) -> Workload {
    let low = |mask: u32| [AND, variable(0), constant(mask)];
    let cell = [&[word(words::INDEX, 0)], &low(15)[..]].concat();
    let mut image = vec![0x1000_0101, word(words::ARRAY, 16), procedure(0, 2)];
    image.extend([PUBLIC_WORD, PUBLIC_WORD, PUBLIC_WORD, block(2)]);
    image.extend([statement(words::FOR, 0), constant(0), constant(passes), block(3)]);
    image.push(statement(words::STORE, 0));
    image.extend(low(15));
    image.push(ADD);
    image.extend(&cell);
    image.push(variable(0));
    image.extend([statement(words::ASSIGN, 1), word(words::SELECT, 0), LESS, variable(0), constant(7)]);
    image.extend(&cell);
    image.push(variable(1));
    image.extend([statement(words::IF, 0), EQUAL]);
    image.extend(low(1));
    image.extend([constant(0), block(1)]);
    push_additions(&mut image, 1, 1);
    image.extend([block(1), statement(words::ASSIGN, 1), XOR, variable(1), variable(0)]);
    image.extend([statement(words::RETURN, 0), variable(1)]);
    let mut mixed = workload("mixed loop", &image, &[]);
    mixed.call.cells = 16;
    mixed
}

/// So many fors inside each other, in form 0 or 1; in the innermost an assignment, or a return under a secret if.
/// Its procedure has a secret boolean parameter.
pub fn nested_fors(form: u32, count: u32, returns: bool) -> Vec<u8> {
    let mut image = vec![HEADER | form << 16, procedure(1, count + 1), SECRET_WORD, SECRET_BOOLEAN];
    image.push(SECRET_WORD);
    image.extend((0..count).map(|_| PUBLIC_WORD));
    for number in 0..count {
        image.extend([block(1), statement(words::FOR, 2 + number), constant(0), constant(2)]);
    }
    image.push(block(1));
    if returns {
        image.extend([statement(words::IF, 0), variable(0), block(1)]);
        image.extend([statement(words::RETURN, 0), constant(1), block(0)]);
    } else {
        image.extend([statement(words::ASSIGN, 1), constant(1)]);
    }
    words::to_bytes(&image)
}

/// So many procedures, each of which calls the one before it twice: the steps of the last double with each.
pub fn call_chain(procedures: u32) -> Vec<u8> {
    let mut image = vec![0x1000_0000 | procedures, procedure(0, 0), PUBLIC_WORD, block(1)];
    image.extend([statement(words::RETURN, 0), constant(0)]);
    for callee in 0..procedures - 1 {
        let call = words::call(callee, 0);
        image.extend([procedure(0, 1), PUBLIC_WORD, PUBLIC_WORD, block(2), call, call]);
    }
    words::to_bytes(&image)
}
