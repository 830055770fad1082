//! The line protocol: one request a line, one answer a line.

use std::fmt::Write as _;
use std::io::{self, BufRead, Write};

use crate::check::check;
use crate::compile::compile;
use crate::describe::describe;
use crate::interpreter::Outcome;
use crate::machine::Machine;
use crate::probe::parting;
use crate::refusal::Refusal;
use crate::words;

/// Answers every line of the input, in order.
pub fn drive(mut input: impl BufRead, mut output: impl Write) -> io::Result<()> {
    let mut driver = Driver::new();
    let mut line = Vec::new();
    while input.read_until(b'\n', &mut line)? > 0 {
        if line.last() == Some(&b'\n') {
            line.pop();
        }
        if line.first() == Some(&b'#') {
            output.write_all(&line)?;
        } else {
            let request = std::str::from_utf8(&line).unwrap_or("");
            output.write_all(driver.answer(request).as_bytes())?;
        }
        output.write_all(b"\n")?;
        line.clear();
    }
    output.flush()
}

/// A lent cell slice longer than this is not tried: `new` with such a count
/// is answered `error` rather than by running out of memory.
const MAX_LENT_CELLS: u64 = 1 << 24;

/// The machine of the session, as left by the requests so far.
pub struct Driver {
    machine: Machine,
}

impl Driver {
    pub fn new() -> Driver {
        Driver { machine: Machine::new(0) }
    }

    /// The answer to one request line; `error` if it is none.
    pub fn answer(&mut self, line: &str) -> String {
        self.request(line).unwrap_or_else(|| "error".to_string())
    }

    fn request(&mut self, line: &str) -> Option<String> {
        let mut fields = line.split_ascii_whitespace();
        let name = fields.next()?;
        let fields: Vec<&str> = fields.collect();
        match name {
            "check" | "checkbytes" => {
                let image = parse_image(name, &fields)?;
                Some(plain(check(&image).map(|_| ())))
            }
            "compile" | "compilebytes" => {
                let (capacity, image) = fields.split_first()?;
                let image = parse_image(name, image)?;
                Some(listing(compile(&image, parse_number(capacity)?)))
            }
            "describe" | "describebytes" => {
                let (capacity, image) = fields.split_first()?;
                let image = parse_image(name, image)?;
                Some(listing(describe(&image, parse_number(capacity)?)))
            }
            "load" | "loadbytes" => {
                let image = parse_image(name, &fields)?;
                Some(plain(self.machine.load(&image)))
            }
            "call" | "preview" => self.run(name, &fields),
            "bound" => self.bound(&fields),
            "agree" => agree(&fields),
            _ => self.cell_request(name, &fields),
        }
    }

    /// The requests about the lent cell slice.
    fn cell_request(&mut self, name: &str, fields: &[&str]) -> Option<String> {
        Some(match (name, fields) {
            ("new", [count]) => {
                let count = parse_number(count).filter(|&count| count <= MAX_LENT_CELLS)?;
                self.machine = Machine::new(count as usize);
                "ok".to_string()
            }
            ("fill", [value]) => {
                self.machine.fill(parse_u32(value)?);
                "ok".to_string()
            }
            ("poke", [array, index, value]) => {
                let (array, index) = (parse_u32(array)?, parse_u32(index)?);
                plain(self.machine.poke(array, index, parse_u32(value)?))
            }
            ("peek", [array, index]) => {
                number(self.machine.peek(parse_u32(array)?, parse_u32(index)?))
            }
            ("clear", []) => plain(self.machine.clear()),
            ("cells", []) => {
                let mut answer = "cells".to_string();
                push_words(&mut answer, self.machine.cells());
                answer
            }
            _ => return None,
        })
    }

    /// A call or a preview.
    fn run(&mut self, name: &str, fields: &[&str]) -> Option<String> {
        let [procedure, budget, trace_capacity, arguments @ ..] = fields else { return None };
        let (procedure, budget) = (parse_u32(procedure)?, parse_u32(budget)?);
        let trace_capacity = parse_number(trace_capacity)?;
        let arguments: Option<Vec<u32>> =
            arguments.iter().map(|argument| parse_u32(argument)).collect();
        let arguments = arguments?;
        let answer = if name == "preview" {
            self.machine.preview(procedure, budget, trace_capacity, &arguments)
        } else {
            self.machine.call(procedure, budget, trace_capacity, &arguments)
        };
        Some(match answer {
            Ok(outcome) => outcome_line(&outcome),
            Err(refusal) => refused(refusal),
        })
    }

    fn bound(&self, fields: &[&str]) -> Option<String> {
        let [procedure] = fields else { return None };
        Some(number(self.machine.bound(parse_u32(procedure)?)))
    }
}

/// A trace and a probe's recording, in words with a bar between them. It asks
/// for no machine.
fn agree(fields: &[&str]) -> Option<String> {
    let bar = fields.iter().position(|field| *field == "|")?;
    let (trace, probe) = (parse_words(&fields[..bar])?, parse_words(&fields[bar + 1..])?);
    Some(match parting(&trace, &probe) {
        None => "ok agree".to_string(),
        Some(entries) => format!("ok part {entries}"),
    })
}

fn outcome_line(outcome: &Outcome) -> String {
    let mut answer = match outcome.end {
        Ok(result) => format!("ok {result}"),
        Err(stop) => format!("stop {} {}", stop.code as u32, stop.place),
    };
    write!(answer, " {} |", outcome.steps).expect("a string takes every write");
    push_words(&mut answer, &outcome.trace);
    answer
}

fn plain(answer: Result<(), Refusal>) -> String {
    match answer {
        Ok(()) => "ok".to_string(),
        Err(refusal) => refused(refusal),
    }
}

fn number(answer: Result<u32, Refusal>) -> String {
    match answer {
        Ok(number) => format!("ok {number}"),
        Err(refusal) => refused(refusal),
    }
}

fn listing(answer: Result<Vec<u32>, Refusal>) -> String {
    match answer {
        Ok(words) => {
            let mut line = "ok".to_string();
            push_words(&mut line, &words);
            line
        }
        Err(refusal) => refused(refusal),
    }
}

fn refused(refusal: Refusal) -> String {
    format!("refuse {} {}", refusal.code as u32, refusal.place)
}

/// Appends words, each after a blank.
pub fn push_words(line: &mut String, words: &[u32]) {
    line.reserve(words.len() * 9);
    for word in words {
        write!(line, " {word:08X}").expect("a string takes every write");
    }
}

/// The image fields of a request: words, or one run of hexadecimal bytes.
fn parse_image(name: &str, fields: &[&str]) -> Option<Vec<u8>> {
    match (name.ends_with("bytes"), fields) {
        (true, []) => Some(Vec::new()),
        (true, [bytes]) => parse_bytes(bytes),
        (true, _) => None,
        (false, _) => parse_words(fields).map(|image| words::to_bytes(&image)),
    }
}

fn parse_words(fields: &[&str]) -> Option<Vec<u32>> {
    fields.iter().map(|field| parse_word(field)).collect()
}

fn parse_word(field: &str) -> Option<u32> {
    let digits = field.len() == 8 && field.bytes().all(is_hex_digit);
    digits.then(|| u32::from_str_radix(field, 16).ok())?
}

fn parse_bytes(field: &str) -> Option<Vec<u8>> {
    if field.len() % 2 != 0 || !field.bytes().all(is_hex_digit) {
        return None;
    }
    (0..field.len()).step_by(2).map(|at| u8::from_str_radix(&field[at..at + 2], 16).ok()).collect()
}

fn is_hex_digit(byte: u8) -> bool {
    matches!(byte, b'0'..=b'9' | b'A'..=b'F')
}

/// Decimal digits only: no sign, and nothing past 64 bits.
fn parse_number(field: &str) -> Option<u64> {
    let digits = field.bytes().all(|byte| byte.is_ascii_digit());
    digits.then(|| field.parse().ok())?
}

fn parse_u32(field: &str) -> Option<u32> {
    parse_number(field).and_then(|number| u32::try_from(number).ok())
}
