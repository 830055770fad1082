//! The run of one call: steps, step budget, trace entries, stops 21 to 24.
//!
//! It walks the tree of a checked image. Booleans are the words 0 and 1.

use crate::image::{Action, Expression, Image, Node, Procedure, Statement};
use crate::operators::{Binary, Sort, Unary};
use crate::refusal::{Code, Refusal};

/// What a call answers. A stop keeps the steps and entries so far.
pub struct Outcome {
    pub end: Result<u32, Refusal>,
    pub steps: u32,
    pub trace: Vec<u32>,
}

pub fn run(
    image: &Image,
    called: &Procedure,
    cells: &mut [u32],
    budget: u32,
    trace_capacity: u64,
    arguments: &[u32],
) -> Outcome {
    let mut run =
        Run { image, cells, budget, steps: 0, trace: Vec::new(), trace_capacity, stop: None };
    let mut frame = EMPTY_FRAME;
    for ((slot, argument), parameter) in
        frame.iter_mut().zip(arguments).zip(called.parameter_types())
    {
        *slot = match parameter.sort {
            Sort::Word => *argument,
            Sort::Boolean => (*argument != 0) as u32,
        };
    }
    let returned = run.block(&called.body, &mut frame);
    let end = match (returned, run.stop) {
        (Ok(value), _) => Ok(value.unwrap_or(0)),
        (Err(Stopped), stop) => Err(stop.expect("a stopped run has said where")),
    };
    Outcome { end, steps: run.steps, trace: run.trace }
}

/// A procedure has at most 255 variables, so a variable's low byte is its
/// number and indexing a frame needs no test.
type Frame = [u32; 256];

const EMPTY_FRAME: Frame = [0; 256];

/// The run is over; `Run::stop` says why. Kept out of the error value so that
/// results stay in registers.
struct Stopped;

/// The trace entry kinds.
#[derive(Clone, Copy)]
pub enum Entry {
    Branch = 1,
    LoopFrom = 2,
    LoopTo = 3,
    Index = 4,
    Dividend = 5,
    Divisor = 6,
    Call = 7,
    Return = 8,
    ShiftCount = 9,
}

struct Run<'a> {
    image: &'a Image,
    cells: &'a mut [u32],
    budget: u32,
    steps: u32,
    trace: Vec<u32>,
    trace_capacity: u64,
    stop: Option<Refusal>,
}

impl<'a> Run<'a> {
    #[cold]
    fn stop(&mut self, code: Code, place: u32) -> Stopped {
        self.stop = Some(Refusal::at(code, place));
        Stopped
    }

    #[inline]
    fn step(&mut self, place: u32) -> Result<(), Stopped> {
        if self.steps == self.budget {
            return Err(self.stop(Code::BudgetSpent, place));
        }
        self.steps += 1;
        Ok(())
    }

    fn entry(&mut self, kind: Entry, place: u32, value: u32) -> Result<(), Stopped> {
        if self.trace_capacity - (self.trace.len() as u64) < 2 {
            return Err(self.stop(Code::TraceFull, place));
        }
        self.trace.extend([(kind as u32) << 28 | place, value]);
        Ok(())
    }

    /// Runs a block; answers the value once a return is met.
    fn block(&mut self, block: &'a [Statement], frame: &mut Frame) -> Result<Option<u32>, Stopped> {
        for statement in block {
            if let Some(value) = self.statement(statement, frame)? {
                return Ok(Some(value));
            }
        }
        Ok(None)
    }

    fn statement(
        &mut self,
        statement: &'a Statement,
        frame: &mut Frame,
    ) -> Result<Option<u32>, Stopped> {
        let place = statement.place;
        self.step(place)?;
        match &statement.action {
            Action::Assign { variable, value } => {
                frame[*variable as u8 as usize] = self.evaluate(value, frame)?;
            }
            Action::Store { array, index, value } => {
                let cell = self.cell(*array, index, place, frame)?;
                self.cells[cell] = self.evaluate(value, frame)?;
            }
            Action::If { condition, then_block, else_block } => {
                let condition = self.evaluate(condition, frame)?;
                self.entry(Entry::Branch, place, condition)?;
                let arm = if condition != 0 { then_block } else { else_block };
                return self.block(arm, frame);
            }
            Action::For { variable, from, to, body } => {
                let bounds = (self.evaluate(from, frame)?, self.evaluate(to, frame)?);
                return self.repeat(*variable, bounds, body, place, frame);
            }
            Action::Return { value } => {
                let value = self.evaluate(value, frame)?;
                self.entry(Entry::Return, place, 0)?;
                return Ok(Some(value));
            }
            Action::Call { procedure, result, arguments } => {
                let value = self.call(*procedure, arguments, place, frame)?;
                frame[*result as u8 as usize] = value;
            }
        }
        Ok(None)
    }

    fn repeat(
        &mut self,
        variable: u32,
        (from, to): (u32, u32),
        body: &'a [Statement],
        place: u32,
        frame: &mut Frame,
    ) -> Result<Option<u32>, Stopped> {
        self.entry(Entry::LoopFrom, place, from)?;
        self.entry(Entry::LoopTo, place, to)?;
        for value in from..to {
            self.step(place)?;
            frame[variable as u8 as usize] = value;
            if let Some(value) = self.block(body, frame)? {
                return Ok(Some(value));
            }
        }
        Ok(None)
    }

    fn call(
        &mut self,
        procedure: u32,
        arguments: &'a [Expression],
        place: u32,
        frame: &Frame,
    ) -> Result<u32, Stopped> {
        let mut callee_frame = EMPTY_FRAME;
        for (slot, argument) in callee_frame.iter_mut().zip(arguments) {
            *slot = self.evaluate(argument, frame)?;
        }
        self.entry(Entry::Call, place, procedure)?;
        let callee = &self.image.procedures[procedure as usize];
        Ok(self.block(&callee.body, &mut callee_frame)?.unwrap_or(0))
    }

    /// Evaluates an index and answers its cell.
    fn cell(
        &mut self,
        array: u32,
        index: &'a Expression,
        place: u32,
        frame: &Frame,
    ) -> Result<usize, Stopped> {
        let index = self.evaluate(index, frame)?;
        self.entry(Entry::Index, place, index)?;
        let array = &self.image.arrays[array as usize];
        if index >= array.length {
            return Err(self.stop(Code::IndexBeyond, place));
        }
        Ok((array.base + index) as usize)
    }

    fn evaluate(&mut self, expression: &'a Expression, frame: &Frame) -> Result<u32, Stopped> {
        Ok(match &expression.node {
            Node::Constant(value) => *value,
            Node::Boolean(value) => *value as u32,
            Node::Variable(variable) => frame[*variable as u8 as usize],
            Node::Index { array, index } => {
                let cell = self.cell(*array, index, expression.place, frame)?;
                self.cells[cell]
            }
            Node::Unary { operator, operand } => {
                let value = self.evaluate(operand, frame)?;
                match operator {
                    Unary::Not => value ^ 1,
                    Unary::Complement => !value,
                    Unary::BooleanAsWord => value,
                }
            }
            Node::Binary { operator, operands } => {
                let left = self.evaluate(&operands[0], frame)?;
                let right = self.evaluate(&operands[1], frame)?;
                self.binary(*operator, left, right, expression.place)?
            }
            Node::Select(operands) => {
                let condition = self.evaluate(&operands[0], frame)?;
                let if_true = self.evaluate(&operands[1], frame)?;
                let if_false = self.evaluate(&operands[2], frame)?;
                if condition != 0 {
                    if_true
                } else {
                    if_false
                }
            }
        })
    }

    #[inline]
    fn binary(
        &mut self,
        operator: Binary,
        left: u32,
        right: u32,
        place: u32,
    ) -> Result<u32, Stopped> {
        Ok(match operator {
            Binary::Add => left.wrapping_add(right),
            Binary::Subtract => left.wrapping_sub(right),
            Binary::Multiply => left.wrapping_mul(right),
            Binary::And | Binary::BothTrue => left & right,
            Binary::Or | Binary::EitherTrue => left | right,
            Binary::Xor => left ^ right,
            // The first two take the count modulo 32 by themselves.
            Binary::ShiftLeft => left.wrapping_shl(self.shift_count(right, place)?),
            Binary::ShiftRight => left.wrapping_shr(self.shift_count(right, place)?),
            Binary::RotateLeft => left.rotate_left(self.shift_count(right, place)? % 32),
            Binary::Quotient => left / self.divisor(left, right, place)?,
            Binary::Remainder => left % self.divisor(left, right, place)?,
            Binary::Equal => (left == right) as u32,
            Binary::Less => (left < right) as u32,
        })
    }

    /// Recorded before the modulo.
    fn shift_count(&mut self, count: u32, place: u32) -> Result<u32, Stopped> {
        self.entry(Entry::ShiftCount, place, count)?;
        Ok(count)
    }

    fn divisor(&mut self, dividend: u32, divisor: u32, place: u32) -> Result<u32, Stopped> {
        self.entry(Entry::Dividend, place, dividend)?;
        self.entry(Entry::Divisor, place, divisor)?;
        if divisor == 0 {
            return Err(self.stop(Code::DivisorZero, place));
        }
        Ok(divisor)
    }
}
