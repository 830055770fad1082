//! The image as a tree, and the reader that builds it (refusals 1 to 5).

use crate::operators::{Binary, Sort, Unary, BINARY_TABLE, UNARY_TABLE};
use crate::refusal::{Code, Refusal};
use crate::words;

/// Ordered, so that joining labels is `max` and a flow is allowed when `<=`.
#[derive(Clone, Copy, PartialEq, Eq, PartialOrd, Ord, Debug)]
pub enum Label {
    Public,
    Secret,
}

#[derive(Clone, Copy, PartialEq, Eq, Debug)]
pub struct Type {
    pub sort: Sort,
    pub label: Label,
}

impl Type {
    pub const SECRET_BOOLEAN: Type = Type { sort: Sort::Boolean, label: Label::Secret };

    pub fn payload(self) -> u32 {
        (self.sort as u32) * 2 + self.label as u32
    }
}

#[derive(Clone, Copy, PartialEq, Eq, Debug)]
pub enum Form {
    Source,
    Compiled,
}

impl Form {
    pub fn max_words(self) -> usize {
        if self == Form::Source {
            4096
        } else {
            16384
        }
    }

    pub fn max_level(self) -> u32 {
        if self == Form::Source {
            19
        } else {
            22
        }
    }

    pub fn max_parameters(self) -> u32 {
        if self == Form::Source {
            8
        } else {
            9
        }
    }

    pub fn max_locals(self) -> u32 {
        if self == Form::Source {
            64
        } else {
            246
        }
    }
}

pub const MAX_ARRAYS: u32 = 16;
pub const MAX_PROCEDURES: u32 = 32;
pub const MAX_ARRAY_LENGTH: u32 = 256;
pub const MAX_CELLS: u32 = 1024;

pub struct Image {
    pub form: Form,
    pub arrays: Vec<Array>,
    pub procedures: Vec<Procedure>,
}

impl Image {
    pub fn cell_count(&self) -> usize {
        self.arrays.last().map_or(0, |last| (last.base + last.length) as usize)
    }
}

/// `base` is the array's first cell; arrays lie in the cell slice in order.
pub struct Array {
    pub label: Label,
    pub length: u32,
    pub base: u32,
}

/// `variables` holds the parameters first, then the locals.
pub struct Procedure {
    pub guarded: bool,
    pub parameters: u32,
    pub result: Type,
    pub variables: Vec<Type>,
    pub body: Vec<Statement>,
}

impl Procedure {
    /// The label of pc at the start of the body.
    pub fn entry_label(&self) -> Label {
        if self.guarded {
            Label::Secret
        } else {
            Label::Public
        }
    }

    pub fn parameter_types(&self) -> &[Type] {
        &self.variables[..self.parameters as usize]
    }
}

pub struct Statement {
    pub place: u32,
    pub action: Action,
}

/// Variables and arrays are numbers that need not exist until `sorts` has
/// looked; the reader has already made sure that a called procedure does.
pub enum Action {
    Assign { variable: u32, value: Expression },
    Store { array: u32, index: Expression, value: Expression },
    If { condition: Expression, then_block: Vec<Statement>, else_block: Vec<Statement> },
    For { variable: u32, from: Expression, to: Expression, body: Vec<Statement> },
    Return { value: Expression },
    Call { procedure: u32, result: u32, arguments: Vec<Expression> },
}

pub struct Expression {
    pub place: u32,
    pub node: Node,
}

pub enum Node {
    Constant(u32),
    Boolean(bool),
    Variable(u32),
    Index {
        array: u32,
        index: Box<Expression>,
    },
    Unary {
        operator: Unary,
        operand: Box<Expression>,
    },
    Binary {
        operator: Binary,
        operands: Box<[Expression; 2]>,
    },
    /// Condition, value if true, value if false.
    Select(Box<[Expression; 3]>),
}

impl Expression {
    /// A constant is one by its form; nothing is folded.
    pub fn constant(&self) -> Option<u32> {
        match self.node {
            Node::Constant(value) => Some(value),
            _ => None,
        }
    }
}

/// Reads a whole image. Reading stops at its first fault.
pub fn read(bytes: &[u8]) -> Result<Image, Refusal> {
    let Some(first) = bytes.first_chunk::<4>() else {
        return Err(Refusal::whole(Code::ImageLength));
    };
    let header = Header::read(u32::from_be_bytes(*first))?;
    if bytes.len() % 4 != 0 || bytes.len() / 4 > header.form.max_words() {
        return Err(Refusal::whole(Code::ImageLength));
    }
    let to_word = |chunk: &[u8]| u32::from_be_bytes([chunk[0], chunk[1], chunk[2], chunk[3]]);
    let words: Vec<u32> = bytes.chunks_exact(4).map(to_word).collect();
    let mut reader = Reader { words: &words, next: 1, form: header.form, procedures: Vec::new() };
    let arrays = reader.arrays(header.arrays)?;
    for _ in 0..header.procedures {
        let procedure = reader.procedure()?;
        reader.procedures.push(procedure);
    }
    if reader.next < words.len() {
        return Err(Refusal::at(Code::SpareWord, reader.next as u32));
    }
    Ok(Image { form: header.form, arrays, procedures: reader.procedures })
}

struct Header {
    form: Form,
    arrays: u32,
    procedures: u32,
}

impl Header {
    fn read(word: u32) -> Result<Header, Refusal> {
        let (kind, payload) = words::split(word);
        let (arrays, procedures) = (payload >> 8 & 0xFF, payload & 0xFF);
        let counts_fit = arrays <= MAX_ARRAYS && (1..=MAX_PROCEDURES).contains(&procedures);
        let form = match payload >> 16 {
            0 => Form::Source,
            1 => Form::Compiled,
            _ => return Err(Refusal::at(Code::BadWord, 0)),
        };
        if kind != words::HEADER || !counts_fit {
            return Err(Refusal::at(Code::BadWord, 0));
        }
        Ok(Header { form, arrays, procedures })
    }
}

/// The cursor over the words. `procedures` are those read so far, which are
/// also the ones the current procedure may call.
struct Reader<'a> {
    words: &'a [u32],
    next: usize,
    form: Form,
    procedures: Vec<Procedure>,
}

impl Reader<'_> {
    /// The next word with its place.
    fn take(&mut self) -> Result<(u32, u32), Refusal> {
        let place = self.next as u32;
        let Some(&word) = self.words.get(self.next) else {
            return Err(Refusal::at(Code::EndsEarly, place));
        };
        self.next += 1;
        Ok((place, word))
    }

    /// The next word's place and payload, if it is of the kind asked for.
    fn take_kind(&mut self, kind: u32) -> Result<(u32, u32), Refusal> {
        let (place, word) = self.take()?;
        let (found, payload) = words::split(word);
        require(found == kind, Code::BadWord, place)?;
        Ok((place, payload))
    }

    /// Asked only after the word itself is known to be good: 2 goes before 5.
    fn require_level(&self, place: u32, level: u32) -> Result<(), Refusal> {
        require(level <= self.form.max_level(), Code::TooDeep, place)
    }

    fn arrays(&mut self, count: u32) -> Result<Vec<Array>, Refusal> {
        let mut arrays = Vec::new();
        let mut base = 0;
        for _ in 0..count {
            let (place, payload) = self.take_kind(words::ARRAY)?;
            let (label, length) = (payload >> 16, payload & 0xFFFF);
            let fits = (1..=MAX_ARRAY_LENGTH).contains(&length) && base + length <= MAX_CELLS;
            require(label <= 1 && fits, Code::BadWord, place)?;
            arrays.push(Array { label: label_of(label), length, base });
            base += length;
        }
        Ok(arrays)
    }

    fn procedure(&mut self) -> Result<Procedure, Refusal> {
        let (place, payload) = self.take_kind(words::PROCEDURE)?;
        let (mode, parameters, locals) = (payload >> 16, payload >> 8 & 0xFF, payload & 0xFF);
        let mode_fits = mode == 0 || mode == 1 && self.form == Form::Source;
        let counts_fit =
            parameters <= self.form.max_parameters() && locals <= self.form.max_locals();
        require(mode_fits && counts_fit, Code::BadWord, place)?;
        let result = self.declared_type()?;
        let mut variables = Vec::new();
        for _ in 0..parameters + locals {
            variables.push(self.declared_type()?);
        }
        let body = self.block(1)?;
        Ok(Procedure { guarded: mode == 1, parameters, result, variables, body })
    }

    fn declared_type(&mut self) -> Result<Type, Refusal> {
        let (place, payload) = self.take_kind(words::TYPE)?;
        require(payload <= 3, Code::BadWord, place)?;
        let sort = if payload >> 1 == 0 { Sort::Word } else { Sort::Boolean };
        Ok(Type { sort, label: label_of(payload & 1) })
    }

    fn block(&mut self, level: u32) -> Result<Vec<Statement>, Refusal> {
        let (place, count) = self.take_kind(words::BLOCK)?;
        self.require_level(place, level)?;
        // The count is not trusted with an allocation: it may be far beyond
        // the words that are there.
        let mut statements = Vec::new();
        for _ in 0..count {
            statements.push(self.statement(level + 1)?);
        }
        Ok(statements)
    }

    fn statement(&mut self, level: u32) -> Result<Statement, Refusal> {
        let (place, payload) = self.take_kind(words::STATEMENT)?;
        let (op, q) = (payload >> 16, payload & 0xFFFF);
        let good = match op {
            words::ASSIGN | words::STORE | words::FOR => true,
            words::IF | words::RETURN => q == 0,
            words::CALL => ((q >> 8) as usize) < self.procedures.len(),
            _ => false,
        };
        require(good, Code::BadWord, place)?;
        self.require_level(place, level)?;
        let action = self.action(op, q, level + 1)?;
        Ok(Statement { place, action })
    }

    /// The words that belong to a statement; `level` is theirs.
    fn action(&mut self, op: u32, q: u32, level: u32) -> Result<Action, Refusal> {
        Ok(match op {
            words::ASSIGN => Action::Assign { variable: q, value: self.expression(level)? },
            words::STORE => Action::Store {
                array: q,
                index: self.expression(level)?,
                value: self.expression(level)?,
            },
            words::IF => Action::If {
                condition: self.expression(level)?,
                then_block: self.block(level)?,
                else_block: self.block(level)?,
            },
            words::FOR => Action::For {
                variable: q,
                from: self.expression(level)?,
                to: self.expression(level)?,
                body: self.block(level)?,
            },
            words::RETURN => Action::Return { value: self.expression(level)? },
            _ => self.call(q >> 8, q & 0xFF, level)?,
        })
    }

    fn call(&mut self, procedure: u32, result: u32, level: u32) -> Result<Action, Refusal> {
        let mut arguments = Vec::new();
        for _ in 0..self.procedures[procedure as usize].parameters {
            arguments.push(self.expression(level)?);
        }
        Ok(Action::Call { procedure, result, arguments })
    }

    fn expression(&mut self, level: u32) -> Result<Expression, Refusal> {
        let (place, word) = self.take()?;
        let (kind, payload) = words::split(word);
        let good = match kind {
            words::CONSTANT | words::VARIABLE | words::INDEX => true,
            words::RAW_CONSTANT | words::SELECT => payload == 0,
            words::BOOLEAN => payload <= 1,
            words::UNARY => (payload as usize) < UNARY_TABLE.len(),
            words::BINARY => (payload as usize) < BINARY_TABLE.len(),
            _ => false,
        };
        require(good, Code::BadWord, place)?;
        self.require_level(place, level)?;
        let node = self.node(kind, payload, level + 1)?;
        Ok(Expression { place, node })
    }

    /// The operands of an expression word; `level` is theirs.
    fn node(&mut self, kind: u32, payload: u32, level: u32) -> Result<Node, Refusal> {
        Ok(match kind {
            words::CONSTANT => Node::Constant(payload),
            words::RAW_CONSTANT => Node::Constant(self.raw_constant()?),
            words::BOOLEAN => Node::Boolean(payload == 1),
            words::VARIABLE => Node::Variable(payload),
            words::INDEX => Node::Index { array: payload, index: self.operand(level)? },
            words::UNARY => {
                let operator = UNARY_TABLE[payload as usize];
                Node::Unary { operator, operand: self.operand(level)? }
            }
            words::BINARY => {
                let operator = BINARY_TABLE[payload as usize].operator;
                let operands = [self.expression(level)?, self.expression(level)?];
                Node::Binary { operator, operands: Box::new(operands) }
            }
            _ => Node::Select(Box::new([
                self.expression(level)?,
                self.expression(level)?,
                self.expression(level)?,
            ])),
        })
    }

    fn operand(&mut self, level: u32) -> Result<Box<Expression>, Refusal> {
        Ok(Box::new(self.expression(level)?))
    }

    /// The word after a kind 8. It is no operand and has no level.
    fn raw_constant(&mut self) -> Result<u32, Refusal> {
        let (place, value) = self.take()?;
        require(value >= words::PAYLOAD_LIMIT, Code::BadWord, place)?;
        Ok(value)
    }
}

fn label_of(bit: u32) -> Label {
    if bit == 0 {
        Label::Public
    } else {
        Label::Secret
    }
}

fn require(holds: bool, code: Code, place: u32) -> Result<(), Refusal> {
    if holds {
        Ok(())
    } else {
        Err(Refusal::at(code, place))
    }
}
