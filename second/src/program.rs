//! Random programs that obey every rule by construction.
//!
//! The writer knows the labels of what it writes, so nearly all its images are
//! accepted. A shape may ask for slips: now and then a rule is left aside.

mod expressions;
mod statements;

use crate::image::{Form, Label, Type, MAX_CELLS};
use crate::operators::Sort;
use crate::random::Random;
use crate::words;

/// What kind of program is wanted.
#[derive(Clone, Copy)]
pub struct Shape {
    pub form: Form,
    pub procedures: u32,
    /// About how many words the image should have.
    pub room: usize,
    /// The deepest expression, counted in operators.
    pub depth: u32,
    /// The rule that is broken now and then, if any.
    pub slip: Option<Slip>,
}

/// A kind of fault. A program with one kind only is the rule, because a fault
/// of an early group hides those of the later ones.
#[derive(Clone, Copy, PartialEq, Eq)]
pub enum Slip {
    Name,
    Sort,
    LoopVariable,
    Flow,
    SecretOperand,
    Unbounded,
    OpenCall,
    SecretBranch,
    /// A return that makes rc secret for the words before it in a for's body.
    LoopReturn,
    Any,
}

impl Slip {
    /// How many of a hundred chances to slip are taken: few where chances are
    /// many, so that the rest of the program stays in order.
    fn percent(self) -> u32 {
        match self {
            Slip::Name | Slip::Sort | Slip::Any => 4,
            Slip::LoopVariable | Slip::Flow => 12,
            Slip::SecretOperand | Slip::SecretBranch => 30,
            Slip::Unbounded | Slip::OpenCall | Slip::LoopReturn => 50,
        }
    }
}

/// Writes one image.
pub fn program(random: &mut Random, shape: Shape) -> Vec<u32> {
    let mut writer = Writer::new(random, shape);
    writer.header();
    for done in 1..=shape.procedures as usize {
        writer.limit = shape.room * done / shape.procedures as usize;
        writer.procedure();
    }
    writer.output
}

/// What a caller has to know of a procedure.
#[derive(Clone)]
struct Signature {
    guarded: bool,
    result: Type,
    parameters: Vec<Type>,
}

#[derive(Clone, Copy)]
struct ArrayShape {
    label: Label,
    length: u32,
}

/// A for whose block is being written; `bounds` are there if both are
/// constants.
#[derive(Clone, Copy)]
struct OpenLoop {
    variable: u32,
    bounds: Option<(u32, u32)>,
}

impl OpenLoop {
    /// Whether the variable alone is an index that a secret context allows.
    fn fits(self, length: u32) -> bool {
        self.bounds.is_some_and(|(_, to)| to <= length)
    }

    /// The largest constant that may be added to the variable there.
    fn most_added(self, length: u32) -> Option<u32> {
        let (from, to) = self.bounds?;
        if from >= to {
            Some(u32::MAX)
        } else {
            length.checked_sub(to)
        }
    }
}

/// Where the next word stands. `may_defer` says whether a return may be put
/// in a secret context: not inside a for whose body began with a public rc,
/// because that return would make the words before it wrong.
#[derive(Clone, Copy)]
struct Spot {
    pc: Label,
    rc: Label,
    level: u32,
    may_defer: bool,
}

impl Spot {
    fn label(self) -> Label {
        self.pc.max(self.rc)
    }

    fn is_secret(self) -> bool {
        self.label() == Label::Secret
    }

    fn below(self) -> Spot {
        Spot { level: self.level + 1, ..self }
    }
}

struct Writer<'r> {
    random: &'r mut Random,
    shape: Shape,
    output: Vec<u32>,
    arrays: Vec<ArrayShape>,
    signatures: Vec<Signature>,
    /// No statement is begun once the output is this long.
    limit: usize,
    /// The procedure being written: its result, its variables, which of them
    /// are kept for fors, and the fors around the next word.
    result: Type,
    variables: Vec<Type>,
    loop_variables: Vec<u32>,
    open_loops: Vec<OpenLoop>,
    /// Returns written so far in a secret context.
    deferred: u32,
}

const PUBLIC_WORD: Type = Type { sort: Sort::Word, label: Label::Public };

impl<'r> Writer<'r> {
    fn new(random: &'r mut Random, shape: Shape) -> Writer<'r> {
        Writer {
            random,
            shape,
            output: Vec::new(),
            arrays: Vec::new(),
            signatures: Vec::new(),
            limit: 0,
            result: PUBLIC_WORD,
            variables: Vec::new(),
            loop_variables: Vec::new(),
            open_loops: Vec::new(),
            deferred: 0,
        }
    }

    fn slips(&mut self, kind: Slip) -> bool {
        let wanted = self.shape.slip.is_some_and(|slip| slip == kind || slip == Slip::Any);
        wanted && self.random.chance(kind.percent())
    }

    fn max_level(&self) -> u32 {
        self.shape.form.max_level()
    }

    fn push(&mut self, kind: u32, payload: u32) {
        self.output.push(words::word(kind, payload));
    }

    fn header(&mut self) {
        let most = if self.random.chance(5) { 16 } else { 4 };
        let mut left = MAX_CELLS;
        let least = if self.random.chance(8) { 0 } else { 1 };
        for _ in 0..self.random.between(least, most) {
            let length = self.array_length().min(left);
            if length > 0 {
                let label = self.label(50);
                self.arrays.push(ArrayShape { label, length });
                left -= length;
            }
        }
        let counts = (self.arrays.len() as u32) << 8 | self.shape.procedures;
        self.push(words::HEADER, (self.shape.form as u32) << 16 | counts);
        for array in self.arrays.clone() {
            self.push(words::ARRAY, (array.label as u32) << 16 | array.length);
        }
    }

    fn array_length(&mut self) -> u32 {
        match self.random.below(12) {
            0 => 256,
            1 => self.random.between(1, 256),
            2..=5 => self.random.between(1, 4),
            _ => self.random.pick(&[4, 5, 8, 16]).unwrap_or(1),
        }
    }

    fn label(&mut self, secret_percent: u32) -> Label {
        if self.random.chance(secret_percent) {
            Label::Secret
        } else {
            Label::Public
        }
    }

    fn any_type(&mut self) -> Type {
        let sort = if self.random.chance(60) { Sort::Word } else { Sort::Boolean };
        Type { sort, label: self.label(55) }
    }

    fn procedure(&mut self) {
        let guarded = self.shape.form == Form::Source && self.random.chance(45);
        let parameters = self.parameter_types();
        self.result = Type { label: self.label(75), ..self.any_type() };
        self.declare_variables(&parameters);
        let locals = (self.variables.len() - parameters.len()) as u32;
        let counts = (parameters.len() as u32) << 8 | locals;
        self.push(words::PROCEDURE, (guarded as u32) << 16 | counts);
        self.push(words::TYPE, self.result.payload());
        for declared in self.variables.clone() {
            self.push(words::TYPE, declared.payload());
        }
        let pc = if guarded { Label::Secret } else { Label::Public };
        self.body(Spot { pc, rc: Label::Public, level: 1, may_defer: true });
        self.signatures.push(Signature { guarded, result: self.result, parameters });
    }

    fn parameter_types(&mut self) -> Vec<Type> {
        let most = if self.random.chance(5) { self.shape.form.max_parameters() } else { 4 };
        (0..self.random.between(0, most)).map(|_| self.any_type()).collect()
    }

    /// Mostly a local of each type, some kept for fors, and a few more.
    fn declare_variables(&mut self, parameters: &[Type]) {
        let mut locals: Vec<(Type, bool)> = Vec::new();
        for sort in [Sort::Word, Sort::Boolean] {
            for label in [Label::Public, Label::Secret] {
                if self.random.chance(80) {
                    locals.push((Type { sort, label }, false));
                }
            }
        }
        for _ in 0..self.random.between(0, 4) {
            locals.push((PUBLIC_WORD, true));
        }
        let more = if self.random.chance(3) { self.shape.form.max_locals() } else { 10 };
        for _ in locals.len() as u32..self.random.below(more + 1) {
            locals.push((self.any_type(), false));
        }
        self.random.shuffle(&mut locals);
        self.loop_variables.clear();
        self.variables = parameters.to_vec();
        for (declared, for_loops) in locals {
            if for_loops {
                self.loop_variables.push(self.variables.len() as u32);
            }
            self.variables.push(declared);
        }
    }
}
