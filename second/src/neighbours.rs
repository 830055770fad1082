//! Images with an index that is the variable of a for plus a constant
//! (document 02, wish 2): just inside the array, just outside it, and of forms
//! that the rule does not name.

use crate::image::Form;
use crate::operators::{Binary, Unary};
use crate::random::Random;
use crate::words::{self, push_constant, statement, word};

const SECRET_WORD: u32 = word(words::TYPE, 1);
const PUBLIC_WORD: u32 = word(words::TYPE, 0);
const SECRET_BOOLEAN: u32 = word(words::TYPE, 3);
const EMPTY_BLOCK: u32 = word(words::BLOCK, 0);
const ONE_STATEMENT: u32 = word(words::BLOCK, 1);
const TWO_STATEMENTS: u32 = word(words::BLOCK, 2);

/// The variables of the procedure under test: two parameters, then locals.
const CONDITION: u32 = 0;
const PARAMETER: u32 = 1;
const CHOSEN: u32 = 2;
const OTHER: u32 = 3;
const TAKEN: u32 = 4;
const LOCAL: u32 = 5;

/// Where a second for stands, over the other variable.
#[derive(Clone, Copy, PartialEq, Eq)]
enum SecondLoop {
    Nowhere,
    Around,
    Inside,
}

const SECOND_LOOPS: [SecondLoop; 6] = [
    SecondLoop::Nowhere,
    SecondLoop::Nowhere,
    SecondLoop::Nowhere,
    SecondLoop::Nowhere,
    SecondLoop::Around,
    SecondLoop::Inside,
];

/// Whether secrets decide that the index is used, and how.
#[derive(Clone, Copy, PartialEq, Eq)]
enum Context {
    Public,
    Guarded,
    /// The for stands in an arm of a secret if, or the if in the for.
    LoopInArm,
    ArmInLoop,
    /// A return in a secret if stands before the for, or in it behind the index.
    AfterReturn,
    BeforeReturn,
}

const CONTEXTS: [Context; 11] = [
    Context::Public,
    Context::Guarded,
    Context::Guarded,
    Context::LoopInArm,
    Context::LoopInArm,
    Context::ArmInLoop,
    Context::ArmInLoop,
    Context::AfterReturn,
    Context::AfterReturn,
    Context::BeforeReturn,
    Context::BeforeReturn,
];

/// One image: an array of secret cells, one of any, a procedure that can be
/// called everywhere, and the one under test.
pub fn neighbour_image(random: &mut Random) -> Vec<u32> {
    let length = random.pick(&[1, 2, 3, 4, 5, 16, 256]).unwrap_or(4);
    let context = random.pick(&CONTEXTS).unwrap_or(Context::Guarded);
    let (from, to, constant) = bounds_and_constant(random, length);
    let second = random.pick(&SECOND_LOOPS).unwrap_or(SecondLoop::Nowhere);
    let other_label = random.below(2);
    let mut image = vec![word(words::HEADER, (Form::Source as u32) << 16 | 2 << 8 | 2)];
    image.extend([1, other_label].map(|label| word(words::ARRAY, label << 16 | length)));
    image.extend([word(words::PROCEDURE, 1 << 16 | 1 << 8), SECRET_WORD, SECRET_WORD, EMPTY_BLOCK]);
    let guarded = (context == Context::Guarded) as u32;
    image.extend([word(words::PROCEDURE, guarded << 16 | 2 << 8 | 4), SECRET_WORD]);
    image.extend([SECRET_BOOLEAN, PUBLIC_WORD, PUBLIC_WORD, PUBLIC_WORD, SECRET_WORD, PUBLIC_WORD]);
    let mut writer = Writer { random, image, context, from, to, constant, second };
    writer.body();
    writer.image
}

/// A for's bounds, and the constant that is added to its variable.
fn bounds_and_constant(random: &mut Random, length: u32) -> (u32, u32, u32) {
    let any = random.word();
    match random.below(22) {
        // no pass
        0 => (random.below(3), 0, any),
        1 => (length + 4, length + 1, any),
        2 => (u32::MAX, random.between(1, length), u32::MAX),
        3 => {
            let at = random.pick(&[1, length, u32::MAX]).unwrap_or(1);
            (at, at, any)
        }
        // sums that are small again modulo 2^32 in the last pass
        4..=6 => {
            let to = random.between(2, 4);
            (random.below(to), to, u32::MAX - random.below(to - 1))
        }
        7 => (length, length + 1, u32::MAX),
        // bounds above the length
        9 => (length, length + 1, 0),
        8 => (u32::MAX - 2, u32::MAX, any),
        // one under the length, just at it, one over it
        _ => {
            let to = random.between(1, length);
            let from = to - random.between(1, to.min(3));
            (from, to, (length - to + random.below(3)).saturating_sub(1))
        }
    }
}

struct Writer<'r> {
    random: &'r mut Random,
    image: Vec<u32>,
    context: Context,
    /// The bounds of the for whose variable is used.
    from: u32,
    to: u32,
    constant: u32,
    second: SecondLoop,
}

impl Writer<'_> {
    /// What makes the context secret, at times a for over one of the variables
    /// that is not around the index, the fors that are, and a return.
    fn body(&mut self) {
        let returns_before = self.context == Context::AfterReturn;
        let loops_before = self.random.chance(25);
        let count = 2 + returns_before as u32 + loops_before as u32;
        self.image.push(word(words::BLOCK, count));
        if returns_before {
            self.secret_return();
        }
        if loops_before {
            let variable = self.random.between(CHOSEN, OTHER);
            self.constant_loop(variable, 0, 1);
            self.image.push(EMPTY_BLOCK);
        }
        if self.context == Context::LoopInArm {
            self.in_arm(Self::loops);
        } else {
            self.loops();
        }
        self.image.extend([statement(words::RETURN, 0), word(words::VARIABLE, TAKEN)]);
    }

    fn secret_return(&mut self) {
        self.image.extend([statement(words::IF, 0), word(words::VARIABLE, CONDITION)]);
        self.image.extend([ONE_STATEMENT, statement(words::RETURN, 0), word(words::CONSTANT, 7)]);
        self.image.push(EMPTY_BLOCK);
    }

    /// One statement in the first or the second arm of a secret if.
    fn in_arm(&mut self, push: fn(&mut Self)) {
        let first = self.random.chance(50);
        self.image.extend([statement(words::IF, 0), word(words::VARIABLE, CONDITION)]);
        if !first {
            self.image.push(EMPTY_BLOCK);
        }
        self.image.push(ONE_STATEMENT);
        push(self);
        if first {
            self.image.push(EMPTY_BLOCK);
        }
    }

    fn constant_loop(&mut self, variable: u32, from: u32, to: u32) {
        self.image.push(statement(words::FOR, variable));
        push_constant(&mut self.image, from);
        push_constant(&mut self.image, to);
    }

    fn second_loop(&mut self) {
        self.constant_loop(OTHER, 0, 2);
        self.image.push(ONE_STATEMENT);
    }

    /// The for whose bounds were chosen, and the second one.
    fn loops(&mut self) {
        if self.second == SecondLoop::Around {
            self.second_loop();
        }
        if self.random.chance(8) {
            self.open_loop();
        } else {
            self.constant_loop(CHOSEN, self.from, self.to);
        }
        let returns = self.context == Context::BeforeReturn;
        self.image.push(if returns { TWO_STATEMENTS } else { ONE_STATEMENT });
        if self.second == SecondLoop::Inside {
            self.second_loop();
        }
        if self.context == Context::ArmInLoop {
            self.in_arm(Self::used);
        } else {
            self.used();
        }
        if returns {
            self.secret_return();
        }
    }

    /// A for of which one bound is no constant.
    fn open_loop(&mut self) {
        self.image.push(statement(words::FOR, CHOSEN));
        let parameter = word(words::VARIABLE, PARAMETER);
        if self.random.chance(50) {
            self.image.push(parameter);
            push_constant(&mut self.image, self.to);
        } else {
            push_constant(&mut self.image, self.from);
            self.image.push(parameter);
        }
    }

    /// A statement with the index: of a store, or of a cell that is read.
    fn used(&mut self) {
        match self.random.below(9) {
            0..=3 => {
                self.image.push(statement(words::STORE, 0));
                self.index();
                self.stored();
            }
            4..=6 => {
                self.image.push(statement(words::ASSIGN, TAKEN));
                self.cell();
            }
            7 => {
                self.image.push(words::call(0, TAKEN));
                self.cell();
            }
            _ => {
                self.image.push(statement(words::IF, 0));
                self.image.push(word(words::BINARY, Binary::Less as u32));
                self.cell();
                self.image.extend([word(words::CONSTANT, 5), ONE_STATEMENT]);
                self.image.extend([statement(words::ASSIGN, TAKEN), word(words::CONSTANT, 6)]);
                self.image.push(EMPTY_BLOCK);
            }
        }
    }

    /// A value that a test can tell from others: the cell there plus one, or
    /// the loop's variable plus the parameter.
    fn stored(&mut self) {
        self.image.push(word(words::BINARY, Binary::Add as u32));
        if self.random.chance(50) {
            self.cell();
            self.image.push(word(words::CONSTANT, 1));
        } else {
            self.image.extend([CHOSEN, PARAMETER].map(|number| word(words::VARIABLE, number)));
        }
    }

    fn cell(&mut self) {
        let array = self.random.below(2);
        self.image.push(word(words::INDEX, array));
        self.index();
    }

    /// Mostly the sum that the rule names; else something near it.
    fn index(&mut self) {
        let constant = self.constant;
        match self.random.below(24) {
            0 => self.operator(Binary::Subtract, CHOSEN, constant),
            1 => {
                let others = [Binary::Multiply, Binary::Or, Binary::Xor, Binary::ShiftLeft];
                let operator = self.random.pick(&others).unwrap_or(Binary::Or);
                self.operator(operator, CHOSEN, constant);
            }
            2 => {
                let variable = self.random.pick(&[PARAMETER, LOCAL, OTHER]).unwrap_or(LOCAL);
                self.operator(Binary::Add, variable, constant);
            }
            3 => self.nested_sum(),
            4 => self.image.push(word(words::VARIABLE, CHOSEN)),
            _ => self.operator(Binary::Add, CHOSEN, constant),
        }
    }

    /// A variable and a constant, in either order.
    fn operator(&mut self, operator: Binary, variable: u32, constant: u32) {
        self.image.push(word(words::BINARY, operator as u32));
        let variable_first = self.random.chance(50);
        if variable_first {
            self.image.push(word(words::VARIABLE, variable));
        }
        push_constant(&mut self.image, constant);
        if !variable_first {
            self.image.push(word(words::VARIABLE, variable));
        }
    }

    /// A sum whose operands are not one variable and one constant.
    fn nested_sum(&mut self) {
        let variable = word(words::VARIABLE, CHOSEN);
        self.image.push(word(words::BINARY, Binary::Add as u32));
        match self.random.below(4) {
            0 => {
                self.operator(Binary::Add, CHOSEN, 0);
                push_constant(&mut self.image, self.constant);
            }
            1 => {
                let inner = [word(words::BINARY, Binary::Add as u32), word(words::CONSTANT, 0)];
                self.image.push(variable);
                self.image.extend(inner);
                push_constant(&mut self.image, self.constant);
            }
            2 => {
                let complement = word(words::UNARY, Unary::Complement as u32);
                self.image.extend([variable, complement, word(words::RAW_CONSTANT, 0), u32::MAX]);
            }
            _ => self.image.extend([word(words::CONSTANT, 0); 2]),
        }
    }
}
