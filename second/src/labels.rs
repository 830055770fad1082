//! Secrecy labels (refusals 9 to 13).
//!
//! pc is the label of the branches taken to get here, rc the label of whether
//! an earlier return has already ended the procedure. The context joins both.

use crate::image::{Action, Expression, Form, Image, Label, Node, Procedure, Statement};
use crate::operators::{Binary, PublicOperands};
use crate::refusal::{Code, Faults, Refusal};

pub fn check(image: &Image) -> Result<(), Refusal> {
    let mut faults = Faults::default();
    for procedure in &image.procedures {
        let context = Context { pc: procedure.entry_label(), rc: Label::Public };
        let mut walk = Walk { image, procedure, loops: Vec::new(), faults: &mut faults };
        walk.block(&procedure.body, context);
    }
    faults.verdict()
}

/// rc after a block begun with this pc and rc. It never looks at a block
/// twice, so asking once for each for costs at most depth times size.
pub fn rc_after(
    image: &Image,
    procedure: &Procedure,
    block: &[Statement],
    context: Context,
) -> Label {
    let mut rc = context.rc;
    for statement in block {
        // Once secret, rc stays secret.
        if rc == Label::Secret {
            break;
        }
        rc = match &statement.action {
            Action::Return { .. } => context.pc,
            Action::If { condition, then_block, else_block } => {
                let pc = context.pc.max(label_of(image, procedure, condition));
                let arm = Context { pc, rc };
                rc_after(image, procedure, then_block, arm)
                    .max(rc_after(image, procedure, else_block, arm))
            }
            Action::For { body, .. } => {
                rc_after(image, procedure, body, Context { pc: context.pc, rc })
            }
            _ => rc,
        };
    }
    rc
}

/// An expression is secret if an operand, variable or array in it is.
pub fn label_of(image: &Image, procedure: &Procedure, expression: &Expression) -> Label {
    let operand_label = |operand: &Expression| label_of(image, procedure, operand);
    match &expression.node {
        Node::Constant(_) | Node::Boolean(_) => Label::Public,
        Node::Variable(variable) => procedure.variables[*variable as usize].label,
        Node::Index { array, index } => {
            image.arrays[*array as usize].label.max(operand_label(index))
        }
        Node::Unary { operand, .. } => operand_label(operand),
        Node::Binary { operands, .. } => {
            operand_label(&operands[0]).max(operand_label(&operands[1]))
        }
        Node::Select(operands) => operand_label(&operands[0])
            .max(operand_label(&operands[1]))
            .max(operand_label(&operands[2])),
    }
}

#[derive(Clone, Copy)]
pub struct Context {
    pub pc: Label,
    pub rc: Label,
}

impl Context {
    pub fn label(self) -> Label {
        self.pc.max(self.rc)
    }

    fn is_secret(self) -> bool {
        self.label() == Label::Secret
    }
}

/// A for whose block is being walked; `range` is there if both bounds are
/// constants.
struct OpenLoop {
    variable: u32,
    range: Option<Range>,
}

/// The values from `from` up to, not including, `to`.
#[derive(Clone, Copy)]
struct Range {
    from: u32,
    to: u32,
}

impl Range {
    fn of(from: &Expression, to: &Expression) -> Option<Range> {
        Some(Range { from: from.constant()?, to: to.constant()? })
    }

    fn is_empty(self) -> bool {
        self.from >= self.to
    }

    /// Whether the largest value plus a constant is below the length, in whole
    /// numbers: a sum that wraps is far above every length.
    fn stays_below(self, constant: u32, length: u32) -> bool {
        self.is_empty() || u64::from(self.to) - 1 + u64::from(constant) < u64::from(length)
    }
}

struct Walk<'a> {
    image: &'a Image,
    procedure: &'a Procedure,
    loops: Vec<OpenLoop>,
    faults: &'a mut Faults,
}

impl Walk<'_> {
    /// Checks a block and answers the rc it ends with.
    fn block(&mut self, block: &[Statement], context: Context) -> Label {
        let mut rc = context.rc;
        for statement in block {
            rc = self.statement(statement, Context { pc: context.pc, rc });
        }
        rc
    }

    /// Checks a statement and answers the rc after it.
    fn statement(&mut self, statement: &Statement, context: Context) -> Label {
        let place = statement.place;
        match &statement.action {
            Action::Assign { variable, value } => {
                let label = self.expression(value, context);
                self.flow(label.max(context.label()), self.variable_label(*variable), place);
            }
            Action::Store { array, index, value } => {
                let array = &self.image.arrays[*array as usize];
                self.index(index, array.length, context);
                let label = self.expression(value, context);
                self.flow(label.max(context.label()), array.label, place);
            }
            Action::If { condition, then_block, else_block } => {
                return self.branch(condition, then_block, else_block, place, context);
            }
            Action::For { variable, from, to, body } => {
                return self.repeat(*variable, from, to, body, context);
            }
            Action::Return { value } => {
                let label = self.expression(value, context);
                self.flow(label.max(context.label()), self.procedure.result.label, place);
                return context.label();
            }
            Action::Call { procedure, result, arguments } => {
                self.call(*procedure, *result, arguments, place, context);
            }
        }
        context.rc
    }

    fn branch(
        &mut self,
        condition: &Expression,
        then_block: &[Statement],
        else_block: &[Statement],
        place: u32,
        context: Context,
    ) -> Label {
        let label = self.expression(condition, context);
        if label == Label::Secret && self.image.form == Form::Compiled {
            self.faults.note(Code::SecretBranch, place);
        }
        let arm = Context { pc: context.pc.max(label), rc: context.rc };
        self.block(then_block, arm).max(self.block(else_block, arm))
    }

    /// The body is checked once, with the rc a first pass would leave to the
    /// second; walking it twice would double the cost at every nesting.
    fn repeat(
        &mut self,
        variable: u32,
        from: &Expression,
        to: &Expression,
        body: &[Statement],
        context: Context,
    ) -> Label {
        self.bound(from, context);
        self.bound(to, context);
        let rc = rc_after(self.image, self.procedure, body, context);
        self.loops.push(OpenLoop { variable, range: Range::of(from, to) });
        self.block(body, Context { pc: context.pc, rc });
        self.loops.pop();
        rc
    }

    fn call(
        &mut self,
        procedure: u32,
        result: u32,
        arguments: &[Expression],
        place: u32,
        context: Context,
    ) {
        let callee = &self.image.procedures[procedure as usize];
        let label = callee.result.label.max(context.label());
        self.flow(label, self.variable_label(result), place);
        if context.is_secret() && !callee.guarded {
            self.faults.note(Code::OpenCall, place);
        }
        for (argument, parameter) in arguments.iter().zip(callee.parameter_types()) {
            // The context does not count here: the callee is entered anyway.
            let label = self.expression(argument, context);
            self.flow(label, parameter.label, argument.place);
        }
    }

    fn flow(&mut self, from: Label, to: Label, place: u32) {
        if from > to {
            self.faults.note(Code::Flow, place);
        }
    }

    fn public(&mut self, label: Label, place: u32) {
        if label == Label::Secret {
            self.faults.note(Code::SecretOperand, place);
        }
    }

    fn variable_label(&self, variable: u32) -> Label {
        self.procedure.variables[variable as usize].label
    }

    fn bound(&mut self, bound: &Expression, context: Context) {
        let label = self.expression(bound, context);
        self.public(label, bound.place);
        if context.is_secret() && bound.constant().is_none() {
            self.faults.note(Code::Unbounded, bound.place);
        }
    }

    fn index(&mut self, index: &Expression, length: u32, context: Context) -> Label {
        let label = self.expression(index, context);
        self.public(label, index.place);
        if context.is_secret() && !self.surely_inside(index, length) {
            self.faults.note(Code::Unbounded, index.place);
        }
        label
    }

    /// By form alone: a small enough constant, the variable of a for with
    /// constant bounds that ends in time, or such a variable plus a constant.
    /// Whether the for has a pass is asked only of the sum.
    fn surely_inside(&self, index: &Expression, length: u32) -> bool {
        match &index.node {
            Node::Constant(value) => *value < length,
            Node::Variable(variable) => {
                self.range_of(*variable).is_some_and(|range| range.to <= length)
            }
            Node::Binary { operator: Binary::Add, operands } => self.sum_inside(operands, length),
            _ => false,
        }
    }

    /// Document 02, wish 2: one variable and one constant, in either order.
    fn sum_inside(&self, operands: &[Expression; 2], length: u32) -> bool {
        let (variable, constant) = match (&operands[0].node, &operands[1].node) {
            (Node::Variable(variable), Node::Constant(constant))
            | (Node::Constant(constant), Node::Variable(variable)) => (*variable, *constant),
            _ => return false,
        };
        self.range_of(variable).is_some_and(|range| range.stays_below(constant, length))
    }

    /// No two fors around a word share a variable, so there is at most one.
    fn range_of(&self, variable: u32) -> Option<Range> {
        self.loops.iter().find(|open| open.variable == variable)?.range
    }

    /// Checks an expression and answers its label.
    fn expression(&mut self, expression: &Expression, context: Context) -> Label {
        match &expression.node {
            Node::Constant(_) | Node::Boolean(_) => Label::Public,
            Node::Variable(variable) => self.variable_label(*variable),
            Node::Index { array, index } => {
                let array = &self.image.arrays[*array as usize];
                self.index(index, array.length, context).max(array.label)
            }
            Node::Unary { operand, .. } => self.expression(operand, context),
            Node::Binary { operator, operands } => self.binary(*operator, operands, context),
            Node::Select(operands) => operands
                .iter()
                .map(|operand| self.expression(operand, context))
                .fold(Label::Public, Label::max),
        }
    }

    fn binary(&mut self, operator: Binary, operands: &[Expression; 2], context: Context) -> Label {
        let [left, right] = operands;
        let left_label = self.expression(left, context);
        let right_label = self.expression(right, context);
        let public = operator.row().public;
        if public == PublicOperands::Both {
            self.public(left_label, left.place);
        }
        if public != PublicOperands::Neither {
            self.public(right_label, right.place);
        }
        let sure_divisor = right.constant().is_some_and(|value| value != 0);
        if operator.divides() && context.is_secret() && !sure_divisor {
            self.faults.note(Code::Unbounded, right.place);
        }
        left_label.max(right_label)
    }
}
