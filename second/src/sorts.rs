//! Names, sorts and the loop variable rule (refusals 6, 7 and 8).

use std::collections::BTreeSet;

use crate::image::{Action, Expression, Image, Label, Node, Procedure, Statement, Type};
use crate::operators::Sort;
use crate::refusal::{Code, Faults, Refusal};

pub fn check(image: &Image) -> Result<(), Refusal> {
    let mut faults = Faults::default();
    for procedure in &image.procedures {
        let mut loop_variables = BTreeSet::new();
        collect_loop_variables(&procedure.body, &mut loop_variables);
        let mut walk =
            Walk { image, procedure, loop_variables, open_loops: Vec::new(), faults: &mut faults };
        walk.block(&procedure.body);
    }
    faults.verdict()
}

/// Every variable that a for of the procedure names, fit for it or not.
fn collect_loop_variables(block: &[Statement], found: &mut BTreeSet<u32>) {
    for statement in block {
        match &statement.action {
            Action::If { then_block, else_block, .. } => {
                collect_loop_variables(then_block, found);
                collect_loop_variables(else_block, found);
            }
            Action::For { variable, body, .. } => {
                found.insert(*variable);
                collect_loop_variables(body, found);
            }
            _ => {}
        }
    }
}

struct Walk<'a> {
    image: &'a Image,
    procedure: &'a Procedure,
    loop_variables: BTreeSet<u32>,
    /// Variables of the fors whose block is being walked.
    open_loops: Vec<u32>,
    faults: &'a mut Faults,
}

impl Walk<'_> {
    fn block(&mut self, block: &[Statement]) {
        for statement in block {
            self.statement(statement);
        }
    }

    fn statement(&mut self, statement: &Statement) {
        let place = statement.place;
        match &statement.action {
            Action::Assign { variable, value } => {
                let target = self.written(*variable, place);
                self.expect(value, target.map(|target| target.sort));
            }
            Action::Store { array, index, value } => {
                self.array(*array, place);
                self.expect(index, Some(Sort::Word));
                self.expect(value, Some(Sort::Word));
            }
            Action::If { condition, then_block, else_block } => {
                self.expect(condition, Some(Sort::Boolean));
                self.block(then_block);
                self.block(else_block);
            }
            Action::For { variable, from, to, body } => {
                self.expect(from, Some(Sort::Word));
                self.expect(to, Some(Sort::Word));
                self.for_variable(*variable, place);
                self.open_loops.push(*variable);
                self.block(body);
                self.open_loops.pop();
            }
            Action::Return { value } => self.expect(value, Some(self.procedure.result.sort)),
            Action::Call { procedure, result, arguments } => {
                self.call(*procedure, *result, arguments, place)
            }
        }
    }

    fn call(&mut self, procedure: u32, result: u32, arguments: &[Expression], place: u32) {
        let callee = &self.image.procedures[procedure as usize];
        if let Some(target) = self.written(result, place) {
            if target.sort != callee.result.sort {
                self.faults.note(Code::WrongSort, place);
            }
        }
        for (argument, parameter) in arguments.iter().zip(callee.parameter_types()) {
            self.expect(argument, Some(parameter.sort));
        }
    }

    /// A for's variable must be a public word local, and not be running.
    fn for_variable(&mut self, variable: u32, place: u32) {
        let Some(declared) = self.variable(variable, place) else { return };
        let fit = variable >= self.procedure.parameters
            && declared == Type { sort: Sort::Word, label: Label::Public };
        if !fit || self.open_loops.contains(&variable) {
            self.faults.note(Code::LoopVariable, place);
        }
    }

    /// The target of an assign or of a call's result.
    fn written(&mut self, variable: u32, place: u32) -> Option<Type> {
        let declared = self.variable(variable, place)?;
        if self.loop_variables.contains(&variable) {
            self.faults.note(Code::LoopVariable, place);
        }
        Some(declared)
    }

    fn variable(&mut self, variable: u32, place: u32) -> Option<Type> {
        let declared = self.procedure.variables.get(variable as usize).copied();
        if declared.is_none() {
            self.faults.note(Code::NoSuchName, place);
        }
        declared
    }

    fn array(&mut self, array: u32, place: u32) {
        if array as usize >= self.image.arrays.len() {
            self.faults.note(Code::NoSuchName, place);
        }
    }

    /// Walks an operand; an unknown sort on either side is no fault.
    fn expect(&mut self, expression: &Expression, wanted: Option<Sort>) {
        let found = self.expression(expression);
        if let (Some(found), Some(wanted)) = (found, wanted) {
            if found != wanted {
                self.faults.note(Code::WrongSort, expression.place);
            }
        }
    }

    /// The expression's sort, unless a missing variable leaves it unknown.
    fn expression(&mut self, expression: &Expression) -> Option<Sort> {
        match &expression.node {
            Node::Constant(_) => Some(Sort::Word),
            Node::Boolean(_) => Some(Sort::Boolean),
            Node::Variable(variable) => self.read_variable(*variable, expression.place),
            Node::Index { array, index } => {
                // Cells are words even where the array is missing.
                self.array(*array, expression.place);
                self.expect(index, Some(Sort::Word));
                Some(Sort::Word)
            }
            Node::Unary { operator, operand } => {
                self.expect(operand, Some(operator.operand()));
                Some(operator.result())
            }
            Node::Binary { operator, operands } => {
                let row = operator.row();
                self.expect(&operands[0], Some(row.operands));
                self.expect(&operands[1], Some(row.operands));
                Some(row.result)
            }
            Node::Select(operands) => {
                self.expect(&operands[0], Some(Sort::Boolean));
                let sort = self.expression(&operands[1]);
                self.expect(&operands[2], sort);
                sort
            }
        }
    }

    fn read_variable(&mut self, variable: u32, place: u32) -> Option<Sort> {
        let declared = self.variable(variable, place)?;
        if self.loop_variables.contains(&variable) && !self.open_loops.contains(&variable) {
            self.faults.note(Code::LoopVariable, place);
        }
        Some(declared.sort)
    }
}
