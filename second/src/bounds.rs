//! The most steps that a call of a procedure takes, from the image alone
//! (document 02, wish 11).

use std::collections::BTreeSet;

use crate::image::{Action, Expression, Image, Statement};
use crate::refusal::{Code, Refusal};

/// The bound of a procedure that is there.
pub fn bound(image: &Image, procedure: usize) -> Result<u32, Refusal> {
    if let Some(place) = first_variable_for(image, procedure) {
        return Err(Refusal::at(Code::UnboundedLoop, place));
    }
    let mut bounds = Bounds { image, known: vec![None; image.procedures.len()] };
    let steps = bounds.procedure(procedure);
    u32::try_from(steps).map_err(|_| Refusal::whole(Code::BoundTooLarge))
}

/// How often a for passes; None if its bounds are not both constants.
fn passes(from: &Expression, to: &Expression) -> Option<u32> {
    Some(to.constant()?.saturating_sub(from.constant()?))
}

/// The place of the first for whose bounds are not constants: in the procedure,
/// then in all that it calls, directly or through others, by number.
fn first_variable_for(image: &Image, procedure: usize) -> Option<u32> {
    let mut callees = BTreeSet::new();
    add_callees(image, &image.procedures[procedure].body, &mut callees);
    std::iter::once(procedure)
        .chain(callees)
        .find_map(|number| variable_for(&image.procedures[number].body))
}

/// A block's own order is the order of places.
fn variable_for(block: &[Statement]) -> Option<u32> {
    block.iter().find_map(|statement| match &statement.action {
        Action::If { then_block, else_block, .. } => {
            variable_for(then_block).or_else(|| variable_for(else_block))
        }
        Action::For { from, to, .. } if passes(from, to).is_none() => Some(statement.place),
        Action::For { body, .. } => variable_for(body),
        _ => None,
    })
}

/// Adds all procedures that the block calls, directly or through others.
fn add_callees(image: &Image, block: &[Statement], callees: &mut BTreeSet<usize>) {
    for statement in block {
        match &statement.action {
            Action::If { then_block, else_block, .. } => {
                add_callees(image, then_block, callees);
                add_callees(image, else_block, callees);
            }
            Action::For { body, .. } => add_callees(image, body, callees),
            Action::Call { procedure, .. } => {
                let number = *procedure as usize;
                if callees.insert(number) {
                    add_callees(image, &image.procedures[number].body, callees);
                }
            }
            _ => {}
        }
    }
}

/// The bounds of procedures that only have fors with constant bounds. A number
/// that 64 bits do not hold stays at their largest: it is past the limit, and
/// only a for without a pass brings it back, to 0.
struct Bounds<'a> {
    image: &'a Image,
    known: Vec<Option<u64>>,
}

impl Bounds<'_> {
    fn procedure(&mut self, number: usize) -> u64 {
        if let Some(steps) = self.known[number] {
            return steps;
        }
        let steps = self.block(&self.image.procedures[number].body);
        self.known[number] = Some(steps);
        steps
    }

    /// What follows a return counts too.
    fn block(&mut self, block: &[Statement]) -> u64 {
        let mut steps: u64 = 0;
        for statement in block {
            steps = steps.saturating_add(self.statement(statement));
        }
        steps
    }

    fn statement(&mut self, statement: &Statement) -> u64 {
        let inside = match &statement.action {
            Action::Assign { .. } | Action::Store { .. } | Action::Return { .. } => 0,
            Action::If { then_block, else_block, .. } => {
                self.block(then_block).max(self.block(else_block))
            }
            Action::For { from, to, body, .. } => {
                let passes = passes(from, to).expect("all bounds are constants");
                self.block(body).saturating_add(1).saturating_mul(passes.into())
            }
            Action::Call { procedure, .. } => self.procedure(*procedure as usize),
        };
        inside.saturating_add(1)
    }
}
