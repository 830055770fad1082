//! Statements and blocks of a random program.

use super::{OpenLoop, Slip, Spot, Writer, PUBLIC_WORD};
use crate::image::{Form, Label, Type};
use crate::operators::{Binary, Sort};
use crate::words;

impl Writer<'_> {
    /// The body fills the room there is, then mostly returns.
    pub(super) fn body(&mut self, spot: Spot) {
        let at = self.output.len();
        self.push(words::BLOCK, 0);
        let (mut count, mut rc) = (0, spot.rc);
        if self.random.chance(15) && self.early_return(spot.below()) {
            (count, rc) = (1, Label::Secret);
        }
        while self.output.len() < self.limit && !self.random.chance(4) {
            let inner = Spot { rc, ..spot.below() };
            if let Some(after) = self.statement(inner) {
                count += 1;
                rc = after;
            }
        }
        let last = Spot { rc, ..spot.below() };
        if self.random.chance(80) && self.give_back(last, 100).is_some() {
            count += 1;
        }
        self.output[at] = words::word(words::BLOCK, count);
    }

    /// A deferred return right at the start, so that all the rest of an open
    /// procedure stands under a secret rc and a public pc.
    fn early_return(&mut self, spot: Spot) -> bool {
        let declared = |variable: &u32| self.variables[*variable as usize] == Type::SECRET_BOOLEAN;
        let secret: Vec<u32> = (0..self.variables.len() as u32).filter(declared).collect();
        let Some(variable) = self.random.pick(&secret) else { return false };
        if self.shape.form != Form::Source || self.result.label == Label::Public {
            return false;
        }
        self.output.push(words::statement(words::IF, 0));
        self.push(words::VARIABLE, variable);
        self.push(words::BLOCK, 1);
        let arm = Spot { pc: Label::Secret, ..spot.below() };
        self.give_back(arm.below(), 100);
        self.push(words::BLOCK, 0);
        true
    }

    /// Writes a block and answers the rc it ends with.
    fn block(&mut self, spot: Spot, most: u32) -> Label {
        let at = self.output.len();
        self.push(words::BLOCK, 0);
        let (mut count, mut rc) = (0, spot.rc);
        for _ in 0..most {
            if self.output.len() >= self.limit {
                break;
            }
            let inner = Spot { rc, ..spot.below() };
            if let Some(after) = self.statement(inner) {
                count += 1;
                rc = after;
            }
        }
        self.output[at] = words::word(words::BLOCK, count);
        rc
    }

    /// Writes a statement and answers the rc after it; None if the one chosen
    /// has no place here.
    fn statement(&mut self, spot: Spot) -> Option<Label> {
        if spot.level > self.max_level() {
            return None;
        }
        if spot.level == self.max_level() {
            return self.call(spot);
        }
        match self.random.below(100) {
            0..=21 => self.assign(spot),
            22..=37 => self.store(spot),
            38..=57 => self.branch(spot),
            58..=71 => self.repeat(spot),
            72..=87 => self.call(spot),
            _ => self.give_back(spot, 20),
        }
    }

    fn assign(&mut self, spot: Spot) -> Option<Label> {
        let least = self.least_label(spot.label());
        let variable = self.target(|declared| declared.label >= least)?;
        let declared = self.declared(variable);
        self.output.push(words::statement(words::ASSIGN, variable));
        self.flowing(declared.sort, declared.label, spot.below());
        Some(spot.rc)
    }

    /// A variable to write to: never one kept for fors, unless by a slip.
    fn target(&mut self, fits: impl Fn(Type) -> bool) -> Option<u32> {
        let count = self.variables.len() as u32;
        if self.slips(Slip::Name) {
            return Some(count + self.random.below(2));
        }
        if self.slips(Slip::LoopVariable) {
            return self.random.pick(&self.loop_variables);
        }
        let free = |variable: &u32| {
            !self.loop_variables.contains(variable) && fits(self.variables[*variable as usize])
        };
        let fitting: Vec<u32> = (0..count).filter(free).collect();
        self.random.pick(&fitting)
    }

    /// The lowest label a target may have, unless by a slip.
    fn least_label(&mut self, least: Label) -> Label {
        if self.slips(Slip::Flow) {
            Label::Public
        } else {
            least
        }
    }

    /// A value that flows to a place with this label.
    fn flowing(&mut self, sort: Sort, label: Label, spot: Spot) {
        let most = if self.slips(Slip::Flow) { Label::Secret } else { label };
        self.expression(sort, most, spot);
    }

    /// The type of a variable that a slip may have made up.
    fn declared(&self, variable: u32) -> Type {
        self.variables.get(variable as usize).copied().unwrap_or(PUBLIC_WORD)
    }

    fn store(&mut self, spot: Spot) -> Option<Label> {
        let least = self.least_label(spot.label());
        let fits = |array: &u32| self.arrays[*array as usize].label >= least;
        let fitting: Vec<u32> = (0..self.arrays.len() as u32).filter(fits).collect();
        let number = self.random.pick(&fitting)?;
        let array = self.arrays[number as usize];
        let missing = self.slips(Slip::Name) as u32 * self.arrays.len() as u32;
        self.output.push(words::statement(words::STORE, number + missing));
        self.index(array.length, spot.below());
        self.flowing(Sort::Word, array.label, spot.below());
        Some(spot.rc)
    }

    fn branch(&mut self, spot: Spot) -> Option<Label> {
        let source = self.shape.form == Form::Source;
        let most = if source && self.random.chance(75) || self.slips(Slip::SecretBranch) {
            Label::Secret
        } else {
            Label::Public
        };
        self.output.push(words::statement(words::IF, 0));
        let condition = self.expression(Sort::Boolean, most, spot.below());
        let arm = Spot { pc: spot.pc.max(condition), ..spot.below() };
        let (then_size, else_size) = (self.random.below(5), self.random.below(4));
        let then_rc = self.block(arm, then_size);
        let else_rc = self.block(arm, else_size);
        Some(then_rc.max(else_rc))
    }

    /// A body that may defer returns is written as if rc were secret from its
    /// first word, because it is checked with the rc it ends with.
    fn repeat(&mut self, spot: Spot) -> Option<Label> {
        let variable = self.loop_variable()?;
        self.output.push(words::statement(words::FOR, variable));
        let bounds = self.bounds(spot.below());
        let mut inner = spot.below();
        if spot.rc == Label::Public {
            inner.may_defer = spot.may_defer && self.random.chance(50);
            let ready = inner.may_defer && !self.slips(Slip::LoopReturn);
            inner.rc = if ready { Label::Secret } else { Label::Public };
        }
        let deferred_before = self.deferred;
        self.open_loops.push(OpenLoop { variable, bounds });
        let size = self.random.between(1, 4);
        self.block(inner, size);
        self.open_loops.pop();
        let deferred = self.deferred > deferred_before;
        Some(if deferred { Label::Secret } else { spot.rc })
    }

    /// A variable kept for fors that no for around this word uses.
    fn loop_variable(&mut self) -> Option<u32> {
        if self.slips(Slip::LoopVariable) {
            let running = self.open_loops.last().map(|open| open.variable);
            let any = self.random.below(self.variables.len() as u32 + 1);
            return running.filter(|_| any % 2 == 0).or(Some(any));
        }
        let open = |variable: &u32| self.open_loops.iter().any(|open| open.variable == *variable);
        let free: Vec<u32> =
            self.loop_variables.iter().copied().filter(|variable| !open(variable)).collect();
        self.random.pick(&free)
    }

    /// Writes both bounds; answers them if both are constants.
    fn bounds(&mut self, spot: Spot) -> Option<(u32, u32)> {
        let open = !spot.is_secret() || self.slips(Slip::Unbounded);
        if open && spot.level < self.max_level() && self.random.chance(30) {
            return self.open_bounds(spot);
        }
        let (from, to) = self.constant_bounds();
        words::push_constant(&mut self.output, from);
        words::push_constant(&mut self.output, to);
        Some((from, to))
    }

    /// Bounds of which one or both are no constants. The answer is None, but
    /// by a slip a constant upper bound counts although the lower is open.
    fn open_bounds(&mut self, spot: Spot) -> Option<(u32, u32)> {
        let choices = [(true, true), (true, false), (true, false), (false, true)];
        let (from_open, to_open) = self.random.pick(&choices).unwrap_or((true, true));
        if from_open {
            self.masked(1, spot);
        } else {
            words::push_constant(&mut self.output, 0);
        }
        if to_open {
            self.masked(7, spot);
            return None;
        }
        let to = self.constant_bounds().1;
        words::push_constant(&mut self.output, to);
        self.slips(Slip::Unbounded).then_some((0, to))
    }

    /// Mostly a few passes, and often just the length of an array.
    fn constant_bounds(&mut self) -> (u32, u32) {
        let lengths: Vec<u32> = self.arrays.iter().map(|array| array.length).collect();
        match self.random.below(20) {
            0 => (u32::MAX - self.random.below(4), u32::MAX),
            1 => (self.random.below(4), self.random.word()),
            2 => (self.random.word(), self.random.word()),
            3..=10 => {
                let over = (self.random.chance(10) || self.slips(Slip::Unbounded)) as u32;
                let to = self.random.pick(&lengths).unwrap_or(3) + over;
                (to.saturating_sub(self.random.below(4)), to)
            }
            _ => (self.random.below(3), self.random.below(6)),
        }
    }

    /// A public word kept small by a mask.
    pub(super) fn masked(&mut self, mask: u32, spot: Spot) -> Label {
        self.push(words::BINARY, Binary::And as u32);
        let label = self.public_word(spot.below());
        words::push_constant(&mut self.output, mask);
        label
    }

    fn call(&mut self, spot: Spot) -> Option<Label> {
        let needs_guard = spot.is_secret() && !self.slips(Slip::OpenCall);
        let callable =
            |procedure: &u32| !needs_guard || self.signatures[*procedure as usize].guarded;
        let fitting: Vec<u32> = (0..self.signatures.len() as u32).filter(callable).collect();
        let procedure = self.random.pick(&fitting)?;
        let signature = self.signatures[procedure as usize].clone();
        if !signature.parameters.is_empty() && spot.level >= self.max_level() {
            return None;
        }
        let least = self.least_label(signature.result.label.max(spot.label()));
        let sort = signature.result.sort;
        let result = self.target(|declared| declared.sort == sort && declared.label >= least)?;
        self.output.push(words::call(procedure, result));
        for parameter in &signature.parameters {
            self.flowing(parameter.sort, parameter.label, spot.below());
        }
        Some(spot.rc)
    }

    /// A return. In a public context it ends the run of its block for good, so
    /// there it is written only now and then.
    fn give_back(&mut self, spot: Spot, public_percent: u32) -> Option<Label> {
        let fits = if spot.is_secret() {
            spot.may_defer && self.result.label == Label::Secret
        } else {
            self.random.chance(public_percent)
        };
        if !fits && !self.slips(Slip::Flow) {
            return None;
        }
        self.output.push(words::statement(words::RETURN, 0));
        self.flowing(self.result.sort, self.result.label, spot.below());
        self.deferred += spot.is_secret() as u32;
        Some(spot.label())
    }
}
