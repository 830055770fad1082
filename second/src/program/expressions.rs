//! Expressions of a random program.

use super::{OpenLoop, Slip, Spot, Writer};
use crate::image::Label;
use crate::operators::{Binary, Sort, Unary};
use crate::words;

impl Writer<'_> {
    /// Writes an expression of this sort, no more secret than `most`, and
    /// answers its label.
    pub(super) fn expression(&mut self, sort: Sort, most: Label, spot: Spot) -> Label {
        let depth = self.random.below(self.shape.depth + 1);
        self.node(sort, most, spot, depth)
    }

    /// A word whose value may show, unless by a slip.
    pub(super) fn public_word(&mut self, spot: Spot) -> Label {
        let most = self.public_label();
        self.expression(Sort::Word, most, spot)
    }

    fn public_label(&mut self) -> Label {
        if self.slips(Slip::SecretOperand) {
            Label::Secret
        } else {
            Label::Public
        }
    }

    fn node(&mut self, sort: Sort, most: Label, spot: Spot, depth: u32) -> Label {
        let sort = match (self.slips(Slip::Sort), sort) {
            (false, sort) => sort,
            (true, Sort::Word) => Sort::Boolean,
            (true, Sort::Boolean) => Sort::Word,
        };
        if depth == 0 || spot.level >= self.max_level() {
            return self.atom(sort, most);
        }
        match sort {
            Sort::Word => self.word_node(most, spot.below(), depth - 1),
            Sort::Boolean => self.boolean_node(most, spot.below(), depth - 1),
        }
    }

    /// The first operand may use all the depth there is; the others stay
    /// shallow, so that a deep expression is not a huge one.
    fn shallow(&mut self, sort: Sort, most: Label, spot: Spot, depth: u32) -> Label {
        let depth = self.random.below(depth.min(3) + 1);
        self.node(sort, most, spot, depth)
    }

    /// `spot` and `depth` are those of the operands.
    fn word_node(&mut self, most: Label, spot: Spot, depth: u32) -> Label {
        match self.random.below(16) {
            0..=5 => {
                let operator = self.random.between(Binary::Add as u32, Binary::Xor as u32);
                self.binary(operator, Sort::Word, most, spot, depth)
            }
            6 | 7 => self.shift(most, spot, depth),
            8 => self.division(spot, depth),
            9 => {
                self.push(words::UNARY, Unary::Complement as u32);
                self.node(Sort::Word, most, spot, depth)
            }
            10 => {
                self.push(words::UNARY, Unary::BooleanAsWord as u32);
                self.node(Sort::Boolean, most, spot, depth)
            }
            11..=13 => self.array_read(most, spot),
            14 => self.select(Sort::Word, most, spot, depth),
            _ => self.atom(Sort::Word, most),
        }
    }

    fn boolean_node(&mut self, most: Label, spot: Spot, depth: u32) -> Label {
        match self.random.below(10) {
            0..=3 => {
                let operator = self.random.between(Binary::Equal as u32, Binary::Less as u32);
                self.binary(operator, Sort::Word, most, spot, depth)
            }
            4..=6 => {
                let (low, high) = (Binary::BothTrue as u32, Binary::EitherTrue as u32);
                let operator = self.random.between(low, high);
                self.binary(operator, Sort::Boolean, most, spot, depth)
            }
            7 => {
                self.push(words::UNARY, Unary::Not as u32);
                self.node(Sort::Boolean, most, spot, depth)
            }
            8 => self.select(Sort::Boolean, most, spot, depth),
            _ => self.atom(Sort::Boolean, most),
        }
    }

    fn binary(
        &mut self,
        operator: u32,
        operands: Sort,
        most: Label,
        spot: Spot,
        depth: u32,
    ) -> Label {
        self.push(words::BINARY, operator);
        let left = self.node(operands, most, spot, depth);
        left.max(self.shallow(operands, most, spot, depth))
    }

    fn shift(&mut self, most: Label, spot: Spot, depth: u32) -> Label {
        let (low, high) = (Binary::ShiftLeft as u32, Binary::RotateLeft as u32);
        let operator = self.random.between(low, high);
        self.push(words::BINARY, operator);
        let value = self.node(Sort::Word, most, spot, depth);
        let most = self.public_label();
        value.max(self.shallow(Sort::Word, most, spot, depth))
    }

    fn division(&mut self, spot: Spot, depth: u32) -> Label {
        let (low, high) = (Binary::Quotient as u32, Binary::Remainder as u32);
        let operator = self.random.between(low, high);
        self.push(words::BINARY, operator);
        let most = self.public_label();
        let dividend = self.node(Sort::Word, most, spot, depth);
        dividend.max(self.divisor(spot, depth))
    }

    /// In a secret context a nonzero constant; elsewhere now and then a shift,
    /// seldom the constant 0.
    fn divisor(&mut self, spot: Spot, depth: u32) -> Label {
        let open = !spot.is_secret() || self.slips(Slip::Unbounded);
        let choice = if open { self.random.below(13) } else { 0 };
        match choice {
            11 | 12 if spot.level < self.max_level() => {
                self.shift(Label::Public, spot.below(), depth.min(2))
            }
            10 => {
                words::push_constant(&mut self.output, 0);
                Label::Public
            }
            9 => {
                let most = self.public_label();
                self.shallow(Sort::Word, most, spot, depth)
            }
            6..=8 if spot.level < self.max_level() => {
                self.push(words::BINARY, Binary::Or as u32);
                let label = self.shallow(Sort::Word, Label::Public, spot.below(), depth);
                words::push_constant(&mut self.output, 1);
                label
            }
            _ => {
                let value = self.random.word().max(1);
                words::push_constant(&mut self.output, value);
                Label::Public
            }
        }
    }

    fn select(&mut self, sort: Sort, most: Label, spot: Spot, depth: u32) -> Label {
        self.push(words::SELECT, 0);
        let condition = self.shallow(Sort::Boolean, most, spot, depth);
        let if_true = if self.slips(Slip::Name) {
            self.missing_array_read()
        } else {
            self.node(sort, most, spot, depth)
        };
        let if_false = self.shallow(sort, most, spot, depth);
        condition.max(if_true).max(if_false)
    }

    /// Still a word, so it also sets the sort of the select around it.
    fn missing_array_read(&mut self) -> Label {
        self.push(words::INDEX, self.arrays.len() as u32);
        words::push_constant(&mut self.output, 0);
        Label::Public
    }

    fn array_read(&mut self, most: Label, spot: Spot) -> Label {
        let fits = |array: &u32| self.arrays[*array as usize].label <= most;
        let fitting: Vec<u32> = (0..self.arrays.len() as u32).filter(fits).collect();
        let Some(number) = self.random.pick(&fitting) else {
            return self.atom(Sort::Word, most);
        };
        let array = self.arrays[number as usize];
        let missing = self.slips(Slip::Name) as u32 * self.arrays.len() as u32;
        self.push(words::INDEX, number + missing);
        array.label.max(self.index(array.length, spot))
    }

    /// An index that a secret context allows, or a public word that is mostly
    /// inside the array.
    pub(super) fn index(&mut self, length: u32, spot: Spot) -> Label {
        if self.random.chance(20) && self.loop_sum(length, spot) {
            return Label::Public;
        }
        if self.random.chance(45) && self.loop_index(length) {
            return Label::Public;
        }
        let open =
            (!spot.is_secret() || self.slips(Slip::Unbounded)) && spot.level < self.max_level();
        let choice = if open { self.random.below(40) } else { 0 };
        match choice {
            20..=27 => {
                self.push(words::BINARY, Binary::Remainder as u32);
                let label = self.public_word(spot.below());
                words::push_constant(&mut self.output, length);
                label
            }
            // A mask with fewer bits than the length has keeps inside it.
            28..=36 => self.masked((1 << length.ilog2()) - 1, spot),
            37 | 38 => self.public_word(spot),
            _ => {
                let beyond = self.slips(Slip::Unbounded) as u32 * length;
                let value = self.random.below(length) + beyond;
                words::push_constant(&mut self.output, value);
                Label::Public
            }
        }
    }

    /// The variable of a for around this word that stays inside the array.
    fn loop_index(&mut self, length: u32) -> bool {
        let any = self.slips(Slip::Unbounded);
        let fitting: Vec<u32> = self
            .open_loops
            .iter()
            .filter(|open| any || open.fits(length))
            .map(|open| open.variable)
            .collect();
        let Some(variable) = self.random.pick(&fitting) else { return false };
        self.push(words::VARIABLE, variable);
        true
    }

    /// Such a variable plus a constant that keeps the sum inside the array; by
    /// a slip a constant of one more, or another operator.
    fn loop_sum(&mut self, length: u32, spot: Spot) -> bool {
        if spot.level >= self.max_level() {
            return false;
        }
        let any = self.slips(Slip::Unbounded);
        let fits = |open: &OpenLoop| any || open.most_added(length).is_some();
        let fitting: Vec<OpenLoop> = self.open_loops.iter().copied().filter(fits).collect();
        let Some(open) = self.random.pick(&fitting) else { return false };
        let constant = match open.most_added(length) {
            Some(most) if any => most.wrapping_add(self.random.below(2)),
            Some(u32::MAX) | None => self.random.word(),
            Some(most) if self.random.chance(50) => most,
            Some(most) => self.random.below(most),
        };
        let operator = if any { self.random.below(3) } else { Binary::Add as u32 };
        self.push(words::BINARY, operator);
        self.variable_and_constant(open.variable, constant);
        true
    }

    /// Two operands, in either order.
    fn variable_and_constant(&mut self, variable: u32, constant: u32) {
        let constant_first = self.random.chance(50);
        if constant_first {
            words::push_constant(&mut self.output, constant);
        }
        self.push(words::VARIABLE, variable);
        if !constant_first {
            words::push_constant(&mut self.output, constant);
        }
    }

    /// A variable or a constant.
    fn atom(&mut self, sort: Sort, most: Label) -> Label {
        if self.random.chance(65) {
            if let Some(variable) = self.readable(sort, most) {
                self.push(words::VARIABLE, variable);
                let declared = self.variables.get(variable as usize);
                return declared.map_or(Label::Public, |declared| declared.label);
            }
        }
        match sort {
            Sort::Word => {
                let value = self.random.word();
                words::push_constant(&mut self.output, value);
            }
            Sort::Boolean => {
                let value = self.random.below(2);
                self.push(words::BOOLEAN, value);
            }
        }
        Label::Public
    }

    /// A variable kept for fors may be read only inside one over it.
    fn readable(&mut self, sort: Sort, most: Label) -> Option<u32> {
        let count = self.variables.len() as u32;
        if self.slips(Slip::Name) {
            return Some(count + self.random.below(2));
        }
        if self.slips(Slip::LoopVariable) {
            return self.random.pick(&self.loop_variables);
        }
        let closed = |variable: &u32| {
            self.loop_variables.contains(variable)
                && !self.open_loops.iter().any(|open| open.variable == *variable)
        };
        let fits = |variable: &u32| {
            let declared = self.variables[*variable as usize];
            declared.sort == sort && declared.label <= most && !closed(variable)
        };
        let fitting: Vec<u32> = (0..count).filter(fits).collect();
        self.random.pick(&fitting)
    }
}
