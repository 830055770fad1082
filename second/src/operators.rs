//! The unary and binary operators and their fixed tables of sorts.

#[derive(Clone, Copy, PartialEq, Eq, Debug)]
pub enum Sort {
    Word,
    Boolean,
}

#[derive(Clone, Copy, PartialEq, Eq, Debug)]
pub enum Unary {
    Not,
    Complement,
    BooleanAsWord,
}

#[derive(Clone, Copy, PartialEq, Eq, Debug)]
pub enum Binary {
    Add,
    Subtract,
    Multiply,
    And,
    Or,
    Xor,
    ShiftLeft,
    ShiftRight,
    RotateLeft,
    Quotient,
    Remainder,
    Equal,
    Less,
    BothTrue,
    EitherTrue,
}

/// Which operands must be public, because their value shows in the timing.
#[derive(Clone, Copy, PartialEq, Eq, Debug)]
pub enum PublicOperands {
    Neither,
    Right,
    Both,
}

pub struct BinaryRow {
    pub operator: Binary,
    pub operands: Sort,
    pub result: Sort,
    pub public: PublicOperands,
}

const fn row(operator: Binary, operands: Sort, result: Sort, public: PublicOperands) -> BinaryRow {
    BinaryRow { operator, operands, result, public }
}

/// Indexed by the operator's number in the image.
pub const BINARY_TABLE: [BinaryRow; 15] = [
    row(Binary::Add, Sort::Word, Sort::Word, PublicOperands::Neither),
    row(Binary::Subtract, Sort::Word, Sort::Word, PublicOperands::Neither),
    row(Binary::Multiply, Sort::Word, Sort::Word, PublicOperands::Neither),
    row(Binary::And, Sort::Word, Sort::Word, PublicOperands::Neither),
    row(Binary::Or, Sort::Word, Sort::Word, PublicOperands::Neither),
    row(Binary::Xor, Sort::Word, Sort::Word, PublicOperands::Neither),
    row(Binary::ShiftLeft, Sort::Word, Sort::Word, PublicOperands::Right),
    row(Binary::ShiftRight, Sort::Word, Sort::Word, PublicOperands::Right),
    row(Binary::RotateLeft, Sort::Word, Sort::Word, PublicOperands::Right),
    row(Binary::Quotient, Sort::Word, Sort::Word, PublicOperands::Both),
    row(Binary::Remainder, Sort::Word, Sort::Word, PublicOperands::Both),
    row(Binary::Equal, Sort::Word, Sort::Boolean, PublicOperands::Neither),
    row(Binary::Less, Sort::Word, Sort::Boolean, PublicOperands::Neither),
    row(Binary::BothTrue, Sort::Boolean, Sort::Boolean, PublicOperands::Neither),
    row(Binary::EitherTrue, Sort::Boolean, Sort::Boolean, PublicOperands::Neither),
];

/// Indexed by the operator's number in the image.
pub const UNARY_TABLE: [Unary; 3] = [Unary::Not, Unary::Complement, Unary::BooleanAsWord];

impl Binary {
    pub fn row(self) -> &'static BinaryRow {
        &BINARY_TABLE[self as usize]
    }

    pub fn divides(self) -> bool {
        matches!(self, Binary::Quotient | Binary::Remainder)
    }
}

impl Unary {
    pub fn operand(self) -> Sort {
        match self {
            Unary::Not | Unary::BooleanAsWord => Sort::Boolean,
            Unary::Complement => Sort::Word,
        }
    }

    pub fn result(self) -> Sort {
        match self {
            Unary::Not => Sort::Boolean,
            Unary::Complement | Unary::BooleanAsWord => Sort::Word,
        }
    }
}
