//! The encoding of one image word: kind in the top 4 bits, payload below.

pub const HEADER: u32 = 0x1;
pub const ARRAY: u32 = 0x2;
pub const PROCEDURE: u32 = 0x3;
pub const TYPE: u32 = 0x4;
pub const BLOCK: u32 = 0x5;
pub const STATEMENT: u32 = 0x6;
pub const CONSTANT: u32 = 0x7;
pub const RAW_CONSTANT: u32 = 0x8;
pub const BOOLEAN: u32 = 0x9;
pub const VARIABLE: u32 = 0xA;
pub const INDEX: u32 = 0xB;
pub const UNARY: u32 = 0xC;
pub const BINARY: u32 = 0xD;
pub const SELECT: u32 = 0xE;

pub const ASSIGN: u32 = 0;
pub const STORE: u32 = 1;
pub const IF: u32 = 2;
pub const FOR: u32 = 3;
pub const RETURN: u32 = 4;
pub const CALL: u32 = 5;

/// The first value too large for a payload.
pub const PAYLOAD_LIMIT: u32 = 1 << 28;

pub const fn word(kind: u32, payload: u32) -> u32 {
    kind << 28 | payload
}

pub const fn statement(op: u32, q: u32) -> u32 {
    word(STATEMENT, op << 16 | q)
}

/// A call statement; its q holds the procedure and the result variable.
pub const fn call(procedure: u32, result: u32) -> u32 {
    statement(CALL, procedure << 8 | result)
}

pub const fn split(word: u32) -> (u32, u32) {
    (word >> 28, word & (PAYLOAD_LIMIT - 1))
}

/// A constant takes two words once it no longer fits a payload.
pub fn push_constant(words: &mut Vec<u32>, value: u32) {
    if value < PAYLOAD_LIMIT {
        words.push(word(CONSTANT, value));
    } else {
        words.extend([word(RAW_CONSTANT, 0), value]);
    }
}

/// Words travel most significant byte first.
pub fn to_bytes(words: &[u32]) -> Vec<u8> {
    words.iter().flat_map(|word| word.to_be_bytes()).collect()
}
