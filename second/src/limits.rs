//! Images at the limits, for most of them one below, at, and one above.

use crate::compile::compile;
use crate::image::{Form, MAX_ARRAYS, MAX_CELLS, MAX_PROCEDURES};
use crate::operators::{Binary, Unary};
use crate::random::Random;
use crate::words::{self, push_constant, statement, word};

const SECRET_WORD: u32 = word(words::TYPE, 1);
const PUBLIC_WORD: u32 = word(words::TYPE, 0);
const SECRET_BOOLEAN: u32 = word(words::TYPE, 3);
const EMPTY_BLOCK: u32 = word(words::BLOCK, 0);

/// One image of a kind picked at random.
pub fn limit_image(random: &mut Random) -> Vec<u32> {
    let form = if random.chance(60) { Form::Source } else { Form::Compiled };
    match random.below(10) {
        0 | 1 => deep_expression(random, form),
        2 | 3 => deep_blocks(random, form),
        4 => many_variables(random, form),
        5 => many_secret_ifs(random),
        6 => many_secret_calls(random),
        7 => many_cells(random, form),
        8 => many_procedures(random, form),
        _ => long_image(random, form),
    }
}

/// One less than, just, or one more than a limit.
fn around(random: &mut Random, limit: u32) -> u32 {
    limit - 1 + random.below(3)
}

fn header(form: Form, arrays: u32, procedures: u32) -> u32 {
    word(words::HEADER, (form as u32) << 16 | arrays << 8 | procedures)
}

fn procedure(guarded: bool, parameters: u32, locals: u32) -> u32 {
    word(words::PROCEDURE, (guarded as u32) << 16 | parameters << 8 | locals)
}

fn deep_expression(random: &mut Random, form: Form) -> Vec<u32> {
    let target = around(random, form.max_level());
    let mut image = vec![header(form, 1, 1), word(words::ARRAY, 4)];
    image.extend([procedure(false, 1, 0), SECRET_WORD, SECRET_WORD]);
    image.extend([word(words::BLOCK, 1), statement(words::RETURN, 0)]);
    push_deep(random, &mut image, 3, target);
    image
}

/// A word whose deepest operand stands at the target level.
fn push_deep(random: &mut Random, image: &mut Vec<u32>, level: u32, target: u32) {
    if level >= target {
        return push_leaf(random, image);
    }
    match random.below(4) {
        0 => {
            image.push(word(words::UNARY, Unary::Complement as u32));
            push_deep(random, image, level + 1, target);
        }
        1 => {
            image.extend([word(words::BINARY, Binary::Add as u32), word(words::CONSTANT, 1)]);
            push_deep(random, image, level + 1, target);
        }
        2 => {
            image.push(word(words::BINARY, Binary::Xor as u32));
            push_deep(random, image, level + 1, target);
            image.push(word(words::VARIABLE, 0));
        }
        _ => {
            image.extend([word(words::SELECT, 0), word(words::BOOLEAN, 1)]);
            push_deep(random, image, level + 1, target);
            image.push(word(words::CONSTANT, 0));
        }
    }
}

/// A word without operands. Some are faulty, to meet the level's own fault.
fn push_leaf(random: &mut Random, image: &mut Vec<u32>) {
    match random.below(16) {
        0 => image.push(statement(words::RETURN, 0)),
        1 => image.extend([word(words::RAW_CONSTANT, 0), 5]),
        2 => image.push(word(words::RAW_CONSTANT, 1)),
        3 => {}
        4..=7 => push_constant(image, u32::MAX),
        8..=11 => image.push(word(words::CONSTANT, 3)),
        _ => image.push(word(words::VARIABLE, 0)),
    }
}

/// Locals that `deep_blocks` keeps for its nested fors.
const NESTED_FORS: u32 = 20;

fn deep_blocks(random: &mut Random, form: Form) -> Vec<u32> {
    let target = around(random, form.max_level());
    let guarded = form == Form::Source && random.chance(30);
    let condition = if form == Form::Source { SECRET_BOOLEAN } else { word(words::TYPE, 2) };
    let mut image = vec![header(form, 0, 2)];
    image.extend([procedure(form == Form::Source, 0, 0), SECRET_WORD, EMPTY_BLOCK]);
    image.extend([procedure(guarded, 2, NESTED_FORS), SECRET_WORD, condition, SECRET_WORD]);
    image.extend([PUBLIC_WORD; NESTED_FORS as usize]);
    push_nested(random, &mut image, 1, target, 2);
    image
}

/// Ifs and fors inside each other; `variable` is the next for's.
fn push_nested(random: &mut Random, image: &mut Vec<u32>, level: u32, target: u32, variable: u32) {
    if level + 1 >= target {
        // At the last level there is room for a call without arguments only.
        return image.extend([word(words::BLOCK, 1), words::call(0, 1)]);
    }
    image.push(word(words::BLOCK, 2));
    let loops = random.chance(50) && variable < NESTED_FORS + 2;
    if loops {
        let passes = random.below(3);
        image.push(statement(words::FOR, variable));
        image.extend([word(words::CONSTANT, 0), word(words::CONSTANT, passes)]);
    } else {
        image.extend([statement(words::IF, 0), word(words::VARIABLE, 0)]);
    }
    push_nested(random, image, level + 2, target, variable + loops as u32);
    if !loops {
        image.push(EMPTY_BLOCK);
    }
    match random.below(6) {
        0 => image.extend([statement(words::RETURN, 0), word(words::VARIABLE, 1)]),
        _ => image.extend([statement(words::ASSIGN, 1), word(words::CONSTANT, level)]),
    }
}

fn many_variables(random: &mut Random, form: Form) -> Vec<u32> {
    let parameters = around(random, form.max_parameters());
    let locals = around(random, form.max_locals());
    let count = (parameters + locals) as usize;
    let mut image = vec![header(form, 0, 1), procedure(false, parameters, locals), SECRET_WORD];
    image.extend(std::iter::repeat_n(SECRET_WORD, count));
    let last = parameters + locals - random.below(2);
    image.extend([word(words::BLOCK, 2), statement(words::ASSIGN, last.saturating_sub(1))]);
    image.extend([word(words::CONSTANT, 7), statement(words::RETURN, 0)]);
    image.push(word(words::VARIABLE, last.saturating_sub(1)));
    image
}

/// Ifs beside each other, which share their new locals: as many as would bring
/// the locals to 246 with two for each, as before document 02, wish 8, or more.
/// At times the last one defers a return.
fn many_secret_ifs(random: &mut Random) -> Vec<u32> {
    let locals = random.below(65);
    let returns = random.below(2);
    let count = (246 - locals) / 2 + random.below(200);
    let mut image = vec![header(Form::Source, 0, 1), procedure(false, 1, locals)];
    image.extend([SECRET_WORD, SECRET_BOOLEAN]);
    image.extend(std::iter::repeat_n(SECRET_WORD, locals as usize));
    image.push(word(words::BLOCK, count + returns));
    for _ in 0..count {
        image.extend([statement(words::IF, 0), word(words::VARIABLE, 0), EMPTY_BLOCK, EMPTY_BLOCK]);
    }
    if returns == 1 {
        // The last if is the one that defers.
        image.truncate(image.len() - 2);
        image.extend([word(words::BLOCK, 1), statement(words::RETURN, 0)]);
        image.extend([word(words::CONSTANT, 5), EMPTY_BLOCK]);
        image.extend([statement(words::RETURN, 0), word(words::CONSTANT, 6)]);
    }
    image
}

/// Calls in a secret context, of either sort of result, which share a new local
/// for each sort: as many as would bring the locals to 246 with one for each
/// call, or more.
fn many_secret_calls(random: &mut Random) -> Vec<u32> {
    let locals = random.between(2, 64);
    let count = 246 - locals + random.below(200);
    let mut image = vec![header(Form::Source, 0, 3)];
    image.extend([procedure(true, 0, 0), SECRET_WORD, EMPTY_BLOCK]);
    image.extend([procedure(true, 0, 0), SECRET_BOOLEAN, EMPTY_BLOCK]);
    image.extend([procedure(true, 0, locals), SECRET_WORD, SECRET_BOOLEAN]);
    image.extend(std::iter::repeat_n(SECRET_WORD, locals as usize - 1));
    image.push(word(words::BLOCK, count));
    let boolean_percent = random.pick(&[0, 10, 50, 100]).unwrap_or(50);
    for _ in 0..count {
        if random.chance(boolean_percent) {
            image.push(words::call(1, 0));
        } else {
            image.push(words::call(0, random.between(1, locals - 1)));
        }
    }
    image
}

fn many_cells(random: &mut Random, form: Form) -> Vec<u32> {
    let total = around(random, MAX_CELLS);
    let some = random.between(5, MAX_ARRAYS);
    let arrays = if random.chance(15) { MAX_ARRAYS + 1 } else { some };
    let mut image = vec![header(form, arrays, 1)];
    let mut left = total;
    for after in (0..arrays).rev() {
        // Leave between 1 and 256 cells for each array still to come.
        let (low, high) = (left.saturating_sub(256 * after).max(1), (left - after).min(256));
        let length = if low < high { random.between(low, high) } else { high };
        image.push(word(words::ARRAY, random.below(2) << 16 | length));
        left -= length;
    }
    image.extend([procedure(false, 1, 0), SECRET_WORD, PUBLIC_WORD, word(words::BLOCK, 2)]);
    let number = random.below(arrays);
    image.extend([statement(words::STORE, number), word(words::VARIABLE, 0)]);
    image.extend([word(words::CONSTANT, 9), statement(words::RETURN, 0)]);
    image.extend([word(words::INDEX, number), word(words::VARIABLE, 0)]);
    image
}

/// A chain of calls through every procedure; twice each, it would never end
/// without a budget.
fn many_procedures(random: &mut Random, form: Form) -> Vec<u32> {
    let count = around(random, MAX_PROCEDURES);
    let calls = random.between(1, 2);
    let mut image = vec![header(form, 0, count)];
    for number in 0..count {
        let guarded = form == Form::Source && random.chance(10);
        image.extend([procedure(guarded, 0, 1), SECRET_WORD, SECRET_WORD]);
        let made = if number == 0 || guarded { 0 } else { calls };
        image.push(word(words::BLOCK, made + 1));
        for _ in 0..made {
            image.push(words::call(number.saturating_sub(1), 0));
        }
        image.extend([statement(words::RETURN, 0), word(words::BINARY, Binary::Add as u32)]);
        image.extend([word(words::VARIABLE, 0), word(words::CONSTANT, number)]);
    }
    image
}

fn long_image(random: &mut Random, form: Form) -> Vec<u32> {
    let length = around(random, form.max_words() as u32) as usize;
    let mut image = vec![header(form, 0, 1), procedure(false, 0, 1), SECRET_WORD, SECRET_WORD];
    let block = image.len();
    image.push(EMPTY_BLOCK);
    let mut count = 0;
    while image.len() < length {
        image.push(statement(words::ASSIGN, 0));
        // A statement takes two or three words; two must not remain at one.
        if length - image.len() == 2 || random.chance(30) && length - image.len() > 4 {
            image.push(word(words::UNARY, Unary::Complement as u32));
        }
        image.push(word(words::VARIABLE, 0));
        count += 1;
    }
    image[block] = word(words::BLOCK, count);
    image
}

/// What a long result is mostly made of; each grows more than fourfold.
#[derive(Clone, Copy)]
enum Filling {
    Returns,
    Calls,
    IfsWithCalls,
}

/// A source whose compiled form has as many words as it may have or a few
/// fewer, or, past that, mostly one more.
pub fn long_result(random: &mut Random, past: bool) -> Vec<u32> {
    let off = if random.chance(80) { 0 } else { random.between(1, 15) };
    let limit = Form::Compiled.max_words() as u32;
    let target = if past { limit + 1 + off } else { limit - off };
    let fillings = [Filling::Returns, Filling::Calls, Filling::IfsWithCalls];
    let filling = random.pick(&fillings).unwrap_or(Filling::Calls);
    let guarded = random.chance(50);
    let filled = |count: u32, padding: u32| filled_image(filling, guarded, count, padding);
    // All fillings of one image grow alike, and padding keeps its length.
    let length = |count: u32| {
        let compiled = compile(&words::to_bytes(&filled(count, LEAST_PADDING)), u64::MAX);
        compiled.map_or(0, |compiled| compiled.len() as u32)
    };
    let (one, two) = (length(1), length(2));
    let count = 1 + (target - one) / (two - one);
    let padding = LEAST_PADDING + (target - one) % (two - one);
    filled(count, padding)
}

/// Words of the procedure that brings an image to its length: every length from
/// here on can be made.
const LEAST_PADDING: u32 = 6;

/// A procedure to call, one with the filling behind a return in a secret if,
/// and one that keeps its words.
fn filled_image(filling: Filling, guarded: bool, count: u32, padding: u32) -> Vec<u32> {
    let secret_if = [statement(words::IF, 0), word(words::VARIABLE, 0)];
    let returned = [statement(words::RETURN, 0), word(words::CONSTANT, 1)];
    let mut image = vec![header(Form::Source, 0, 3)];
    image.extend([procedure(true, 0, 0), SECRET_WORD, EMPTY_BLOCK]);
    image.extend([procedure(guarded, 1, 1), SECRET_WORD, SECRET_BOOLEAN, SECRET_WORD]);
    image.push(word(words::BLOCK, count + 1));
    image.extend(secret_if);
    image.push(word(words::BLOCK, 1));
    image.extend(returned);
    image.push(EMPTY_BLOCK);
    for _ in 0..count {
        match filling {
            Filling::Returns => image.extend(returned),
            Filling::Calls => image.push(words::call(0, 1)),
            Filling::IfsWithCalls => {
                image.extend(secret_if);
                image.extend([word(words::BLOCK, 2), words::call(0, 1), words::call(0, 1)]);
                image.push(EMPTY_BLOCK);
            }
        }
    }
    image.extend([procedure(false, 0, 1), SECRET_WORD, SECRET_WORD]);
    let statements = padding - 4;
    image.push(word(words::BLOCK, statements / 2));
    for left in (1..=statements / 2).rev() {
        image.push(statement(words::ASSIGN, 0));
        if left == 1 && statements % 2 == 1 {
            image.push(word(words::UNARY, Unary::Complement as u32));
        }
        image.push(word(words::CONSTANT, left));
    }
    image
}
