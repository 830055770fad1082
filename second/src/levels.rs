//! Images whose new locals are shared (document 02, wish 8): secret ifs inside
//! each other and beside each other, in both arms, with public ifs and fors
//! between them, and calls in secret contexts with results of either sort.

use crate::image::Form;
use crate::operators::{Binary, Sort, Unary};
use crate::random::Random;
use crate::words::{self, statement, word};

const SECRET_WORD: u32 = word(words::TYPE, 1);
const PUBLIC_WORD: u32 = word(words::TYPE, 0);
const SECRET_BOOLEAN: u32 = word(words::TYPE, 3);
const PUBLIC_BOOLEAN: u32 = word(words::TYPE, 2);
const ONE_STATEMENT: u32 = word(words::BLOCK, 1);
const EMPTY_BLOCK: u32 = word(words::BLOCK, 0);

/// The procedures: two that can be called everywhere, one that can be called
/// in public contexts, the one under test, and at times one that calls it.
const GIVES_WORD: u32 = 0;
const GIVES_BOOLEAN: u32 = 1;
const OPEN: u32 = 2;
const TESTED: u32 = 3;

/// The variables of the procedure under test: three parameters, then locals.
const CONDITION: u32 = 0;
const OTHER_CONDITION: u32 = 1;
const PUBLIC_CONDITION: u32 = 2;
const TAKEN: u32 = 3;
const FLAG: u32 = 4;
const FIRST_LOOP: u32 = 5;
const LOOPS: u32 = 9;

/// Optional statements are written while the image is shorter than this.
const ROOM: usize = 500;

/// An image, and what new locals its procedure under test needs.
pub struct Levelled {
    pub image: Vec<u32>,
    /// How many secret ifs stand inside each other at most.
    pub levels: u32,
    /// The sorts of the results of calls in secret contexts, each at its first
    /// place.
    pub calls: Vec<Sort>,
}

/// Which calls are written in secret contexts.
#[derive(Clone, Copy, PartialEq, Eq)]
enum Calls {
    None,
    Words,
    Booleans,
    WordFirst,
    BooleanFirst,
}

const CALLS: [Calls; 5] =
    [Calls::None, Calls::Words, Calls::Booleans, Calls::WordFirst, Calls::BooleanFirst];

/// Which returns stand in secret contexts, the last statement aside.
#[derive(Clone, Copy, PartialEq, Eq)]
enum Returns {
    Never,
    First,
    Anywhere,
}

/// Where the next statement stands. `may_defer` is as in `program::Spot`.
#[derive(Clone, Copy)]
struct Spot {
    level: u32,
    pc_secret: bool,
    rc_secret: bool,
    arms: u32,
    loops: u32,
    may_defer: bool,
}

impl Spot {
    fn is_secret(self) -> bool {
        self.pc_secret || self.rc_secret
    }

    /// The statements of a block of a statement that stands here.
    fn inside(self) -> Spot {
        Spot { level: self.level + 2, ..self }
    }

    /// Whether so many ifs can stand inside each other here.
    fn takes(self, ifs: u32) -> bool {
        self.level + 2 * ifs <= Form::Source.max_level() + 1
    }
}

pub fn levelled_image(random: &mut Random) -> Levelled {
    let guarded = random.chance(40);
    let result = random.pick(&[SECRET_WORD, SECRET_BOOLEAN]).unwrap_or(SECRET_WORD);
    let more = if random.chance(20) { random.below(50) } else { random.below(3) };
    let mut image = vec![word(words::HEADER, 1 << 8 | (TESTED + 1 + guarded as u32))];
    image.push(word(words::ARRAY, 1 << 16 | 4));
    push_callees(&mut image);
    let counts = 3 << 8 | (2 + LOOPS + more);
    image.extend([word(words::PROCEDURE, (guarded as u32) << 16 | counts), result]);
    image.extend([SECRET_BOOLEAN, SECRET_BOOLEAN, PUBLIC_BOOLEAN, SECRET_WORD, SECRET_BOOLEAN]);
    image.extend([PUBLIC_WORD; LOOPS as usize]);
    image.extend(std::iter::repeat_n(SECRET_WORD, more as usize));
    let calls = random.pick(&CALLS).unwrap_or(Calls::None);
    let kinds = [Returns::Never, Returns::First, Returns::Anywhere];
    let returns = random.pick(&kinds).unwrap_or(Returns::Never);
    let made = Levelled { image, levels: 0, calls: Vec::new() };
    let mut writer = Writer { random, made, result, calls, returns };
    writer.body(guarded);
    if guarded {
        writer.caller();
    }
    writer.made
}

/// A store and a word, a boolean made of a cell, and a word.
fn push_callees(image: &mut Vec<u32>) {
    let cell = [word(words::INDEX, 0), word(words::CONSTANT, 1)];
    image.extend([word(words::PROCEDURE, 1 << 16 | 1 << 8), SECRET_WORD, SECRET_WORD]);
    image.extend([word(words::BLOCK, 2), statement(words::STORE, 0), word(words::CONSTANT, 1)]);
    image.extend([word(words::VARIABLE, 0), statement(words::RETURN, 0)]);
    image.push(word(words::BINARY, Binary::Add as u32));
    image.extend(cell);
    image.push(word(words::CONSTANT, 1));
    image.extend([word(words::PROCEDURE, 1 << 16), SECRET_BOOLEAN, ONE_STATEMENT]);
    image.extend([statement(words::RETURN, 0), word(words::BINARY, Binary::Less as u32)]);
    image.extend(cell);
    image.push(word(words::CONSTANT, 5));
    image.extend([word(words::PROCEDURE, 0), SECRET_WORD, ONE_STATEMENT]);
    image.extend([statement(words::RETURN, 0), word(words::CONSTANT, 3)]);
}

struct Writer<'r> {
    random: &'r mut Random,
    made: Levelled,
    result: u32,
    calls: Calls,
    returns: Returns,
}

impl Writer<'_> {
    fn push(&mut self, word: u32) {
        self.made.image.push(word);
    }

    fn has_room(&self) -> bool {
        self.made.image.len() < ROOM
    }

    /// A block whose statements the given function writes; it answers how many
    /// they are and the rc after them, secret or not.
    fn block(&mut self, write: impl FnOnce(&mut Self) -> (u32, bool)) -> bool {
        let at = self.made.image.len();
        self.push(EMPTY_BLOCK);
        let (count, rc_secret) = write(self);
        self.made.image[at] = word(words::BLOCK, count);
        rc_secret
    }

    /// One to three nests beside each other; the first has the chosen number
    /// of levels, up to all there can be.
    fn body(&mut self, guarded: bool) {
        let most = Form::Source.max_level() / 2;
        let levels = match self.random.below(10) {
            0 => 0,
            1 | 2 => most,
            3 | 4 => self.random.between(3, most),
            _ => self.random.between(1, 3),
        };
        let spot = Spot {
            level: 2,
            pc_secret: guarded,
            rc_secret: false,
            arms: 0,
            loops: 0,
            may_defer: self.returns == Returns::Anywhere,
        };
        self.block(|writer| {
            let (mut count, mut rc_secret) = (0, false);
            if writer.returns == Returns::First {
                writer.secret_return(spot);
                (count, rc_secret) = (1, true);
            }
            let (written, rc_after) = writer.statements(Spot { rc_secret, ..spot }, levels);
            writer.final_return();
            (count + written + 1, rc_after)
        });
    }

    /// A procedure that calls the one under test in an arm.
    fn caller(&mut self) {
        let result = self.result;
        let parts = [word(words::PROCEDURE, 1 << 8 | 1), result, SECRET_BOOLEAN, result];
        self.made.image.extend(parts);
        self.made.image.extend([word(words::BLOCK, 2), statement(words::IF, 0)]);
        self.made.image.extend([word(words::VARIABLE, 0), ONE_STATEMENT]);
        self.push(words::call(TESTED, 1));
        let arguments =
            [word(words::VARIABLE, 0), word(words::BOOLEAN, 1), word(words::BOOLEAN, 1)];
        self.made.image.extend(arguments);
        self.made.image.extend([
            EMPTY_BLOCK,
            statement(words::RETURN, 0),
            word(words::VARIABLE, 1),
        ]);
    }

    /// Statements around a nest of secret ifs with so many levels, and nests
    /// beside it; answers how many they are and the rc after.
    fn statements(&mut self, spot: Spot, levels: u32) -> (u32, bool) {
        let (mut count, mut rc_secret) = (0, spot.rc_secret);
        let before = self.random.below(2);
        for _ in 0..before {
            rc_secret = self.leaf(Spot { rc_secret, ..spot });
            count += 1;
        }
        if levels > 0 {
            rc_secret = self.nest(Spot { rc_secret, ..spot }, levels);
            count += 1;
        }
        while self.has_room() && self.random.chance(45) {
            let beside = self.random.below(levels.min(3) + 1);
            let here = Spot { rc_secret, ..spot };
            rc_secret = if beside > 0 { self.nest(here, beside) } else { self.leaf(here) };
            count += 1;
        }
        (count, rc_secret)
    }

    /// A secret if with so many levels, at times in a public if or a for.
    fn nest(&mut self, spot: Spot, levels: u32) -> bool {
        let spare = spot.inside().takes(levels);
        match self.random.below(10) {
            0 | 1 if spare => self.public_if(spot, levels),
            2 | 3 if spare && spot.loops < LOOPS => self.repeat(spot, levels),
            _ => self.secret_if(spot, levels),
        }
    }

    /// Inside the last level there is no room for a statement.
    fn secret_if(&mut self, spot: Spot, levels: u32) -> bool {
        self.push(statement(words::IF, 0));
        self.condition(spot);
        let arms = spot.arms + 1;
        self.made.levels = self.made.levels.max(arms);
        let arm = Spot { pc_secret: true, arms, ..spot.inside() };
        if !arm.takes(1) {
            self.made.image.extend([EMPTY_BLOCK, EMPTY_BLOCK]);
            return spot.rc_secret;
        }
        // The chosen levels stand in one arm; the other has as many or fewer.
        let fewer = self.random.below(levels);
        let other = if self.has_room() { fewer } else { 0 };
        let mut shares = [levels - 1, other];
        if self.random.chance(50) {
            shares.swap(0, 1);
        }
        let first = self.block(|writer| writer.statements(arm, shares[0]));
        let second = self.block(|writer| writer.statements(arm, shares[1]));
        first || second
    }

    fn public_if(&mut self, spot: Spot, levels: u32) -> bool {
        self.made.image.extend([statement(words::IF, 0), word(words::VARIABLE, PUBLIC_CONDITION)]);
        let other = self.random.below(levels.min(2) + 1);
        let first = self.block(|writer| writer.statements(spot.inside(), levels));
        let second = self.block(|writer| writer.statements(spot.inside(), other));
        first || second
    }

    /// A for whose body returns has a secret rc from its first statement on.
    fn repeat(&mut self, spot: Spot, levels: u32) -> bool {
        let to = self.random.below(3);
        self.push(statement(words::FOR, FIRST_LOOP + spot.loops));
        self.made.image.extend([word(words::CONSTANT, 0), word(words::CONSTANT, to)]);
        let inside = Spot { loops: spot.loops + 1, ..spot.inside() };
        let ends = inside.takes(2) && spot.may_defer && self.random.chance(50);
        let may_defer = spot.rc_secret && spot.may_defer || ends;
        let rc_secret = spot.rc_secret || ends;
        self.block(|writer| {
            let (count, rc_after) =
                writer.statements(Spot { rc_secret, may_defer, ..inside }, levels);
            if ends {
                writer.secret_return(inside);
            }
            (count + ends as u32, rc_after || ends)
        })
    }

    /// Two of the three variables that it may name are changed in arms, one of
    /// them often.
    fn condition(&mut self, spot: Spot) {
        let variable = self.random.pick(&[CONDITION, OTHER_CONDITION, FLAG]).unwrap_or(FLAG);
        if spot.inside().takes(1) && self.random.chance(30) {
            self.push(word(words::UNARY, Unary::Not as u32));
        }
        self.push(word(words::VARIABLE, variable));
    }

    /// One statement without blocks; answers the rc after it.
    fn leaf(&mut self, spot: Spot) -> bool {
        match self.random.below(10) {
            0 | 1 => self.assign(),
            2 => self.change_flag(),
            3 => self.store(),
            4..=8 => self.call(spot),
            _ if spot.may_defer && spot.is_secret() => {
                self.give_back();
                return true;
            }
            _ => self.assign(),
        }
        spot.rc_secret
    }

    fn assign(&mut self) {
        self.push(statement(words::ASSIGN, TAKEN));
        let value = self.random.below(9);
        self.push(word(words::CONSTANT, value));
    }

    /// The condition of an if that stands around it may be this variable.
    fn change_flag(&mut self) {
        let variable = self.random.pick(&[FLAG, OTHER_CONDITION]).unwrap_or(FLAG);
        self.push(statement(words::ASSIGN, variable));
        let value = self.random.below(2);
        self.push(word(words::BOOLEAN, value));
    }

    fn store(&mut self) {
        let index = self.random.below(4);
        self.made.image.extend([statement(words::STORE, 0), word(words::CONSTANT, index)]);
        self.push(word(words::VARIABLE, TAKEN));
    }

    /// A call; an assignment where none is to be written here.
    fn call(&mut self, spot: Spot) {
        let Some(procedure) = self.callee(spot) else { return self.assign() };
        let result = if procedure == GIVES_BOOLEAN { FLAG } else { TAKEN };
        self.push(words::call(procedure, result));
        if procedure == GIVES_WORD {
            self.push(word(words::VARIABLE, TAKEN));
        }
    }

    /// In a public context any procedure is called, which needs no temporary.
    fn callee(&mut self, spot: Spot) -> Option<u32> {
        if !spot.is_secret() {
            return self.random.pick(&[GIVES_WORD, GIVES_BOOLEAN, OPEN]);
        }
        let sort = match self.calls {
            Calls::None => return None,
            Calls::Words => Sort::Word,
            Calls::Booleans => Sort::Boolean,
            Calls::WordFirst if self.made.calls.is_empty() => Sort::Word,
            Calls::BooleanFirst if self.made.calls.is_empty() => Sort::Boolean,
            _ => self.random.pick(&[Sort::Word, Sort::Boolean])?,
        };
        Some(self.secret_call(sort))
    }

    /// Notes that a call in a secret context has a result of this sort.
    fn secret_call(&mut self, sort: Sort) -> u32 {
        if !self.made.calls.contains(&sort) {
            self.made.calls.push(sort);
        }
        match sort {
            Sort::Word => GIVES_WORD,
            Sort::Boolean => GIVES_BOOLEAN,
        }
    }

    fn give_back(&mut self) {
        self.push(statement(words::RETURN, 0));
        if self.result == SECRET_WORD {
            let value = self.random.below(9);
            self.push(word(words::CONSTANT, value));
        } else {
            let value = self.random.below(2);
            self.push(word(words::BOOLEAN, value));
        }
    }

    /// A return in a secret context: in an arm.
    fn secret_return(&mut self, spot: Spot) {
        self.made.levels = self.made.levels.max(spot.arms + 1);
        self.made.image.extend([statement(words::IF, 0), word(words::VARIABLE, CONDITION)]);
        self.push(ONE_STATEMENT);
        self.give_back();
        self.push(EMPTY_BLOCK);
    }

    fn final_return(&mut self) {
        let variable = if self.result == SECRET_WORD { TAKEN } else { FLAG };
        self.made.image.extend([statement(words::RETURN, 0), word(words::VARIABLE, variable)]);
    }
}
