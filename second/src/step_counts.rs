//! Images whose procedures are asked for the most steps of a call (document 02,
//! wish 11): bounds of any size, at the limit and past it, and fors whose bounds
//! are not constants, in the procedure, in those that it calls and elsewhere.
//! The answer that is due follows from how an image is made.

use crate::image::Form;
use crate::operators::{Binary, Unary};
use crate::random::Random;
use crate::words::{self, push_constant, statement, word};

const PUBLIC_WORD: u32 = word(words::TYPE, 0);
const SECRET_WORD: u32 = word(words::TYPE, 1);
const SECRET_BOOLEAN: u32 = word(words::TYPE, 3);
const EMPTY_BLOCK: u32 = word(words::BLOCK, 0);
const ONE_STATEMENT: u32 = word(words::BLOCK, 1);

/// The variables of every procedure: two parameters, then locals.
const PARAMETER: u32 = 0;
const CONDITION: u32 = 1;
const TAKEN: u32 = 2;
const KEPT: u32 = 3;
const FIRST_LOOP: u32 = 4;
/// How many fors and ifs stand around a statement at most.
const NESTED: u32 = 7;
const LOOPS: u32 = NESTED + 1;

/// The cells of the only array.
const CELLS: u32 = 4;

/// The largest bound that is answered.
const LIMIT: u128 = u32::MAX as u128;

/// Small statements are written while there are no more words than this for
/// each procedure.
const ROOM: usize = 300;

/// An image, the procedure that is asked for, and the answer that is due.
pub struct Counted {
    /// What the image was made for; `straight` where a call that ends with a
    /// result takes as many steps as the bound says.
    pub what: &'static str,
    pub image: Vec<u32>,
    pub procedure: u32,
    pub answer: String,
}

/// Which procedure is asked for, and, where the answer is due to a for, in
/// which procedure that stands.
struct Asked {
    procedure: u32,
    for_in: Option<u32>,
}

impl Asked {
    fn bound_of(procedure: u32) -> Asked {
        Asked { procedure, for_in: None }
    }

    fn for_in(number: u32, procedure: u32) -> Asked {
        Asked { procedure, for_in: Some(number) }
    }
}

/// What an image is made for: a name, and how it is written.
#[derive(Clone, Copy)]
pub struct Kind(&'static str, fn(&mut Writer) -> Asked);

/// Images of the first kind are made most: their calls take the very steps that
/// the bound says.
pub const KINDS: [Kind; 13] = [
    Kind("straight", straight),
    Kind("straight", straight),
    Kind("straight", straight),
    Kind("branches", branches),
    Kind("at the limit", at_limit),
    Kind("past the limit", past_limit),
    Kind("callee past the limit in a for without a pass", skipped_callee),
    Kind("for in the procedure", own_for),
    Kind("for in a callee", callee_for),
    Kind("for in an indirect callee", indirect_for),
    Kind("fors in two callees", two_fors),
    Kind("for that is never begun", dead_for),
    Kind("for in a procedure not called", uncalled_for),
];

pub fn counted_image(random: &mut Random, Kind(what, write): Kind) -> Counted {
    let form = random.pick(&[Form::Source, Form::Compiled]).unwrap_or(Form::Source);
    let image = vec![0, word(words::ARRAY, CELLS)];
    let mut writer = Writer { random, form, image, written: Vec::new(), branches: true };
    let asked = write(&mut writer);
    let Writer { mut image, written, .. } = writer;
    let counts = 1 << 8 | written.len() as u32;
    image[0] = word(words::HEADER, (form as u32) << 16 | counts);
    let answer = due(&asked, &written);
    Counted { what, image, procedure: asked.procedure, answer }
}

fn due(asked: &Asked, written: &[Written]) -> String {
    if let Some(number) = asked.for_in {
        let place = written[number as usize].variable_for.expect("the procedure has such a for");
        return format!("refuse 32 {place}");
    }
    match written[asked.procedure as usize].steps {
        steps if steps <= LIMIT => format!("ok {steps}"),
        _ => "refuse 33 0".to_string(),
    }
}

fn straight(writer: &mut Writer) -> Asked {
    writer.branches = false;
    few_steps(writer, 0)
}

fn branches(writer: &mut Writer) -> Asked {
    few_steps(writer, 12)
}

/// At least so many, and so few that a call can be made.
fn few_steps(writer: &mut Writer, least: u128) -> Asked {
    for _ in 0..writer.random.between(1, 4) {
        let steps = least + writer.some_steps() + writer.steps_of_calls();
        writer.calling_all(steps);
    }
    Asked::bound_of(writer.any())
}

fn at_limit(writer: &mut Writer) -> Asked {
    writer.helpers();
    Asked::bound_of(writer.calling_all(LIMIT))
}

fn past_limit(writer: &mut Writer) -> Asked {
    writer.helpers();
    let steps = writer.too_many_steps();
    Asked::bound_of(writer.calling_all(steps))
}

fn skipped_callee(writer: &mut Writer) -> Asked {
    for _ in 0..writer.random.between(1, 3) {
        let steps = writer.too_many_steps();
        writer.calling_all(steps);
    }
    let skipped = Some(writer.any());
    let steps = writer.random.pick(&[1, 2, 30, LIMIT]).unwrap_or(1);
    let callable = writer.all();
    Asked::bound_of(writer.procedure(Plan { steps, callable, skipped, ..Plan::default() }))
}

/// It goes before those of callees, whose places are lower.
fn own_for(writer: &mut Writer) -> Asked {
    for _ in 0..writer.random.below(3) {
        let variable_for = writer.random.chance(60).then_some(VariableFor::Begun);
        writer.calling(&[], variable_for);
    }
    let lower = writer.all();
    let number = writer.calling(&lower, Some(VariableFor::Begun));
    Asked::for_in(number, number)
}

fn callee_for(writer: &mut Writer) -> Asked {
    writer.perhaps_uncalled();
    let callee = writer.calling(&[], Some(VariableFor::Begun));
    writer.perhaps_uncalled();
    let procedure = writer.calling(&[callee], None);
    Asked::for_in(callee, procedure)
}

fn indirect_for(writer: &mut Writer) -> Asked {
    writer.perhaps_uncalled();
    let callee = writer.calling(&[], Some(VariableFor::Begun));
    let mut procedure = callee;
    for _ in 0..writer.random.between(2, 4) {
        procedure = writer.calling(&[procedure], None);
    }
    Asked::for_in(callee, procedure)
}

/// The one with the lower number is called before or after the other, by it, or
/// by a procedure between them.
fn two_fors(writer: &mut Writer) -> Asked {
    writer.perhaps_uncalled();
    let lower = writer.calling(&[], Some(VariableFor::Begun));
    let procedure = match writer.random.below(3) {
        0 => {
            let higher = writer.calling(&[], Some(VariableFor::Begun));
            writer.calling(&[lower, higher], None)
        }
        1 => {
            let higher = writer.calling(&[lower], Some(VariableFor::Begun));
            writer.calling(&[higher], None)
        }
        _ => {
            let higher = writer.calling(&[], Some(VariableFor::Begun));
            let between = writer.calling(&[lower], None);
            writer.calling(&[higher, between], None)
        }
    };
    Asked::for_in(lower, procedure)
}

fn dead_for(writer: &mut Writer) -> Asked {
    writer.perhaps_uncalled();
    let number = writer.calling(&[], Some(VariableFor::NeverBegun));
    let called = writer.random.chance(50);
    let procedure = if called { writer.calling(&[number], None) } else { number };
    Asked::for_in(number, procedure)
}

/// The procedure not called stands before the one that is asked for, or behind
/// it and calls it.
fn uncalled_for(writer: &mut Writer) -> Asked {
    writer.calling(&[], Some(VariableFor::Begun));
    let steps = writer.some_steps();
    let helper = writer.procedure(Plan { steps, ..Plan::default() });
    let steps = writer.some_steps();
    let callable = vec![helper];
    let procedure = writer.procedure(Plan { steps, callable, ..Plan::default() });
    if writer.random.chance(50) {
        writer.calling(&[procedure], Some(VariableFor::Begun));
    }
    Asked::bound_of(procedure)
}

/// A for whose bounds are not constants.
#[derive(Clone, Copy)]
enum VariableFor {
    Begun,
    NeverBegun,
}

/// What a procedure is made of.
#[derive(Default)]
struct Plan {
    /// The bound, unless there are `calls` or a `variable_for`.
    steps: u128,
    /// Procedures that the statements which take these steps may call.
    callable: Vec<u32>,
    /// A procedure that is called in a for without a pass.
    skipped: Option<u32>,
    /// Procedures that are called beside that.
    calls: Vec<u32>,
    variable_for: Option<VariableFor>,
}

/// A part of a body.
#[derive(Clone, Copy)]
enum Part {
    Steps(u128),
    Skipped(u32),
    Call(u32),
    VariableFor(VariableFor),
}

/// What is known of a procedure that was written.
struct Written {
    steps: u128,
    variable_for: Option<u32>,
}

/// Where the next statement stands.
#[derive(Clone, Copy)]
struct Spot {
    nested: u32,
    secret: bool,
}

impl Spot {
    fn inside(self) -> Spot {
        Spot { nested: self.nested + 1, ..self }
    }
}

struct Writer<'r> {
    random: &'r mut Random,
    form: Form,
    image: Vec<u32>,
    written: Vec<Written>,
    /// Whether ifs, and returns before the last statement, are written.
    branches: bool,
}

impl Writer<'_> {
    fn push(&mut self, word: u32) {
        self.image.push(word);
    }

    fn all(&self) -> Vec<u32> {
        (0..self.written.len() as u32).collect()
    }

    /// Mostly the last procedure, which can call most of the others.
    fn any(&mut self) -> u32 {
        let count = self.written.len() as u32;
        if self.random.chance(75) {
            count - 1
        } else {
            self.random.below(count)
        }
    }

    fn some_steps(&mut self) -> u128 {
        let most = self.random.pick(&[1, 10, 40, 40, 40, 300, 2_000]).unwrap_or(10);
        self.random.below(most).into()
    }

    /// Enough for some calls of a procedure that is there, with a pass for each.
    fn steps_of_calls(&mut self) -> u128 {
        let called = self.random.pick(&self.all());
        let calls = u128::from(self.random.below(5));
        called.map_or(0, |number| calls * (1 + self.steps_of_call(number)))
    }

    fn steps_of_call(&self, number: u32) -> u128 {
        1 + self.written[number as usize].steps
    }

    /// Numbers that are small again modulo 2^32 or 2^64 are among them.
    fn too_many_steps(&mut self) -> u128 {
        let above = self.random.pick(&[LIMIT, LIMIT, LIMIT, 1 << 33, u64::MAX.into(), 1 << 96]);
        let more = self.random.pick(&[0, 0, 0, 1, 1_000]).unwrap_or(0);
        above.unwrap_or(LIMIT) + 1 + more
    }

    /// Procedures for one that has many steps to call.
    fn helpers(&mut self) {
        for _ in 0..self.random.between(1, 2) {
            let few = self.some_steps();
            let many = [few, 1 << 16, 1 << 31, LIMIT - 1, LIMIT + 1];
            let steps = self.random.pick(&many).unwrap_or(few);
            self.calling_all(steps);
        }
    }

    /// A procedure that may call all before it.
    fn calling_all(&mut self, steps: u128) -> u32 {
        let callable = self.all();
        self.procedure(Plan { steps, callable, ..Plan::default() })
    }

    /// A procedure that calls these and no others.
    fn calling(&mut self, calls: &[u32], variable_for: Option<VariableFor>) -> u32 {
        let steps = self.random.below(9).into();
        let calls = calls.to_vec();
        self.procedure(Plan { steps, calls, variable_for, ..Plan::default() })
    }

    /// At times a procedure that nobody calls, with a for that must not count.
    fn perhaps_uncalled(&mut self) {
        if self.random.chance(40) {
            self.calling(&[], Some(VariableFor::Begun));
        }
    }

    fn procedure(&mut self, plan: Plan) -> u32 {
        let counts = TAKEN << 8 | (FIRST_LOOP + LOOPS - TAKEN);
        self.image.extend([word(words::PROCEDURE, counts), PUBLIC_WORD]);
        self.image.extend([PUBLIC_WORD, SECRET_BOOLEAN, PUBLIC_WORD, SECRET_WORD]);
        self.image.extend([PUBLIC_WORD; LOOPS as usize]);
        let variable_for = self.body(&plan);
        self.written.push(Written { steps: plan.steps, variable_for });
        self.written.len() as u32 - 1
    }

    /// The parts in any order, then mostly a return. Answers where the for is
    /// whose bounds are not constants.
    fn body(&mut self, plan: &Plan) -> Option<u32> {
        let skips = plan.skipped.is_some() as u128;
        let returns = plan.steps > skips && self.random.chance(80);
        let steps = plan.steps - skips - returns as u128;
        let parts = self.parts(plan, steps);
        let mut place = None;
        self.block(|writer| {
            let mut count = 0;
            for part in parts {
                count += writer.part(part, plan, &mut place);
            }
            if returns {
                writer.give_back();
            }
            count + returns as u32
        });
        place
    }

    fn parts(&mut self, plan: &Plan, steps: u128) -> Vec<Part> {
        let mut parts = vec![Part::Steps(steps)];
        parts.extend(plan.skipped.map(Part::Skipped));
        parts.extend(plan.calls.iter().map(|number| Part::Call(*number)));
        parts.extend(plan.variable_for.map(Part::VariableFor));
        self.random.shuffle(&mut parts);
        parts
    }

    /// Writes a part and answers how many statements it has.
    fn part(&mut self, part: Part, plan: &Plan, place: &mut Option<u32>) -> u32 {
        match part {
            Part::Steps(steps) => {
                let spot = Spot { nested: 0, secret: false };
                self.statements(steps, &plan.callable, spot)
            }
            Part::Skipped(number) => self.skipped(number),
            Part::Call(number) => self.wrapped(|writer| writer.call(number)),
            Part::VariableFor(VariableFor::Begun) => {
                self.wrapped(|writer| *place = Some(writer.variable_for()))
            }
            Part::VariableFor(VariableFor::NeverBegun) => self.never_begun(place),
        }
    }

    /// A block whose statements the given function writes; it answers how many
    /// they are.
    fn block(&mut self, write: impl FnOnce(&mut Self) -> u32) {
        let at = self.image.len();
        self.push(EMPTY_BLOCK);
        let count = write(self);
        self.image[at] = word(words::BLOCK, count);
    }

    fn constant_for(&mut self, variable: u32, from: u32, to: u32) {
        self.push(statement(words::FOR, variable));
        push_constant(&mut self.image, from);
        push_constant(&mut self.image, to);
    }

    fn for_without_pass(&mut self, variable: u32) {
        let same = self.random.word();
        let bounds = [(same, same), (7, 3), (1, 0), (u32::MAX, 0), (u32::MAX, u32::MAX - 1)];
        let (from, to) = self.random.pick(&bounds).unwrap_or((0, 0));
        self.constant_for(variable, from, to);
    }

    fn skipped(&mut self, number: u32) -> u32 {
        self.for_without_pass(FIRST_LOOP);
        self.push(ONE_STATEMENT);
        self.call(number);
        1
    }

    /// One statement: the given one, or a for or if around it.
    fn wrapped(&mut self, write: impl FnOnce(&mut Self)) -> u32 {
        match self.random.below(6) {
            0 => {
                let to = self.random.below(3);
                self.constant_for(FIRST_LOOP, 0, to);
                self.push(ONE_STATEMENT);
                write(self);
            }
            1 => {
                self.push(statement(words::IF, 0));
                self.public_condition();
                self.push(ONE_STATEMENT);
                write(self);
                self.push(EMPTY_BLOCK);
            }
            2 => {
                self.push(statement(words::IF, 0));
                self.public_condition();
                self.push(EMPTY_BLOCK);
                self.push(ONE_STATEMENT);
                write(self);
            }
            _ => write(self),
        }
        1
    }

    /// A for behind a return, in an arm that is not taken, or in a for without
    /// a pass; answers how many statements they are.
    fn never_begun(&mut self, place: &mut Option<u32>) -> u32 {
        match self.random.below(3) {
            0 => {
                self.give_back();
                *place = Some(self.variable_for());
                return 2;
            }
            1 => {
                self.image.extend([statement(words::IF, 0), word(words::BOOLEAN, 0)]);
                self.push(ONE_STATEMENT);
                *place = Some(self.variable_for());
                self.push(EMPTY_BLOCK);
            }
            _ => {
                self.for_without_pass(FIRST_LOOP);
                self.push(ONE_STATEMENT);
                *place = Some(self.variable_for());
            }
        }
        1
    }

    /// One of its bounds, or both, are no constants. At times another such for
    /// stands in it. Answers its place.
    fn variable_for(&mut self) -> u32 {
        let place = self.image.len() as u32;
        self.push(statement(words::FOR, FIRST_LOOP + 1));
        let choices = [(true, true), (true, false), (false, true)];
        let (from_variable, to_variable) = self.random.pick(&choices).unwrap_or((true, true));
        for variable in [from_variable, to_variable] {
            if variable {
                self.variable_bound();
            } else {
                let bound = self.random.word();
                push_constant(&mut self.image, bound);
            }
        }
        self.block(|writer| {
            let nests = writer.random.chance(30);
            if nests {
                writer.push(statement(words::FOR, FIRST_LOOP + 2));
                writer.variable_bound();
                writer.variable_bound();
                writer.push(EMPTY_BLOCK);
            }
            nests as u32
        });
        place
    }

    /// A word that is no constant by its form, though some have but one value.
    fn variable_bound(&mut self) {
        let constant = word(words::CONSTANT, self.random.below(4));
        match self.random.below(6) {
            0 => self.push(word(words::VARIABLE, TAKEN)),
            1 => {
                let operator = word(words::BINARY, Binary::Add as u32);
                self.image.extend([operator, constant, constant]);
            }
            2 => self.image.extend([word(words::UNARY, Unary::Complement as u32), constant]),
            3 => self.image.extend([word(words::INDEX, 0), constant]),
            4 => {
                let condition = word(words::BOOLEAN, 1);
                self.image.extend([word(words::SELECT, 0), condition, constant, constant]);
            }
            _ => self.push(word(words::VARIABLE, PARAMETER)),
        }
    }

    /// Statements that take so many steps together; answers how many they are.
    fn statements(&mut self, mut steps: u128, callable: &[u32], spot: Spot) -> u32 {
        let mut count = 0;
        while steps > 0 {
            steps -= self.statement(steps, callable, spot);
            count += 1;
        }
        count
    }

    /// A statement of at most so many steps; answers how many it takes.
    fn statement(&mut self, most: u128, callable: &[u32], spot: Spot) -> u128 {
        if most > LIMIT {
            return self.repeat(most, callable, spot);
        }
        if spot.nested == NESTED || self.image.len() > ROOM * (self.written.len() + 1) {
            return self.empty_for(most, spot);
        }
        match self.random.below(10) {
            0..=2 if most < 20 => self.simple(spot),
            3..=5 if self.branches => self.branch(most, callable, spot),
            6 | 7 => self.call_within(most, callable, spot),
            _ => self.repeat(most, callable, spot),
        }
    }

    /// All steps as passes of one for; an assignment where there is only one.
    fn empty_for(&mut self, steps: u128, spot: Spot) -> u128 {
        if steps == 1 {
            return self.simple(spot);
        }
        let passes = u32::try_from(steps - 1).expect("no more passes than a for can have");
        self.constant_for(FIRST_LOOP + spot.nested, 0, passes);
        self.push(EMPTY_BLOCK);
        steps
    }

    fn repeat(&mut self, most: u128, callable: &[u32], spot: Spot) -> u128 {
        let passes = self.passes(most - 1);
        let inside = match passes {
            0 => self.random.below(3).into(),
            _ => (most - 1) / u128::from(passes) - 1,
        };
        self.for_with_passes(passes, spot);
        self.block(|writer| writer.statements(inside, callable, spot.inside()));
        1 + u128::from(passes) * (1 + inside)
    }

    /// The words of a for before its block.
    fn for_with_passes(&mut self, passes: u32, spot: Spot) {
        let variable = FIRST_LOOP + spot.nested;
        if passes == 0 {
            return self.for_without_pass(variable);
        }
        let most = u32::MAX - passes;
        let from = self.random.pick(&[0, 1, 5, most]).unwrap_or(0).min(most);
        self.constant_for(variable, from, from + passes);
    }

    /// How many passes a for has that takes at most so many steps beside its
    /// own: many where one could not have enough.
    fn passes(&mut self, most: u128) -> u32 {
        if most >= LIMIT {
            return u32::MAX - self.random.pick(&[0, 1, 1 << 16, 1 << 30]).unwrap_or(0);
        }
        let most = most as u32;
        let wanted = match self.random.below(8) {
            0 => 0,
            1 => most,
            2 => most / 2,
            3 => self.random.pick(&[0xFFFF, 0x1_0000, 0x1_0001]).unwrap_or(1),
            _ => self.random.between(1, 6),
        };
        wanted.min(most)
    }

    fn branch(&mut self, most: u128, callable: &[u32], spot: Spot) -> u128 {
        let larger = if most < 50 { self.random.below(most as u32).into() } else { most - 1 };
        let other = self.random.below(larger.min(6) as u32);
        let smaller = self.random.pick(&[0, larger, other.into()]).unwrap_or(0);
        let mut arms = [larger, smaller];
        self.random.shuffle(&mut arms);
        self.push(statement(words::IF, 0));
        let secret = self.form == Form::Source && self.random.chance(30);
        if secret {
            self.push(word(words::VARIABLE, CONDITION));
        } else {
            self.public_condition();
        }
        let inside = Spot { secret: spot.secret || secret, ..spot.inside() };
        for steps in arms {
            self.block(|writer| writer.statements(steps, callable, inside));
        }
        1 + larger
    }

    fn public_condition(&mut self) {
        let constant = word(words::CONSTANT, self.random.below(9));
        let operator = word(words::BINARY, Binary::Less as u32);
        self.image.extend([operator, word(words::VARIABLE, PARAMETER), constant]);
    }

    /// A call where one fits, at times in a for, else a statement without blocks.
    fn call_within(&mut self, most: u128, callable: &[u32], spot: Spot) -> u128 {
        let fits = |number: &u32| self.steps_of_call(*number) <= most;
        let fitting: Vec<u32> = callable.iter().copied().filter(fits).collect();
        match self.random.pick(&fitting) {
            Some(number) if !spot.secret => {
                if most >= 2 + self.steps_of_call(number) && self.random.chance(60) {
                    return self.repeat_call(number, most, callable, spot);
                }
                self.call(number);
                self.steps_of_call(number)
            }
            _ => self.simple(spot),
        }
    }

    /// A for whose block begins with a call.
    fn repeat_call(&mut self, number: u32, most: u128, callable: &[u32], spot: Spot) -> u128 {
        let called = self.steps_of_call(number);
        let most_passes = ((most - 1) / (1 + called)) as u32;
        let few = self.random.between(1, 5).min(most_passes);
        let passes = self.random.pick(&[few, few, most_passes]).unwrap_or(few);
        let inside = (most - 1) / u128::from(passes) - 1;
        self.for_with_passes(passes, spot);
        self.block(|writer| {
            writer.call(number);
            1 + writer.statements(inside - called, callable, spot.inside())
        });
        1 + u128::from(passes) * (1 + inside)
    }

    fn call(&mut self, number: u32) {
        self.push(words::call(number, TAKEN));
        let argument = self.random.word();
        push_constant(&mut self.image, argument);
        self.push(word(words::VARIABLE, CONDITION));
    }

    /// A statement without blocks, which takes one step.
    fn simple(&mut self, spot: Spot) -> u128 {
        let value = word(words::CONSTANT, self.random.below(9));
        match self.random.below(8) {
            _ if spot.secret => self.image.extend([statement(words::ASSIGN, KEPT), value]),
            0 if self.branches => self.give_back(),
            1 | 2 => self.store(),
            _ => self.image.extend([statement(words::ASSIGN, TAKEN), value]),
        }
        1
    }

    /// The parameter is an index that may lie beyond the array.
    fn store(&mut self) {
        let constant = word(words::CONSTANT, self.random.below(CELLS));
        let parameter = word(words::VARIABLE, PARAMETER);
        let index = if self.random.chance(15) { parameter } else { constant };
        self.image.extend([statement(words::STORE, 0), index, parameter]);
    }

    fn give_back(&mut self) {
        self.image.extend([statement(words::RETURN, 0), word(words::VARIABLE, TAKEN)]);
    }
}
