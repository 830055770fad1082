//! From source form to compiled form (refusals 14, 15 and 16).
//!
//! The compiled form has no secret branches: both arms of a secret if run in
//! line, and every effect in them is a select under a mask called act. What a
//! procedure needs new locals for is found before its body is written.

use crate::check::check;
use crate::image::{Action, Expression, Form, Image, Label, Node, Procedure, Statement, Type};
use crate::labels::{label_of, rc_after, Context};
use crate::operators::{Binary, Sort, Unary};
use crate::refusal::{Code, Refusal};
use crate::words;

/// Compiles an image into at most `capacity` words.
pub fn compile(bytes: &[u8], capacity: u64) -> Result<Vec<u32>, Refusal> {
    let image = check(bytes)?;
    if image.form == Form::Compiled {
        return Err(Refusal::whole(Code::NotSource));
    }
    let Some(output) = compile_image(&image) else {
        return Err(Refusal::whole(Code::OverLimits));
    };
    if output.len() as u64 > capacity {
        return Err(Refusal::whole(Code::OutputShort));
    }
    Ok(output)
}

/// None where the result has more words than the compiled form admits. Its
/// other limits are kept by every source: a compiled word stands at most three
/// levels below a source word, and `compile_procedure` says why the locals fit.
fn compile_image(image: &Image) -> Option<Vec<u32>> {
    let counts = (image.arrays.len() as u32) << 8 | image.procedures.len() as u32;
    let mut output = vec![words::word(words::HEADER, 1 << 16 | counts)];
    for array in &image.arrays {
        output.push(words::word(words::ARRAY, (array.label as u32) << 16 | array.length));
    }
    for procedure in &image.procedures {
        compile_procedure(image, procedure, &mut output);
    }
    (output.len() <= Form::Compiled.max_words()).then_some(output)
}

fn compile_procedure(image: &Image, procedure: &Procedure, output: &mut Vec<u32>) {
    let layout = Layout::of(image, procedure);
    let parameters = procedure.parameters + procedure.guarded as u32;
    let (given, locals) = procedure.variables.split_at(procedure.parameters as usize);
    let local_count = (locals.len() + layout.types.len()) as u32;
    // 64 of the source, RV and LIVE, two for each of at most nine levels (an if
    // takes two of the image's 19), two temporaries: never more than 86.
    debug_assert!(local_count <= Form::Compiled.max_locals());
    output.push(words::word(words::PROCEDURE, parameters << 8 | local_count));
    push_types(output, &[procedure.result]);
    push_types(output, given);
    if procedure.guarded {
        push_types(output, &[Type::SECRET_BOOLEAN]);
    }
    push_types(output, locals);
    push_types(output, &layout.types);
    Emitter { image, procedure, layout, output }.body();
}

fn push_types(output: &mut Vec<u32>, types: &[Type]) {
    output.extend(types.iter().map(|declared| words::word(words::TYPE, declared.payload())));
}

/// What the statements of a procedure need new locals for.
struct Survey<'a> {
    image: &'a Image,
    procedure: &'a Procedure,
    defers: bool,
    /// How many secret ifs stand inside each other at most.
    levels: u32,
    /// Whether a call in a secret context has a result of this sort.
    word_call: bool,
    boolean_call: bool,
}

impl Survey<'_> {
    /// Looks at a block that stands in so many arms of secret ifs; answers the
    /// rc that it ends with.
    fn block(&mut self, block: &[Statement], arms: u32, context: Context) -> Label {
        block.iter().fold(context.rc, |rc, statement| {
            self.statement(statement, arms, Context { pc: context.pc, rc })
        })
    }

    fn statement(&mut self, statement: &Statement, arms: u32, context: Context) -> Label {
        let secret = context.label() == Label::Secret;
        match &statement.action {
            Action::Assign { .. } | Action::Store { .. } => context.rc,
            Action::If { condition, then_block, else_block } => {
                let label = label_of(self.image, self.procedure, condition);
                // A public if is no level: its blocks stand in as many arms.
                let arms = arms + (label == Label::Secret) as u32;
                self.levels = self.levels.max(arms);
                let inner = Context { pc: context.pc.max(label), rc: context.rc };
                self.block(then_block, arms, inner).max(self.block(else_block, arms, inner))
            }
            Action::For { body, .. } => {
                let rc = rc_after(self.image, self.procedure, body, context);
                self.block(body, arms, Context { pc: context.pc, rc })
            }
            Action::Return { .. } => {
                self.defers |= secret;
                context.label()
            }
            Action::Call { procedure, .. } => {
                match self.image.procedures[*procedure as usize].result.sort {
                    Sort::Word => self.word_call |= secret,
                    Sort::Boolean => self.boolean_call |= secret,
                }
                context.rc
            }
        }
    }
}

/// The new locals of a procedure: their types, and the number of each as a
/// variable. A local that is not needed has a number that no word names.
struct Layout {
    types: Vec<Type>,
    deferred: Option<Deferred>,
    /// T of the outermost secret ifs; its E and the deeper pairs follow.
    first_pair: u32,
    word_temporary: u32,
    boolean_temporary: u32,
}

/// The two locals of a procedure that defers a return.
#[derive(Clone, Copy)]
struct Deferred {
    value: u32,
    live: u32,
}

impl Layout {
    fn of(image: &Image, procedure: &Procedure) -> Layout {
        let (levels, defers, word_call, boolean_call) = (0, false, false, false);
        let mut survey = Survey { image, procedure, defers, levels, word_call, boolean_call };
        let entry = Context { pc: procedure.entry_label(), rc: Label::Public };
        survey.block(&procedure.body, 0, entry);
        let first = procedure.variables.len() as u32 + procedure.guarded as u32;
        let mut types = Vec::new();
        let mut deferred = None;
        if survey.defers {
            types.extend([procedure.result, Type::SECRET_BOOLEAN]);
            deferred = Some(Deferred { value: first, live: first + 1 });
        }
        let first_pair = first + types.len() as u32;
        types.extend(std::iter::repeat_n(Type::SECRET_BOOLEAN, 2 * survey.levels as usize));
        let word_temporary = first + types.len() as u32;
        if survey.word_call {
            types.push(Type { sort: Sort::Word, label: Label::Secret });
        }
        let boolean_temporary = first + types.len() as u32;
        if survey.boolean_call {
            types.push(Type::SECRET_BOOLEAN);
        }
        Layout { types, deferred, first_pair, word_temporary, boolean_temporary }
    }

    /// T and E of a secret if that stands in so many arms of secret ifs. No
    /// two ifs whose arms are open at once share them.
    fn pair(&self, arms: u32) -> (u32, u32) {
        (self.first_pair + 2 * arms, self.first_pair + 2 * arms + 1)
    }

    fn temporary(&self, sort: Sort) -> u32 {
        match sort {
            Sort::Word => self.word_temporary,
            Sort::Boolean => self.boolean_temporary,
        }
    }
}

/// Where a statement stands: the variable that masks the innermost secret arm
/// (the guard, a T or an E), in how many arms of secret ifs, and rc. There is
/// a mask exactly when pc is secret.
#[derive(Clone, Copy)]
struct Scope {
    mask: Option<u32>,
    arms: u32,
    rc: Label,
}

impl Scope {
    fn is_secret(self) -> bool {
        self.context().label() == Label::Secret
    }

    fn context(self) -> Context {
        let pc = if self.mask.is_some() { Label::Secret } else { Label::Public };
        Context { pc, rc: self.rc }
    }

    /// An arm, masked by this variable, of a secret if that stands here.
    fn arm(self, mask: u32) -> Scope {
        Scope { mask: Some(mask), arms: self.arms + 1, rc: self.rc }
    }
}

/// Writes one procedure's body.
struct Emitter<'a> {
    image: &'a Image,
    procedure: &'a Procedure,
    layout: Layout,
    output: &'a mut Vec<u32>,
}

impl Emitter<'_> {
    fn body(&mut self) {
        let guard = self.procedure.guarded.then_some(self.procedure.parameters);
        let scope = Scope { mask: guard, arms: 0, rc: Label::Public };
        let count_at = self.open_block();
        let mut count = 0;
        if let Some(deferred) = self.layout.deferred {
            self.assign(deferred.live);
            self.boolean(true);
            count += 1;
        }
        count += self.statements(&self.procedure.body, scope).0;
        if let Some(deferred) = self.layout.deferred {
            self.output.push(words::statement(words::RETURN, 0));
            self.variable(deferred.value);
            count += 1;
        }
        self.close_block(count_at, count);
    }

    /// Emits a run of statements; answers how many it wrote and the rc after.
    fn statements(&mut self, block: &[Statement], mut scope: Scope) -> (u32, Label) {
        let mut count = 0;
        for statement in block {
            let (written, rc) = self.statement(statement, scope);
            count += written;
            scope.rc = rc;
        }
        (count, scope.rc)
    }

    fn block(&mut self, block: &[Statement], scope: Scope) -> Label {
        let count_at = self.open_block();
        let (count, rc) = self.statements(block, scope);
        self.close_block(count_at, count);
        rc
    }

    fn statement(&mut self, statement: &Statement, scope: Scope) -> (u32, Label) {
        let written = match &statement.action {
            Action::Assign { variable, value } => self.emit_assign(*variable, value, scope),
            Action::Store { array, index, value } => self.emit_store(*array, index, value, scope),
            Action::If { condition, then_block, else_block } => {
                return self.emit_if(condition, then_block, else_block, scope);
            }
            Action::For { variable, from, to, body } => {
                return self.emit_for(*variable, [from, to], body, scope);
            }
            Action::Return { value } => {
                return (self.emit_return(value, scope), scope.context().label());
            }
            Action::Call { procedure, result, arguments } => {
                self.emit_call(*procedure, *result, arguments, scope)
            }
        };
        (written, scope.rc)
    }

    /// v := value, or v := select(act, value, v).
    fn emit_assign(&mut self, variable: u32, value: &Expression, scope: Scope) -> u32 {
        let variable = self.renumbered(variable);
        self.assign(variable);
        if scope.is_secret() {
            self.select_under_act(scope);
            self.expression(value);
            self.variable(variable);
        } else {
            self.expression(value);
        }
        1
    }

    /// The old cell is read back, so that a masked store changes nothing.
    fn emit_store(
        &mut self,
        array: u32,
        index: &Expression,
        value: &Expression,
        scope: Scope,
    ) -> u32 {
        self.output.push(words::statement(words::STORE, array));
        self.expression(index);
        if scope.is_secret() {
            self.select_under_act(scope);
            self.expression(value);
            self.output.push(words::word(words::INDEX, array));
            self.expression(index);
        } else {
            self.expression(value);
        }
        1
    }

    fn emit_if(
        &mut self,
        condition: &Expression,
        then_block: &[Statement],
        else_block: &[Statement],
        scope: Scope,
    ) -> (u32, Label) {
        if label_of(self.image, self.procedure, condition) == Label::Secret {
            return self.emit_secret_if(condition, then_block, else_block, scope);
        }
        self.output.push(words::statement(words::IF, 0));
        self.expression(condition);
        let then_rc = self.block(then_block, scope);
        let else_rc = self.block(else_block, scope);
        (1, then_rc.max(else_rc))
    }

    /// Both masks are set before either arm: an arm may change what the
    /// condition reads.
    fn emit_secret_if(
        &mut self,
        condition: &Expression,
        then_block: &[Statement],
        else_block: &[Statement],
        scope: Scope,
    ) -> (u32, Label) {
        let (then_mask, else_mask) = self.layout.pair(scope.arms);
        self.assign(then_mask);
        self.and_with_act(scope);
        self.expression(condition);
        self.assign(else_mask);
        self.and_with_act(scope);
        self.output.push(words::word(words::UNARY, Unary::Not as u32));
        self.variable(then_mask);
        let (then_count, then_rc) = self.statements(then_block, scope.arm(then_mask));
        let (else_count, else_rc) = self.statements(else_block, scope.arm(else_mask));
        (2 + then_count + else_count, then_rc.max(else_rc))
    }

    fn emit_for(
        &mut self,
        variable: u32,
        bounds: [&Expression; 2],
        body: &[Statement],
        scope: Scope,
    ) -> (u32, Label) {
        self.output.push(words::statement(words::FOR, self.renumbered(variable)));
        self.expression(bounds[0]);
        self.expression(bounds[1]);
        let rc = rc_after(self.image, self.procedure, body, scope.context());
        self.block(body, Scope { rc, ..scope });
        (1, rc)
    }

    fn emit_return(&mut self, value: &Expression, scope: Scope) -> u32 {
        let Some(deferred) = self.layout.deferred.filter(|_| scope.is_secret()) else {
            self.output.push(words::statement(words::RETURN, 0));
            self.expression(value);
            return 1;
        };
        self.assign(deferred.value);
        self.select_under_act(scope);
        self.expression(value);
        self.variable(deferred.value);
        self.assign(deferred.live);
        self.select_under_act(scope);
        self.boolean(false);
        self.variable(deferred.live);
        2
    }

    fn emit_call(
        &mut self,
        procedure: u32,
        result: u32,
        arguments: &[Expression],
        scope: Scope,
    ) -> u32 {
        let callee = &self.image.procedures[procedure as usize];
        let result = self.renumbered(result);
        if !scope.is_secret() {
            self.output.push(words::call(procedure, result));
            arguments.iter().for_each(|argument| self.expression(argument));
            if callee.guarded {
                self.boolean(true);
            }
            return 1;
        }
        let temporary = self.layout.temporary(callee.result.sort);
        self.output.push(words::call(procedure, temporary));
        arguments.iter().for_each(|argument| self.expression(argument));
        self.act(scope);
        self.assign(result);
        self.select_under_act(scope);
        self.variable(temporary);
        self.variable(result);
        2
    }

    /// The condition under which a statement of this scope takes effect.
    fn act(&mut self, scope: Scope) {
        let live = self
            .layout
            .deferred
            .map(|deferred| deferred.live)
            .filter(|_| scope.rc == Label::Secret);
        if scope.mask.is_some() && live.is_some() {
            self.output.push(words::word(words::BINARY, Binary::BothTrue as u32));
        }
        for mask in [scope.mask, live].into_iter().flatten() {
            self.variable(mask);
        }
    }

    /// In a secret context, opens "act and ..".
    fn and_with_act(&mut self, scope: Scope) {
        if scope.is_secret() {
            self.output.push(words::word(words::BINARY, Binary::BothTrue as u32));
            self.act(scope);
        }
    }

    /// Opens "select(act, ..".
    fn select_under_act(&mut self, scope: Scope) {
        self.output.push(words::word(words::SELECT, 0));
        self.act(scope);
    }

    fn assign(&mut self, variable: u32) {
        self.output.push(words::statement(words::ASSIGN, variable));
    }

    fn variable(&mut self, variable: u32) {
        self.output.push(words::word(words::VARIABLE, variable));
    }

    fn boolean(&mut self, value: bool) {
        self.output.push(words::word(words::BOOLEAN, value as u32));
    }

    fn open_block(&mut self) -> usize {
        self.output.push(words::word(words::BLOCK, 0));
        self.output.len() - 1
    }

    fn close_block(&mut self, at: usize, count: u32) {
        self.output[at] = words::word(words::BLOCK, count);
    }

    /// The guard is the last parameter, so the locals move up by one.
    fn renumbered(&self, variable: u32) -> u32 {
        let moves = self.procedure.guarded && variable >= self.procedure.parameters;
        variable + moves as u32
    }

    /// An expression keeps its words, apart from the new numbers of locals.
    fn expression(&mut self, expression: &Expression) {
        match &expression.node {
            Node::Constant(value) => words::push_constant(self.output, *value),
            Node::Boolean(value) => self.boolean(*value),
            Node::Variable(variable) => self.variable(self.renumbered(*variable)),
            Node::Index { array, index } => {
                self.output.push(words::word(words::INDEX, *array));
                self.expression(index);
            }
            Node::Unary { operator, operand } => {
                self.output.push(words::word(words::UNARY, *operator as u32));
                self.expression(operand);
            }
            Node::Binary { operator, operands } => {
                self.output.push(words::word(words::BINARY, *operator as u32));
                operands.iter().for_each(|operand| self.expression(operand));
            }
            Node::Select(operands) => {
                self.output.push(words::word(words::SELECT, 0));
                operands.iter().for_each(|operand| self.expression(operand));
            }
        }
    }
}
