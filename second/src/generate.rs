//! The generator of request lines.
//!
//! Every line is also answered here, by this program's own driver, so that
//! later lines can aim at the edge: a budget one step short, a trace slice two
//! words short or full at a shift, an output slice that just fits.

use std::io::{self, Write};

use crate::check::check;
use crate::damage::{bend, damage, random_word};
use crate::image::Form;
use crate::levels::{levelled_image, Levelled};
use crate::limits::{limit_image, long_result};
use crate::neighbours::neighbour_image;
use crate::operators::Sort;
use crate::program::{program, Shape, Slip};
use crate::protocol::{push_words, Driver};
use crate::random::Random;
use crate::recordings::{is_seen, recording, Recording};
use crate::step_counts::{counted_image, Counted, Kind, KINDS};
use crate::words;

/// Prints request lines until there are at least `count`, those about a probe's
/// recordings and about images that are made for bounds aside.
pub fn generate(seed: u64, count: u64, output: impl Write) -> io::Result<()> {
    let (random, driver) = (Random::new(seed), Driver::new());
    let mut generator = Generator { random, driver, output, lines: 0 };
    let mut number = 0;
    while generator.lines < count {
        writeln!(generator.output, "# case {number}")?;
        generator.lines += 1;
        generator.case()?;
        number += 1;
    }
    generator.output.flush()
}

const SLIPS: [Slip; 10] = [
    Slip::Name,
    Slip::Sort,
    Slip::LoopVariable,
    Slip::Flow,
    Slip::SecretOperand,
    Slip::Unbounded,
    Slip::OpenCall,
    Slip::SecretBranch,
    Slip::LoopReturn,
    Slip::Any,
];

/// What is sent with one set of arguments, budget and trace slice: mostly a
/// call, else a preview alone, or one before or after the call.
const RUNS: [&[&str]; 6] =
    [&["call"], &["call"], &["call"], &["preview"], &["preview", "call"], &["call", "preview"]];

/// The largest bound that calls are made with.
const MOST_RESERVED: u32 = 5_000;

/// What a session has to know of an image to ask sensible things of it.
#[derive(Default)]
struct Outline {
    lengths: Vec<u32>,
    parameters: Vec<u32>,
}

impl Outline {
    /// Empty for an image that is refused.
    fn of(image: &[u32]) -> Outline {
        let Ok(image) = check(&words::to_bytes(image)) else { return Outline::default() };
        Outline {
            lengths: image.arrays.iter().map(|array| array.length).collect(),
            parameters: image.procedures.iter().map(|procedure| procedure.parameters).collect(),
        }
    }
}

struct Generator<W> {
    random: Random,
    driver: Driver,
    output: W,
    lines: u64,
}

impl<W: Write> Generator<W> {
    /// Prints a request and answers what the driver says to it.
    fn send(&mut self, line: String) -> io::Result<String> {
        writeln!(self.output, "{line}")?;
        self.lines += 1;
        Ok(self.driver.answer(&line))
    }

    fn send_image(&mut self, request: &str, image: &[u32]) -> io::Result<String> {
        let mut line = request.to_string();
        push_words(&mut line, image);
        self.send(line)
    }

    fn case(&mut self) -> io::Result<()> {
        match self.random.below(108) {
            0..=26 => self.source_case(),
            27..=35 => self.compiled_case(),
            36..=43 => self.neighbour_case(),
            44..=53 => self.level_case(),
            54..=65 => self.slipped_case(),
            66..=74 => self.bent_case(),
            75..=83 => self.damaged_case(),
            84 | 85 => self.noise_case(),
            86..=90 => self.limit_case(),
            91..=94 => self.length_case(),
            95..=99 => self.changing_session(),
            _ => self.bound_case(),
        }
    }

    fn shape(&mut self, form: Form, slip: Option<Slip>) -> Shape {
        let (procedures, room) = match self.random.below(40) {
            0 => (self.random.between(1, 32), 3900),
            1..=4 => (self.random.between(1, 10), 900),
            5..=10 => (self.random.between(1, 3), 60),
            _ => (self.random.between(1, 5), self.random.between(80, 300) as usize),
        };
        let depth = if self.random.chance(6) { 21 } else { self.random.between(1, 4) };
        Shape { form, procedures, room, depth, slip }
    }

    fn valid_program(&mut self, form: Form) -> Vec<u32> {
        let shape = self.shape(form, None);
        program(&mut self.random, shape)
    }

    fn any_program(&mut self) -> Vec<u32> {
        let form = if self.random.chance(60) { Form::Source } else { Form::Compiled };
        self.valid_program(form)
    }

    /// A source, its compiled form, and a session on each.
    fn source_case(&mut self) -> io::Result<()> {
        let source = self.valid_program(Form::Source);
        self.send_image("check", &source)?;
        self.both_forms(&source)
    }

    fn both_forms(&mut self, source: &[u32]) -> io::Result<()> {
        let compiled = self.compile(source)?;
        self.describe(source)?;
        self.session(source)?;
        if let Some(compiled) = compiled {
            if self.random.chance(40) {
                self.send_image("check", &compiled)?;
                self.describe(&compiled)?;
            }
            self.session(&compiled)?;
        }
        Ok(())
    }

    /// Compiles, and asks again with slices that just fit or just do not.
    fn compile(&mut self, source: &[u32]) -> io::Result<Option<Vec<u32>>> {
        let answer = self.send_image("compile 20000", source)?;
        let Some(compiled) = listed_words(&answer) else { return Ok(None) };
        if self.random.chance(15) {
            let fit = compiled.len() as u32;
            let short = self.random.below(fit);
            let capacity = self.random.pick(&[fit - 1, fit, fit + 1, short]).unwrap_or(fit);
            self.send_image(&format!("compile {capacity}"), source)?;
        }
        Ok(Some(compiled))
    }

    /// Asks for the description, at times with slices that just fit or just do not.
    fn describe(&mut self, image: &[u32]) -> io::Result<()> {
        let answer = self.send_image("describe 420", image)?;
        let fit = answer.split(' ').count() as u32 - 1;
        if answer.starts_with("ok") && self.random.chance(15) {
            let short = self.random.below(fit);
            let capacity = self.random.pick(&[fit - 1, fit, fit + 1, short]).unwrap_or(fit);
            self.send_image(&format!("describe {capacity}"), image)?;
        }
        Ok(())
    }

    /// A compiled image that no compiler wrote.
    fn compiled_case(&mut self) -> io::Result<()> {
        let image = self.valid_program(Form::Compiled);
        self.send_image("check", &image)?;
        self.describe(&image)?;
        if self.random.chance(15) {
            self.send_image("compile 20000", &image)?;
        }
        self.session(&image)
    }

    /// Images with the variable of a for plus a constant as an index; one that
    /// is accepted is used in both forms. The comment is for whoever counts.
    fn neighbour_case(&mut self) -> io::Result<()> {
        for _ in 0..self.random.between(3, 6) {
            let image = neighbour_image(&mut self.random);
            self.send("# neighbour cells".to_string())?;
            if self.send_image("check", &image)? == "ok" {
                self.both_forms(&image)?;
            } else if self.random.chance(25) {
                self.send_image("compile 20000", &image)?;
                self.session(&image)?;
            }
        }
        Ok(())
    }

    /// Images whose secret ifs and calls share new locals, used in both forms.
    /// The comment is for whoever counts: how many secret ifs stand inside each
    /// other, and the sorts of the results of calls in a secret context.
    fn level_case(&mut self) -> io::Result<()> {
        for _ in 0..self.random.between(3, 5) {
            let Levelled { image, levels, calls } = levelled_image(&mut self.random);
            let calls = match calls[..] {
                [] => "none",
                [Sort::Word] => "word",
                [Sort::Boolean] => "boolean",
                [Sort::Word, ..] => "word boolean",
                [Sort::Boolean, ..] => "boolean word",
            };
            self.send(format!("# guard variables: {levels} levels, calls: {calls}"))?;
            self.both_forms(&image)?;
        }
        Ok(())
    }

    /// Two sources whose results have about as many words as they may have: one
    /// no more than that, one more. The comments are for whoever counts.
    fn length_case(&mut self) -> io::Result<()> {
        for past in [false, true] {
            let image = long_result(&mut self.random, past);
            self.send("# long result".to_string())?;
            let answer = self.send_image("compile 16384", &image)?;
            let capacity = self.random.pick(&[0, 16_383, 16_385]).unwrap_or(0);
            self.send_image(&format!("compile {capacity}"), &image)?;
            if let Some(compiled) = listed_words(&answer).filter(|_| self.random.chance(40)) {
                self.session(&compiled)?;
            }
        }
        Ok(())
    }

    /// Programs with a rule or two broken.
    fn slipped_case(&mut self) -> io::Result<()> {
        for _ in 0..self.random.between(2, 5) {
            let slip = self.random.pick(&SLIPS);
            // Only the compiled form forbids a secret branch.
            let compiled = slip == Some(Slip::SecretBranch) || self.random.chance(15);
            let form = if compiled { Form::Compiled } else { Form::Source };
            let shape = self.shape(form, slip);
            let image = program(&mut self.random, shape);
            self.doubtful_image(&image)?;
        }
        Ok(())
    }

    /// Programs with a payload or two changed.
    fn bent_case(&mut self) -> io::Result<()> {
        for _ in 0..self.random.between(1, 4) {
            let mut image = self.any_program();
            for _ in 0..self.random.between(1, 2) {
                bend(&mut self.random, &mut image);
            }
            self.doubtful_image(&image)?;
        }
        Ok(())
    }

    /// An image that may be refused; if it is not, it is mostly used.
    fn doubtful_image(&mut self, image: &[u32]) -> io::Result<()> {
        let accepted = self.send_image("check", image)? == "ok";
        if self.random.chance(25) {
            self.send_image("compile 20000", image)?;
        }
        if self.random.chance(15) {
            self.describe(image)?;
        }
        let percent = if accepted { 50 } else { 5 };
        if self.random.chance(percent) {
            self.session(image)?;
        }
        Ok(())
    }

    fn damaged_case(&mut self) -> io::Result<()> {
        let mut image = self.any_program();
        let compiled = crate::compile::compile(&words::to_bytes(&image), u64::MAX);
        if self.random.chance(40) {
            image = compiled.unwrap_or(image);
        }
        for _ in 0..self.random.between(1, 3) {
            let damaged = damage(&mut self.random, &image);
            self.damaged_requests(&damaged)?;
        }
        Ok(())
    }

    fn damaged_requests(&mut self, image: &[u32]) -> io::Result<()> {
        match self.random.below(10) {
            0..=5 => self.send_image("check", image).map(|_| ()),
            6 => self.send_image("compile 20000", image).map(|_| ()),
            7 if self.random.chance(50) => self.describe(image),
            7 => self.session(image),
            _ => self.byte_requests(image),
        }
    }

    /// Bytes cut or added at the end.
    fn byte_requests(&mut self, image: &[u32]) -> io::Result<()> {
        let mut bytes = words::to_bytes(image);
        if self.random.chance(10) {
            bytes.truncate(self.random.below(9) as usize);
        }
        let cut = self.random.below(4) as usize;
        bytes.truncate(bytes.len().saturating_sub(cut));
        if self.random.chance(20) {
            bytes.push(self.random.next() as u8);
        }
        let request = self.random.pick(&[
            "checkbytes",
            "compilebytes 20000",
            "loadbytes",
            "describebytes 420",
        ]);
        let mut line = format!("{} ", request.unwrap_or("checkbytes"));
        line.extend(bytes.iter().map(|byte| format!("{byte:02X}")));
        self.send(line.trim_end().to_string()).map(|_| ())
    }

    /// Words that mean little, mostly behind a good header.
    fn noise_case(&mut self) -> io::Result<()> {
        let mut image = Vec::new();
        if self.random.chance(80) {
            let counts = self.random.below(3) << 8 | self.random.between(1, 3);
            image.push(words::word(words::HEADER, self.random.below(2) << 16 | counts));
        }
        for _ in 0..self.random.below(40) {
            image.push(random_word(&mut self.random));
        }
        self.send_image("check", &image)?;
        if self.random.chance(20) {
            self.send_image("load", &image)?;
        }
        Ok(())
    }

    fn limit_case(&mut self) -> io::Result<()> {
        let mut image = limit_image(&mut self.random);
        if self.random.chance(15) {
            image = damage(&mut self.random, &image);
        }
        self.send_image("check", &image)?;
        self.describe(&image)?;
        let compiled = self.compile(&image)?;
        // The longest images are sent no more often than they must be.
        if image.len() < 3000 {
            self.session(&image)?;
        }
        if let Some(compiled) = compiled {
            self.session(&compiled)?;
        }
        Ok(())
    }

    /// Images of all kinds whose bounds follow from how they are made.
    fn bound_case(&mut self) -> io::Result<()> {
        let lines = self.lines;
        for kind in KINDS {
            self.counted_image(kind)?;
        }
        // Not counted, so that they take no line from the other requests.
        self.lines = lines;
        Ok(())
    }

    /// The comment is for whoever counts: what the image was made for, and the
    /// answer that is due.
    fn counted_image(&mut self, kind: Kind) -> io::Result<()> {
        let Counted { what, image, procedure, answer } = counted_image(&mut self.random, kind);
        let outline = Outline::of(&image);
        self.send(format!("new {}", outline.lengths.iter().sum::<u32>()))?;
        if self.random.chance(10) {
            self.bound(&outline, procedure)?;
        }
        self.send_image("load", &image)?;
        self.send(format!("# bound: {what}: {answer}"))?;
        self.bound(&outline, procedure)?;
        if self.random.chance(10) {
            let missing = outline.parameters.len() as u32;
            self.bound(&outline, missing)?;
        }
        if self.random.chance(20) {
            let other = self.procedure(&outline);
            self.bound(&outline, other)?;
        }
        if self.random.chance(8) {
            self.both_forms(&image)?;
        }
        Ok(())
    }

    /// Several images, good and bad, in turn on one machine.
    fn changing_session(&mut self) -> io::Result<()> {
        let cells = self.random.pick(&[0, 8, 40, 300, 1024, 1030]).unwrap_or(0);
        self.send(format!("new {cells}"))?;
        let mut outline = Outline::default();
        for _ in 0..self.random.between(2, 5) {
            let mut image = self.any_program();
            if self.random.chance(25) {
                image = damage(&mut self.random, &image);
            }
            if self.send_image("load", &image)? == "ok" {
                outline = Outline::of(&image);
            }
            let count = self.random.between(1, 6);
            self.requests(&outline, count)?;
        }
        Ok(())
    }

    /// A machine of its own for one image.
    fn session(&mut self, image: &[u32]) -> io::Result<()> {
        let outline = Outline::of(image);
        let own: u32 = outline.lengths.iter().sum();
        let cells = match self.random.below(40) {
            0 => own.saturating_sub(1),
            1 => self.random.below(own + 1),
            2..=19 => own + self.random.below(4),
            _ => own,
        };
        self.send(format!("new {cells}"))?;
        if self.random.chance(30) {
            let value = self.random.word();
            self.send(format!("fill {value}"))?;
        }
        if self.random.chance(4) {
            self.requests(&outline, 1)?;
        }
        let loaded = self.send_image("load", image)? == "ok";
        let count = if loaded { self.random.between(3, 9) } else { 1 };
        self.requests(&outline, count)
    }

    fn requests(&mut self, outline: &Outline, count: u32) -> io::Result<()> {
        for _ in 0..count {
            match self.random.below(110) {
                0..=26 => self.poke(outline)?,
                27..=36 => self.peek(outline)?,
                37..=39 => {
                    self.send("clear".to_string())?;
                }
                40..=47 => {
                    self.send("cells".to_string())?;
                }
                48 => {
                    let image = [random_word(&mut self.random)];
                    self.send_image("load", &image)?;
                }
                49..=99 => self.run(outline)?,
                _ => {
                    let procedure = self.procedure(outline);
                    self.bound(outline, procedure)?;
                }
            }
        }
        self.send("cells".to_string()).map(|_| ())
    }

    fn poke(&mut self, outline: &Outline) -> io::Result<()> {
        let (array, index) = self.cell(outline);
        let value = self.random.word();
        self.send(format!("poke {array} {index} {value}")).map(|_| ())
    }

    fn peek(&mut self, outline: &Outline) -> io::Result<()> {
        let (array, index) = self.cell(outline);
        self.send(format!("peek {array} {index}")).map(|_| ())
    }

    /// Mostly a cell that is there.
    fn cell(&mut self, outline: &Outline) -> (u32, u32) {
        let arrays = outline.lengths.len() as u32;
        if self.random.chance(2) {
            return (self.random.word(), self.random.word());
        }
        let beyond_arrays = self.random.chance(3) as u32;
        let array = self.random.below(arrays + beyond_arrays);
        let length = outline.lengths.get(array as usize).copied().unwrap_or(1);
        let beyond_cells = self.random.chance(5) as u32;
        (array, self.random.below(length + beyond_cells))
    }

    /// A call or a preview or both, and often one of them again with a budget
    /// or a trace slice that ends close to where the last one ended, or at a
    /// shift.
    fn run(&mut self, outline: &Outline) -> io::Result<()> {
        let procedure = self.procedure(outline);
        let parameters = outline.parameters.get(procedure as usize).copied().unwrap_or(1);
        let arguments = self.arguments(parameters);
        let (budget, capacity) = self.allowance();
        let mut answer = String::new();
        for request in self.random.pick(&RUNS).unwrap_or(RUNS[0]) {
            answer = self.send(format!("{request} {procedure} {budget} {capacity}{arguments}"))?;
        }
        if self.random.chance(30) {
            if let Some((steps, trace)) = steps_and_trace(&answer) {
                let (budget, capacity) = self.close_allowance(steps, &trace);
                let request = self.random.pick(&["call", "preview"]).unwrap_or("call");
                self.send(format!("{request} {procedure} {budget} {capacity}{arguments}"))?;
            }
        }
        self.recordings(&answer)
    }

    /// Asks for a bound. Where it is answered and small enough, a call or
    /// preview with that budget follows, and mostly one with a budget near it.
    fn bound(&mut self, outline: &Outline, procedure: u32) -> io::Result<()> {
        let answer = self.send(format!("bound {procedure}"))?;
        let bound = answer.strip_prefix("ok ").and_then(|bound| bound.parse::<u32>().ok());
        let Some(bound) = bound.filter(|bound| *bound <= MOST_RESERVED) else { return Ok(()) };
        let parameters = outline.parameters.get(procedure as usize).copied().unwrap_or(1);
        let less = bound.saturating_sub(1);
        let near = self.random.pick(&[less, less, bound + 1, u32::MAX]).unwrap_or(less);
        let budgets = if self.random.chance(75) { vec![bound, near] } else { vec![bound] };
        for budget in budgets {
            let request = self.random.pick(&["call", "call", "preview"]).unwrap_or("call");
            let arguments = self.arguments(parameters);
            self.send(format!("{request} {procedure} {budget} 10000{arguments}"))?;
        }
        Ok(())
    }

    /// Recordings of a board probe held against the trace of a call or preview,
    /// mostly of one that a probe sees something of. The comments are for
    /// whoever counts.
    fn recordings(&mut self, answer: &str) -> io::Result<()> {
        let Some((_, trace)) = steps_and_trace(answer) else { return Ok(()) };
        let trace = parsed_words(&trace);
        let percent = if is_seen(&trace) { 15 } else { 2 };
        if !self.random.chance(percent) {
            return Ok(());
        }
        let lines = self.lines;
        for _ in 0..self.random.between(1, 3) {
            let Recording { what, trace, probe } = recording(&mut self.random, &trace);
            self.send(format!("# probe: {what}"))?;
            self.send(agree_line(&trace, &probe))?;
        }
        // Not counted, so that they take no line from the other requests.
        self.lines = lines;
        Ok(())
    }

    /// The last procedure can reach most of the others.
    fn procedure(&mut self, outline: &Outline) -> u32 {
        let count = outline.parameters.len() as u32;
        match self.random.below(50) {
            0 => count,
            1 => self.random.word(),
            2..=25 => self.random.below(count),
            _ => count.saturating_sub(1),
        }
    }

    fn arguments(&mut self, parameters: u32) -> String {
        let count = match self.random.below(60) {
            0 => parameters + 1,
            1 => parameters.saturating_sub(1),
            _ => parameters,
        };
        (0..count).map(|_| format!(" {}", self.random.word())).collect()
    }

    /// A step budget and a trace slice's length.
    fn allowance(&mut self) -> (u32, u32) {
        let budget = match self.random.below(20) {
            0 => self.random.below(4),
            1..=3 => self.random.below(40),
            4 => 50_000,
            _ => 2_000,
        };
        let capacity = match self.random.below(20) {
            0 => self.random.below(3),
            1 | 2 => self.random.below(40),
            3 => 10_000,
            _ => 1_000,
        };
        (budget, capacity)
    }

    fn close_allowance(&mut self, steps: u32, trace: &[&str]) -> (u32, u32) {
        let recorded = trace.len() as u32;
        match self.random.below(6) {
            0 => ((steps + self.random.below(2)).saturating_sub(1), 1_000),
            1 => (self.random.below(steps + 1), 1_000),
            2 => (2_000, (recorded + self.random.below(3)).saturating_sub(2)),
            3 => (2_000, self.random.below(recorded + 1)),
            _ => (2_000, self.close_to_shift_count(trace)),
        }
    }

    /// A length for the trace slice that just has room for the count of one of
    /// the shifts recorded, or just has not.
    fn close_to_shift_count(&mut self, trace: &[&str]) -> u32 {
        let counts: Vec<usize> =
            (0..trace.len()).step_by(2).filter(|at| trace[*at].starts_with('9')).collect();
        let before = self.random.pick(&counts).unwrap_or(trace.len());
        before as u32 + self.random.below(3)
    }
}

fn agree_line(trace: &[u32], probe: &[u32]) -> String {
    let mut line = "agree".to_string();
    push_words(&mut line, trace);
    line.push_str(" |");
    push_words(&mut line, probe);
    line
}

/// The words of the result in the answer to a compile; None for a refusal.
fn listed_words(answer: &str) -> Option<Vec<u32>> {
    let listed: Vec<&str> = answer.strip_prefix("ok ")?.split(' ').collect();
    Some(parsed_words(&listed))
}

fn parsed_words(listed: &[&str]) -> Vec<u32> {
    let parsed: Result<Vec<u32>, _> =
        listed.iter().map(|word| u32::from_str_radix(word, 16)).collect();
    parsed.expect("the driver lists words")
}

/// The steps and the trace words in the answer to a call or preview.
fn steps_and_trace(answer: &str) -> Option<(u32, Vec<&str>)> {
    let (head, trace) = answer.split_once('|')?;
    let steps = head.split_ascii_whitespace().last()?.parse().ok()?;
    Some((steps, trace.split_ascii_whitespace().collect()))
}
