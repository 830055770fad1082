//! Times, and the tables.

use std::hint::black_box;
use std::time::{Duration, Instant};

use crate::workloads::{
    call_chain, hot_loop, long_source, mixed, nested_fors, small_routine, untaken_arm, Call,
    Workload,
};
use crate::{compile, library, second, words};

/// Long enough for the trace of every workload: the mixed loop leaves eight words a pass.
const TRACE_WORDS: usize = 1 << 20;
const OUT_WORDS: usize = 16384;

/// The longest arm that is skipped; a source has at most 4,096 words.
const LONGEST_ARM: u32 = 4000;

/// Seconds for one run on each side.
#[derive(Clone, Copy)]
struct Pair {
    library: f64,
    second: f64,
}

/// Takes samples of a job; a sample is as many runs as take 20 ms.
struct Sampler<F> {
    job: F,
    runs: u32,
    least: f64,
}

impl<T, F: FnMut() -> T> Sampler<F> {
    fn new(job: F) -> Sampler<F> {
        Sampler { job, runs: 1, least: f64::INFINITY }
    }

    fn sample(&mut self) {
        let begin = Instant::now();
        for _ in 0..self.runs {
            black_box((self.job)());
        }
        let taken = begin.elapsed();
        self.least = self.least.min(taken.as_secs_f64() / f64::from(self.runs));
        if taken < Duration::from_millis(20) {
            self.runs = self.runs.saturating_mul(2);
        }
    }
}

/// The least time of one run of each job. The two take turns, so that a busy machine is no advantage to one.
fn least_of_both<T, U>(one: impl FnMut() -> T, other: impl FnMut() -> U) -> (f64, f64) {
    let (mut one, mut other) = (Sampler::new(one), Sampler::new(other));
    let begin = Instant::now();
    while begin.elapsed() < Duration::from_secs(1) || one.least.is_infinite() {
        one.sample();
        other.sample();
    }
    (one.least, other.least)
}

/// The least time of one run on each side.
fn least_times<T, U>(library: impl FnMut() -> T, second: impl FnMut() -> U) -> Pair {
    let (library, second) = least_of_both(library, second);
    Pair { library, second }
}

fn time_check(image: &[u8]) -> Pair {
    assert!(library::check(image) && second::check(image), "a workload is refused");
    time_answer(image)
}

/// As `time_check`, for an image that may be refused.
fn time_answer(image: &[u8]) -> Pair {
    assert!(library::check(image) == second::check(image), "answers differ");
    least_times(|| library::check(black_box(image)), || second::check(black_box(image)))
}

fn time_compile(image: &[u8]) -> Pair {
    let mut out = vec![0; 4 * OUT_WORDS];
    let written = library::compile(image, &mut out);
    assert!(
        written.is_some() && written == second::compile(image, OUT_WORDS),
        "compiled forms differ"
    );
    least_times(
        || library::compile(black_box(image), &mut out),
        || second::compile(black_box(image), OUT_WORDS),
    )
}

/// The times of a call, and its steps.
fn time_call(image: &[u8], call: &Call) -> (Pair, u32) {
    let mut trace = vec![0; 4 * TRACE_WORDS];
    let (mut lent, mut cells) = (vec![0; 4 * call.cells], vec![0; call.cells]);
    let answer = library::call(image, &mut lent, call, &mut trace);
    assert!(
        answer.done && answer == second::call(image, &mut cells, call, TRACE_WORDS),
        "calls differ"
    );
    let pair = least_times(
        || library::call(black_box(image), &mut lent, call, &mut trace),
        || second::call(black_box(image), &mut cells, call, TRACE_WORDS),
    );
    (pair, answer.steps)
}

// ---- rates ----

fn rate_row(title: &str, operation: &str, unit: &str, amount: usize, pair: Pair) {
    let rate = |seconds: f64| amount as f64 / seconds;
    println!(
        "| {title} | {operation} | {unit} | {:.0} | {:.0} | {:.3} |",
        rate(pair.library),
        rate(pair.second),
        pair.second / pair.library
    );
}

fn call_row(title: &str, image: &[u8], call: &Call) {
    let (pair, steps) = time_call(image, call);
    rate_row(title, "run", "steps", steps as usize, pair);
}

fn compiled_form(source: &[u8]) -> Vec<u8> {
    words::to_bytes(&compile::compile(source, OUT_WORDS as u64).expect("the workloads compile"))
}

fn source_rows(workload: &Workload) {
    let count = workload.image.len() / 4;
    let title = format!("{}, source ({count} words)", workload.name);
    rate_row(&title, "check", "words", count, time_check(&workload.image));
    rate_row(&title, "compile", "words", count, time_compile(&workload.image));
    call_row(&title, &workload.image, &workload.call);
}

fn compiled_rows(workload: &Workload) {
    let image = compiled_form(&workload.image);
    let count = image.len() / 4;
    let title = format!("{}, compiled ({count} words)", workload.name);
    rate_row(&title, "check", "words", count, time_check(&image));
    call_row(&title, &image, &workload.call);
}

pub fn rate_table(passes: u32) {
    println!(
        "| workload | operation | a second | library | second program | library / second program |"
    );
    println!("| --- | --- | --- | ---: | ---: | ---: |");
    for workload in [small_routine(), long_source(4096)] {
        source_rows(&workload);
        compiled_rows(&workload);
    }
    source_rows(&hot_loop(passes));
    source_rows(&untaken_arm(passes / 8, LONGEST_ARM));
    source_rows(&mixed(passes / 8));
    println!();
}

// ---- growth ----

fn growth_row(title: &str, operation: &str, work: &str, first: Pair, then: Pair) {
    println!(
        "| {title} | {operation} | {work} | {:.2} | {:.2} |",
        then.library / first.library,
        then.second / first.second
    );
}

/// One row for each doubling of the size, from an eighth of the largest.
fn growth_rows(title: &str, operation: &str, unit: &str, largest: u32, time: impl Fn(u32) -> Pair) {
    let mut size = largest / 8;
    let mut last = time(size);
    for _ in 0..3 {
        let next = time(2 * size);
        growth_row(title, operation, &format!("{size} to {} {unit}", 2 * size), last, next);
        (size, last) = (2 * size, next);
    }
}

pub fn growth_table(passes: u32) {
    println!("| workload | operation | work doubled | library takes, times | second program takes, times |");
    println!("| --- | --- | --- | ---: | ---: |");
    growth_rows("long source", "check", "words", 4096, |n| time_check(&long_source(n).image));
    growth_rows("long source", "compile", "words", 4096, |n| time_compile(&long_source(n).image));
    let run = |workload: Workload| time_call(&workload.image, &workload.call).0;
    growth_rows("long source", "run", "words", 4096, |n| run(long_source(n)));
    growth_rows("long source, compiled", "run", "source words", 4096, |n| {
        let workload = long_source(n);
        time_call(&compiled_form(&workload.image), &workload.call).0
    });
    growth_rows("hot loop", "run", "passes", passes, |n| run(hot_loop(n)));
    growth_rows("untaken arm", "run", "passes", passes / 8, |n| run(untaken_arm(n, LONGEST_ARM)));
    growth_rows("mixed loop", "run", "passes", passes / 8, |n| run(mixed(n)));
    growth_rows("untaken arm", "run", "arm words", LONGEST_ARM, |n| {
        run(untaken_arm(passes / 8, n))
    });
}

// ---- fors inside each other ----

/// A for's body is checked with the rc that it ends with. A return under a secret if makes that rc secret;
/// a checker that walked each body twice for it would take 2^8 times as long for eight fors.
pub fn nesting_table() {
    println!();
    println!("| fors inside each other | words | answer | library, microseconds | second program, microseconds |");
    println!("| --- | ---: | --- | ---: | ---: |");
    for (form, count) in [(0, 4), (0, 7), (1, 4), (1, 8)] {
        for returns in [false, true] {
            let image = nested_fors(form, count, returns);
            let innermost = if returns { "a return under a secret if" } else { "an assignment" };
            let answer = if library::check(&image) { "accepted" } else { "refused" };
            let pair = time_answer(&image);
            println!(
                "| {count} in form {form}, with {innermost} | {} | {answer} | {:.2} | {:.2} |",
                image.len() / 4,
                pair.library * 1e6,
                pair.second * 1e6
            );
        }
    }
}

// ---- previews ----

/// A preview beside the call that it previews, both by the library; each has a trace slice of its own.
fn preview_row(title: &str, image: &[u8], call: &Call) {
    let (mut called, mut previewed) = (vec![0; 4 * TRACE_WORDS], vec![0; 4 * TRACE_WORDS]);
    let (mut cells, kept) = (vec![0; 4 * call.cells], vec![0; 4 * call.cells]);
    let answer = library::preview(image, &kept, call, &mut previewed);
    assert!(answer.done && answer == library::call(image, &mut cells, call, &mut called));
    assert!(called == previewed, "traces differ");
    let (of_call, of_preview) = least_of_both(
        || library::call(black_box(image), &mut cells, call, &mut called),
        || library::preview(black_box(image), &kept, call, &mut previewed),
    );
    println!(
        "| {title} ({} words) | {:.2} | {:.2} | {:.3} |",
        image.len() / 4,
        of_call * 1e6,
        of_preview * 1e6,
        of_preview / of_call
    );
}

pub fn preview_table(passes: u32) {
    println!();
    println!("| call | call, microseconds | preview, microseconds | preview / call |");
    println!("| --- | ---: | ---: | ---: |");
    for workload in [small_routine(), long_source(4096)] {
        preview_row(&format!("{}, source", workload.name), &workload.image, &workload.call);
        let compiled = compiled_form(&workload.image);
        preview_row(&format!("{}, compiled", workload.name), &compiled, &workload.call);
    }
    let workload = mixed(passes / 8);
    preview_row(&format!("{}, source", workload.name), &workload.image, &workload.call);
}

// ---- bounds ----

/// The library's bound of the last of so many procedures: beside the check that it begins with, then beside the
/// second program's.
fn bound_row(title: &str, image: &[u8], procedures: u32, cells: usize) {
    let lent = vec![0; 4 * cells];
    let last = procedures - 1;
    let known = library::bound(image, &lent, last);
    assert!(known.is_some() && known == second::bound(image, last), "bounds differ");
    let by_library = || library::bound(black_box(image), &lent, last);
    let (of_check, of_bound) = least_of_both(|| library::check(black_box(image)), by_library);
    let pair = least_times(by_library, || second::bound(black_box(image), last));
    println!(
        "| {title} ({} words) | {:.2} | {:.2} | {:.3} | {:.3} |",
        image.len() / 4,
        of_check * 1e6,
        of_bound * 1e6,
        of_bound / of_check,
        pair.second / pair.library
    );
}

pub fn bound_table() {
    println!();
    println!("| image | check, microseconds | bound, microseconds | bound / check | library / second program |");
    println!("| --- | ---: | ---: | ---: | ---: |");
    bound_row("small routine, source", &small_routine().image, 1, 0);
    for words in [512, 1024, 2048, 4096] {
        bound_row("long source, source", &long_source(words).image, 1, 0);
    }
    bound_row("mixed loop, source", &mixed(1000).image, 1, 16);
    for procedures in [16, 31] {
        bound_row(&format!("{procedures} procedures"), &call_chain(procedures), procedures, 0);
    }
}
