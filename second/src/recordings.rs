//! Recordings of a board probe (document 02, wish 13): what it sees of a trace,
//! as it is and with something changed, missing or added on either side.

use crate::random::Random;
use crate::words::{self, word};

/// The kinds of entries that a probe sees, and those that it does not, with
/// numbers that are no kind at all.
const SEEN: [u32; 3] = [1, 4, 7];
const UNSEEN: [u32; 13] = [0, 2, 3, 5, 6, 8, 9, 10, 11, 12, 13, 14, 15];

/// A trace, and a recording to hold against it.
pub struct Recording {
    /// What was done to them.
    pub what: &'static str,
    pub trace: Vec<u32>,
    pub probe: Vec<u32>,
}

type Change = fn(&mut Random, &mut Recording);

const AS_RECORDED: (&str, Change) = ("as recorded", |_, _| ());

/// Changes that need no entry to work on. In both lists `AS_RECORDED` stands
/// twice, so that enough recordings agree.
const CHANGES: [(&str, Change); 12] = [
    AS_RECORDED,
    AS_RECORDED,
    ("an entry more", add_entry),
    ("an entry equal to none more", add_odd_entry),
    ("a lone last word", |random, recording| recording.probe.push(lone_word(random))),
    ("a lone last word of the trace", |random, recording| recording.trace.push(lone_word(random))),
    ("an entry of the trace more", add_to_trace),
    ("other places in the trace", move_places),
    ("the whole trace as the recording", |_, recording| recording.probe = recording.trace.clone()),
    ("an empty recording", |_, recording| recording.probe.clear()),
    ("an empty trace", |_, recording| recording.trace.clear()),
    ("both at random", randomize),
];

/// Changes to an entry of the recording, or to where it or the trace ends.
const ENTRY_CHANGES: [(&str, Change); 13] = [
    AS_RECORDED,
    AS_RECORDED,
    ("another value", change_value),
    ("another kind that is seen", |random, recording| change_kind(random, recording, &SEEN)),
    ("a kind that is not seen", |random, recording| change_kind(random, recording, &UNSEEN)),
    ("a place", add_place),
    ("a word missing", remove_word),
    ("a word more", add_word),
    ("an entry missing", remove_entry),
    ("two entries exchanged", exchange_entries),
    ("the last entry missing", remove_last_entry),
    ("the recording ends early", |random, recording| cut(random, &mut recording.probe)),
    ("the trace ends early", |random, recording| cut(random, &mut recording.trace)),
];

/// A recording of the trace, with one of the changes above.
pub fn recording(random: &mut Random, trace: &[u32]) -> Recording {
    let mut recording = Recording { what: "", trace: trace.to_vec(), probe: recorded(trace) };
    let changes: &[(&str, Change)] =
        if recording.probe.is_empty() || random.chance(35) { &CHANGES } else { &ENTRY_CHANGES };
    let (what, change) = random.pick(changes).unwrap_or(AS_RECORDED);
    recording.what = what;
    change(random, &mut recording);
    recording
}

/// Whether a probe sees anything of the trace.
pub fn is_seen(trace: &[u32]) -> bool {
    !recorded(trace).is_empty()
}

/// What a probe sees: the kinds above, without their places.
fn recorded(trace: &[u32]) -> Vec<u32> {
    trace
        .chunks_exact(2)
        .filter(|entry| SEEN.contains(&(entry[0] >> 28)))
        .flat_map(|entry| [entry[0] & 0xF000_0000, entry[1]])
        .collect()
}

/// Where an entry begins: the first or the last one as often as any.
fn entry(random: &mut Random, words: &[u32]) -> usize {
    let entries = words.len() as u32 / 2;
    let last = entries.saturating_sub(1);
    let any = random.below(entries);
    2 * random.pick(&[0, last, any]).unwrap_or(any) as usize
}

/// Where an entry can be put: before the first, behind the last or anywhere.
fn gap(random: &mut Random, words: &[u32]) -> usize {
    let entries = words.len() as u32 / 2;
    let any = random.below(entries + 1);
    2 * random.pick(&[0, entries, any]).unwrap_or(any) as usize
}

fn insert(words: &mut Vec<u32>, at: usize, entry: [u32; 2]) {
    words.splice(at..at, entry);
}

fn kind(random: &mut Random, kinds: &[u32]) -> u32 {
    random.pick(kinds).unwrap_or(kinds[0])
}

fn place(random: &mut Random) -> u32 {
    match random.below(3) {
        0 => 1 << random.below(28),
        1 => random.between(1, 40),
        _ => random.between(1, words::PAYLOAD_LIMIT - 1),
    }
}

/// The first word of an entry that a probe records.
fn first_word(random: &mut Random) -> u32 {
    word(kind(random, &SEEN), 0)
}

/// A first word that makes an entry equal to none.
fn odd_word(random: &mut Random) -> u32 {
    match random.below(3) {
        0 => word(kind(random, &SEEN), place(random)),
        1 => word(kind(random, &UNSEEN), 0),
        _ => word(kind(random, &UNSEEN), place(random)),
    }
}

/// Mostly one that an entry could begin with.
fn lone_word(random: &mut Random) -> u32 {
    if random.chance(70) {
        first_word(random)
    } else {
        random.word()
    }
}

/// Often one that is there already, so that the entries after it still fit.
fn add_entry(random: &mut Random, recording: &mut Recording) {
    let probe = &mut recording.probe;
    let at = gap(random, probe);
    let copied = if random.chance(40) { probe.get(at..at + 2) } else { None };
    let added = match copied {
        Some(copied) => [copied[0], copied[1]],
        None => [first_word(random), random.below(4)],
    };
    insert(probe, at, added);
}

fn add_odd_entry(random: &mut Random, recording: &mut Recording) {
    let at = gap(random, &recording.probe);
    let added = [odd_word(random), random.below(4)];
    insert(&mut recording.probe, at, added);
}

/// Mostly one that the probe does not see, so that nothing changes.
fn add_to_trace(random: &mut Random, recording: &mut Recording) {
    let kinds: &[u32] = if random.chance(70) { &UNSEEN } else { &SEEN };
    let at = gap(random, &recording.trace);
    let added = [word(kind(random, kinds), place(random)), random.below(4)];
    insert(&mut recording.trace, at, added);
}

fn move_places(random: &mut Random, recording: &mut Recording) {
    for first in recording.trace.iter_mut().step_by(2) {
        *first = word(*first >> 28, random.below(words::PAYLOAD_LIMIT));
    }
}

/// A few entries of few kinds and values, so that some are equal.
fn randomize(random: &mut Random, recording: &mut Recording) {
    let entries = random.below(5);
    recording.trace.clear();
    for _ in 0..entries {
        let kinds: &[u32] = if random.chance(50) { &UNSEEN } else { &SEEN };
        let first = word(kind(random, kinds), random.below(3));
        recording.trace.extend([first, random.below(2)]);
    }
    recording.probe.clear();
    for _ in 0..random.below(entries + 2) {
        let first = if random.chance(10) { odd_word(random) } else { first_word(random) };
        recording.probe.extend([first, random.below(2)]);
    }
}

fn change_value(random: &mut Random, recording: &mut Recording) {
    let at = entry(random, &recording.probe) + 1;
    let value = recording.probe[at];
    let flipped = value ^ 1 << random.below(32);
    let changed = [flipped, value.wrapping_add(1), value.wrapping_sub(1), value ^ 1];
    recording.probe[at] = random.pick(&changed).unwrap_or(flipped);
}

fn change_kind(random: &mut Random, recording: &mut Recording, kinds: &[u32]) {
    let at = entry(random, &recording.probe);
    let others: Vec<u32> =
        kinds.iter().copied().filter(|kind| word(*kind, 0) != recording.probe[at]).collect();
    recording.probe[at] = word(kind(random, &others), 0);
}

fn add_place(random: &mut Random, recording: &mut Recording) {
    let at = entry(random, &recording.probe);
    recording.probe[at] |= place(random);
}

fn remove_word(random: &mut Random, recording: &mut Recording) {
    let at = entry(random, &recording.probe) + random.below(2) as usize;
    recording.probe.remove(at);
}

fn add_word(random: &mut Random, recording: &mut Recording) {
    let at = entry(random, &recording.probe) + random.below(2) as usize;
    let added = random.word();
    recording.probe.insert(at, added);
}

fn remove_entry(random: &mut Random, recording: &mut Recording) {
    let at = entry(random, &recording.probe);
    recording.probe.drain(at..at + 2);
}

fn remove_last_entry(_: &mut Random, recording: &mut Recording) {
    recording.probe.truncate(recording.probe.len() - 2);
}

fn exchange_entries(random: &mut Random, recording: &mut Recording) {
    let (one, other) = (entry(random, &recording.probe), entry(random, &recording.probe));
    recording.probe.swap(one, other);
    recording.probe.swap(one + 1, other + 1);
}

/// Also inside an entry.
fn cut(random: &mut Random, words: &mut Vec<u32>) {
    words.truncate(random.below(words.len() as u32) as usize);
}
