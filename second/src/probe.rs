//! A board probe's recording held against the machine's trace (document 02,
//! wish 13). The probe sees branches, indices and calls, with their values and
//! no places.

use crate::interpreter::Entry;
use crate::words;

/// What the probe sees of a trace entry.
#[derive(Clone, Copy, PartialEq, Eq)]
struct Seen {
    kind: u32,
    value: u32,
}

/// How many entries come before they part; None where they agree.
pub fn parting(trace: &[u32], probe: &[u32]) -> Option<usize> {
    let ours = of_trace(trace);
    let theirs = of_probe(probe);
    let equal = ours.iter().zip(&theirs).take_while(|(ours, theirs)| Some(**ours) == **theirs);
    let common = equal.count();
    let agree = common == ours.len() && common == theirs.len();
    (!agree).then_some(common)
}

/// The entries that the probe sees too. A lone last word is no entry: the
/// machine records none.
fn of_trace(trace: &[u32]) -> Vec<Seen> {
    trace
        .chunks_exact(2)
        .map(|pair| Seen { kind: words::split(pair[0]).0, value: pair[1] })
        .filter(|entry| is_seen(entry.kind))
        .collect()
}

/// The probe's entries; None for one that is equal to none.
fn of_probe(probe: &[u32]) -> Vec<Option<Seen>> {
    probe
        .chunks(2)
        .map(|entry| {
            let &[first, value] = entry else { return None };
            let (kind, rest) = words::split(first);
            (is_seen(kind) && rest == 0).then_some(Seen { kind, value })
        })
        .collect()
}

fn is_seen(kind: u32) -> bool {
    [Entry::Branch, Entry::Index, Entry::Call].iter().any(|&entry| entry as u32 == kind)
}
