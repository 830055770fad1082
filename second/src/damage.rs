//! Small damage to an image, so that it is nearly valid.

use crate::random::Random;
use crate::words;

/// One word changed, dropped, added or moved, or the image cut short.
pub fn damage(random: &mut Random, image: &[u32]) -> Vec<u32> {
    let mut words = image.to_vec();
    // The first words carry the counts, and are few among many.
    let reach = if random.chance(12) { words.len().min(6) } else { words.len() };
    let at = random.below(reach as u32) as usize;
    match random.below(12) {
        0 => {
            words.remove(at);
        }
        1 => words.insert(at, image[random.below(image.len() as u32) as usize]),
        2 => words.insert(at, random_word(random)),
        3 => words.truncate(at),
        4 => words.push(random_word(random)),
        5 => {
            let last = words.len() - 1;
            words.swap(at, (at + 1).min(last));
        }
        6 => words[at] = image[random.below(image.len() as u32) as usize],
        7 => words[at] = random_word(random),
        _ => words[at] = changed_word(random, words[at]),
    }
    words
}

/// A change that often leaves the word's kind in place, so that the checks
/// behind the reader have something to find.
fn changed_word(random: &mut Random, word: u32) -> u32 {
    match random.below(8) {
        0 => word ^ 1 << random.below(32),
        1 => word ^ 1 << random.below(20),
        2 => word ^ 0x0001_0000,
        3 | 4 => word.wrapping_add(1),
        5 => word.wrapping_sub(1),
        6 => word ^ 1,
        _ => word & 0xFFFF_0000 | random.below(24),
    }
}

/// Changes a payload but not the image's structure: another variable, another
/// label, another constant. The reader still takes nearly all of these.
pub fn bend(random: &mut Random, image: &mut [u32]) {
    for _ in 0..20 {
        let at = random.below(image.len() as u32) as usize;
        if let Some(bent) = bent_word(random, image[at]) {
            image[at] = bent;
            return;
        }
    }
}

fn bent_word(random: &mut Random, word: u32) -> Option<u32> {
    let (kind, payload) = words::split(word);
    let near = if random.chance(50) { word.wrapping_add(1) } else { word.wrapping_sub(1) };
    Some(match kind {
        words::ARRAY | words::PROCEDURE if random.chance(60) => word ^ 0x0001_0000,
        words::ARRAY | words::CONSTANT | words::INDEX => near,
        words::TYPE if random.chance(85) => word ^ 1,
        words::TYPE => word ^ 2,
        words::VARIABLE if random.chance(50) => near,
        words::VARIABLE => words::word(kind, random.below(14)),
        words::BINARY => words::word(kind, random.below(15)),
        words::BOOLEAN => word ^ 1,
        words::STATEMENT if payload & 0xFFFF != 0 => near,
        _ => return None,
    })
}

/// A word of a kind that means something, with a small payload.
pub fn random_word(random: &mut Random) -> u32 {
    let kind = random.below(16) << 28;
    match random.below(4) {
        0 => random.next() as u32,
        1 => kind | random.below(6) << 16 | random.below(4),
        _ => kind | random.below(16),
    }
}
