//! What an image has: what a host has to know before it lends cells and
//! arguments.

use crate::check::check;
use crate::image::{Form, Image, Procedure};
use crate::refusal::{Code, Refusal};

/// Every procedure has words for the types of so many parameters: no form
/// allows more.
const PARAMETER_WORDS: usize = 9;

/// The description in words; refused where it is longer than the capacity.
pub fn describe(bytes: &[u8], capacity: u64) -> Result<Vec<u32>, Refusal> {
    let words = describe_image(&check(bytes)?);
    if words.len() as u64 > capacity {
        return Err(Refusal::whole(Code::OutputShort));
    }
    Ok(words)
}

fn describe_image(image: &Image) -> Vec<u32> {
    let mut words = vec![(image.form == Form::Compiled) as u32];
    let counts = [image.arrays.len(), image.procedures.len(), image.cell_count()];
    words.extend(counts.map(|count| count as u32));
    for array in &image.arrays {
        words.extend([array.label as u32, array.length]);
    }
    for procedure in &image.procedures {
        words.extend(describe_procedure(procedure));
    }
    words
}

fn describe_procedure(procedure: &Procedure) -> Vec<u32> {
    let mut words =
        vec![procedure.guarded as u32, procedure.parameters, procedure.result.payload()];
    words.extend(procedure.parameter_types().iter().map(|parameter| parameter.payload()));
    words.resize(3 + PARAMETER_WORDS, 0);
    words
}
