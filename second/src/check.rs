//! All checks of an image, in their order.

use crate::image::{self, Image};
use crate::refusal::Refusal;
use crate::{labels, sorts};

pub fn check(bytes: &[u8]) -> Result<Image, Refusal> {
    let image = image::read(bytes)?;
    sorts::check(&image)?;
    labels::check(&image)?;
    Ok(image)
}
