//! What is known of a text before it is read.

use crate::image::image;
use crate::plan::Plan;
use plain::Plain;
use samblokur_sys::{Counts, Executive, Report};

/// The answer that a text must get.
#[derive(Clone, Debug)]
pub enum Known {
    /// Accepted, with this image.
    Image(Vec<u8>),
    /// Refused with this number and place.
    Refused(u32, u64),
    /// Refused with this number, somewhere.
    Number(u32),
    /// Nothing is known.
    Nothing,
}

/// What is known of a plan whose names are in order and whose levels are within the limit, read with much room.
pub fn of_plan(plan: &Plan) -> Known {
    let Some(image) = image(plan) else { return Known::Refused(3, 0) };
    let (mut counts, mut report) = (Counts::default(), Report::default());
    match Plain::check(&image, &mut counts, &mut report) {
        0 => Known::Image(image),
        number => Known::Refused(number, u64::from(report.record)),
    }
}
