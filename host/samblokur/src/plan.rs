//! An opened plan: a view over the caller's image bytes.

use crate::{Records, Refusal};
use samblokur_sys::{Counts, Executive, Library, Report};

/// A plan image that passed the check. It copies none of the caller's bytes.
#[derive(Clone, Copy, Debug)]
pub struct Plan<'a> {
    image: &'a [u8],
    counts: Counts,
}

impl<'a> Plan<'a> {
    /// Checks an image and opens it.
    ///
    /// # Errors
    /// One of the refusals 1 to 12.
    pub fn open(image: &'a [u8]) -> Result<Plan<'a>, Refusal> {
        let (mut counts, mut report) = (Counts::default(), Report::default());
        Library::check(image, &mut counts, &mut report);
        Refusal::of(&report)?;
        Ok(Plan { image, counts })
    }

    /// The caller's bytes.
    pub fn image(&self) -> &'a [u8] {
        self.image
    }

    /// How many records of each sort it has.
    pub fn counts(&self) -> Counts {
        self.counts
    }

    /// The readers of its records.
    pub fn records(&self) -> Records<'a> {
        Records::new(self.image)
    }
}
