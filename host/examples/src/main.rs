//! Writes the images of the example plans into examples/plans.

use std::error::Error;
use std::fs;
use std::path::Path;

fn main() -> Result<(), Box<dyn Error>> {
    let folder = Path::new(env!("CARGO_MANIFEST_DIR")).join("plans");
    for (name, image) in example_plans::all()? {
        fs::write(folder.join(name), image)?;
    }
    Ok(())
}
