//! The committed images are those of the sources.

use std::fs;
use std::path::Path;

#[test]
fn the_images_are_up_to_date() {
    let folder = Path::new(env!("CARGO_MANIFEST_DIR")).join("plans");
    for (name, image) in example_plans::all().expect("small plans") {
        let committed = fs::read(folder.join(name)).unwrap_or_default();
        assert!(committed == image, "{name} differs from its source: run `cargo run -p example-plans`");
    }
}
