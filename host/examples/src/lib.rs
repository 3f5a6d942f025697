//! Example plans. `cargo run -p example-plans` writes their images into examples/plans; events for them lie in
//! examples/events.

mod counting;
mod drawer;
mod out_of_reach;
mod scan;
mod sheets;

use samblokur::Refusal;

/// Every example: its file name and its image.
///
/// # Errors
/// None: the examples are small.
pub fn all() -> Result<Vec<(&'static str, Vec<u8>)>, Refusal> {
    Ok(vec![
        ("counting.plan", counting::plan().image()?),
        ("drawer.plan", drawer::plan().image()?),
        ("out-of-reach.plan", out_of_reach::plan().image()?),
        ("scan.plan", scan::plan().image()?),
        ("sheets.plan", sheets::plan().image()?),
    ])
}
