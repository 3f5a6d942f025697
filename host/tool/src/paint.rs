//! The picture's paint: a colour for each status, a shape for each mark.

use samblokur::Status;

/// The colours of Okabe and Ito, which colour-blind readers tell apart.
pub fn colour(status: u8) -> &'static str {
    match Status::of(status) {
        Some(Status::Inactive) => "#ececec",
        Some(Status::Waiting) => "#f0e442",
        Some(Status::Executing) => "#009e73",
        Some(Status::Finishing) => "#56b4e9",
        Some(Status::Failing) => "#d55e00",
        Some(Status::IterationEnded) => "#cc79a7",
        Some(Status::Finished) => "#0072b2",
        None => "#000000",
    }
}

/// What a node did in a step.
#[derive(Clone, Copy)]
pub enum Mark {
    Wrote,
    Lost,
    Issued,
    Aborted,
}

impl Mark {
    pub const ALL: [(Mark, &str); 4] = [
        (Mark::Wrote, "wrote its variable"),
        (Mark::Lost, "write lost"),
        (Mark::Issued, "command issued"),
        (Mark::Aborted, "command aborted"),
    ];

    /// The mark's shape around a middle.
    pub fn shape(self, x: usize, y: usize) -> String {
        let (d, fill, width) = match self {
            Mark::Wrote => (format!("M{} {y}a5 5 0 1 0 10 0a5 5 0 1 0 -10 0", x - 5), "#fff", 1.5),
            Mark::Lost => (format!("M{} {}l10 10m0 -10l-10 10", x - 5, y - 5), "none", 3.0),
            Mark::Issued => (format!("M{} {}l9 5.5l-9 5.5z", x - 4, y - 5), "#fff", 1.5),
            Mark::Aborted => (format!("M{} {}h9v9h-9z", x - 4, y - 4), "#fff", 1.5),
        };
        format!(r##"<path d="{d}" fill="{fill}" stroke="#222" stroke-width="{width}"/>"##)
    }
}

/// Text as it may stand in the picture.
pub fn escaped(text: &str) -> String {
    let kept = text.chars().filter(|letter| !letter.is_control());
    kept.collect::<String>().replace('&', "&amp;").replace('<', "&lt;").replace('>', "&gt;")
}
