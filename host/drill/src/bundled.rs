//! The scenarios that come with the drill.

/// Each with its name.
pub const ALL: [(&str, &str); 11] = [
    ("incident", include_str!("../scenarios/incident.txt")),
    ("last-trial", include_str!("../scenarios/last-trial.txt")),
    ("silent-card", include_str!("../scenarios/silent-card.txt")),
    ("mad-late", include_str!("../scenarios/mad-late.txt")),
    ("lying-king", include_str!("../scenarios/lying-king.txt")),
    ("stale-clock", include_str!("../scenarios/stale-clock.txt")),
    ("memory-cell", include_str!("../scenarios/memory-cell.txt")),
    ("two-frames", include_str!("../scenarios/two-frames.txt")),
    ("flood", include_str!("../scenarios/flood.txt")),
    (
        "spare-section",
        include_str!("../scenarios/spare-section.txt"),
    ),
    (
        "line-of-three",
        include_str!("../scenarios/line-of-three.txt"),
    ),
];

/// The one that is run where none is named.
pub const FIRST: &str = "incident";

/// The text of one.
pub fn text(name: &str) -> Option<&'static str> {
    ALL.iter()
        .find(|(known, _)| *known == name)
        .map(|(_, text)| *text)
}

/// A line for each: its name and its title.
pub fn listing() -> String {
    let title = |text: &'static str| text.lines().next().unwrap_or_default();
    let line = |(name, text): &(&str, &'static str)| {
        format!(
            "  {name:<15}{}\n",
            title(text).trim_start_matches(['#', ' '])
        )
    };
    ALL.iter().map(line).collect()
}
