//! The page: its sources in `page/`, joined with the recording into one file.

use crate::data;
use crate::recording::Recording;

/// The frame, with a mark where each part goes.
const FRAME: &str = include_str!("../page/page.html");

/// The styles, in the order they are joined.
const STYLES: &[&str] = &[
    include_str!("../page/styles/colours.css"),
    include_str!("../page/styles/frame.css"),
    include_str!("../page/styles/map.css"),
    include_str!("../page/styles/tables.css"),
    include_str!("../page/styles/side.css"),
    include_str!("../page/styles/phone.css"),
];

/// The scripts, in the order they are joined.
const SCRIPTS: &[&str] = &[
    include_str!("../page/scripts/failure.js"),
    include_str!("../page/scripts/words.js"),
    include_str!("../page/scripts/calls.js"),
    include_str!("../page/scripts/format.js"),
    include_str!("../page/scripts/state.js"),
    include_str!("../page/scripts/tokens.js"),
    include_str!("../page/scripts/check.js"),
    include_str!("../page/scripts/story.js"),
    include_str!("../page/scripts/explain.js"),
    include_str!("../page/scripts/layout.js"),
    include_str!("../page/scripts/geometry.js"),
    include_str!("../page/scripts/map.js"),
    include_str!("../page/scripts/tables.js"),
    include_str!("../page/scripts/strip.js"),
    include_str!("../page/scripts/timeline.js"),
    include_str!("../page/scripts/calllist.js"),
    include_str!("../page/scripts/connections.js"),
    include_str!("../page/scripts/details.js"),
    include_str!("../page/scripts/predict.js"),
    include_str!("../page/scripts/moves.js"),
    include_str!("../page/scripts/keys.js"),
    include_str!("../page/scripts/selftest.js"),
    include_str!("../page/scripts/selfdrawn.js"),
    include_str!("../page/scripts/selfowners.js"),
    include_str!("../page/scripts/main.js"),
];

/// The page of a recording: one file that needs nothing beside it.
pub fn page(recording: &Recording) -> String {
    let run = data::block(recording);
    let (styles, scripts) = (STYLES.join("\n"), SCRIPTS.join("\n"));
    let parts = [("{{STYLES}}", &styles), ("{{RUN}}", &run), ("{{SCRIPTS}}", &scripts)];
    let mut page = String::with_capacity(FRAME.len() + styles.len() + scripts.len() + run.len());
    let mut rest = FRAME;
    for (mark, part) in parts {
        let (before, after) = rest.split_once(mark).expect("the frame has a mark for each part");
        page.push_str(before);
        page.push_str(part);
        rest = after;
    }
    page.push_str(rest);
    page
}

#[cfg(test)]
mod tests {
    use super::{SCRIPTS, STYLES};

    #[test]
    fn no_source_ends_its_block() {
        assert!(SCRIPTS.iter().all(|script| !script.contains("</script")));
        assert!(STYLES.iter().all(|style| !style.contains("</style")));
    }
}
