//! The page drawn.txt beside a tape: what it was drawn from.

use crate::drawing;
use crate::files;
use crate::sha256;
use crate::shown;
use modeltext::distribution::Drawn;
use std::path::Path;

/// The page's name.
pub const PAGE: &str = "drawn.txt";

/// The usual name of distributions.
const TEXT: &str = "distributions.txt";

const TITLE: &str = "Covrith tape drawn from distributions, form 1";
const CURVES: &str = "What the engine drew from:";

/// The page of a tape: distributions as they were written, what the engine drew from, streams, SHA-256.
pub fn page(
    from: &Path,
    text: &str,
    lists: &[Drawn],
    streams: &[String],
    tape: (&str, &[u8]),
) -> String {
    let from = from.file_name().unwrap_or_default().to_string_lossy();
    let mut page = format!("{TITLE}\n\nThe text {from}:\n");
    for line in text.lines() {
        page.push_str(&format!("    {line}\n"));
    }
    page.push_str(&format!("\n{CURVES}\n"));
    for line in resolved(lists) {
        page.push_str(&format!("    {line}\n"));
    }
    page.push_str("\nStreams:\n");
    for (list, stream) in lists.iter().zip(streams) {
        page.push_str(&format!("    {} {stream}\n", list.name));
    }
    page.push_str(&format!(
        "\nThe tape, as sha256sum prints it:\n{}  {}\n",
        sha256::hex(tape.1),
        tape.0
    ));
    page
}

fn resolved(lists: &[Drawn]) -> Vec<String> {
    lists.iter().flat_map(Drawn::resolved).collect()
}

/// The sum and the name of the tape that a page speaks of.
pub fn tape_of(page: &str) -> Option<(&str, &str)> {
    let hexadecimal = |sum: &str| sum.len() == 64 && sum.bytes().all(|b| b.is_ascii_hexdigit());
    let mut lines = page.lines().filter_map(|line| line.split_once("  "));
    lines.find(|(sum, _)| hexadecimal(sum))
}

/// Whether the distributions of a folder are no longer those that its tape was drawn from.
pub fn changed(folder: &Path, tape: &[u8]) -> Option<String> {
    let page = files::regular_text(&folder.join(PAGE)).ok()?;
    let (sum, name) = tape_of(&page)?;
    if name != "tape.bin"
        || sum != sha256::hex(tape)
        || !page.contains(&format!("\nThe text {TEXT}:\n"))
    {
        return None;
    }
    let path = folder.join(TEXT);
    let text = files::regular_text(&path).ok()?;
    let was = page.split_once(&format!("\n{CURVES}\n"))?.1;
    let was: Vec<&str> = was
        .lines()
        .map_while(|line| line.strip_prefix("    "))
        .collect();
    let same = drawing::read(&path, &text).is_ok_and(|lists| resolved(&lists) == was);
    (!same).then(|| {
        format!(
            "{} is not what {} was drawn from: draw again with covrith tape",
            shown::path(&path),
            shown::path(&folder.join("tape.bin"))
        )
    })
}
