//! Every command of README.md works as it is written there, and prints what is said there.

use std::fs;
use std::path::Path;

use program::page::{blocks, page, place, printed};
use program::root;

/// The gate itself, which runs this test.
const GATE: &str = ".ci/run";

/// The archive is x86-64 code, for a compiler of that machine.
fn links_here(place: &Path) -> bool {
    printed(place, "uname -m").trim() == "x86_64"
}

#[test]
fn commands_print_what_is_said() {
    let (blocks, place) = (blocks(&page("README.md")), place("readme"));
    for block in blocks.iter().filter(|block| block.is("c")) {
        fs::write(place.join("count.c"), &block.text).expect("count.c can be written");
    }
    let run_or_printed = blocks
        .iter()
        .filter(|block| block.is("sh") || block.is("text"));
    let run_or_printed: Vec<_> = run_or_printed.collect();
    let (mut all, mut compared) = (String::new(), 0);
    for (number, block) in run_or_printed
        .iter()
        .enumerate()
        .filter(|(_, block)| block.is("sh"))
    {
        let lines = block.text.lines().filter(|line| !line.starts_with(GATE));
        let commands = lines.collect::<Vec<_>>().join("\n");
        if commands.contains("cc ") && !links_here(&place) {
            continue;
        }
        let output = printed(&place, &commands);
        if let Some(said) = run_or_printed
            .get(number + 1)
            .filter(|next| next.is("text"))
        {
            assert_eq!(output, said.text);
            compared += 1;
        }
        all += &output;
    }
    assert_eq!(compared, if links_here(&place) { 2 } else { 1 });
    assert!(
        all.contains("usage: ./tsendurkho COMMAND"),
        "the other commands are not listed"
    );
    let [drawn, shown] = [place.join("counts.svg"), root().join("docs/counts.svg")].map(fs::read);
    assert!(drawn.expect("a picture is drawn") == shown.expect("docs/counts.svg can be read"));
}

#[test]
fn the_gate_is_named_once_and_is_there() {
    let readme = page("README.md");
    let named = readme.lines().filter(|line| line.starts_with(GATE)).count();
    assert_eq!(named, 1);
    assert!(root().join(GATE).is_file());
}
