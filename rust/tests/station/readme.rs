//! The code that the README shows is the code that is tested.

const README: &str = include_str!("../../../README.md");

/// The README's blocks in this language.
fn blocks(language: &str) -> Vec<&'static str> {
    let opening = format!("```{language}\n");
    README.split(&opening).skip(1).map(|rest| rest.split_once("```").unwrap().0).collect()
}

/// The text of a file's comments that begin with this mark.
fn documented(file: &str, mark: &str) -> String {
    let lines = file.lines().filter_map(|line| line.trim_start().strip_prefix(mark));
    lines.map(|line| format!("{}\n", line.strip_prefix(' ').unwrap_or(line))).collect()
}

#[test]
fn the_c_code_is_excerpts_of_the_samples() {
    let blocks = blocks("c");
    assert_eq!(blocks.len(), 4);
    assert!(include_str!("../../../samples/two-lines.c").contains(blocks[0]));
    assert!(include_str!("../../../samples/scraps.c").contains(blocks[1]));
    assert!(include_str!("../../../samples/names.c").contains(blocks[2]));
    assert!(include_str!("../../../samples/three-stations.c").contains(blocks[3]));
}

#[test]
fn the_rust_code_is_in_the_examples_of_the_crate() {
    let blocks = blocks("rust");
    assert_eq!(blocks.len(), 4);
    let crate_text = documented(include_str!("../../src/lib.rs"), "//!");
    assert!(crate_text.contains(&format!("```\n{}", blocks[0])));
    let feeding_text = documented(include_str!("../../src/station/feeding.rs"), "///");
    assert!(feeding_text.contains(&format!("\n{}", blocks[1])));
    let names_text = documented(include_str!("../../src/names.rs"), "///");
    assert!(names_text.contains(&format!("```\n{}", blocks[2])));
    let relaying_text = documented(include_str!("../../src/station/relaying.rs"), "///");
    assert!(relaying_text.contains(&format!("```\n{}", blocks[3])));
}
