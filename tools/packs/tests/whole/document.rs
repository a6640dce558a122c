//! The page for the engineer at the panel shows what the program prints.

use crate::files::{samples, text};
use packs::answer::Answer;
use packs::flags::changes;

const PAGE: &str = "docs/COMMISSIONING.md";

/// A text as the page shows it.
fn block(text: &str) -> String {
    text.lines().map(|line| format!("    {line}\n")).collect()
}

#[test]
fn samples_are_shown_as_they_are() {
    let page = text(PAGE);
    let mut shown = 0;
    for name in samples() {
        if page.contains(&format!("`samples/{name}.events`")) {
            for ending in ["events", "explained"] {
                let file = format!("samples/{name}.{ending}");
                assert!(page.contains(&block(&text(&file))), "{file}");
            }
            shown += 1;
        }
    }
    assert_eq!(shown, page.matches("\nexplained:\n").count());
}

#[test]
fn answers_are_in_the_words_of_the_program() {
    let page = text(PAGE);
    for ans in 0x00..=0xFF {
        let row = page
            .lines()
            .find(|line| line.starts_with(&format!("| {ans:02X} | ")));
        let answers = ['K', 'S', 'C', 'P', 'T', 'E', 'R'].map(|tag| Answer::of(tag, ans));
        for answer in answers.into_iter().flatten() {
            let row = row.unwrap_or_else(|| panic!("no row {ans:02X}"));
            assert!(row.contains(answer.meaning), "{row}: {}", answer.meaning);
        }
    }
}

#[test]
fn flags_are_in_the_words_of_the_program() {
    let page = text(PAGE);
    for flag in changes([0; 4], [0xFF, 0xFF, 0x0F, 0x00]).split(", ") {
        let cell = format!("| {flag}");
        assert!(page.contains(&cell), "{cell}");
    }
}
