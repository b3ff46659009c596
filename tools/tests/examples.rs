//! The examples: what their pages and README.md show is what the tools give.

mod common;

use std::collections::BTreeSet;

use common::{example, path, text, List, EXAMPLES};

fn list(name: &str) -> List {
    List {
        frames: example(name, "frames"),
        answers: example(name, "answers"),
    }
}

/// Each line with its number, as the pages show it.
fn numbered(words: &str) -> String {
    let lines = words.lines().zip(1..);
    lines
        .map(|(line, number)| format!("{number:2}  {line}\n"))
        .collect()
}

/// Every text of calls in the folder is one of these examples.
#[test]
fn no_example_is_left_out() {
    let files = std::fs::read_dir(path("examples")).expect("a folder");
    let names = files.map(|file| {
        file.expect("a file")
            .file_name()
            .into_string()
            .expect("text")
    });
    let calls: BTreeSet<String> = names
        .filter_map(|name| name.strip_suffix(".calls").map(String::from))
        .collect();
    assert_eq!(calls, EXAMPLES.map(String::from).into());
}

#[test]
fn answers_are_the_second_implementation_s() {
    for name in EXAMPLES {
        let list = list(name);
        assert!(
            list.answers == reference::frame::answers(&list.frames),
            "{name}"
        );
    }
}

#[test]
fn pages_show_the_words_and_the_picture() {
    for name in EXAMPLES.into_iter().filter(|&name| name != "sample") {
        let page = text(&format!("examples/{name}.md"));
        assert!(
            page.contains(&numbered(&list(name).words())),
            "examples/{name}.md has other words"
        );
        assert!(page.contains(&format!("]({name}.svg)")), "{name}");
    }
}

/// The files that the pages name are there.
#[test]
fn pages_name_files_that_exist() {
    for name in EXAMPLES.into_iter().filter(|&name| name != "sample") {
        let page = text(&format!("examples/{name}.md"));
        let named: Vec<&str> = page
            .split('`')
            .filter(|word| word.starts_with("crates/"))
            .collect();
        assert!(named.len() >= 3, "{name} names {named:?}");
        for file in named {
            assert!(path(file).is_file(), "{name} names {file}");
        }
    }
}

#[test]
fn readme_shows_the_words_of_the_sample_and_its_text() {
    let readme = text("README.md");
    let indented =
        |text: &str| -> String { text.lines().map(|line| format!("    {line}\n")).collect() };
    assert!(readme.contains(&indented(&list("sample").words())));
    let calls = text("examples/sample.calls");
    assert!(readme.contains(&indented(&calls)));
    assert!(readme.contains("](examples/emptied-parent.svg)"));
}
