//! Faults planted in the Rust's source, by the table of ../edits.txt: each is made in a copy of its files, which `../run` builds and runs.

const TABLE: &str = include_str!("../edits.txt");

struct Edit {
    name: String,
    file: String,
    old: String,
    new: String,
}

/// The parts of a line, between bars that have no backslash before them.
fn parts(line: &str) -> Vec<String> {
    let text = line.replace("\\|", "\u{1}");
    text.split(" | ").map(|p| p.replace('\u{1}', "|").replace("\\n", "\n")).collect()
}

fn edits() -> Vec<Edit> {
    let lines = TABLE.lines().filter(|l| !l.starts_with('#') && !l.is_empty());
    lines
        .map(|l| match &parts(l)[..] {
            [name, file, old, new] => Edit { name: name.clone(), file: file.clone(), old: old.clone(), new: new.clone() },
            _ => panic!("no edit: {l}"),
        })
        .collect()
}

pub fn count() -> usize {
    edits().len()
}

/// Copies the Rust's files from one folder to another with edit n made, and says what it is.
pub fn make(n: usize, from: &str, to: &str) {
    let edit = &edits()[n - 1];
    std::fs::create_dir_all(to).expect("a folder");
    for entry in std::fs::read_dir(from).expect("the Rust's files") {
        let path = entry.expect("a file").path();
        let mut text = std::fs::read_to_string(&path).expect("text");
        if path.file_stem().is_some_and(|s| s == edit.file.as_str()) {
            assert_eq!(text.matches(&edit.old).count(), 1, "{}: its old text doesn't stand there once", edit.name);
            text = text.replace(&edit.old, &edit.new);
        }
        std::fs::write(std::path::Path::new(to).join(path.file_name().expect("a name")), text).expect("written");
    }
    println!("{}", edit.name);
}
