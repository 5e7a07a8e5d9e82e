//! Replays each script of `tests/recorded` through this crate and compares the answers, line by line,
//! with those that the published Rust gave (`make record`).

mod ours;
mod replay;

use std::fs;
use std::path::PathBuf;

use ours::Ours;

fn compare(script: &PathBuf) -> usize {
    let answers = fs::read_to_string(script.with_extension("out")).expect("answers beside it");
    let ours = replay::run(&fs::read_to_string(script).unwrap(), &mut Ours::fresh());
    for (at, (here, rust)) in ours.lines().zip(answers.lines()).enumerate() {
        assert_eq!(here, rust, "{}: answer {}", script.display(), at + 1);
    }
    assert_eq!(ours.len(), answers.len(), "{}", script.display());
    ours.lines().count() - 1
}

#[test]
fn recorded_answers() {
    let scripts = ours::scripts();
    let answers: usize = scripts.iter().map(compare).sum();
    println!(
        "recorded: {answers} answers of {} runs are those of the Rust",
        scripts.len()
    );
    assert!(answers >= 3000, "only {answers} answers are recorded");
}
