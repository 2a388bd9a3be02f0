//! Scripts of calls with the answers of an independent exact model: those that the repository keeps, and those of more folders, named in
//! HUQABO_VECTORS with `:` between them.

use std::path::{Path, PathBuf};
use std::process::Command;

/// What stands behind ` (` only says the same in other words.
fn compared(answers: &str) -> Vec<&str> {
    answers.lines().map(|answer| answer.split(" (").next().unwrap_or(answer)).collect()
}

fn scripts(folder: &Path) -> Vec<PathBuf> {
    let mut scripts: Vec<_> = std::fs::read_dir(folder)
        .unwrap_or_else(|error| panic!("{}: {error}", folder.display()))
        .map(|entry| entry.expect("an entry of the folder").path())
        .filter(|path| path.extension().is_some_and(|extension| extension == "script"))
        .collect();
    scripts.sort();
    scripts
}

/// Replays a script, compares, and answers how many answers there are.
fn replay(script: &Path) -> usize {
    let output = Command::new(env!("CARGO_BIN_EXE_replay")).arg(script).output().expect("replay runs");
    assert!(output.status.success(), "{}: {}", script.display(), String::from_utf8_lossy(&output.stderr));
    let given = String::from_utf8(output.stdout).expect("answers are text");
    let wanted = std::fs::read_to_string(script.with_extension("answers")).expect("the script has answers");
    let (given, wanted) = (compared(&given), compared(&wanted));
    for (number, (given, wanted)) in given.iter().zip(&wanted).enumerate() {
        assert_eq!(given, wanted, "{}, answer {}", script.display(), number + 1);
    }
    assert_eq!(given.len(), wanted.len(), "{}: answers", script.display());
    given.len()
}

#[test]
fn scripts_get_the_answers_of_the_model() {
    let kept = Path::new(env!("CARGO_MANIFEST_DIR")).join("../../crates/vectors/data");
    let more = std::env::var("HUQABO_VECTORS").unwrap_or_default();
    let folders = more.split(':').filter(|folder| !folder.is_empty()).map(PathBuf::from);
    let (mut count, mut answers) = (0, 0);
    for folder in folders.chain([kept]) {
        for script in scripts(&folder) {
            answers += replay(&script);
            count += 1;
        }
    }
    println!("{count} scripts, {answers} answers");
    assert!(answers > 2_000, "only {answers} answers");
}
