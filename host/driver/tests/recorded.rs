//! The recorded scripts are answered as recorded, and as the papers expect.
use std::fs;
use std::path::{Path, PathBuf};

use script::{Side, first_difference};

/// Every recorded script, by path.
fn scripts() -> Vec<PathBuf> {
    let recorded = Path::new(env!("CARGO_MANIFEST_DIR")).join("../recorded");
    let mut found = Vec::new();
    for folder in [recorded.clone(), recorded.join("recovery")] {
        let entries = fs::read_dir(&folder).unwrap();
        let paths = entries.map(|entry| entry.unwrap().path());
        found.extend(paths.filter(|path| path.extension().is_some_and(|it| it == "script")));
    }
    found.sort();
    assert!(found.len() >= 20, "only {} recorded scripts", found.len());
    found
}

fn answers(side: &mut dyn Side, text: &str) -> String {
    let mut answers = String::new();
    script::run(side, text, |line| {
        answers += line;
        answers.push('\n');
    })
    .unwrap();
    answers
}

fn recorded(script: &Path) -> String {
    fs::read_to_string(script.with_extension("answers")).unwrap()
}

/// Every script is answered as recorded.
fn replay(mut side: Box<dyn Side>) {
    for path in scripts() {
        let actual = answers(side.as_mut(), &fs::read_to_string(&path).unwrap());
        let kept = recorded(&path);
        let difference = first_difference(&kept, &actual);
        assert_eq!(difference, None, "{}", path.display());
    }
}

#[cfg(feature = "rust")]
#[test]
fn every_script_is_answered_as_recorded() {
    replay(Box::new(oracle::Oracle::new()));
}

#[cfg(feature = "rattle")]
#[test]
fn the_port_answers_as_recorded() {
    replay(Box::new(port::Port::new()));
}

#[cfg(feature = "rattle")]
#[test]
fn the_safe_session_answers_as_recorded() {
    replay(Box::new(port::Session::new()));
}

#[cfg(feature = "rust")]
#[test]
fn a_changed_call_or_answer_is_noticed() {
    let path = scripts().remove(0);
    let text = fs::read_to_string(&path).unwrap();
    let kept = recorded(&path);
    let changed = kept.replacen("held=0", "held=1", 1);
    let answers = |text: &str| answers(&mut oracle::Oracle::new(), text);
    assert_eq!(first_difference(&kept, &answers(&text)), None);
    assert_eq!(first_difference(&changed, &answers(&text)).unwrap().0, 1);
    let text = text.replacen("seq=0", "seq=1", 1);
    assert!(first_difference(&kept, &answers(&text)).is_some());
}

/// `call  # -> PART & PART` says what the papers expect the answer to contain.
#[test]
fn hand_written_scripts_are_answered_as_the_papers_expect() {
    let mut expectations = 0;
    for path in scripts() {
        let text = fs::read_to_string(&path).unwrap();
        let kept = recorded(&path);
        let calls = text.lines().enumerate().filter(|(_, line)| is_call(line));
        for ((index, line), answer) in calls.zip(kept.lines()) {
            let Some((_, expected)) = line.split_once("# -> ") else {
                continue;
            };
            for part in expected.split(" & ") {
                let place = format!("{}:{}", path.display(), index + 1);
                assert!(answer.contains(part), "{place}: no `{part}` in {answer}");
                expectations += 1;
            }
        }
    }
    assert!(expectations > 700, "only {expectations} expectations");
}

fn is_call(line: &str) -> bool {
    !line.split('#').next().unwrap_or("").trim().is_empty()
}

#[test]
fn scripts_say_what_they_cover_and_how_they_were_made() {
    for path in scripts() {
        let text = fs::read_to_string(&path).unwrap();
        let head: Vec<_> = text.lines().take(3).collect();
        let name = path.display();
        assert!(head[0].starts_with("# Covers: "), "{name}");
        assert!(head[1].starts_with("# Made by"), "{name}");
        assert!(head[2].starts_with("# Answers: target/"), "{name}");
    }
}

#[test]
fn only_the_recovery_folder_aborts_and_resets() {
    for path in scripts() {
        let recovers = path.parent().unwrap().ends_with("recovery");
        let text = fs::read_to_string(&path).unwrap();
        let aborts = text
            .lines()
            .any(|line| line.starts_with("abort ") || line.starts_with("reset "));
        assert_eq!(aborts, recovers, "{}", path.display());
    }
}
