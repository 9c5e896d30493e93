//! The recorded scripts that name the generator are what it writes.
use std::fs;
use std::path::Path;
use std::process::Command;

/// What `generate SEED CALLS --mix MIX --phase PHASE` prints.
fn generated(seed: &str, calls: &str, mix: &str, phase: &str) -> String {
    let output = Command::new(env!("CARGO_BIN_EXE_generate"))
        .args([seed, calls, "--mix", mix, "--phase", phase])
        .output()
        .unwrap();
    assert!(output.status.success(), "generate {seed} {calls}");
    String::from_utf8(output.stdout).unwrap()
}

#[test]
fn the_generated_scripts_are_the_generators() {
    let recorded = Path::new(env!("CARGO_MANIFEST_DIR")).join("../recorded");
    let list = fs::read_to_string(recorded.join("generated.list")).unwrap();
    let mut seen = 0;
    for line in list.lines().filter(|line| !line.starts_with('#')) {
        let fields: Vec<_> = line.split('|').collect();
        let [name, seed, calls, mix, phase, _] = fields[..] else {
            panic!("generated.list: {line}");
        };
        let script = fs::read_to_string(recorded.join(format!("{name}.script"))).unwrap();
        // The first three lines say what it covers and how it was made.
        let body: String = script.split_inclusive('\n').skip(3).collect();
        assert_eq!(body, generated(seed, calls, mix, phase), "{name}");
        seen += 1;
    }
    assert!(seen > 5, "only {seen} scripts");
}
