//! The example programs print what is stored beside them.
#[expect(dead_code, reason = "the test has a main of its own")]
#[path = "../examples/life.rs"]
mod life;
#[expect(dead_code, reason = "the test has a main of its own")]
#[path = "../examples/two_cameras.rs"]
mod two_cameras;

fn printed(run: impl FnOnce(&mut Vec<u8>) -> Result<(), Box<dyn std::error::Error>>) -> String {
    let mut out = Vec::new();
    run(&mut out).unwrap();
    String::from_utf8(out).unwrap()
}

#[test]
fn life_is_as_stored() {
    let stored = include_str!("../examples/life.txt");
    assert_eq!(printed(life::run), stored);
}

#[test]
fn two_cameras_is_as_stored() {
    let stored = include_str!("../examples/two_cameras.txt");
    assert_eq!(printed(two_cameras::run), stored);
}
