//! The sides that a paper's calls can be made on.
use script::Side;

/// Those that are built in, by name.
pub const SIDES: &[&str] = &[
    #[cfg(feature = "rust")]
    "rust",
    #[cfg(feature = "session")]
    "session",
];

/// The Rust where it is built in.
pub const FIRST: &str = SIDES[0];

/// The unchanged Rust, the store's limits in front of it, or `UsbSession`.
pub fn new_side(name: &str) -> Result<Box<dyn Side>, String> {
    #[cfg(feature = "rust")]
    if name == "rust" {
        return Ok(Box::new(generate::Bounded::new()));
    }
    #[cfg(feature = "session")]
    if name == "session" {
        return Ok(Box::new(port::Session::new()));
    }
    match name {
        "rust" | "session" => Err(format!("the side `{name}` is not built in")),
        _ => Err(format!("unknown side `{name}`")),
    }
}
