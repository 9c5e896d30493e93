//! Packed papers (document 02, M-100): events of 64 bits, their text form, and
//! the lines of the key program by calls on the unchanged Rust or on the port.
pub mod compare;
pub mod cut;
pub mod event;
pub mod generate;
pub mod lines;
mod program;
mod sides;
pub mod stored;
mod table;
pub mod text;

pub use program::Program;
pub use sides::{FIRST, SIDES, new_side};
pub use table::{REFUSALS, Table};
